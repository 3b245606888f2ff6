# shellcheck shell=bash
# What the scripts share. A script reads this file from the top folder,
#     cd "$(dirname "$0")/../.."
#     . tests/lib.sh
# has `program` (the program's path) and `work` (a folder of its own, removed when it ends) then, tells each comparison by `verdict`, and
# ends with `close`. It may say anew what `clean_up` does. The program is the one that TOXICAP names, by a path, from the folder where the
# script was called, or as a command of the path; without TOXICAP it is the one of this tree, which is proved and built first if need be.
# With `--help` it prints what stands at its top.

if [ "${1-}" = --help ]; then
    (cd "$OLDPWD" && sed -n '2,/^[^#]/s/^# \{0,1\}//p' "$0")
    exit
fi

clean_up() { :; }
work=$(mktemp -d)
trap 'clean_up; rm -rf "$work"' EXIT
passed=0 failed=0 skipped=0
# How many seconds a run has: one that hangs is ended, and fails with status 124.
patience=200

# find_program: what `program` is, or the end of the script where there is none.
find_program() {
    local built=$PWD/crates/toxicap_program/out/toxicap_program
    local build="(cd crates/toxicap_program && rt run < /dev/null)"
    if [ -z "${TOXICAP:-}" ] && [ ! -x "$built" ] && type -P rt > /dev/null; then
        echo "$0: there is no program yet: $build proves and builds it, twenty minutes to an hour" >&2
        (cd crates/toxicap_program && rt run < /dev/null) >&2 || true
    fi
    program=$(cd "${OLDPWD:-.}" && realpath -s "$(type -P "${TOXICAP:-$built}")" 2> /dev/null) || {
        echo "$0: there is no program ${TOXICAP:-$built}: build it by $build, or name one in TOXICAP" >&2
        exit 2
    }
}
find_program

# verdict WHAT FAULT: counts a comparison, which went well where FAULT is empty.
verdict() {
    if [ -z "$2" ]; then
        passed=$((passed + 1))
    else
        failed=$((failed + 1))
        printf 'failed: %s\n%s\n' "$1" "$2"
    fi
}

# skip WHAT WHY: counts a comparison that is left out, and says so.
skip() {
    skipped=$((skipped + 1))
    echo "skipped: $1 ($2)"
}

# can WHAT TOOL..: whether all tools are here that something wants; where one is not, that is skipped.
can() {
    local what=$1 tool
    shift
    for tool in "$@"; do
        type -P "$tool" > /dev/null || { skip "$what" "$tool is not here"; return 1; }
    done
}

# python_with MODULE..: sets `python` to one that has these modules of it: python3, or else Debian's; if there is none, what wants them is skipped.
python_with() {
    local imports
    imports=$(printf 'import %s\n' "${@:2}")
    for python in python3 /usr/bin/python3; do ! "$python" -c "$imports" 2> /dev/null || return 0; done
    skip "$1" "a python with ${*:2} is not here"
    return 1
}

repository=$PWD
# out_of_reach COMMAND..: runs a command where this repository is an empty folder.
out_of_reach() {
    # shellcheck disable=SC2016
    unshare --mount sh -c 'mount -t tmpfs none "$0" && exec "$@"' "$repository" "$@"
}

# try_out_of_reach: where no mount of its own can be had, that is skipped, and out_of_reach runs commands as they are.
try_out_of_reach() {
    ! out_of_reach true 2> /dev/null || return 0
    skip "the repository out of reach" "no mount of its own can be had"
    # shellcheck disable=SC2317
    out_of_reach() { "$@"; }
}

# own_network WHAT: whether a network of its own can be had, as root or by user namespaces; where it can't, that is skipped.
own_network() { unshare -n true 2> /dev/null || unshare -rn true 2> /dev/null || { skip "$1" "no network of its own can be had"; return 1; }; }

# run INPUT ARGUMENT..: runs the program on a file; `status`, and the files `output` and `faults` of the folder `work`, are what came.
run() {
    local input=$1
    shift
    status=0
    timeout "$patience" "$program" "$@" < "$input" > "$work/output" 2> "$work/faults" || status=$?
}

# run_within SECONDS KILOBYTES INPUT [ARGUMENT..]: runs it so with no more time of the processors, and no more addresses, which may be `unlimited`.
run_within() {
    local seconds=$1 kilobytes=$2 input=$3
    shift 3
    status=0
    (ulimit -S -t "$seconds" -v "$kilobytes"
        GLIBC_TUNABLES=glibc.malloc.arena_max=1 exec timeout "$patience" "$program" "$@" < "$input" > "$work/output" 2> "$work/faults") || status=$?
}

# What is at fault with the last run; nothing where it went as it was to go.
# fault STATUS: it was to end so. Told are its status and what it said.
fault() {
    [ "$status" = "$1" ] || printf '  status %s: %s\n' "$status" "$(cat "$work/faults")"
}

# silent FILE..: it was to write nothing to `output`, or to `faults`.
silent() {
    local file
    for file in "$@"; do [ ! -s "$work/$file" ] || printf '  %s, which was to be empty: %s\n' "$file" "$(head -n 1 "$work/$file")"; done
}

# well: it was to end with 0, and to tell no fault.
well() {
    fault 0
    silent faults
}

# told FILE TEXT: it was to write this text to `output`, or to `faults`.
told() {
    printf '%s' "$2" > "$work/text"
    difference "$work/text" "$work/$1"
}

# refusal LINE: it was to be refused with this line, and to print nothing.
refusal() {
    fault 1
    silent output
    told faults "$1"$'\n'
}

# byte_difference EXPECTED FOUND: where two files differ first, of which one may be `-`; nothing where they are the same, byte for byte.
byte_difference() { cmp "$1" "$2" 2>&1 || true; }

# folder_difference EXPECTED FOUND: what differs between two folders.
folder_difference() { diff -rq "$1" "$2" 2>&1 || true; }

# difference EXPECTED FOUND: the lines in which two texts differ; nothing where they are the same, byte for byte.
difference() {
    local expected found line file told=no
    for file in "$1" "$2"; do [ -f "$file" ] || { echo "  no file $file"; return 0; }; done
    ! cmp -s "$1" "$2" || return 0
    mapfile -t expected < "$1"
    mapfile -t found < "$2"
    for ((line = 0; line < ${#expected[@]} || line < ${#found[@]}; line++)); do
        [ "${expected[line]-}" != "${found[line]-}" ] || continue
        printf '  line %d, expected: %s\n  line %d, found:    %s\n' $((line + 1)) "${expected[line]-nothing}" $((line + 1)) "${found[line]-nothing}"
        told=yes
    done
    [ $told = yes ] || echo '  the files differ at their ends'
}

# holds FOLDER NAME..: what is at fault with a folder that was to hold these files, told in order, and no others.
holds() {
    local names
    names=$(find "$1" -mindepth 1 -maxdepth 1 -printf '%f\n' | LC_ALL=C sort | paste -sd ' ')
    shift
    [ "$names" = "$*" ] || echo "  the folder has: $names"
}

# sum_difference EXPECTED FILE: what is at fault with a file that was to have this sum (sha256).
sum_difference() {
    local found
    found=$(sha256sum "$2" 2> /dev/null || true)
    [ "$1" = "${found%% *}" ] || printf '  sum, expected: %s\n  sum, found:    %s\n' "$1" "${found%% *}"
}

# make_library: the library for C in the folder `kit`, where the clients find it; the end of the script where it is not built. LIBRARY names another
# libtoxicap_c.a by its whole path, as for release/library.
make_library() {
    kit=$work/kit
    release/library "$kit" > "$work/told" || { echo "$0: there is no library" >&2; exit 2; }
    export TOXICAP_LIBRARY=$kit/lib/libtoxicap.so.1 PYTHONPATH=$PWD/clients/python CGO_CFLAGS=-I$kit/include CGO_LDFLAGS=-L$kit/lib
}

# close: the closing line, and the script's status.
close() {
    [ $skipped = 0 ] || echo "$skipped skipped"
    echo "$passed passed, $failed failed"
    [ $failed = 0 ]
}
