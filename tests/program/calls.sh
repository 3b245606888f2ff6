# shellcheck shell=bash
# What scripts share in which calls of a program are counted or fail (tests/program/calls.c). A script says
#     . tests/program/calls.sh
# after tests/lib.sh.
${CC:-cc} -shared -fPIC -O1 -o "$work/calls.so" tests/program/calls.c

# run_with SETTINGS INPUT [ARGUMENT..]: runs the program as `run` does, with settings of calls.c, as FAIL=read:3 and MOST=1.
run_with() {
    local settings=$1 input=$2
    shift 2
    rm -f "$work/calls" "$work/calls.failed"
    status=0
    # shellcheck disable=SC2086
    timeout "$patience" env $settings CALLS="$work/calls" LD_PRELOAD="$work/calls.so" "$program" "$@" \
        < "$input" > "$work/output" 2> "$work/faults" || status=$?
}

# begin_with SETTINGS INPUT [ARGUMENT..]: begins such a run, which goes on beside the script; with CAUSE=stop it stands still right before that call
# then, or where it has no such call the answer is no. Its output and what it tells stand in `begun.output` and `begun.faults`.
begin_with() {
    local settings=$1 input=$2 tries
    shift 2
    rm -f "$work"/begun.*
    # shellcheck disable=SC2016,SC2086
    timeout "$patience" sh -c 'echo $$ > "$0.made"; mv "$0.made" "$0"; exec env "$@"' "$work/begun.process" \
        $settings CALLS="$work/begun.calls" LD_PRELOAD="$work/calls.so" "$program" "$@" \
        < "$input" > "$work/begun.output" 2> "$work/begun.faults" &
    begun=$!
    for ((tries = 0; tries < 1200; tries++)); do
        if [ -e "$work/begun.process" ]; then
            case $(sed -n 's/^State:\t//p' "/proc/$(cat "$work/begun.process")/status" 2> /dev/null) in
                T*) return 0 ;;
                '' | Z*) return 1 ;;
            esac
        fi
        sleep 0.05
    done
    return 1
}

# end_begun SIGNAL: sends the run that was begun a signal, by which it goes on or ends, and waits for it. `status`, `output` and `faults` are what
# came.
end_begun() {
    kill "-$1" "$(cat "$work/begun.process")" 2> /dev/null || true
    status=0
    wait "$begun" 2> /dev/null || status=$?
    mv "$work/begun.output" "$work/output"
    mv "$work/begun.faults" "$work/faults"
}

# has_failed: whether the last run had such a call as was to fail.
has_failed() { [ -e "$work/calls.failed" ]; }

# failed_name: the name of the file of that call, without its folder.
failed_name() { sed 's,.*/,,' "$work/calls.failed"; }

# can_count WHAT: whether the calls of the last run were counted, as something wants; where they were not, that is skipped.
can_count() { [ -e "$work/calls" ] || { skip "$1" "no call is counted: is the program linked statically?"; return 1; }; }

# count KIND: how many calls of this kind the last run has made.
kinds=(growth thread read write open rename remove stat close lock list create sync)
count() {
    local place
    for place in "${!kinds[@]}"; do
        [ "${kinds[place]}" != "$1" ] || echo $(($(od -An -t d8 -j $((8 * place)) -N 8 "$work/calls")))
    done
}

# phases: how many threads were made in each phase of the last run, where any were made: a phase ends where all of them have ended.
phases() { od -An -v -w8 -t d8 -j $((8 * ${#kinds[@]})) "$work/calls" | awk '$1 != 0 { printf "%s%s", sep, $1; sep = " " }'; }
