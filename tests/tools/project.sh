# shellcheck shell=bash
# A project with fixtures, for the scripts of tools/fixtures. A script says
#     . tests/tools/project.sh
# after tests/lib.sh. The folder `sealed` has it with fixtures that are made; `project` of a script is a copy of it. It wants python3.
if ! can "fixtures" python3; then close; exit; fi
examples=$PWD/examples tools=$PWD/tools killed=$PWD/tests/tools/killed.py recipes=$PWD/tests/tools/recipes.py
export TOXICAP=$program PYTHONDONTWRITEBYTECODE=1
version=$("$program" -V)

# fixtures WORD..: runs it in the project; `status`, `output` and `faults` are as of `run`.
fixtures() {
    status=0
    (cd "$work/project" && "$tools/fixtures" "$@") > "$work/output" 2> "$work/faults" || status=$?
}

# listed STATUS LINE..: what is at fault with the last run, which was to end so and to print these lines.
listed() {
    fault "$1"
    silent faults
    shift
    : > "$work/lines"
    [ $# = 0 ] || printf '%s\n' "$@" > "$work/lines"
    difference "$work/lines" "$work/output"
}

# stopped LINE: it was to end with status 2 and this line on standard error, to print nothing, and to leave the project as it was.
stopped() {
    fault 2
    silent output
    told faults "fixtures: $1"$'\n'
    folder_difference "$work/before" "$work/project"
}

# project: the project as it was sealed.
project() {
    rm -rf "$work/project"
    cp -a "$work/sealed" "$work/project"
}

# keep: keeps the project, for comparisons.
keep() {
    rm -rf "$work/before"
    cp -a "$work/project" "$work/before"
}

# edit FILE EXPRESSION: changes a file of the project, by sed.
edit() { sed -i "$2" "$work/project/$1"; }

# told_then_made WHAT LINE..: verify lists these lines and changes nothing, make prints them too, and then there are none.
told_then_made() {
    local what=$1
    shift
    keep
    fixtures verify
    verdict "$what: verify" "$(listed 1 "$@"; folder_difference "$work/before" "$work/project")"
    fixtures make
    verdict "$what: make" "$(listed 0 "$@"; holds "$work/project" captures fixtures fixtures.json scenarios)"
    fixtures verify
    verdict "$what: verified" "$(listed 0)"
}

# fails WHAT LINE: verify and make stop with this line.
fails() {
    keep
    fixtures verify
    verdict "$1: verify" "$(stopped "$2")"
    fixtures make
    verdict "$1: make" "$(stopped "$2")"
}

mkdir -p "$work/project/captures" "$work/project/scenarios"
cp samples/shop.pcap "$work/project/captures"
cp examples/slow-database.json examples/redis-down.json "$work/project/scenarios"
cat > "$work/project/fixtures.json" << 'END'
{
  "captures": ["captures/shop.pcap"],
  "scenarios": ["scenarios/slow-database.json", "scenarios/redis-down.json"],
  "hosts": {"redis": "10.77.0.3"},
  "seed": 0
}
END
fixtures make
[ "$status" = 0 ] || { cat "$work/faults"; exit 1; }
cp -a "$work/project" "$work/sealed"
