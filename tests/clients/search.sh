#!/usr/bin/env bash
# Searches over calls of the library for C, in Python and Go: the least seed, the smallest scenario and the first prefix, against rows that were
# worked out by hand (tests/clients/search.json) and known parsers, and the examples, which find a planted bug, and none once it is mended; and the
# rows of all else in Go (clients/go/*_rows_test.go).
set -euo pipefail
cd "$(dirname "$0")/../.."
. tests/lib.sh
copy=$work/copy
make_library
export TOXICAP=$program
mkdir "$copy"
cp -r clients samples "$copy"

# passes WHAT COMMAND..: a command ends well; else what it prints is told.
passes() { verdict "$1" "$("${@:2}" > "$work/output" 2>&1 || cat "$work/output")"; }

# finds_nothing WHAT COMMAND..: a command fails, and says that it found no bug.
finds_nothing() {
    verdict "$1" "$(
        ! "${@:2}" > "$work/output" 2>&1 || echo "  it passes"
        grep -q "no seed below 1000 finds a bug" "$work/output" || cat "$work/output"
    )"
}

# mend FILE WRONG RIGHT: a line of an example in the copy is changed, which stands there once.
mend() {
    verdict "$1 has the planted bug" "$([ "$(grep -cF "$2" "$copy/clients/$1")" = 1 ] || echo "  there is no line $2")"
    sed -i "s/$2/$3/" "$copy/clients/$1"
}

if can "Python" python3; then
    for class in Search Prefixes; do passes "Python: $class" python3 -B clients/python/tests/test_search.py $class; done
    if python_with "Python: executors" distributed; then passes "Python: executors" "$python" -B clients/python/tests/test_executors.py; fi
    if python_with "Python: strategies" hypothesis; then passes "Python: strategies" "$python" -B clients/python/tests/test_search.py Strategies; fi
    python3 -B clients/python/find_bug.py samples/shop.pcap > "$work/found" 2>&1 || true
    cat > "$work/expected" << 'END'
least seed 118
seed 0 of [{"name": "redis", "upstream": "redis:6379", "toxics": [{"type": "slicer", "attributes": {"average_size": 1, "size_variation": 0, "delay": 0}}]}]
prefix of 3007 bytes, then replies of 3000 0 bytes
END
    verdict "Python: the example" "$(difference "$work/expected" "$work/found")"
    verdict "Python: the example, no capture" "$(python3 -B clients/python/find_bug.py > "$work/found" 2>&1 || true; grep -qx 'usage: find_bug.py CAPTURE' "$work/found" || cat "$work/found")"
    mend python/find_bug.py 'if len(rest) < end:' 'if len(rest) < end + 2:'
    finds_nothing "Python: the example, mended" python3 -B "$copy/clients/python/find_bug.py" samples/shop.pcap
fi
if can "Go" go gcc; then
    # go_test NAMES [TOP]: tests of the client, which go vets first, in this tree or another.
    go_test() { (cd "${2:-.}/clients/go" && go vet . && go test -count=1 -run "^($1)\$" .); }
    for names in 'TestRows|TestWorkers' 'TestWrongUses|TestPanics|TestRuntimeErrors|TestContexts' 'TestFeedPrefixes' 'TestHints|TestKinds|TestSamePorts|TestOtherCaptures' \
        'TestScenario|TestParsedScenarios|TestReport|TestExplain' 'TestEffects|TestIdleToxics' 'TestFuzzScenario|TestRoom'; do
        passes "Go: $names" go_test "$names"
    done
    passes "Go: the example" go_test Example_planted
    mend go/planted_rows_test.go 'if len(rest) < end {' 'if len(rest) < end+2 {'
    finds_nothing "Go: the example, mended" go_test Example_planted "$copy"
fi
close
