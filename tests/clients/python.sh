#!/usr/bin/env bash
# Calls of the library in Python: what helps after refusals (tests/clients/hints/rows), also as the program says it; arguments of each kind, scenarios as Python
# makes them, reports as data; and the memory that calls take.
set -euo pipefail
cd "$(dirname "$0")/../.."
. tests/lib.sh
make_library
export TOXICAP=$program CAPTURE=$work/large.pcap
if can "Python" python3 perl; then
    perl tests/capture.pl 15200 > "$CAPTURE"
    # tested FILE CLASS: what is at fault with the tests of a class.
    tested() { timeout "$patience" python3 -B "clients/python/tests/test_$1.py" "$2" > "$work/output" 2>&1 || { echo "  status $?"; cat "$work/output"; }; }
    verdict "Python: Hints" "$(tested hints Hints)"
    for class in Arguments Builders Data; do verdict "Python: $class" "$(tested calls $class)"; done
    for class in Memory Ways; do verdict "Python: $class" "$(tested memory $class)"; done
fi
close
