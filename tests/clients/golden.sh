#!/usr/bin/env bash
# What makes a rehearsal do nothing (explain), in Python and in the words of tools/explain, and the fixtures of pytest with their golden files, by
# test_golden.py and test_fixture.py of clients/python/tests.
set -euo pipefail
cd "$(dirname "$0")/../.."
. tests/lib.sh
can "golden files of pytest" python3 || { close; exit; }
make_library
export TOXICAP=$program
verdict "explain in Python" "$(python3 -B clients/python/tests/test_golden.py Findings > "$work/output" 2>&1 || cat "$work/output")"
host=python3
for each in python3 /usr/bin/python3; do ! "$each" -c 'import pytest' 2> /dev/null || { host=$each; break; }; done
if ! "$host" -c 'import pytest' 2> /dev/null; then
    skip "golden files of pytest" "pytest is not here"
else
    verdict "golden files of pytest" "$("$host" -B clients/python/tests/test_golden.py Golden > "$work/output" 2>&1 || cat "$work/output")"
    verdict "fixtures of pytest" "$("$host" -B clients/python/tests/test_fixture.py > "$work/output" 2>&1 || cat "$work/output")"
fi
close
