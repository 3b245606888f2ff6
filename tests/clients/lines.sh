#!/usr/bin/env bash
# What toxicap_lines gives of 2,000 random captures under random scenarios, against tests/rows/expected.py (tests/clients/lines.py COUNT SEED does it alone).
set -euo pipefail
cd "$(dirname "$0")/../.."
. tests/lib.sh
make_library
if can "lines" python3; then
    verdict "delivered lines" "$(PYTHONPATH=$PYTHONPATH python3 -B tests/clients/lines.py 2000 1 > "$work/told" 2>&1 || cat "$work/told")"
    tail -n 1 "$work/told"
fi
close
