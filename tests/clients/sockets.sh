#!/usr/bin/env bash
# Sockets and asyncio's streams with a clock of their own (clients/python): rows that hold in each language (tests/clients/sockets/rows), their laws over output
# captures under random scenarios, what the system's sockets do at the same calls, clients over them, and dialers. It wants python3; nothing waits, and
# the system's sockets are those of 127.0.0.1.
set -euo pipefail
cd "$(dirname "$0")/../.."
. tests/lib.sh
export PYTHONPATH=clients/python OUTPUTS=$work/outputs SAMPLE=$work/late/0000.pcap

# rehearsed FOLDER CAPTURE SCENARIO..: stores the outputs of a capture in a folder.
rehearsed() {
    mkdir -p "$1"
    run /dev/null --capture "$2" --out "$1" --seed 3 "${@:3}"
    verdict "the outputs in ${1##*/}" "$(well)"
}

if ! can "sockets and streams" python3; then close; exit; fi

mkdir "$work/scenarios"
python3 -B tests/clients/sockets/scenarios.py "$work/scenarios" 60
scenarios=()
printf '[]' > "$work/scenarios/untouched.json"
for scenario in "$work/scenarios"/*.json; do scenarios+=(--scenario "$scenario"); done
awk -f tests/capture.awk tests/clients/player/sessions > "$work/sessions.dump"
for capture in samples/http-get.pcap samples/shop.pcap "$work/sessions.dump"; do
    rehearsed "$OUTPUTS/$(basename "${capture%.*}")" "$capture" "${scenarios[@]}"
done
printf '[{"name":"web","upstream":"10.77.0.2:80","toxics":[{"type":"latency","attributes":{"latency":500}}]}]' > "$work/late.json"
rehearsed "$work/late" samples/http-get.pcap --scenario "$work/late.json"
python=python3
for each in rows laws system clients dialers; do
    [ "$each" != dialers ] || python_with "$each" requests redis || continue
    verdict "$each" "$(timeout 600 "$python" -B "tests/clients/sockets/$each.py" > "$work/output" 2>&1 || { echo "  status $?"; cat "$work/output"; })"
done
close
