#!/usr/bin/env bash
# Scenario files that are taken and do less than they seem to: examples/scenario.schema.json tells them. Over the examples and some thousand changed
# files (tests/tools/changed.py) the schema refuses nothing else that the program takes, and tools/explain prints the same unknown fields. It wants
# python3 with its library jsonschema.
set -euo pipefail
cd "$(dirname "$0")/../.."
. tests/lib.sh
capture=samples/http-get.pcap
schema=no
if can "the schema" python3; then
    if python3 -c 'import jsonschema' 2> /dev/null; then schema=yes; else skip "the schema" "Python's library jsonschema is not here"; fi
fi

# idle MEMBER TEXT: a file is taken. It is kept for the schema, with the line that has to be told of this member.
idle() {
    local member=$1
    printf '%s' "$2" > "$work/idle$idle.json"
    run "$capture" --scenario "$work/idle$idle.json"
    verdict "$member: the program" "$(well)"
    instances+=(-i "$work/idle$idle.json")
    echo "Additional properties are not allowed ('$member' was unexpected)" >> "$work/members"
    idle=$((idle + 1))
}
idle=0 instances=()

idle latencyy '[{"name":"web","upstream":"10.77.0.2:80","toxics":[{"type":"latency","attributes":{"latencyy":100}}]}]'
idle delay '[{"name":"web","upstream":"10.77.0.2:80","toxics":[{"type":"latency","attributes":{"delay":100}}]}]'
idle latency '[{"name":"web","upstream":"10.77.0.2:80","toxics":[{"type":"latency","latency":100}]}]'
idle direction '[{"name":"web","upstream":"10.77.0.2:80","toxics":[{"type":"timeout"},{"type":"latency","direction":"upstream"}]}]'
idle toxic '[{"name":"web","upstream":"10.77.0.2:80","toxic":[{"type":"timeout"}]}]'
idle Enabled '[{"name":"db","upstream":"10.77.0.3:6379"},{"name":"web","upstream":"10.77.0.2:80","Enabled":false}]'
idle Upstream '[{"name":"web","upstream":"10.77.0.3:6379","Upstream":"10.77.0.2:80"}]'

if [ $schema = yes ]; then
    python3 -W ignore -m jsonschema --error-format $'{error.message}\n' "${instances[@]}" examples/scenario.schema.json > /dev/null 2> "$work/told" || true
    verdict "unknown members: the schema" "$(difference "$work/members" "$work/told")"
fi

if can "changed files" python3; then
    mkdir "$work/changed"
    python3 tests/tools/changed.py "$program" 2000 "$work/changed"
    for comparison in "$work"/changed/[a-z]*-*; do verdict "$(basename "$comparison")" "$(head -n 20 "$comparison" | cut -c 1-400)"; done
fi
close
