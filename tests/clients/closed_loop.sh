#!/usr/bin/env bash
# The closed loop: rows that were worked out by hand, and what holds of every capture (tests/clients/closed_loop/laws.py); the tool tools/closed_loop; a
# player of a closed loop; the function in Go, which has to give the same bytes; and sessions of three protocols through a proxy
# (tests/clients/closed_loop/sessions.py), in simulated time. With IDLE=1 they run in real time, with sockets of 127.0.0.1, and a table of them is printed.
set -euo pipefail
cd "$(dirname "$0")/../.."
. tests/lib.sh
export TOXICAP=$program PYTHONPATH=$PWD/clients/python
tool=tools/closed_loop cases=$work/cases
mkdir "$cases" "$work/sessions" "$work/out"

if ! can "the closed loop" python3; then close; exit; fi

# ends_with LINE COMMAND..: a command, whose output ends with this line.
ends_with() {
    timeout $((4 * patience)) "${@:2}" > "$work/output" 2>&1 || echo "status $?" >> "$work/output"
    [ "$(tail -n 1 "$work/output")" = "$1" ] || cat "$work/output"
}

verdict "rows and laws" "$(ends_with '9 rows, 35 cases' python3 -B tests/clients/closed_loop/laws.py "$cases")"

# The tool stores what the function gave: case 6 of the laws is the larger sample under slow-database.json.
inputs=(--capture samples/shop.pcap --scenario examples/slow-database.json --seed 4)
verdict "the tool" "$(
    $tool "${inputs[@]}" --host redis=10.77.0.3 --out "$work/out" 2>&1
    holds "$work/out" 0000.pcap 0000.txt 0001.pcap 0001.txt recording.pcap
    for pair in recording:recording.pcap output.pcap:0000.pcap output.txt:0000.txt untouched.pcap:0001.pcap untouched.txt:0001.txt; do
        byte_difference "$cases/6/${pair%:*}" "$work/out/${pair#*:}"
    done
)"
# ends STATUS TEXT ARGUMENT..: the tool ends so, with this text on standard error.
ends() {
    local ended=0
    $tool "${@:3}" > "$work/output" 2> "$work/faults" || ended=$?
    [ $ended = "$1" ] || echo "  status $ended"
    silent output
    grep -qF -- "$2" "$work/faults" || cat "$work/faults"
}
verdict "a refusal" "$(ends 2 'closed_loop: refused 15 UnknownHost scenario 0 proxy 0: examples/slow-database.json, proxy 0 ' "${inputs[@]}" --out "$work/out")"
inputs+=(--host redis=10.77.0.3)
printf d4c3b2a10200040000000000000000000000040071000000 | xxd -r -p > "$work/any.pcap"
verdict "too few turns" "$(ends 1 'closed_loop: a packet still moves after 1 rounds' "${inputs[@]}" --turns 1 --out "$work/out")"
verdict "no Ethernet" "$(ends 2 "closed_loop: refused 4 BadLink: $work/any.pcap is " --capture "$work/any.pcap" --scenario examples/latency.json --out "$work/out")"
verdict "turns below 1" "$(ends 2 'argument --turns: -1: a whole number from 1 on is expected' "${inputs[@]}" --turns=-1 --out "$work/out")"
verdict "a seed below 0" "$(ends 2 "closed_loop: error: invalid value '-1' for '--seed <N>'" "${inputs[@]}" --seed=-1 --out "$work/out")"
verdict "no folder" "$(ends 2 "closed_loop: $work/none is no folder: " "${inputs[@]}" --out "$work/none")"
verdict "no capture" "$(ends 2 "closed_loop: $work/none: No such file or directory" --capture "$work/none" --scenario examples/latency.json --out "$work/out")"
printf '#!/bin/sh\nkill -9 $$\n' > "$work/killed"
chmod +x "$work/killed"
verdict "a killed program" "$(TOXICAP=$work/killed ends 2 "closed_loop: $work/killed ended with status -9" "${inputs[@]}" --out "$work/out")"
verdict "no scenario" "$(ends 2 'usage: ' --capture samples/shop.pcap --out "$work/out")"

# an open loop would charge each answer with the queue of the earlier ones
awk -f tests/capture.awk tests/clients/closed_loop/queue > "$work/queue.dump"
echo '[{"name":"a","upstream":"10.0.0.2:80","toxics":[{"type":"bandwidth","attributes":{"rate":1}}]}]' > "$work/queue.json"
mkdir "$work/queue"
verdict "a queue, played" "$(ends_with played python3 -B tests/clients/closed_loop/played.py $tool "$work/queue.dump" "$work/queue.json" "$work/queue")"

if can "the closed loop in Go" go gcc; then
    make_library
    verdict "the closed loop in Go" "$(
        cd clients/go
        CASES=$cases timeout "$patience" go test -count=1 -run '^TestClosedLoop$' . > "$work/output" 2>&1 || cat "$work/output"
    )"
fi

verdict "sessions" "$(ends_with '21 sessions' python3 -B tests/clients/closed_loop/sessions.py $tool "$work/sessions")"
grep '^|' "$work/output" || true
close
