#!/usr/bin/env bash
# The events that the clients read from output captures: put together they are what tshark follows of each
# connection, with each byte's instant, and what the reports count, over the samples and two real captures under all scenarios of examples/, in
# microseconds and in nanoseconds with a VLAN tag; of the captures of tests/rows they are what the reports count. The clients in Python, Go, Rust, C and
# C++ give the same events, and refuse captures that toxicap did not write, each for its fault; 30,000 connections of one pair take none of them long. It
# wants python3.
set -euo pipefail
cd "$(dirname "$0")/../.."
. tests/lib.sh
outputs=$work/outputs
scenarios=()
for scenario in examples/*.json; do
    case $scenario in */live-proxies.json | *.schema.json) ;; *) scenarios+=(--scenario "$scenario") ;; esac
done
printf '[]' > "$work/untouched.json"
scenarios+=(--scenario "$work/untouched.json")

# of_hex: the bytes of hexadecimal text.
of_hex() { tr -d ' \n' | tr a-f A-F | basenc -d --base16; }

# rehearsed NAME CAPTURE ARGUMENT..: stores the outputs of a capture in a folder of that name.
rehearsed() {
    mkdir -p "$outputs/$1"
    run /dev/null --capture "$2" --out "$outputs/$1" "${@:3}"
    verdict "$1" "$(well)"
}

# read_by LANGUAGE NAME SECONDS COMMAND..: the events of all captures by one helper, in at most SECONDS of a processor, are those of Python; and
# its refusals.
read_by() {
    verdict "$1" "$({
        (ulimit -t "$3"; "${@:4}" "$outputs"/*/*.pcap) > "$work/$2.dump" && "${@:4}" "${broken[@]}" > "$work/$2.broken"
    } 2>&1 || echo "  status $?")"
    verdict "$1, the same events" "$(byte_difference "$work/python.dump" "$work/$2.dump")"
    verdict "$1, refusals" "$(difference "$work/refusals" "$work/$2.broken")"
}

# compared WHAT LEAST OPTION.. DUMP: the comparison of a dump with tshark and reports, over at least LEAST connections.
compared() {
    local found
    found=$(python3 -B tests/clients/events/compare.py "${@:3}" 2> "$work/count" || echo "  status $?")
    [ "$(tail -n 1 "$work/count")" -ge "$2" ] 2> /dev/null || found+=$(printf '\n  compared: %s' "$(cat "$work/count")")
    verdict "$1" "$found"
}

if ! can "events" python3; then close; exit; fi

for sample in http-get shop; do
    rehearsed $sample samples/$sample.pcap "${scenarios[@]}" --host redis=10.77.0.3 --seed 4
    python3 -B tests/clients/events/variants.py samples/$sample.pcap > "$work/variant.pcap"
    rehearsed $sample-in-a-vlan "$work/variant.pcap" "${scenarios[@]}" --host redis=10.77.0.3 --seed 4
done
for capture in tests/recorded/*.pcap; do
    rehearsed "$(basename "$capture" .pcap)" "$capture" "${scenarios[@]}" --host redis=192.0.2.2 --seed 4
done
for report in tests/rows/*/report; do
    row=$(basename "$(dirname "$report")")
    if [ ! -f "tests/rows/$row/0000.hex" ] || [ -f "tests/rows/$row/0001.hex" ]; then continue; fi
    mkdir "$outputs/worked-$row"
    of_hex < "tests/rows/$row/0000.hex" > "$outputs/worked-$row/0000.pcap"
    cp "$report" "$outputs/worked-$row/0000.txt"
done

# one client's port is used again while the first answer is still under way
printf '[{"name":"web","upstream":"10.0.0.2:80","toxics":[{"type":"latency","attributes":{"latency":100}}]}]' > "$work/late.json"
awk -f tests/capture.awk tests/clients/events/same-port > "$work/same-port.dump"
rehearsed worked-same-port "$work/same-port.dump" --scenario "$work/late.json"

# 30,000 connections of one pair, ten of them open at once
awk 'BEGIN {
    for (i = 0; i < 30000; i++) {
        time = sprintf("%d.%02d", 1 + i / 100, i % 100); c = 1000 + 100 * i; s = 5000 + 100 * i
        print time "0000 c>s SYN " c " 0"
        print time "0100 s>c SYN ACK " s " " c + 1
        print time "0200 c>s PSH ACK " c + 1 " " s + 1 " \"one\""
        print time "0300 s>c PSH ACK " s + 1 " " c + 4 " \"ONE\""
        print time "0400 s>c FIN ACK " s + 4 " " c + 4
        print time "0500 c>s FIN ACK " c + 4 " " s + 5
    }
}' | awk -f tests/capture.awk > "$work/one-pair.dump"
rehearsed worked-one-pair "$work/one-pair.dump" --scenario "$work/late.json"

mkdir "$work/broken"
last=$(printf '%04d' $((${#scenarios[@]} / 2 - 1)))
python3 -B tests/clients/events/broken.py "$outputs/http-get/$last.pcap" samples/http-get.pcap "$work/broken" > "$work/refusals"
mapfile -t broken < <(sed -n 's/^== //p' "$work/refusals")
verdict "broken captures" "$([ ${#broken[@]} -gt 900 ] || echo "  ${#broken[@]}")"

read_by Python python 30 env PYTHONPATH=clients/python python3 -B tests/clients/events/dump.py
verdict "the same port" "$(
    sed -n '/same-port/,/delivered/p' "$work/python.dump" | sed '1d; $d' > "$work/found"
    difference tests/clients/events/same-port.events "$work/found"
)"
sed '/outputs\/worked-/,$d' "$work/python.dump" > "$work/samples.dump"
sed -n '/outputs\/worked-/,$p' "$work/python.dump" > "$work/worked.dump"
compared "reports of rows" 30 --reports "$work/worked.dump"
compared "reports of samples" 100 --reports "$work/samples.dump"
if can "what tshark follows" tshark; then compared "what tshark follows" 100 "$work/samples.dump"; fi

if can "Go" go; then
    verdict "Go, compiled" "$(cd clients/go && CGO_ENABLED=0 go build -o "$work/dump-go" ../../tests/clients/events/dump.go 2>&1)"
    read_by Go go 5 "$work/dump-go"
fi
if can "Rust" rustc cc; then
    # without the feature that takes the library
    verdict "Rust, compiled" "$(rustc --edition 2021 -O --crate-type rlib --crate-name toxicap --out-dir "$work" clients/rust/src/lib.rs 2>&1 &&
        rustc --edition 2021 -O --extern "toxicap=$work/libtoxicap.rlib" -o "$work/dump-rust" tests/clients/events/dump.rs 2>&1)"
    read_by Rust rust 5 "$work/dump-rust"
fi
for language in "C gcc -std=gnu99" "C++ g++ -std=c++11 -pedantic -x c++"; do
    read -r name compiler options <<< "$language"
    can "$name" "$compiler" || continue
    # shellcheck disable=SC2086
    verdict "$name, compiled" "$("$compiler" $options -Wall -Wextra -Werror -O1 -o "$work/dump-$name" tests/clients/events/dump.c 2>&1)"
    read_by "$name" "$name" 5 "$work/dump-$name"
done
close
