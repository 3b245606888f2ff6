#!/usr/bin/env bash
# What would be missed in reports, in a line more on a terminal: connections without a proxy, lost bytes, records that are passed over, unknown fields.
set -euo pipefail
cd "$(dirname "$0")/../.."
. tests/lib.sh
. tests/program/typed.sh

# sums LINE WORDS: the program with these words of the shell says this on a terminal, where its standard output is none.
sums() {
    verdict "toxicap $2: $1" "$(said "toxicap: $1\r\n" "cd '$here' && '$program' $2 > '$work/output'")"
    (cd "$here" && eval "'$program' $2" > "$work/printed" 2> "$work/faults") || true
    verdict "toxicap $2, where standard error is no terminal" "$(cmp "$work/printed" "$work/output" 2>&1; cat "$work/faults")"
}

# one connection of 3 segments; it without its second one, without its opening, and its first segment alone; two bytes around one that is missing
perl tests/capture.pl 3 > "$here/whole.pcap"
{ head -c 1484 "$here/whole.pcap"; tail -c +2805 "$here/whole.pcap"; } > "$here/hole.pcap"
{ head -c 24 "$here/whole.pcap"; tail -c +165 "$here/whole.pcap"; } > "$here/late.pcap"
head -c 1344 "$here/late.pcap" > "$here/alone.pcap"
# shellcheck disable=SC2046
capture byte.pcap $(awk -f tests/capture.awk << 'EOT'
1.000000 c>s SYN 1000 0
1.001000 c>s PSH ACK 1001 1 "a"
1.002000 c>s PSH ACK 1003 1 "c"
EOT
)
# shellcheck disable=SC2046
capture nine.pcap $(for n in {1..9}; do echo "1.00000$n c>10.77.1.$n:80 SYN 1000 0"; done | awk -f tests/capture.awk)
capture nano.pcap 4d3cb2a1 "$start" 01000000
capture short.pcap d4c3b2a1 "$start" 01000000 01000000 00000000 02000000 02000000 abcd
servers='servers 10.77.0.3:6379 10.77.0.2:80'
sums '4 connections, 0 with a proxy; times in microseconds' '--capture shop.pcap'
sums '4 connections, 1 with a proxy; times in microseconds' '--scenario web.json < shop.pcap'
sums "scenario 0: 4 connections, 0 with a proxy; $servers; times in microseconds" '--capture shop.pcap --scenario bare.json --scenario web.json'
sums "scenario 0: 4 connections, 1 with a proxy; scenario 1: 0 with a proxy; scenario 3: 0 with a proxy; $servers; times in microseconds" \
    '--capture shop.pcap --scenario web.json --scenario bare.json --scenario web.json --scenario bare.json'
sums "9 connections, 0 with a proxy; servers$(printf ' 10.77.1.%s:80' {1..7}) ..; times in microseconds" '--capture nine.pcap --scenario bare.json'
# servers whose text has 79, 80 and 81 bytes, before one more
for put in 79:10:80 80:100:80 81:100:800; do
    last=10.77.1.${put#*:}
    # shellcheck disable=SC2046
    capture servers.pcap $(for server in 10.77.1.{1..5}:80 "$last" 10.77.2.1:80; do echo "1.000000 c>$server SYN 1000 0"; done | awk -f tests/capture.awk)
    more=$(if [ "${put%%:*}" -lt 80 ]; then echo 10.77.2.1:80; else echo ..; fi)
    sums "7 connections, 0 with a proxy; servers$(printf ' 10.77.1.%s:80' {1..5}) $last $more; times in microseconds" '--capture servers.pcap --scenario bare.json'
done
# one record of nine, of ten and of eleven is of a class
for records in 9 10 11; do
    # shellcheck disable=SC2046
    capture class.pcap $(for ((n = 1; n <= records; n++)); do echo "record 1.000000 $([ $n = 1 ] && echo 00 || printf '%028d' 0)"; done | awk -f tests/capture.awk)
    one=$([ $records -gt 9 ] || echo "; 1 of $records records short")
    sums "0 connections, 0 with a proxy$one; $((records - 1)) of $records records notipv4; times in microseconds" '--capture class.pcap'
done
sums '1 connection, 0 with a proxy; times in microseconds' '--capture whole.pcap'
sums '1 connection, 0 with a proxy; 1250 bytes lost; times in microseconds' '--capture hole.pcap'
sums '1 connection, 0 with a proxy; 1 byte lost; times in microseconds' '--capture byte.pcap'
sums '0 connections, 0 with a proxy; 3 segments without an opening; times in microseconds' '--capture late.pcap'
sums '0 connections, 0 with a proxy; 1 segment without an opening; times in microseconds' '--capture alone.pcap'
sums '0 connections, 0 with a proxy; times in nanoseconds' '--capture nano.pcap'
sums '0 connections, 0 with a proxy; times in nanoseconds' '--capture nano.pcap --scenario bare.json'
sums '0 connections, 0 with a proxy; 1 of 1 records short; times in microseconds' '--capture short.pcap'
sums '0 connections, 0 with a proxy; 7 bytes of a record that is cut off; 1 of 1 records short' "< '$PWD/crates/toxicap_program/stdin'"
head -c -1 "$here/whole.pcap" > "$here/cut.pcap"
sums '1 connection, 0 with a proxy; 1319 bytes of a record that is cut off; times in microseconds' '--capture cut.pcap'

# Counts above 128, and above 65,536: of connections with a proxy and without, of segments, of lost bytes, of bytes that are cut off, and of records;
# and numbers of scenarios. A count in 8 or 16 bits is found.
printf '[{"name":"server","upstream":"10.77.0.2:80"}]' > "$here/server.json"
for count in 300 70000; do
    perl tests/capture.pl ${count}x3 > "$here/many.pcap"
    sums "$count connections, 0 with a proxy; times in microseconds" '--capture many.pcap'
    sums "$count connections, $count with a proxy; times in microseconds" '--capture many.pcap --scenario server.json'
    { head -c 24 "$here/many.pcap"; tail -c +$((25 + 70 * count)) "$here/many.pcap"; } > "$here/unopened.pcap"
    sums "0 connections, 0 with a proxy; $((2 * count)) segments without an opening; times in microseconds" '--capture unopened.pcap'
    perl -e 'print pack("VvvVVVV", 0xa1b2c3d4, 2, 4, 0, 0, 65535, 1), (pack("VVVV", 0, 0, 14, 14) . "\0" x 14) x shift' $count > "$here/others.pcap"
    sums "0 connections, 0 with a proxy; $count of $count records notipv4; times in microseconds" '--capture others.pcap'
    { cat "$here/whole.pcap"; printf '\0\0\0\0\0\0\0\0\0\0\04\0\0\0\04\0'; head -c $count /dev/zero; } > "$here/cut.pcap"
    sums "1 connection, 0 with a proxy; $((count + 16)) bytes of a record that is cut off; times in microseconds" '--capture cut.pcap'
    perl tests/capture.pl "$((count + 1))+1x1" > "$here/whole.pcap"
    { head -c 164 "$here/whole.pcap"; tail -c +236 "$here/whole.pcap"; } > "$here/lost.pcap"
    sums "1 connection, 0 with a proxy; $count bytes lost; times in microseconds" '--capture lost.pcap'
done
many=()
for ((number = 0; number < 256; number++)); do many+=(--scenario "$([ $number = 137 ] || [ $number = 255 ] && echo bare || echo web).json"); done
sums "scenario 0: 4 connections, 1 with a proxy; scenario 137: 0 with a proxy; scenario 255: 0 with a proxy; $servers; times in microseconds" \
    "--capture shop.pcap ${many[*]}"
rm "$here"/{many,unopened,others,lost}.pcap
perl tests/capture.pl 3 > "$here/whole.pcap"
printf '[{%s,"toxics":[{"type":"latency","attributes":{"delay":7}}]}]' "$web" > "$here/ignored.json"
sums '4 connections, 1 with a proxy; times in microseconds; ignored.json: "delay" is ignored: latency has "latency" "jitter"' '--capture shop.pcap --scenario ignored.json'
mkdir "$here/stored" "$here/both"
both="toxicap: scenario 0: 4 connections, 1 with a proxy; scenario 1: 0 with a proxy; $servers; times in microseconds"
verdict "both of two stored scenarios are summed up" "$(
    said "stored 1 of 2\rstored 2 of 2\r\n$both\r\n" "cd '$here' && '$program' --capture shop.pcap --scenario web.json --scenario bare.json --out both"
)"
sums '1 connection, 0 with a proxy; 1250 bytes lost; times in microseconds' '--capture hole.pcap --out stored'
verdict "the report stays as it is" "$(
    said "$("$program" --capture "$here/whole.pcap" | sed 's/$/\\r\\n/' | tr -d '\n')toxicap: 1 connection, 0 with a proxy; times in microseconds\r\n" \
        "cd '$here' && '$program' --capture whole.pcap"
)"

# the scenario that the help shows
"$program" --help | sed -n '/^Scenarios:/,/^Toxics:/s/^    //p' | sed -n '/^\[/,/^\]/p' > "$here/help.json"
sums '4 connections, 3 with a proxy; times in microseconds' '--capture shop.pcap --scenario help.json'
close
