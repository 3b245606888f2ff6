#!/usr/bin/env bash
# tools/for_sensors: what it makes of outputs, judged by a strict observer (tests/tools/for_sensors/seen.py), libnids, tcpflow, dpkt and tshark; how
# frames look by the recording (tests/tools/for_sensors/looks.py), and its memory; what it refuses. It wants python3. On Debian libnids is libnids-dev and
# libpcap-dev, with libssl-dev for sums, and dpkt is python3-dpkt.
set -euo pipefail
cd "$(dirname "$0")/../.."
. tests/lib.sh
if ! can "captures for sensors" python3; then close; exit; fi
tool=tools/for_sensors

python=python3 judges=()
if ! python3 -c 'import dpkt' 2> /dev/null && /usr/bin/python3 -c 'import dpkt' 2> /dev/null; then python=/usr/bin/python3; fi
if $python -c 'import dpkt' 2> /dev/null; then judges+=(dpkt); else skip "dpkt" "Python has no dpkt"; fi
for judge in tcpflow tshark; do ! can $judge $judge || judges+=("$judge"); done
if ! can "libnids" cc; then :
elif cc -O2 -Wall -Wextra -Werror -o "$work/libnids" tests/tools/for_sensors/nids.c -lnids -lpcap -lcrypto 2> "$work/faults"; then judges+=("$work/libnids")
else skip "libnids" "$(grep -m 1 'error\|cannot find' "$work/faults")"; fi

mkdir "$work/cases"
status=0
$python -B tests/tools/for_sensors/judge.py "$program" "$work/cases" "${judges[@]}" > "$work/output" 2> "$work/faults" || status=$?
grep -v '^fault ' "$work/output" || true
for judge in observer "${judges[@]##*/}"; do
    verdict "$judge" "$(grep "^fault $judge:" "$work/output" || grep -q "^$judge: [1-9]" "$work/output" || echo "  it has judged nothing")"
done
verdict "the judges" "$(well)"
verdict "the recording's looks" "$(python3 -B tests/tools/for_sensors/looks.py "$program" "$work/looks" 2>&1)"

# sees WORD..: runs the tool; `status`, and the files `output` and `faults`, are what came.
sees() {
    status=0
    timeout "$patience" $tool "$@" > "$work/output" 2> "$work/faults" || status=$?
    sed -i "s|$work/||g" "$work/faults"
}

# refuses WHAT LINE WORD..: nothing is written, for this reason.
refuses() {
    local what=$1 line=$2
    shift 2
    sees "$@"
    verdict "$what" "$(fault 2; silent output; told faults "for_sensors: $line"$'\n')"
}
mkdir "$work/out"
run /dev/null --capture samples/shop.pcap --scenario examples/mobile-line.json --out "$work/out"
here=$work/out/0000.pcap none="no output capture of toxicap"
size=$(stat -c %s "$here")
last=$(PYTHONPATH=clients/python python3 -B -c 'import sys, toxicap._events
print(len(toxicap._events.records(open(sys.argv[1], "rb").read())) - 1)' "$here")
sees "$here"
cp "$work/output" "$work/whole"
sees < "$here"
verdict "standard input" "$(well; byte_difference "$work/whole" "$work/output")"
sees --recording - "$here" < samples/shop.pcap
cp "$work/output" "$work/whole"
sees --recording samples/shop.pcap "$here"
verdict "the recording as standard input" "$(well; byte_difference "$work/whole" "$work/output")"
head -c $((size - 1)) "$here" > "$work/torn"
refuses "a torn output" "torn: $none: record $last: it is cut, or no TCP segment" "$work/torn"
refuses "a recording as an output" "samples/shop.pcap: $none: it has another file header; \`toxicap --out\` stores outputs, and --recording names a recording" samples/shop.pcap
classic="this is no classic pcap: editcap -F pcap IN OUT writes one of most captures, also of pcapng and gzipped ones"
printf d4c3b2a10200040000000000000000000000040071000000 | xxd -r -p > "$work/any"
refuses "another link type" "any: this is pcap 2.4 of link type 113, and pcap 2.4 of Ethernet, 1, is expected: record on an Ethernet interface" "$work/any"
refuses "no capture" "examples/latency.json: $classic" examples/latency.json
refuses "an empty file" "standard input: $classic" - < /dev/null
refuses "no file" "absent: No such file or directory" "$work/absent"
refuses "another recording" "samples/http-get.pcap: connection 0 of the output is another one here: name the capture that the output came from" --recording samples/http-get.pcap "$here"
refuses "what it has made" "whole: $none: record 0: its headers are another's" "$work/whole"
cat <(head -c 24 "$here") <(tail -c +95 "$here") > "$work/torn"
refuses "an output without its first record" "torn: $none: record 0: 0 connections go on with it" "$work/torn"
sees --vantage client "$here"
verdict "a vantage without a recording" "$(
    fault 2
    silent output
    grep -q 'error: --vantage and --other-frames take a --recording$' "$work/faults" || cat "$work/faults"
)"

# Ports that are used again, and bytes of the first connection that come 3 seconds late: no wire shows that. The closed loop keeps them apart.
awk -f tests/capture.awk > "$work/again.dump" << 'END'
1.000000 c>s SYN 1000 0
1.100000 s>c SYN ACK 5000 1001
1.200000 s>c PSH ACK 5001 1001 "first"
1.300000 s>c FIN ACK 5006 1001
1.400000 c>s FIN ACK 1001 5007
2.000000 c>s SYN 9000 0
2.100000 s>c SYN ACK 7000 9001
2.200000 s>c PSH ACK 7001 9001 "other"
END
xxd -r -p "$work/again.dump" "$work/again.pcap"
echo '[{"name":"late","upstream":"10.0.0.2:80","toxics":[{"type":"latency","attributes":{"latency":3000}}]}]' > "$work/late.json"
mkdir "$work/loop"
run /dev/null --capture "$work/again.pcap" --scenario "$work/late.json" --out "$work/loop"
told="1 of the connections, first 0, go on after another one, 1, has opened with the same addresses and ports, so sensors mix them"
for words in "" "--recording $work/again.pcap --vantage client"; do
    # shellcheck disable=SC2086
    sees $words "$work/loop/0000.pcap"
    verdict "ports used again: ${words%% *}" "$(
        fault 1
        silent output
        told faults "for_sensors: $told: take recording.pcap and 0000.pcap of closed_loop as recording and output, or allow it by --allow-overlap"$'\n'
    )"
    # shellcheck disable=SC2086
    sees --allow-overlap $words "$work/loop/0000.pcap"
    verdict "ports used again, allowed: ${words%% *}" "$(fault 0; told faults "for_sensors: $told"$'\n'; [ -s "$work/output" ] || echo '  nothing is written')"
done
TOXICAP=$program tools/closed_loop --capture "$work/again.pcap" --scenario "$work/late.json" --out "$work/loop"
sees --recording "$work/loop/recording.pcap" "$work/loop/0000.pcap"
verdict "ports used again, in the closed loop" "$(well)"
close
