#!/usr/bin/env bash
# tools/explain: reasons why a toxic has no effect, unknown fields, refusals, warnings and statuses, over small scenarios with words written by hand;
# then the effects of random scenarios over random captures, compared with rehearsals without each toxic (tests/tools/explained.py), and their time.
set -euo pipefail
cd "$(dirname "$0")/../.."
. tests/lib.sh
can "explain" python3 || { close; exit; }
make_library
explain=$PWD/tools/explain http=$PWD/samples/http-get.pcap shop=$PWD/samples/shop.pcap
cd "$work"

# explains WHAT STATUS TEXT ARGUMENT..: it ends so, and prints this text on standard output.
explains() {
    local what=$1 ended=$2 text=$3
    shift 3
    status=0
    "$explain" "$@" < /dev/null > output 2> faults || status=$?
    verdict "$what" "$(fault "$ended"; told output "${text:+$text$'\n'}"; [ "$ended" = 2 ] || silent faults)"
}

# refuses WHAT TEXT ARGUMENT..: it ends with 2, prints nothing on standard output, and this text on standard error.
refuses() {
    explains "$1" 2 "" "${@:3}"
    verdict "$1: words" "$(told faults "$2"$'\n')"
}

# web FILE TOXICS [FIELDS]: writes a scenario of one proxy before the web server of the samples; redis does so for Redis, server for made captures.
web() { echo "[{\"name\": \"web\", \"upstream\": \"10.77.0.2:80\"${3:+, $3}, \"toxics\": [$2]}]" > "$1"; }
redis() { echo "[{\"name\": \"redis\", \"upstream\": \"redis:6379\", \"toxics\": [$2]}]" > "$1"; }
server() { echo "[{\"name\": \"s\", \"upstream\": \"10.0.0.2:80\", \"toxics\": [$2]}]" > "$1"; }
made() { awk -f "$OLDPWD/tests/capture.awk" > "$1"; }

# one_line LINE FILE: what is at fault with a file that was to have this line.
one_line() {
    echo "$1" > expected
    difference expected "$2"
}

# reason WHAT TEXT TOXICS: over the web session the first toxic has no effect, and this is the reason.
reason() {
    web a.json "$3"
    status=0
    "$explain" --capture "$http" --scenario a.json > output 2> faults || status=$?
    grep -F 'proxy 0 toxic 0 "' output > line || true
    verdict "$1" "$(fault 1; silent faults; one_line "a.json: proxy 0 toxic 0 $2" line)"
}

# effect WHAT TOXICS: over the web session each toxic has an effect.
effect() {
    web a.json "$2"
    status=0
    "$explain" --capture "$http" --scenario a.json > output 2> faults || status=$?
    verdict "$1" "$(well; ! grep 'effect on 0' output)"
}

idle() { echo "\"$1\": effect on 0 of 1 connection; on 1: $2"; }
same='all is the same without it, on this capture and beside the other toxics'
reason "latency 0" "$(idle latency_downstream "its latency and jitter are 0")" '{"type": "latency", "attributes": {"latency": 0}}'
reason "delay 0" "$(idle slow_close_upstream "its delay is 0")" '{"type": "slow_close", "stream": "upstream", "attributes": null}'
reason "toxicity_ppm 0" "$(idle timeout_downstream "its toxicity is 0")" '{"type": "timeout", "toxicity": 1, "toxicity_ppm": 0}'
reason "a limit of all bytes" "$(idle limit_data_downstream "its limit of 216 bytes is not passed (at most 216 came, upstream up to 82)")" \
    '{"type": "limit_data", "attributes": {"bytes": 216}}'
effect "a limit of a byte less" '{"type": "limit_data", "attributes": {"bytes": 215}}'
reason "a reset after the end" "$(idle reset_peer_downstream "$same")" \
    '{"type": "reset_peer", "attributes": {"timeout": 4}}'
effect "a reset before the end" '{"type": "reset_peer", "attributes": {"timeout": 3}}'
reason "slices of more than the chunk" "$(idle slicer_downstream "$same")" \
    '{"type": "slicer", "attributes": {"average_size": 1000000}}'
effect "slices that the report does not show" '{"type": "slicer", "attributes": {"average_size": 50}}'
reason "the other stream is closed" "$(idle slow_close_downstream "$same")" \
    '{"type": "slow_close", "attributes": {"delay": 9}}, {"type": "timeout", "stream": "upstream", "attributes": {"timeout": 1}}'
reason "one of two that are alike" "$(idle one "$same")" '{"type": "timeout", "name": "one"}, {"type": "timeout", "name": "two"}'
reason "one of three that are alike" "$(idle one "$same")" \
    '{"type": "timeout", "name": "one"}, {"type": "timeout", "name": "two"}, {"type": "timeout", "name": "three"}'
effect "toxics of four types" '{"type": "latency", "attributes": {"latency": 5}}, {"type": "bandwidth", "attributes": {"rate": 1}},
    {"type": "slicer", "attributes": {"average_size": 9, "delay": 9}}, {"type": "slow_close", "attributes": {"delay": 5}}'

# sessions that never end, in which the server sends nothing, and the client in one of them
made upload.dump <<'END'
1.000000 c>s SYN 1000 0
1.000100 s>c SYN ACK 5000 1001
1.000200 c>s PSH ACK 1001 5001 "hello"
2.000000 d>s SYN 1000 0
2.000100 s>d SYN ACK 5000 1001
END
for kind in latency bandwidth slicer limit_data; do
    server a.json "{\"type\": \"$kind\", \"attributes\": {\"latency\": 1, \"rate\": 1, \"average_size\": 1}}"
    "$explain" --capture upload.dump --scenario a.json > output 2>&1 || true
    grep -F 'proxy 0 toxic 0 "' output > line || true
    verdict "$kind where nothing flows" \
        "$(one_line "a.json: proxy 0 toxic 0 \"${kind}_downstream\": effect on 0 of 2 connections; on 2: no bytes flow downstream (upstream up to 5 bytes)" line)"
done
server a.json '{"type": "timeout"}, {"type": "slow_close", "attributes": {"delay": 1}}, {"type": "latency", "stream": "upstream", "attributes": {"latency": 1}}'
explains "sessions that never end" 1 "a.json: proxy 0 \"s\" (10.0.0.2:80): met by 2 connections
a.json: proxy 0 toxic 0 \"timeout_downstream\": effect on 0 of 2 connections; on 2: $same
a.json: proxy 0 toxic 1 \"slow_close_downstream\": effect on 0 of 2 connections; on 2: $same
a.json: proxy 0 toxic 2 \"latency_upstream\": effect on 1 of 2 connections; on 1: $same" \
    --capture upload.dump --scenario a.json

# Two connections without an effect: connection 1 has no bytes of the server, 8 no SYN ACK.
for number in {0..10}; do
    client=10.0.0.1:$((50000 + number))
    echo "$number.000000 $client>s SYN 1000 0"
    [ "$number" = 8 ] || echo "$number.000100 s>$client SYN ACK 5000 1001"
    [ "$number" = 1 ] || [ "$number" = 8 ] || echo "$number.000200 s>$client PSH ACK 5001 1001 \"hello\""
done | made eleven.dump
server a.json '{"type": "latency", "attributes": {"latency": 1}}'
explains "two without an effect" 0 "a.json: proxy 0 \"s\" (10.0.0.2:80): met by 11 connections
a.json: proxy 0 toxic 0 \"latency_downstream\": effect on 9 of 11 connections; on 2: $same" --capture eleven.dump --scenario a.json

# By docs/use/rules.md word 0 modulo a million of connections 0, 2 and 3 is 107503, 837121 and 768073 for toxic 0 downstream of scenario 0 under the
# seed 1, and 550896, 254620 and 676496 for that of scenario 1. Connection 3 has 7 bytes downstream, the others have over 3,000.
redis a.json '{"type": "latency", "toxicity_ppm": 600000, "attributes": {"latency": 300}}, {"type": "limit_data", "attributes": {"bytes": 7}}'
explains "some connections, in two scenarios" 0 "a.json: proxy 0 \"redis\" (redis:6379): met by 3 connections
a.json: proxy 0 toxic 0 \"latency_downstream\": effect on 1 of 3 connections; on 2: it is not drawn (toxicity_ppm 600000)
a.json: proxy 0 toxic 1 \"limit_data_downstream\": effect on 2 of 3 connections; on 1: $same
a.json: proxy 0 \"redis\" (redis:6379): met by 3 connections
a.json: proxy 0 toxic 0 \"latency_downstream\": effect on 2 of 3 connections; on 1: it is not drawn (toxicity_ppm 600000)
a.json: proxy 0 toxic 1 \"limit_data_downstream\": effect on 2 of 3 connections; on 1: $same" \
    --capture "$shop" --scenario a.json --scenario a.json --host redis=10.77.0.3 --seed 1

# The same peers twice, the second session before the first one's bytes: slices of one byte, that only the output capture shows, are drawn for
# connection 0 (430965 under the seed 0) and not for connection 1 (523791).
made twice.dump <<'END'
1.000000 c>s SYN 1000 0
1.000100 s>c SYN ACK 5000 1001
1.000200 s>c PSH ACK 5001 1001 "hello"
1.500000 c>s SYN 9000 0
1.500100 s>c SYN ACK 7000 9001
1.500200 s>c PSH ACK 7001 9001 "world"
END
server a.json '{"type": "slicer", "toxicity_ppm": 500000, "attributes": {"average_size": 1}}, {"type": "latency", "attributes": {"latency": 2000}}'
explains "connections of the same peers" 0 "a.json: proxy 0 \"s\" (10.0.0.2:80): met by 2 connections
a.json: proxy 0 toxic 0 \"slicer_downstream\": effect on 1 of 2 connections; on 1: it is not drawn (toxicity_ppm 500000)
a.json: proxy 0 toxic 1 \"latency_downstream\": effect on 2 of 2 connections" --capture twice.dump --scenario a.json

# 8,000 connections of the same peers, all open at once until their bytes come: in seconds
python3 - > open.pcap <<'END'
import struct, sys
def record(time, number, is_up, flags, sequence, acknowledged, payload):
    ends = [bytes([10, 0, 0, 1]) + b'\x9c\x40', bytes([10, 0, 0, 2]) + b'\0P']
    sender, receiver = ends if is_up else ends[::-1]
    tcp = sender[4:] + receiver[4:] + struct.pack('>IIBBHI', sequence, acknowledged, 0x50, flags, 65535, 0) + payload
    frame = bytes(12) + b'\x08\0E\0' + struct.pack('>H', 20 + len(tcp)) + bytes.fromhex('0000400040060000') + sender[:4] + receiver[:4] + tcp
    return struct.pack('<IIII', 1, 100 * number + time, len(frame), len(frame)) + frame
parts = [bytes.fromhex('d4c3b2a1 0200 0400 00000000 00000000 ffff0000 01000000')]
for number in range(8000):
    base = 6 + 5 * number
    parts += [record(0, number, True, 2, base, 0, b''), record(1, number, False, 18, 5000, base + 1, b''),
              record(2, number, True, 24, base + 1, 5001, b'hello'), record(3, number, False, 24, 5001, base + 6, b'world')]
sys.stdout.buffer.write(b''.join(parts))
END
server a.json '{"type": "latency", "attributes": {"latency": 1000}}, {"type": "timeout", "toxicity_ppm": 500000, "stream": "upstream", "attributes": {"timeout": 1500}}'
status=0
timeout 100 "$explain" --capture open.pcap --scenario a.json > output 2> faults || status=$?
verdict "connections of the same peers, all open" "$(well; told output 'a.json: proxy 0 "s" (10.0.0.2:80): met by 8000 connections
a.json: proxy 0 toxic 0 "latency_downstream": effect on 8000 of 8000 connections
a.json: proxy 0 toxic 1 "timeout_upstream": effect on 4048 of 8000 connections; on 3952: it is not drawn (toxicity_ppm 500000)
')"

# proxies
cat > a.json <<'END'
[{"name": "db", "upstream": "10.77.0.9:5432", "toxics": [{"type": "timeout"}]}, {"name": "web", "upstream": "10.77.0.2:80"},
 {"name": "slow web", "upstream": "web:080", "toxics": [{"type": "timeout"}]},
 {"name": "redis", "upstream": "10.77.0.3:6379", "enabled": false, "toxics": [{"type": "timeout"}]}]
END
explains "proxies that are not met, or disabled" 1 'a.json: proxy 0 "db" (10.77.0.9:5432): no connection meets it; servers of the capture: 10.77.0.3:6379, 10.77.0.2:80
a.json: proxy 1 "web" (10.77.0.2:80): met by 1 connection
a.json: proxy 2 "slow web" (web:080): no connection meets it; proxy 1 stands before the same server, and is met first
a.json: proxy 3 "redis" (10.77.0.3:6379): met by 3 connections, each refused: it is disabled
a.json: proxy 3 toxic 0 "timeout_downstream": effect on 0 of 3 connections; on 3: its proxy is disabled, and refuses each connection' \
    --capture "$shop" --scenario a.json --host web=10.77.0.2
explains "the same without a capture" 1 'a.json: proxy 2 "slow web" (web:080): no connection meets it; proxy 1 stands before the same server, and is met first
a.json: proxy 3 toxic 0 "timeout_downstream": no effect: its proxy is disabled, and refuses each connection
a.json: taken (proxies: 4, toxics: 3)' --scenario a.json --host web=10.77.0.2
web a.json '{"type": "latency"}, {"type": "timeout", "toxicity": 0}'
explains "toxics that can do nothing, without a capture" 1 'a.json: proxy 0 toxic 0 "latency_downstream": no effect: its latency and jitter are 0
a.json: proxy 0 toxic 1 "timeout_downstream": no effect: its toxicity is 0
a.json: taken (proxies: 1, toxics: 2)' --scenario a.json
web a.json '{"type": "timeout"}'
explains "nothing to mend, without a capture" 0 'a.json: taken (proxies: 1, toxics: 1)' --scenario a.json
echo '[]' > b.json
explains "no proxy" 0 "" --capture "$http" --scenario b.json

# unknown fields
# unknown PLACE WORDS TEXT: of a file that is taken this field is printed.
unknown() {
    echo "$3" > a.json
    "$explain" --scenario a.json > output 2> faults && status=0 || status=$?
    verdict "unknown: $2" "$(fault 1; silent faults; head -n 1 output > line; one_line "a.json: $1: unknown field $2" line)"
}
web='"name":"web","upstream":"10.77.0.2:80"'
unknown "proxy 0 toxic 0 attributes" "delay (known are latency, jitter)" "[{$web,\"toxics\":[{\"type\":\"latency\",\"attributes\":{\"delay\":100}}]}]"
unknown "proxy 0 toxic 1" "direction (known are type, name, stream, attributes, toxicity, toxicity_ppm)" \
    "[{$web,\"toxics\":[{\"type\":\"timeout\"},{\"type\":\"latency\",\"direction\":\"upstream\"}]}]"
unknown "proxy 0" "toxic (is it toxics?)" "[{$web,\"toxic\":[{\"type\":\"timeout\"}]}]"
unknown "proxy 1" "Enabled (is it enabled?)" "[{\"name\":\"db\",\"upstream\":\"10.77.0.3:6379\"},{$web,\"Enabled\":false}]"
unknown "proxy 0" "Upstream (is it upstream?)" '[{"name":"web","upstream":"10.77.0.3:6379","Upstream":"10.77.0.2:80"}]'
unknown "proxy 0 toxic 0 attributes" "toxicity (it belongs in the toxic)" "[{$web,\"toxics\":[{\"type\":\"timeout\",\"attributes\":{\"toxicity\":0}}]}]"
unknown "proxy 0" '"a b" (known are name, upstream, enabled, toxics, listen)' "[{$web,\"a b\":1}]"

# refusals, with what helps
# helps WHAT LINE ARGUMENT..: it ends with 2, prints nothing on standard output, and this line with a hint on standard error.
helps() {
    explains "$1" 2 "" "${@:3}"
    verdict "$1: words" "$(grep -qx "explain: $2: .*" faults && [ "$(wc -l < faults)" = 1 ] || cat faults)"
}
web a.json '{"type": "latency", "stream": "down"}'
helps "a stream in the second file" "refused 17 BadStream scenario 1 proxy 0 toxic 0" --capture "$http" --scenario b.json --scenario a.json
printf '[\n{"\303\244": "\344"}]' > a.json
helps "no UTF-8" "refused 10 NotJson scenario 0" --scenario a.json
web a.json '{"type": "bandwidth", "attributes": {"Rate": 10}}'
helps "a refusal and an unknown field" "refused 19 AttributeRange scenario 0 proxy 0 toxic 0" --scenario a.json
helps "a scenario as the capture" "refused 2 BadMagic" --capture a.json --scenario b.json
refuses "no such capture" "explain: none.pcap: No such file or directory" --capture none.pcap --scenario b.json
refuses "no such scenario" "explain: none.json: No such file or directory" --capture "$http" --scenario none.json
TOXICAP_LIBRARY=$work/none refuses "no library" "explain: there is no library of toxicap ($work/none: cannot open shared object file: No such file or directory): \
unpack a release, or name the one of release/library in TOXICAP_LIBRARY" --scenario b.json
explains "a seed that is no number" 2 "" --scenario b.json --seed=x
refuses "a seed below 0" "explain: the seed -1 is not from 0 to 2^64 - 1" --scenario b.json --seed=-1
explains "no scenario" 2 "" --capture "$http"
explains "an option that is none" 2 "" --scenario b.json --scenarios b.json

# a capture out of a pipe
web a.json '{"type": "timeout"}'
status=0
"$explain" --capture /dev/stdin --scenario a.json < <(cat "$http") > output 2> faults || status=$?
verdict "a capture out of a pipe" "$(well; grep -q 'effect on 1 of 1 connection$' output || cat output)"

# warnings: a tenth or more, and not less
# warns WHAT TEXT CAPTURE: over it this line is printed, or none.
warns() {
    status=0
    "$explain" --capture "$3" --scenario b.json > output 2> faults || status=$?
    verdict "$1" "$(fault $((${#2} > 0)); silent faults; told output "${2:+$3: warning: $2$'\n'}")"
}
# many COUNT LINE: a line of a capture so often, each a microsecond after the other, from the second 2 on
many() { for ((number = 0; number < $1; number++)); do printf '2.%06d %s\n' $number "$2"; done; }
opening=$'1.000000 c>s SYN 1000 0\n1.000100 s>c SYN ACK 5000 1001'
full='c>s PSH ACK 1001 5001 "hello"'
{ echo "$opening"; many 7 "$full"; echo '3.000000 d>s PSH ACK 1001 5001 "hello"'; } | made unopened10.dump
warns "a tenth unopened" "1 of 10 segments are unopened: the opening of their sessions is not in the capture; start recording before the client connects" unopened10.dump
{ echo "$opening"; many 8 "$full"; echo '3.000000 d>s PSH ACK 1001 5001 "hello"'; } | made unopened11.dump
warns "less than a tenth unopened" "" unopened11.dump
{ echo "$opening"; many 7 "$full"; echo 'record 3.000000 02000000000202000000000186dd60000000'; } | made notipv4.dump
warns "a tenth notipv4" "1 of 10 frames are notipv4: IPv6 (localhost may be ::1), ARP, or two VLAN tags; only IPv4 is rehearsed: connect to an IPv4 address, such as 127.0.0.1" notipv4.dump
{ echo "$opening"; many 7 "$full"; echo 'record 3.000000 0200000000020200000000010800450000ff00004000400600000a0000010a000002'; } | made cut.dump
warns "a tenth cut" "1 of 10 frames are cut: recorded without their ends, their bytes are missing; record whole packets (tcpdump -s 0)" cut.dump
{ echo "$opening"; echo '2.000000 c>s PSH ACK 1001 5001 "ninebytes"'; echo '2.100000 c>s PSH ACK 1011 5001 "x"'; } | made lost.dump
warns "a tenth lost" "1 of 10 bytes are lost: they stand after a gap of the capture, or after a FIN; record again, with a larger buffer where tcpdump dropped packets (-B 65536)" lost.dump
{ echo "$opening"; echo '2.000000 c>s PSH ACK 1001 5001 "tencharact"'; echo '2.100000 c>s PSH ACK 1012 5001 "x"'; } | made found.dump
warns "less than a tenth lost" "" found.dump
unanswered=$'1.000000 c>s SYN 1000 0\n2.000000 c>s PSH ACK 1001 5001 "asked"\n2.100000 s>c PSH ACK 5001 1006 "answered"'
made unanswered.dump <<< "$unanswered"
warns "no SYN ACK" "1 of 1 connections are unanswered: the server's SYN ACK was not recorded, and its bytes are neither delivered nor lost; record both directions, from the SYN on" unanswered.dump
server s.json '{"type": "latency", "attributes": {"latency": 5}}'
status=0
"$explain" --capture unanswered.dump --scenario s.json > output 2> faults || status=$?
grep -F 'proxy 0 toxic 0 "' output > line || true
verdict "no SYN ACK: the reason" "$(fault 1; silent faults; one_line \
    "s.json: proxy 0 toxic 0 $(idle latency_downstream "no bytes flow downstream (upstream up to 5 bytes)")" line)"

# checksums: right ones of an output, one of a byte that is changed, and those of samples, which a network card was to fill in
mkdir right
"$program" --capture "$http" --scenario b.json --out right
cp right/0000.pcap wrong.pcap
printf X | dd of=wrong.pcap bs=1 seek=315 conv=notrunc status=none # in record 4, the first payload
cat wrong.pcap <(tail -c +25 "$http") > both.pcap
# sums WHAT COUNT REMEDY CAPTURE: COUNT of a capture's segments, as `1 of 8`, are told to have wrong sums.
sums() {
    warns "$1" "$2 segments have wrong TCP checksums: they are rehearsed all the same, and outputs have right ones, but a receiver would have dropped them; $3" "$4"
}
# helped WHAT COUNT CAPTURE: after what the line says to do, COUNT segments are left, and no sum is wrong.
helped() {
    can "$1, mended" tshark editcap xxd || return 0
    sed -n 's/.* leave them out first by //p' output | sed 's/\bDUMP\b/'"$3"'/; s/\bIN\b/in.pcap/g; s/\bOUT\b/out.pcap/' > mend
    [[ $3 = *.dump ]] || cp "$3" in.pcap
    bash mend 2> /dev/null
    warns "$1, mended" "" out.pcap
    verdict "$1, left" "$("$program" --capture out.pcap | grep -c " segment $2 " | grep -vx 1 || true)"
}
filter="tshark -r IN -o tcp.check_checksum:TRUE -Y 'tcp.checksum.status != 0' -F pcap -w OUT"
warns "right sums" "" right/0000.pcap
warns "sums that a card was to fill in" "" "$http"
sums "a wrong sum" "1 of 8" "leave them out first by $filter" wrong.pcap
helped "a wrong sum" 7 wrong.pcap
xxd -p wrong.pcap > wrong.dump
sums "a wrong sum in a dump" "1 of 8" "leave them out first by xxd -r -p DUMP IN; $filter" wrong.dump
helped "a wrong sum in a dump" 7 wrong.dump
sums "a wrong sum among those" "1 of 20" "leave them out first by editcap -F pcap IN OUT 4" both.pcap
helped "a wrong sum among those" 19 both.pcap
# the larger sample twice, with the sums of records 2, 4 to 42 changed
python3 - "$shop" > many.pcap <<'END'
import sys
data = open(sys.argv[1], 'rb').read()
capture, at, number = bytearray(data + data[24:]), 24, 0
while at < len(capture):
    number += 1
    if number % 2 == 0 and number <= 42: capture[at + 66] ^= 0x55
    at += 16 + int.from_bytes(capture[at + 8:at + 12], 'little')
sys.stdout.buffer.write(capture)
END
sums "many wrong sums among those" "21 of 128" "leave them out first by editcap -F pcap IN OUT $(seq -s ' ' 2 2 40) (and more: explain OUT again)" many.pcap
# the whole sample with other addresses, so that each sum is that of another pseudo-header
python3 -c 'import sys; sys.stdout.buffer.write(sys.stdin.buffer.read().replace(b"\x0a\x4d\0", b"\x0a\x4e\0"))' < "$http" > moved.pcap
sums "sums that all are wrong" "12 of 12" "leave none out: where all are wrong that one side sent, a network card or a tool left them so" moved.pcap

# 256 scenarios of 16 toxics in 2 seconds; random scenarios, over samples and random captures
python3 -c 'import json
kinds = [("latency", {"latency": 5, "jitter": 3}), ("slicer", {"average_size": 50}), ("bandwidth", {"rate": 10}), ("limit_data", {"bytes": 900})] * 4
print(json.dumps([{"name": "web", "upstream": "10.77.0.3:6379", "toxics": [{"type": kind, "name": str(number), "attributes": attributes,
    "stream": ["upstream", "downstream"][number % 2]} for number, (kind, attributes) in enumerate(kinds)]}]))' > a.json
for number in {1..256}; do scenarios+=(--scenario a.json); done
status=0
timeout "${PATIENT:-2}" "$explain" --capture "$shop" "${scenarios[@]}" > output 2> faults || status=$?
verdict "256 scenarios of 16 toxics in 2 seconds" "$([ $status -le 1 ] && [ "$(wc -l < output)" = $((256 * 17)) ] || { echo "  status $status"; head -n 3 output faults; })"
cd "$OLDPWD"
captures=(samples/*.pcap tests/recorded/*.pcap)
tests/tools/explained.py "${COUNT:-300}" 1 "${captures[@]}" > "$work/random"
tail -n 1 "$work/random"
verdict "random scenarios" "$(grep -v ' 0 faults;' "$work/random" || true)"
close
