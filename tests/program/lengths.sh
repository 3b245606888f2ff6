#!/usr/bin/env bash
# Scenario files, command lines and segments past the sizes of other tests, where a body could give up for lack of memory and be right by every clause:
# each answer is compared with that of a plainer run, with what tests/capture.pl works out, or with the refusal that is due.
set -euo pipefail
cd "$(dirname "$0")/../.."
. tests/lib.sh
. tests/program/sizes.sh

# proxies COUNT [END]: COUNT proxies, of which the last stands before the server of the capture, and what their names end with.
proxies() {
    local proxy
    printf '['
    for ((proxy = 0; proxy < $1 - 1; proxy++)); do printf '{"name":"p%s%s","upstream":"10.9.9.9:%s"},' $proxy "${2-}" $((proxy + 1)); done
    printf '{"name":"last%s","upstream":"10.77.0.2:80"}]' "${2-}"
}

printf '[{"name":"web","upstream":"10.77.0.2:80","toxics":[{"type":"latency","attributes":{"latency":40}}]}]' > "$work/one.json"

# a file of 2 MB, whose last proxy is met as the only one of one is, and whose end counts
proxies 1 > "$work/first.json"
run "$capture" --scenario "$work/first.json"
sed 's/ proxy 0 / proxy 63 /' "$work/output" > "$work/expected"
proxies 64 "$(printf '%032000d' 0)" > "$work/wide.json"
same "a scenario of 2 MB" "$capture" --scenario "$work/wide.json"
echo ']' >> "$work/wide.json"
refused "a fault at the end of 2 MB" "refused 10 NotJson scenario 0" "$capture" --scenario "$work/wide.json"

# the last of 60 hosts is known as the address is, on a command line of over a hundred words
hosts=()
for host in {1..59}; do hosts+=(--host "h$host=10.9.9.$host"); done
sed 's/10.77.0.2:80/the.server-of_this-capture:80/' "$work/one.json" > "$work/named.json"
run "$capture" --scenario "$work/one.json"
cp "$work/output" "$work/expected"
same "60 hosts" "$capture" "${hosts[@]}" --host the.server-of_this-capture=10.77.0.2 --scenario "$work/named.json"
refused "a host more than once among 60" "refused 23 BadHost host 59" "$capture" "${hosts[@]}" --host h5=10.77.0.2

# 40,000 hosts
for ((host = 0; host < 40000; host++)); do echo "--host=n$host=10.1.$((host / 256 % 256)).$((host % 256))"; done > "$work/hosts"
(ulimit -s 65536
    xargs -x -s 4000000 -n 50000 -a "$work/hosts" timeout "$patience" "$program" --capture "$capture" --scenario "$work/one.json" > "$work/output") || true
verdict "40,000 hosts" "$(difference "$work/expected" "$work/output")"

# 5,000 bytes that are no JSON
printf '[%05000d' 7 > "$work/broken.json"
refused "a long text that is no JSON" "refused 10 NotJson scenario 0" "$capture" --scenario "$work/broken.json"

# A scenario file of over 64 KiB counts to its end: its toxic stands after 70,000 blanks, or what is no JSON.
run "$capture" --scenario "$work/one.json"
cp "$work/output" "$work/expected"
{ printf '[%70000s' ''; tail -c +2 "$work/one.json"; } > "$work/wide.json"
same "a scenario after 70,000 blanks" "$capture" --scenario "$work/wide.json"
printf '[]%70000s]' '' > "$work/wide.json"
refused "a fault after 70,000 blanks" "refused 10 NotJson scenario 0" "$capture" --scenario "$work/wide.json"

# so does one of 20 MB
{ printf '[%20000000s' ''; tail -c +2 "$work/one.json"; } > "$work/wide.json"
same "a scenario after 20,000,000 blanks" "$capture" --scenario "$work/wide.json"
run_within 1 60000 "$capture" --scenario "$work/wide.json"
verdict "a scenario of 20 MB in little memory" "$(well; difference "$work/expected" "$work/output")"
printf '[]%20000000s]' '' > "$work/wide.json"
refused "a fault after 20,000,000 blanks" "refused 10 NotJson scenario 0" "$capture" --scenario "$work/wide.json"
rm "$work/wide.json"

# 150,000 bytes upstream in 120 segments, as a dump; a slicer cuts them byte by byte, each at an instant of its own: a file header, three
# segments of the handshake, and as many of one byte
awk '
function lowest_first(n) { return sprintf("%02x%02x%02x%02x", n % 256, n / 256 % 256, n / 65536 % 256, n / 16777216) }
function segment(second, peers, ports, seq, ack, flags, payload,    len) {
    len = length(payload) / 2
    print lowest_first(second) "00000000" lowest_first(len + 54) lowest_first(len + 54)
    print "020000000002" "020000000001" "0800" "4500" sprintf("%04x", len + 40) "00004000" "4006" "0000" peers
    print ports sprintf("%08x%08x", seq, ack) "50" flags "ffff" "0000" "0000" payload
}
BEGIN {
    there = "0a4d00010a4d0002"; back = "0a4d00020a4d0001"
    print "d4c3b2a1020004000000000000000000ffff000001000000"
    segment(0, there, "c0000050", 0, 0, "02", "")
    segment(0, back, "0050c000", 0, 1, "12", "")
    bytes = sprintf("%1250s", ""); gsub(/ /, "61", bytes)
    for (i = 0; i < 120; i++) segment(i + 1, there, "c0000050", 1 + 1250 * i, 1, "18", bytes)
}' > "$work/dump"
printf '[{"name":"web","upstream":"10.77.0.2:80","toxics":[{"type":"slicer","stream":"upstream","attributes":{"average_size":1,"delay":3}}]}]' > "$work/sliced.json"
mkdir "$work/sliced"
run "$work/dump" --scenario "$work/sliced.json" --out "$work/sliced"
verdict "150,000 slices" "$(
    well
    grep -q ' up 150000/150000/0 ' "$work/sliced/0000.txt" || cat "$work/sliced/0000.txt"
    [ "$(stat -c %s "$work/sliced/0000.pcap")" = $((24 + 3 * 70 + 150000 * 71)) ] || echo '  a capture of another length'
)"
mv "$work/sliced/0000.txt" "$work/expected" || true
same "150,000 slices, printed" "$work/dump" --scenario "$work/sliced.json"

# The same capture as a file of over 64 KiB that is named, in its bytes.
printf '%b' "$(tr -d ' \n' < "$work/dump" | sed 's/../\\x&/g')" > "$work/bytes.pcap"
same "a capture of over 64 KiB that is named" /dev/null --capture "$work/bytes.pcap" --scenario "$work/sliced.json"
within "150,000 slices" 1 unlimited "$work/expected" "$work/output" "$work/dump" --scenario "$work/sliced.json"
within "150,000 slices, stored" 1 unlimited "$work/sliced/0000.pcap" "$work/stored/0000.pcap" "$work/dump" --scenario "$work/sliced.json" \
    --out "$work/stored"

# 3,000 segments of a connection in other orders, backwards among them, apart and each going on into the next one: what is delivered is what was
# sent, and none of it later than it was recorded.
perl tests/capture.pl 3000 report > "$work/expected"
for order in 3000{+,*}{1,2999,1009}; do
    perl tests/capture.pl "$order" > "$work/ordered.pcap"
    same "segments in the order $order, printed" "$work/ordered.pcap"
    rm -rf "$work/stored"
    mkdir "$work/stored"
    run "$work/ordered.pcap" --out "$work/stored"
    verdict "segments in the order $order, stored" "$(
        well
        payloads "$work/stored/0000.pcap" | byte_difference <(perl tests/capture.pl "$order" sent) -
    )"
done

# 60,000 segments of a byte each, which fill a line out of order; and one of 59,999 bytes that fills 30,000 gaps between bytes that came before it: it
# gives the bytes at odd positions.
perl tests/capture.pl 60000+7001x1 > "$work/pieces.pcap"
perl tests/capture.pl 60000+7001x1 report > "$work/expected"
within "60,000 pieces" 1 unlimited "$work/expected" "$work/output" "$work/pieces.pcap"
perl -e '
    sub segment {
        my ($second, $is_back, $seq, $flags, $payload) = @_;
        my $len = 54 + length $payload;
        print pack("VVVV", $second, 0, $len, $len), "\x02\0\0\0\0\x02\x02\0\0\0\0\x01\x08\0", pack("CCnNCCn", 0x45, 0, $len - 14, 0, 64, 6, 0);
        print $is_back ? "\x0a\x4d\0\x02\x0a\x4d\0\x01" . pack("nn", 80, 49152) : "\x0a\x4d\0\x01\x0a\x4d\0\x02" . pack("nn", 49152, 80);
        print pack("NNCCnnn", $seq, 1 - ($flags == 2), 0x50, $flags, 0xffff, 0, 0), $payload;
    }
    print pack "VvvVVVV", 0xa1b2c3d4, 2, 4, 0, 0, 65535, 1;
    segment(0, 0, 0, 2, "");
    segment(0, 1, 0, 18, "");
    segment(1, 0, 1 + 2 * ($_ * 7001 % 30000), 24, "a") for 0 .. 29999;
    segment(2, 0, 1, 24, "b" x 59999);' > "$work/gaps.pcap"
printf 'ab%.0s' {1..30000} | head -c 59999 > "$work/sent"
sed 's/ 60002 / 30003 /g; s/60000/59999/g' "$work/expected" > "$work/gaps.report"
within "30,000 gaps that a segment fills" 1 unlimited "$work/gaps.report" "$work/output" "$work/gaps.pcap"
within "30,000 gaps that a segment fills, stored" 1 unlimited "$work/gaps.report" "$work/stored/0000.txt" "$work/gaps.pcap" --out "$work/stored"
verdict "the bytes of 30,000 gaps" "$(payloads "$work/stored/0000.pcap" | byte_difference "$work/sent" -)"

# 60,000 segments without an opening, of 30,000 pairs
perl tests/capture.pl 30000x3 > "$work/opened.pcap"
{ head -c 24 "$work/opened.pcap"; tail -c +$((25 + 30000 * 70)) "$work/opened.pcap"; } > "$work/unopened.pcap"
cat > "$work/expected" << 'END'
scenario 0 records 60000 rest 0 segment 60000 short 0 notipv4 0 badipv4 0 fragment 0 nottcp 0 cut 0 badtcp 0 sameends 0
connections 0 unopened 60000
END
within "60,000 unopened segments" 1 unlimited "$work/expected" "$work/output" "$work/unopened.pcap"
rm "$work"/*.pcap
close
