#!/usr/bin/env bash
# tools/redact: what it makes of the rows of tests/tools/redact/rows, byte for byte. Then what it refuses, and a sample: its report stays, its secrets are
# in no byte of the file, and tshark finds the checksums of what changed right. Then random captures (tests/tools/redacted.py): no secret is delivered of
# what it writes, nor in a payload. CAPTURES is how many (else 300). It wants python3.
set -euo pipefail
cd "$(dirname "$0")/../.."
. tests/lib.sh
if ! can "redacted captures" python3; then close; exit; fi

# capture NAME: makes a capture of that name in the folder `work` from segments on standard input.
capture() { awk -f tests/capture.awk | python3 tests/tools/summed.py > "$work/$1"; }

# both: makes the captures `recorded` and `expected` of segments on standard input. What stands after => in a line is expected of the word before it.
both() {
    cat > "$work/segments"
    sed 's/ => .*//' "$work/segments" | capture recorded
    sed -E 's/ [^ ]+ => / /' "$work/segments" | capture expected
}

# redact CAPTURE WORD..: runs it; `status`, and the files `output` and `faults`, are what came.
redact() {
    local input=$1
    shift
    status=0
    tools/redact "$@" < "$input" > "$work/output" 2> "$work/faults" || status=$?
}

# redacted WHAT COUNTS WORD..: of the capture `recorded` it was to make the capture `expected`, to count COUNTS matches of the patterns, to end with 1
# where one has none, and toxicap was to give both the same report.
redacted() {
    local what=$1 counts=$2 number=0 lines='' due=0 count words
    shift 2
    for count in $counts; do
        words='matches'
        case $count in 0) due=1 ;; 1) words='match' ;; esac
        lines+="redact: pattern $number: $count $words"$'\n'
        number=$((number + 1))
    done
    redact "$work/recorded" "$@"
    verdict "$what" "$(fault $due; told faults "$lines"; byte_difference "$work/expected" "$work/output")"
    cp "$work/output" "$work/redacted"
    run "$work/recorded"
    cp "$work/output" "$work/report"
    run "$work/redacted"
    verdict "$what: the report" "$(well; difference "$work/report" "$work/output")"
}

# refused WHAT CAPTURE LINE WORD..: it was to end with status 2 and this line, and to write nothing.
refused() {
    local what=$1 file=$2 line=$3
    shift 3
    redact "$file" "$@"
    verdict "$what" "$(fault 2; silent output; told faults "redact: $line"$'\n')"
}

awk -v row="$work/row" '/^#/ || !NF { next }
    /^== / { if (!inside) number++; inside = 1; print substr($0, 4) > (row number ".heads"); next }
    { inside = 0; print > (row number ".segments") }' tests/tools/redact/rows
for heads in "$work"/row*.heads; do
    both < "${heads%.heads}.segments"
    while IFS='|' read -r what counts words; do
        eval "words=($words)"
        redacted "${what% }" "$counts" "${words[@]}"
    done < "$heads"
done

# What it does not look into.
outside="pattern 0 matches bytes that are no payload of a TCP segment; \`editcap -F pcap IN OUT"
udp=02000000000202000000000108004500002200004000401100000a0000010a0000029c400035000e0000736563726574
capture others << END
1.000000 c>s SYN 1000 0
record 1.001000 $udp
END
refused "a datagram of UDP" "$work/others" "record 1: $outside 2\` leaves the record out" --text secret
capture others << 'END'
1.000000 c>s vlan 7 vlan 8 PSH ACK 1001 5001 "secret"
END
refused "two tags" "$work/others" "record 0: $outside 1\` leaves the record out" --text secret
redact "$work/others" --text nothing
verdict "two tags, and no match" "$(fault 1; told faults $'redact: pattern 0: 0 matches\n'; byte_difference "$work/others" "$work/output")"

# Files that are none.
classic="standard input is no classic pcap: \`editcap -F pcap IN OUT\` writes one of most captures, also of pcapng and gzipped ones"
head -c 1300 samples/http-get.pcap > "$work/torn"
refused "a torn record" "$work/torn" "the last record of standard input is torn: \`editcap -F pcap IN OUT\` leaves it out" --text secret
head -c 1330 samples/shop.pcap | tail -c 1306 > "$work/others"
refused "no capture" "$work/others" "$classic" --text secret
refused "an empty file" /dev/null "$classic" --text secret
sed '1s/00000001$/00000071/; 1s/ 01000000$/ 71000000/' <(awk -f tests/capture.awk < /dev/null) | python3 tests/tools/summed.py > "$work/others"
refused "another link" "$work/others" "standard input is of link type 113, and Ethernet, 1, is expected: record on an Ethernet interface, tcpdump -i eth0, not any" --text secret
redact /dev/null
verdict "no pattern" "$(fault 2; silent output; grep -q 'error: there is no --text and no --regex$' "$work/faults" || cat "$work/faults")"
redact /dev/null --text xx
verdict "a text that would stay" "$(
    fault 2
    silent output
    grep -q 'error: argument --text: a text needs a byte other than x$' "$work/faults" || cat "$work/faults"
)"
redact /dev/null --regex 'a{99999999999999}'
verdict "a pattern that repeats too often" "$(fault 2; silent output; grep -q 'error: argument --regex: a{99999999999999}: ' "$work/faults" || cat "$work/faults")"
redact /dev/null --regex '('
verdict "a pattern that is none" "$(fault 2; silent output; grep -q 'error: argument --regex: (: missing )' "$work/faults" || cat "$work/faults")"

capture others << 'END'
1.000000 c>s SYN 1000 0
1.001000 c>s PSH ACK 1001 5001 "x"
1.002000 c>s PSH ACK 1002 5001 "a"*900
END
refused "a pattern that matches what it replaced, again and again" "$work/others" \
    "after 100 rounds the patterns still match what they replace, with bytes beside it: write them so that they take these too" --text xa

# A sample: 200 lines of a web server, some over two segments, and three times 96 crowns of Redis.
cp samples/shop.pcap "$work/recorded"
redact "$work/recorded" --text crowns --regex '(?<=User-Agent: )[^\r\n]+' --text 'item 048 costs'
verdict "a sample" "$(
    fault 0
    told faults $'redact: pattern 0: 488 matches\nredact: pattern 1: 1 match\nredact: pattern 2: 1 match\n'
    for secret in crown rowns curl 'item 048 costs'; do [ "$(grep -ac "$secret" "$work/output")" = 0 ] || echo "  $secret is left"; done
    [ "$(stat -c %s "$work/output")" = 20903 ] || echo "  the length is another"
)"
cp "$work/output" "$work/redacted"
for scenario in slow-database mobile-line; do
    run "$work/recorded" --scenario examples/$scenario.json --host redis=10.77.0.3 --seed 7
    cp "$work/output" "$work/report"
    run "$work/redacted" --scenario examples/$scenario.json --host redis=10.77.0.3 --seed 7
    verdict "a sample: the report under $scenario" "$(well; difference "$work/report" "$work/output")"
done
if can "a sample, by tshark" tshark; then
    # fields CAPTURE -e FIELD..: these of each record.
    fields() { tshark -r "$1" -o tcp.check_checksum:TRUE -T fields "${@:2}" 2> /dev/null; }
    others=()
    for field in frame.{time_epoch,len} eth.{src,dst} ip.{id,src,dst} tcp.{srcport,dstport,seq_raw,ack_raw,flags,window_size_value,options,len}; do
        others+=(-e "$field")
    done
    fields "$work/recorded" "${others[@]}" > "$work/expected"
    fields "$work/redacted" "${others[@]}" > "$work/found"
    verdict "a sample: all else, by tshark" "$(difference "$work/expected" "$work/found")"
    paste <(fields "$work/recorded" -e tcp.payload) <(fields "$work/redacted" -e tcp.payload -e tcp.checksum.status) |
        awk -F '\t' '$1 != $2 { print $3 }' | sort | uniq -c > "$work/statuses"
    verdict "a sample: checksums, by tshark" "$(awk '$2 != 1 || $1 != 15 { print "  " $0 }' "$work/statuses"; [ -s "$work/statuses" ] || echo "  none")"
fi

tests/tools/redacted.py "$program" tools/redact "${CAPTURES:-300}" 1 > "$work/random"
tail -n 1 "$work/random"
verdict "random captures" "$(grep -v ' 0 leak one, 0 faults$' "$work/random" || true)"
close
