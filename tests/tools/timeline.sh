#!/usr/bin/env bash
# tools/timeline: its bytes, ends and marks are those of the stored reports, over the examples and the rows; docs/use/delivered.svg and the README's docs/use/cut.svg are what it makes;
# each capture that the program did not write is refused in a line. It wants python3.
set -euo pipefail
cd "$(dirname "$0")/../.."
. tests/lib.sh
if ! can "tools/timeline" python3; then
    close
    exit
fi
timeline=$PWD/tools/timeline judge=$PWD/tests/tools/timeline.py

# alike WHAT REPORT INPUT [ARGUMENT..]: runs the program; the timelines of its captures, one after another, have what the report has.
alike() {
    local what=$1 report capture number=0
    report=$(realpath "$2")
    rm -rf "$work/outputs"
    mkdir "$work/outputs"
    run "$3" "${@:4}" --out "$work/outputs"
    verdict "$what" "$(
        well
        for capture in "$work"/outputs/*.pcap; do
            awk -v number=$number '$1 == "scenario" { taken = $2 == number } taken' "$report" > "$work/report"
            "$timeline" "$capture" > "$work/svg" 2>&1 || cat "$work/svg"
            python3 "$judge" "$work/svg" "$work/report" "$capture" 2>&1 || true
            number=$((number + 1))
        done
    )"
}

# the commands that examples/README.md shows, with the reports beside the scenarios
grep '^toxicap .*--scenario examples/' examples/README.md | grep -v '[|>]' > "$work/commands"
while read -r _ _ sample arguments; do
    read -ra words <<< "$arguments"
    name=$(basename "${words[1]}" .json)
    [ "$name" != flapping-drops ] || name=flapping
    alike "$name" "examples/$name.txt" "$sample" "${words[@]}"
done < "$work/commands"
verdict "examples" "$([ "$(wc -l < "$work/commands")" -ge 12 ] || echo "  fewer than twelve")"

# the rows, but for those of thousands of segments that a script prints, and that in which nothing is written of a connection, at the horizon
for folder in tests/rows/*/; do
    row=$PWD/${folder%/} arguments=()
    if [ ! -f "$row/report" ] || [ -f "$row/segments.awk" ] || [ "${row##*/}" = at-the-horizon ]; then continue; fi
    if [ -f "$row/dump" ]; then cp "$row/dump" "$work/dump"; else awk -f tests/capture.awk "$row/segments" > "$work/dump"; fi
    [ ! -f "$row/arguments" ] || mapfile -t arguments < "$row/arguments"
    pushd "$row" > /dev/null
    alike "row $(basename "$row")" report "$work/dump" "${arguments[@]}"
    popd > /dev/null
done

# bytes of a connection that come after the same peers opened another one
awk -f tests/capture.awk > "$work/dump" << 'END'
1.000000 c>s SYN 1000 0
1.100000 s>c SYN ACK 5000 1001
1.200000 s>c PSH ACK 5001 1001 "first"
2.000000 c>s SYN 9000 0
2.100000 s>c SYN ACK 7000 9001
2.200000 s>c PSH ACK 7001 9001 "other"
2.300000 s>c RST ACK 7006 9001
END
echo '[{"name":"late","upstream":"10.0.0.2:80","toxics":[{"type":"latency","attributes":{"latency":3000}}]}]' > "$work/late.json"
cat > "$work/expected" << 'END'
0 10.0.0.1:40000 > 10.0.0.2:80 proxy 0 up 0/0/0 open max 0 down 5/5/0 open max 3000000
1 10.0.0.1:40000 > 10.0.0.2:80 proxy 0 up 0/0/0 reset+300000 max 0 down 0/5/0 reset+300000 max 0
END
sed -i '1i scenario 0' "$work/expected"
alike "two connections of one pair" "$work/expected" "$work/dump" --scenario "$work/late.json"

# the picture of the documents
mkdir "$work"/{recorded,mobile-line}
run /dev/null --capture samples/shop.pcap --out "$work/recorded"
run /dev/null --capture samples/shop.pcap --scenario examples/mobile-line.json --seed 7 --out "$work/mobile-line"
(cd "$work" && "$timeline" --connection 1 recorded/0000.pcap mobile-line/0000.pcap) > "$work/delivered.svg"
verdict "docs/use/delivered.svg" "$(well; byte_difference docs/use/delivered.svg "$work/delivered.svg")"
mkdir "$work"/{as-recorded,cut}
sed -n '/^cat > cut.json/,/^END$/p' README.md | sed '1d; $d' > "$work/cut.json"
run samples/http-get.pcap --out "$work/as-recorded"
run samples/http-get.pcap --scenario "$work/cut.json" --out "$work/cut"
(cd "$work" && "$timeline" as-recorded/0000.pcap cut/0000.pcap) > "$work/cut.svg"
verdict "docs/use/cut.svg" "$(well; byte_difference docs/use/cut.svg "$work/cut.svg")"
"$timeline" --connection 1 "$work/mobile-line/0000.pcap" > "$work/one.svg"
awk '$1 == "scenario" || $1 == 1' examples/mobile-line.txt > "$work/report"
verdict "one connection" "$(python3 "$judge" "$work/one.svg" "$work/report" "$work/mobile-line/0000.pcap")"

# A close of the report, of 3610 microseconds, is a FIN of the output capture.
mkdir "$work/closed"
run samples/http-get.pcap --scenario examples/limit_data.json --out "$work/closed"
"$timeline" "$work/closed/0000.pcap" > "$work/one.svg"
verdict "a close is drawn as FIN" "$(
    well
    grep -q ' down 100/216/0 close+3610 ' "$work/closed/0000.txt" || cat "$work/closed/0000.txt"
    [ "$(grep -c 'FIN 3.610 ms' "$work/one.svg")" = 2 ] || grep '<text' "$work/one.svg"
)"

# refuses WHAT LINE ARGUMENT..: nothing is drawn, for this reason.
refuses() {
    local what=$1 line=$2
    shift 2
    status=0
    "$timeline" "$@" > "$work/output" 2> "$work/faults" || status=$?
    sed -i "s|$work/||g" "$work/faults"
    verdict "$what" "$(fault 2; silent output; told faults "timeline: $line"$'\n')"
}
here=$work/recorded/0000.pcap
head -c 100 "$here" > "$work/torn"
run samples/http-get.pcap --out "$work/mobile-line"
no="is no output capture of toxicap" first="(a recording is to be rehearsed first, under the scenario [])"
refuses "no capture" "examples/latency.json $no: it has another file header $first" examples/latency.json
refuses "a recording" "samples/shop.pcap $no: it has another file header $first" samples/shop.pcap
refuses "a capture that is torn" "torn $no: record 1: it is cut, or no TCP segment $first" "$work/torn"
refuses "captures of other sessions" "recorded/0000.pcap and mobile-line/0000.pcap are not of the same sessions" "$here" "$work/mobile-line/0000.pcap"
refuses "a connection that is not there" "recorded/0000.pcap has no connection 4: it has 4" --connection 4 "$here"
refuses "no file" "absent: No such file or directory" "$work/absent"
close
