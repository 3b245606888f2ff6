#!/usr/bin/env bash
# What the built program says on a terminal and nowhere else: that it reads its standard input, how many scenarios are stored, and a tip after a fault of
# the command line (by TOXICAP_HINTS=1 elsewhere too). What helps after refusals is in remedies.sh, what reports hide in summaries.sh.
set -euo pipefail
cd "$(dirname "$0")/../.."
. tests/lib.sh
. tests/program/typed.sh
reading='toxicap: reading the capture from standard input; --capture names a file'
shop='toxicap: scenario 0: 4 connections, 1 with a proxy; times in microseconds\r\n'
folder=$work/folder
three=(--capture samples/shop.pcap --scenario examples/latency.json --scenario examples/timeout.json --scenario examples/slicer.json)

# anew: the folder without files.
anew() {
    rm -rf "$folder"
    mkdir "$folder"
}

short='refused 1 ShortHeader\r\ntoxicap: standard input has fewer than 24 bytes: the recording was stopped too early, or it is another file\r\n'
verdict "standard input is a terminal" "$(said "$reading\r\n$short" "'$program'")"
verdict "standard error is none" "$(said '' "'$program' 2> '$work/faults'"; grep -vx 'refused 1 ShortHeader' "$work/faults" || true)"
verdict "standard input is none" "$(said "$short" "'$program' < /dev/null")"
verdict "the version" "$(said 'toxicap 1.0.0\r\n' "'$program' -V")"
verdict "the help" "$(said '' "'$program' --help > '$work/help'")"
verdict "a fault of the command line" "$(said "error: invalid value '17' for '--workers <N>': 17 is not in 1..=16\r\n\r\nFor more information, try '--help'.\r\n" "'$program' --workers 17")"

# tips TIP WORDS: on a terminal, or by TOXICAP_HINTS, this tip stands after what is told elsewhere of a fault of these words.
tips() {
    eval "'$program' $2" 2> "$work/faults" || true
    verdict "a tip: $1" "$(
        said "$(sed 's/$/\\r\\n/' "$work/faults" | tr -d '\n')tip: $1\r\n" "'$program' $2"
        eval "TOXICAP_HINTS=1 '$program' $2" 2>&1 | diff <(cat "$work/faults"; echo "tip: $1") - || true
    )"
}
ranges='--seed takes a whole number from 0 to 18446744073709551615, --workers from 1 to 16, --cut from 1 to 1048576'
tips 'pass the capture with --capture x.pcap' x.pcap
tips 'pass the capture with --capture too large.pcap' "'too large.pcap'"
tips 'pass the scenario with --scenario cut.json' '--capture x.pcap cut.json'
tips 'more.pcap is left over: a value with spaces needs quotes, and each of several scenarios a --scenario' '--capture x.pcap more.pcap'
tips "$ranges" '--seed -1'
tips "$ranges" '--seed x'
tips "$ranges" '--seed 18446744073709551616'

anew
verdict "three scenarios are counted" "$(said "stored 1 of 3\rstored 2 of 3\rstored 3 of 3\r\n$shop" "'$program' ${three[*]} --out '$folder'")"
cp -r "$folder" "$work/counted"
anew
verdict "by four workers too" "$(said "stored 1 of 3\rstored 2 of 3\rstored 3 of 3\r\n$shop" "'$program' ${three[*]} --out '$folder' --workers 4")"
anew
verdict "one scenario is not" "$(said "${shop/scenario 0: /}" "'$program' --capture samples/shop.pcap --scenario examples/latency.json --out '$folder'")"
verdict "reports are not" "$(said "$shop" "'$program' ${three[*]} > '$work/output'")"
anew
verdict "where standard error is a file" "$(said '' "'$program' ${three[*]} --out '$folder' 2> '$work/faults'"; cat "$work/faults")"
anew
mkdir "$folder/0001.txt"
verdict "a refusal is written over the count" "$(
    said 'stored 1 of 3\rrefused 60 ShelfFailed after 3\r\ntoxicap: '"$folder"'/0001.txt is a folder: move it, or choose another --out\r\n' \
        "'$program' ${three[*]} --out '$folder'"
)"

anew
run /dev/null "${three[@]}" --out "$folder"
verdict "without a terminal nothing is said" "$(fault 0; cat "$work/output" "$work/faults"; diff -r "$work/counted" "$folder" || true)"
for hints in 1 0; do
    anew
    TOXICAP_HINTS=$hints run /dev/null "${three[@]}" --out "$folder"
    expected=''
    [ $hints = 0 ] || expected=${shop/\\r\\n/$'\n'}
    verdict "an answer, TOXICAP_HINTS=$hints" "$(fault 0; silent output; told faults "$expected"; diff -r "$work/counted" "$folder" || true)"
done
TOXICAP_HINTS=0 run /dev/null
verdict "a refusal, TOXICAP_HINTS=0" "$(refusal 'refused 1 ShortHeader')"
close
