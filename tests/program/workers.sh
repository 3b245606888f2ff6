#!/usr/bin/env bash
# Workers of the built program: how many threads are made in each phase of a run, by 1 to 16 workers; and that no byte depends on how many they are, in
# what is printed and in what is stored: it is what was worked out apart from the program. 40 scenarios are stored as each of them is alone, and a
# capture of 45 MB, whose blocks are loaded by threads where it is stored, gives what it gives as standard input. One has 100,000 connections.
set -euo pipefail
cd "$(dirname "$0")/../.."
. tests/lib.sh
. tests/program/calls.sh
capture=samples/shop.pcap
folder=$work/folder

# anew FOLDER: the folder without files.
anew() {
    rm -rf "$1"
    mkdir "$1"
}

# least ONE OTHER: the lesser of two numbers.
least() { echo $(($1 < $2 ? $1 : $2)); }

# expected BLOCKS RANGES CONNECTIONS SCENARIOS printed|stored WORKERS: how many threads each phase is to make, by docs/internals/architecture.md (the way of the
# program). One of the workers is the thread that is there, and there are no more workers than jobs. The phases and their jobs: where files are
# stored, a named file of several blocks is loaded; the table is made, by ranges; then the lines of all printed reports, or what is recorded, by
# connections. Where files are stored, drafts are made of as many scenarios as twice the workers, or as are left, each a job; of a last one by
# connections.
expected() {
    local blocks=$1 ranges=$2 connections=$3 left=$4 where=$5 workers=$6 jobs=() count made all=()
    [ "$where" = printed ] || jobs+=("$blocks")
    jobs+=("$ranges" "$connections")
    [ "$where" != printed ] || left=0
    while [ "$left" -gt 0 ]; do
        count=$(least "$left" $((2 * workers)))
        if [ "$count" = 1 ]; then jobs+=("$connections"); else jobs+=("$count"); fi
        left=$((left - count))
    done
    for count in "${jobs[@]}"; do
        made=$(($(least "$count" "$workers") - 1))
        [ "$made" -le 0 ] || all+=("$made")
    done
    printf '%s' "${all[*]}"
}

run_with "" /dev/null -V
is_counted=yes
can_count "threads" || is_counted=no

# threads BLOCKS RANGES CONNECTIONS SCENARIOS printed|stored WORKERS: what is at fault with the threads of the last run.
threads() {
    local due made
    [ $is_counted = yes ] || return 0
    due=$(expected "$@")
    made=$(phases)
    [ "$due" = "$made" ] || printf '  threads of each phase, expected: %s\n  threads of each phase, made:     %s\n' "${due:-none}" "${made:-none}"
}

# scenario NUMBER: one of many, of which each has other delays and slices; both are drawn at random.
scenario() {
    printf '[{"name":"web","upstream":"10.77.0.2:80","toxics":[{"type":"latency","attributes":{"latency":%s,"jitter":9}}]},' $((10 + $1))
    printf '{"name":"redis","upstream":"10.77.0.3:6379","toxics":['
    printf '{"type":"slicer","stream":"upstream","attributes":{"average_size":%s,"size_variation":5,"delay":%s}}]}]' $((20 + $1)) $((1 + $1))
}
many=() bare=()
echo '[]' > "$work/bare.json"
for ((number = 0; number < 40; number++)); do
    scenario $number > "$work/$number.json"
    many+=(--scenario "$work/$number.json")
    bare+=(--scenario "$work/bare.json")
done

# worked_out CAPTURE COUNT: the first COUNT scenarios, over a capture, by tests/rows/expected.py, in the folder `apart`; nothing is there where
# it can't be run.
is_apart=yes
can "worked out apart" python3 || is_apart=no
worked_out() {
    local number scenarios=()
    anew "$work/apart"
    [ $is_apart = yes ] || return 0
    for ((number = 0; number < $2; number++)); do scenarios+=("$work/$number.json"); done
    python3 tests/rows/expected.py --stored "$work/apart" "$1" "${scenarios[@]}"
}

# as_apart FOLDER: what is at fault with stored files that were to be those of the folder `apart`.
as_apart() { [ $is_apart = no ] || folder_difference "$work/apart" "$1"; }

# by_workers NAME CAPTURE RANGES CONNECTIONS: by 1 to 16 workers, in ranges of 6 records: three reports printed; one scenario stored, and seven.
by_workers() {
    local name=$1 capture=$2 ranges=$3 connections=$4 workers
    anew "$work/one"
    anew "$work/seven"
    run "$capture" "${many[@]:0:6}"
    cp "$work/output" "$work/three"
    run "$capture" "${many[@]:0:2}" --out "$work/one"
    run "$capture" "${many[@]:0:14}" --out "$work/seven"
    worked_out "$capture" 7
    verdict "$name: worked out apart" "$(
        well
        as_apart "$work/seven"
        for file in "$work"/one/*; do byte_difference "$work/seven/${file##*/}" "$file"; done
        cat "$work"/seven/000[012].txt | byte_difference - "$work/three"
    )"
    for ((workers = 1; workers <= 16; workers++)); do
        run_with "" "$capture" "${many[@]:0:6}" --workers $workers --cut 6
        verdict "$name: three reports by $workers workers" "$(
            well
            threads 0 "$ranges" "$connections" 3 printed $workers
            difference "$work/three" "$work/output"
        )"
        anew "$folder"
        run_with "" "$capture" "${many[@]:0:2}" --workers $workers --cut 6 --out "$folder"
        verdict "$name: one scenario stored by $workers workers" "$(
            well
            threads 0 "$ranges" "$connections" 1 stored $workers
            folder_difference "$work/one" "$folder"
        )"
        anew "$folder"
        run_with "" "$capture" "${many[@]:0:14}" --workers $workers --cut 6 --out "$folder"
        verdict "$name: seven scenarios stored by $workers workers" "$(
            well
            threads 0 "$ranges" "$connections" 7 stored $workers
            folder_difference "$work/seven" "$folder"
        )"
    done
}
perl tests/capture.pl 20x3 > "$work/twenty.pcap"
by_workers "64 records, 4 connections" "$capture" 11 4
by_workers "60 records, 20 connections" "$work/twenty.pcap" 10 20

# Each of 40 scenarios alone, by one worker, after as many without proxies as its number; and all of them by 16, the first eight by 4.
anew "$work/forty"
for ((number = 0; number < 40; number++)); do
    anew "$folder"
    run "$capture" "${bare[@]:0:2*number}" "${many[@]:2*number:2}" --out "$folder"
    mv "$folder/$(printf '%04d' $number)".* "$work/forty"
done
worked_out "$capture" 40
verdict "40 scenarios, worked out apart" "$(as_apart "$work/forty")"
verdict "40 scenarios that differ" "$([ "$(sha256sum "$work"/forty/*.pcap | cut -d ' ' -f 1 | sort -u | wc -l)" = 40 ] || echo '  two have the same capture')"
anew "$folder"
run_with "" "$capture" "${many[@]}" --workers 16 --out "$folder"
verdict "40 scenarios by 16 workers" "$(well; threads 0 1 4 40 stored 16; folder_difference "$work/forty" "$folder")"
anew "$folder"
run_with "" "$capture" "${many[@]:0:16}" --workers 4 --out "$folder"
rm "$work"/forty/000[89].* "$work"/forty/00[123]*
verdict "8 scenarios by 4 workers" "$(well; threads 0 1 4 8 stored 4; folder_difference "$work/forty" "$folder")"

# A capture of 45 MB, which is six blocks, nine ranges and one connection, from standard input and by its name: the report and the stored capture are
# those of tests/capture.pl.
perl tests/capture.pl 34100 > "$work/six.pcap"
perl tests/capture.pl 34100 report > "$work/report"
perl tests/capture.pl 34100 delivered > "$work/delivered"

# six BLOCKS WORKERS INPUT [WORD..]: the verdicts on the capture, printed and stored, of which BLOCKS blocks are loaded by workers.
six() {
    local blocks=$1 workers=$2 input=$3 name="45 MB by $2 workers${4:+, named}"
    shift 3
    run_with "" "$input" --workers "$workers" "$@"
    verdict "$name" "$(well; threads "$blocks" 9 1 1 printed "$workers"; difference "$work/report" "$work/output")"
    anew "$folder"
    run_with "" "$input" --workers "$workers" "$@" --out "$folder"
    verdict "$name, stored" "$(
        well
        threads "$blocks" 9 1 1 stored "$workers"
        holds "$folder" 0000.pcap 0000.txt
        difference "$work/report" "$folder/0000.txt"
        byte_difference "$work/delivered" "$folder/0000.pcap"
    )"
}
for workers in 1 2 5; do
    six 0 $workers "$work/six.pcap"
    six 6 $workers /dev/null --capture "$work/six.pcap"
done
for workers in 9 16; do
    run_with "" /dev/null --capture "$work/six.pcap" --workers $workers
    verdict "45 MB by $workers workers, named" "$(well; threads 6 9 1 1 printed $workers; difference "$work/report" "$work/output")"
done
rm -f "$work"/six.pcap "$work"/delivered "$folder"/*

# Each kind of jobs, with four scenarios, and with a fifth that is left after a round of two workers: the blocks of a capture of 29 MB, 15 ranges of
# its records, the recorded lines of 20,000 connections, the drafts of each scenario or the connections of the one that is left; or all reports.
# A kind of jobs that one thread does alone is found.
perl tests/capture.pl 20000x3x1250 > "$work/four.pcap"
for workers in 1 2 3 4 5 16; do
    run_with "" /dev/null --capture "$work/four.pcap" "${bare[@]:0:8}" --workers $workers
    [ $workers != 1 ] || cp "$work/output" "$work/four"
    verdict "four scenarios by $workers workers" "$(well; threads 0 15 20000 4 printed $workers; byte_difference "$work/four" "$work/output")"
    for count in 4 5; do
        anew "$folder"
        run_with "" /dev/null --capture "$work/four.pcap" "${bare[@]:0:2*count}" --workers $workers --out "$folder"
        verdict "$count scenarios of 29 MB stored by $workers workers" "$(
            well
            threads 4 15 20000 $count stored $workers
            cat "$folder"/000[0-3].txt | byte_difference "$work/four" -
            sha256sum "$folder"/*.pcap | cut -d ' ' -f 1 | uniq | tail -n +2
        )"
    done
done
rm -f "$work"/four* "$folder"/*

# 100,000 connections, of 300,000 records in 74 ranges, which are three blocks.
for what in recorded report delivered; do perl tests/capture.pl 100000x3 $what > "$work/$what" & done
wait
for workers in 1 2 4 16; do
    run_with "" /dev/null --capture "$work/recorded" --workers $workers
    verdict "100,000 connections by $workers workers" "$(
        well
        threads 0 74 100000 1 printed $workers
        byte_difference "$work/report" "$work/output"
    )"
    anew "$folder"
    run_with "" /dev/null --capture "$work/recorded" --workers $workers --out "$folder"
    verdict "100,000 connections by $workers workers, stored" "$(
        well
        threads 3 74 100000 1 stored $workers
        holds "$folder" 0000.pcap 0000.txt
        byte_difference "$work/report" "$folder/0000.txt"
        byte_difference "$work/delivered" "$folder/0000.pcap"
    )"
done
close
