#!/usr/bin/env bash
# The built program where its calls of the system fail: locks of the folder, reads of large captures, some of the standard streams, and each thread. What
# follows from a failure is proved of any disk and stream; seen here is that these hand it on. And that the program reads and writes whole where a call
# moves few bytes, and hands on how many workers there are and how long a range is.
set -euo pipefail
cd "$(dirname "$0")/../.."
. tests/lib.sh
. tests/program/calls.sh
capture=samples/http-get.pcap
both=(--scenario examples/latency.json --scenario examples/limit_data.json)
files=(0000.pcap 0000.txt 0001.pcap 0001.txt)
folder=$work/folder new=$work/new
mkdir "$new" "$folder"
run "$capture" "${both[@]}" --out "$new"
run "$capture" "${both[@]}"
cp "$work/output" "$work/expected"
od -An -v -tx1 $capture | tr -d ' ' > "$work/dump"
verdict "the full answers are the stored examples" "$(
    { cat examples/latency.txt; sed 's/^scenario 0 /scenario 1 /' examples/limit_data.txt; } | byte_difference - "$work/expected"
    cat "$new"/*.txt | byte_difference - "$work/expected"
    sum_difference "$(sed -n 's/  latency.pcap$//p' examples/captures.sha256)" "$new/0000.pcap"
    sum_difference "$(sed -n 's/  limit_data.pcap$//p' examples/captures.sha256)" "$new/0001.pcap"
)"

# The causes of failures: interrupted (EINTR), a fault of the device (EIO), a write that takes nothing, a folder that another run
# holds (EAGAIN), and a disk without locks (ENOLCK, EOPNOTSUPP).
interrupted=4 device=5 nothing=0 another=11 lockless=(37 95)

# What is at fault with the last run.
# whole: it was to print the full answer.
whole() {
    well
    difference "$work/expected" "$work/output"
}

# stored: it was to store the full answer.
stored() {
    well
    folder_difference "$new" "$folder"
}

# unread: it was to be refused for a read that failed, and to store nothing.
unread() {
    refusal "refused 61 ReadFailed"
    holds "$folder"
}

# unwritten NUMBER: it was to be refused for this write, where each takes `most` bytes, and to print what was written before.
unwritten() {
    fault 1
    told faults $'refused 62 WriteFailed\n'
    head -c $((($1 - 1) * most)) "$work/expected" | byte_difference - "$work/output"
}

# unstored: it was to be refused for a file that could not be stored, and to have the files before it in the folder, and no others.
unstored() {
    local number=0
    while [ $number -lt 4 ] && [ -e "$folder/${files[number]}" ]; do
        byte_difference "$new/${files[number]}" "$folder/${files[number]}"
        number=$((number + 1))
    done
    refusal "refused 60 ShelfFailed after $number"
    holds "$folder" "${files[@]:0:number}"
}

# each WHAT KIND SETTINGS FAULT LAST INPUT [ARGUMENT..]: each call of a kind fails in turn, until a run makes no more of them: FAULT tells
# what is at fault with a run, given the number of the call, and LAST with the last run.
each() {
    local what=$1 kind=$2 settings=$3 is_refused=$4 is_whole=$5 number=0 bad=""
    shift 5
    while [ -z "$bad" ]; do
        number=$((number + 1))
        rm -rf "$folder"
        mkdir "$folder"
        run_with "FAIL=$kind:$number $settings" "$@"
        has_failed || break
        bad=$($is_refused $number)
    done
    [ -n "$bad" ] || bad=$([ $number != 1 ] || echo "  there is no call"; $is_whole)
    verdict "$what" "${bad:+  $kind $number}${bad:+$'\n'}$bad"
    failures=$((failures + number - 1))
}
failures=0

# few bytes a call
run_with MOST=1 "$work/dump" "${both[@]}"
verdict "1 byte a call, a dump" "$(whole)"
run_with MOST=3 /dev/null --capture "$capture" "${both[@]}"
verdict "3 bytes a call, --capture" "$(whole)"

# reads and writes of standard streams
run_with "FAIL=read:3 MOST=64 CAUSE=$interrupted" "$capture"
verdict "a read of standard input is interrupted" "$(unread)"
most=16
run_with "FAIL=write:5 MOST=$most CAUSE=$interrupted" "$capture" "${both[@]}"
verdict "a write to standard output is interrupted" "$(unwritten 5)"
run_with "FAIL=write:5 MOST=$most CAUSE=$nothing" "$capture" "${both[@]}"
verdict "a write to standard output takes nothing" "$(unwritten 5)"
run_with "FAIL=write:3+ MOST=4" /dev/null
verdict "the line of a refusal cannot be written whole" "$(fault 1; told faults "refused ")"

# The disk (failing_disk.sh has each of its calls fail): a run that reads two scenarios and a capture by their paths, and stores four files.
named=(/dev/null --capture "$capture" "${both[@]}" --out "$folder")
each "another holds the folder" lock "CAUSE=$another" unstored stored "${named[@]}"
each "a file cannot be opened by a run that prints" open "CAUSE=$device" unread whole "${named[@]:0:7}"

# A disk without locks: what was left there may be a draft of a run that goes on, so none is removed, and one where a draft is to be made is refused.
# leave NAME: the folder anew, with a file of this name that some run has left.
leave() {
    rm -rf "$folder"
    mkdir "$folder"
    echo left > "$folder/$1"
}
for cause in "${lockless[@]}"; do
    each "a disk without locks, by $cause" lock "CAUSE=$cause" stored stored "${named[@]}"
    leave toxicap.unfinished-0
    run_with "FAIL=lock:1+ CAUSE=$cause" "${named[@]}"
    verdict "a draft that is there, without locks, by $cause" "$(
        refusal "refused 60 ShelfFailed after 0"
        holds "$folder" toxicap.unfinished-0
        echo left | byte_difference - "$folder/toxicap.unfinished-0"
    )"
    leave toxicap.unfinished-1000
    run_with "FAIL=lock:1+ CAUSE=$cause" "${named[@]}"
    verdict "a draft of another number that is there, without locks, by $cause" "$(
        holds "$folder" "${files[@]}" toxicap.unfinished-1000
        echo left | byte_difference - "$folder/toxicap.unfinished-1000"
        rm -f "$folder/toxicap.unfinished-1000"
        stored
    )"
done

# a capture of two blocks, which two threads load where it is stored, and one thread where it is printed: a read fails, and each moves less than it is
# asked for
perl tests/capture.pl 7000 > "$work/blocks.pcap"
run "$work/blocks.pcap" "${both[@]}"
cp "$work/output" "$work/expected-of-blocks"
mkdir "$work/new-of-blocks"
run "$work/blocks.pcap" "${both[@]}" --out "$work/new-of-blocks"
verdict "the full answers are worked out apart" "$(
    for number in 0 1; do
        perl tests/capture.pl 7000 report 0 $number | byte_difference - "$work/new-of-blocks/000$number.txt"
        perl tests/capture.pl 7000 delivered | byte_difference - "$work/new-of-blocks/000$number.pcap"
    done
    cat "$work"/new-of-blocks/*.txt | byte_difference - "$work/expected-of-blocks"
)"
blocks=(/dev/null --capture "$work/blocks.pcap" "${both[@]}" --workers 2)
printed_blocks() {
    well
    difference "$work/expected-of-blocks" "$work/output"
}
stored_blocks() {
    well
    folder_difference "$work/new-of-blocks" "$folder"
}
each "a read of a large capture fails" read "CAUSE=$device" unread printed_blocks "${blocks[@]}"
run_with MOST=100003 "${blocks[@]}"
verdict "100,003 bytes a read of a large capture" "$(printed_blocks)"
run_with MOST=100003 "$work/blocks.pcap" "${both[@]}"
verdict "100,003 bytes a read of a large capture, standard input" "$(printed_blocks)"
each "a read of a block fails" read "CAUSE=$device" unread stored_blocks "${blocks[@]}" --out "$folder"
rm -rf "$folder"
mkdir "$folder"
run_with MOST=100003 "${blocks[@]}" --out "$folder"
verdict "100,003 bytes a read of blocks" "$(stored_blocks)"
rm -rf "$folder"
mkdir "$folder"
run_with FAIL=thread:1+ "${blocks[@]}" --out "$folder"
verdict "no thread can be made to load a block" "$(stored_blocks)"

# Threads that cannot be made leave fewer workers. The words of a plan are handed on: each worker except one has a thread of its own
# where there are ranges for all, and each range of records takes memory of its own.
each "a thread cannot be made" thread "" whole whole "$capture" "${both[@]}" --workers 4 --cut 3
each "a thread cannot be made, stored" thread "" stored stored "$capture" "${both[@]}" --workers 4 --cut 3 --out "$folder"
run_with FAIL=thread:1+ "$capture" "${both[@]}" --workers 16 --cut 1
verdict "no thread can be made" "$(whole)"

# taken KIND [ARGUMENT..]: how many calls of a kind a run makes.
taken() {
    local kind=$1
    shift
    run_with "" "$capture" "${both[@]}" "$@"
    count "$kind"
}

# rise WHAT NUMBER..: numbers of which each is above the one before.
rise() {
    local what=$1
    shift
    verdict "$what" "$(printf '%s\n' "$@" | sort -c -u -n 2>&1 || true)"
}
rise "growths of one range, and of ranges of 6 to 1" "$(taken growth)" "$(for cut in 6 4 3 2 1; do taken growth --cut $cut; done)"
echo "$failures calls failed"
close
