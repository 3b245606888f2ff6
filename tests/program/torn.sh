#!/usr/bin/env bash
# The plain session (519 bytes, seven records) over the built program: its first bytes, up to each place in turn, and frames of it with a
# byte changed.
set -euo pipefail
cd "$(dirname "$0")/../.."
. tests/lib.sh
session=crates/library_example/stdin
written=crates/library_example/stdout
mkdir "$work/folder"

# change FILE PLACE BYTES: writes bytes, as \x00, over those of a file from a place on.
change() { printf '%b' "$3" | dd of="$1" bs=1 seek="$2" conv=notrunc status=none; }

# counted RECORDS REST SEGMENTS CLASS: the first line of a report; the records that are no segments are all of this class.
counted() {
    local class
    printf 'scenario 0 records %s rest %s segment %s' "$1" "$2" "$3"
    for class in short notipv4 badipv4 fragment nottcp cut badtcp sameends; do
        if [ "$class" = "$4" ]; then printf ' %s %s' "$class" $(($1 - $3)); else printf ' %s 0' $class; fi
    done
    echo
}

# Where the header and each record end; and after each number of records, how long the written capture is, and how both lines stand.
ends=(24 94 164 234 309 379 449 519)
lens=(24 234 234 234 309 379 449 449)
opened="up 0/0/0 open max 0 down 0/0/0 open max 0"
both=(none "$opened" "$opened" "$opened" "up 5/5/0 open max 0 down 0/0/0 open max 0" "up 5/5/0 fin+2000 max 0 down 0/0/0 open max 0")
both+=("up 5/5/0 fin+2000 max 0 down 0/0/0 fin+3000 max 0" "up 5/5/0 fin+2000 max 0 down 0/0/0 fin+3000 max 0")

# The written capture after a number of records is a first part of the whole one. After the first record alone the server has no number of its
# own: its answer has 0, and the client acknowledges 1.
for records in 0 1 2 3 4 5 6 7; do head -c "${lens[records]}" "$written" > "$work/$records.pcap"; done
change "$work/1.pcap" 148 '\x00\x00\x00\x00'
change "$work/1.pcap" 160 '\xfb\x56'
change "$work/1.pcap" 222 '\x00\x00\x00\x01'
change "$work/1.pcap" 230 '\xfb\x57'

# refused: what is at fault with the last run, which was to be refused as too short.
refused() {
    refusal "refused 1 ShortHeader"
    holds "$work/folder"
}

# answered RECORDS REST: what is at fault with the last run, which was to find RECORDS records of the session, and REST bytes after them.
answered() {
    {
        counted "$1" "$2" "$1" none
        if [ "$1" = 0 ]; then echo "connections 0 unopened 0"; else
            printf 'connections 1 unopened 0\n0 10.0.0.1:40000 > 10.0.0.2:80 proxy - %s\n' "${both[$1]}"
        fi
    } > "$work/expected"
    well
    difference "$work/expected" "$work/folder/0000.txt"
    byte_difference "$work/$1.pcap" "$work/folder/0000.pcap"
}

records=0 bad=""
for ((len = 0; len <= 519; len++)); do
    head -c $len $session > "$work/front"
    rm -f "$work/folder"/*
    run "$work/front" --out "$work/folder"
    [ $records = 7 ] || [ $len -lt "${ends[records + 1]}" ] || records=$((records + 1))
    if [ $len -lt 24 ]; then fault=$(refused); else fault=$(answered $records $((len - ends[records]))); fi
    bad+=${fault:+"  the first $len bytes:"$'\n'$fault$'\n'}
done
verdict "the first bytes of the session, up to each place" "$bad"

# changed PLACE DIGITS CLASS: with this byte of the first frame changed, its record is of this class, and the session is not opened.
changed() {
    cp $session "$work/changed"
    change "$work/changed" $((40 + $1)) "\x$2"
    run "$work/changed"
    { counted 7 0 6 "$3"; echo "connections 0 unopened 6"; } > "$work/expected"
    verdict "byte $1 is $2" "$(well; difference "$work/expected" "$work/output")"
}

# the length of the datagram: without a whole TCP header, without a whole IPv4 header, past the packet; the length of the TCP header, past it
changed 17 27 badtcp
changed 17 14 badtcp
changed 17 13 badipv4
changed 17 29 cut
changed 46 f0 badtcp
# the type of a tag, another type, another version, a header of four words, a fragment, another protocol, headers of 4 and 6 words
changed 12 81 notipv4
changed 13 06 notipv4
changed 14 65 badipv4
changed 14 44 badipv4
changed 20 20 fragment
changed 23 11 nottcp
changed 46 40 badtcp
changed 46 60 badtcp
close
