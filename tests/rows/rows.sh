#!/usr/bin/env bash
# The rows of tests/rows: each folder is a run of the built program, whole files in and out. A row has
#     segments, segments.awk or dump    the capture: segments of capture.awk, a script that prints such, or hexadecimal text
#     arguments                         the words of the command line, one a line; paths count from the folder
#     report, 0000.hex ..               what has to be printed, and the output captures
#     report.sha256, 0000.sha256 ..     the sums of those of over 4,000 bytes
#     fault                             in place of these: the line of a refusal
#     about                             what it shows, and where its values come from
# Each is run by 1, 2, 4 and 16 workers in ranges of 1, 2, 3 and 4,096 records, and once without any of that; the words of a plan come last.
# Captures of segments are run so in the other byte order too: the answer is the same.
set -euo pipefail
cd "$(dirname "$0")/../.."
. tests/lib.sh

# dump ROW [-v turned=1]: the row's capture, as hexadecimal text; one of segments in the other byte order if told so.
dump() {
    local row=$1
    shift
    if [ -f "$row/dump" ]; then cat "$row/dump"
    elif [ -f "$row/segments" ]; then awk "$@" -f tests/capture.awk "$row/segments"
    else awk -f "$row/segments.awk" < /dev/null | awk "$@" -f tests/capture.awk; fi
}

# reported ROW FILE: what is at fault with a file that was to be the row's report.
reported() {
    if [ -f "$1/report" ]; then difference "$1/report" "$2"; else sum_difference "$(cat "$1/report.sha256")" "$2"; fi
}

# printed ROW: what is at fault with what was printed and told.
printed() {
    if [ -f "$1/fault" ]; then
        refusal "$(cat "$1/fault")"
    else
        well
        reported "$1" "$work/output"
    fi
}

# expected ROW: the names and sums of the row's output captures, as sha256sum tells them.
expected() {
    local capture name
    for capture in "$1"/0*.hex "$1"/0*.sha256; do
        [ -f "$capture" ] || continue
        name=$(basename "${capture%.*}").pcap
        case $capture in
            *.hex) tr -d ' \n' < "$capture" | tr a-f A-F | basenc -d --base16 | sha256sum | sed "s/-\$/$name/" ;;
            *) echo "$(cat "$capture")  $name" ;;
        esac
    done | sort -k 2
}

# stored ROW: what is at fault with the files in the folder `outputs`; captures that are small and another are shown.
stored() {
    local name
    well
    silent output
    cat "$work"/outputs/*.txt > "$work/reports"
    reported "$1" "$work/reports"
    (cd "$work/outputs" && sha256sum -- *.pcap) > "$work/sums"
    ! cmp -s "$work/expected" "$work/sums" || return 0
    difference "$work/expected" "$work/sums"
    comm -13 <(sort "$work/expected") <(sort "$work/sums") | while read -r _ name; do
        [ ! -f "$1/${name%.pcap}.hex" ] || od -An -v -tx1 "$work/outputs/$name"
    done
}

# once ROW CAPTURE WORD..: runs a row with these words after its own.
once() {
    local arguments=() capture=$2
    [ ! -f "$1/arguments" ] || mapfile -t arguments < "$1/arguments"
    pushd "$1" > /dev/null
    run "$capture" "${arguments[@]}" "${@:3}"
    popd > /dev/null
}

# row ROW CAPTURE NAME: runs a row under all plans, over its capture in this file.
row() {
    local workers cut
    once "$1" "$2"
    verdict "$3" "$(printed "$1")"
    [ ! -f "$1/fault" ] || return 0
    expected "$1" > "$work/expected"
    for workers in 1 2 4 16; do
        for cut in 1 2 3 4096; do
            rm -rf "$work/outputs"
            mkdir "$work/outputs"
            once "$1" "$2" --out "$work/outputs" --workers $workers --cut $cut
            verdict "$3 by $workers workers, ranges of $cut" "$(stored "$1")"
        done
    done
}

for folder in tests/rows/*/; do
    folder=${folder%/}
    dump "$folder" > "$work/dump"
    row "$folder" "$work/dump" "${folder##*/}"
    [ ! -f "$folder/dump" ] || continue
    dump "$folder" -v turned=1 > "$work/turned"
    row "$folder" "$work/turned" "${folder##*/} in the other byte order"
done
close
