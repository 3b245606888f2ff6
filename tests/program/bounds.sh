#!/usr/bin/env bash
# What some large runs of the built program may take: of time, of memory, and of writes.
set -euo pipefail
cd "$(dirname "$0")/../.."
. tests/lib.sh
. tests/program/calls.sh
. tests/program/sizes.sh

# 100,000 connections, each of a pair of its own, in three rounds; and 400,000 openings
for what in recorded report delivered; do perl tests/capture.pl 100000x3 $what > "$work/pairs.$what" & done
perl tests/capture.pl 400000x1 > "$work/openings"
wait
# Stored, they take a third of a second of a processor, and have two. A table that is made fifty times would take four. Ranges of one record, each
# with a table of its own, are joined in order; two scenarios take the table once and the rest twice.
within "100,000 pairs, stored" 2 200000 "$work/pairs.delivered" "$work/stored/0000.pcap" "$work/pairs.recorded" --out "$work/stored"
within "100,000 pairs, ranges of one record" 2 unlimited "$work/pairs.report" "$work/output" "$work/pairs.recorded" --cut 1
two=(--scenario examples/latency.json --scenario examples/slicer.json)
within "100,000 pairs, two scenarios" 2 unlimited "$work/pairs.delivered" "$work/stored/0001.pcap" "$work/pairs.recorded" "${two[@]}" \
    --out "$work/stored"
verdict "100,000 pairs, the first of two scenarios" "$(byte_difference "$work/pairs.delivered" "$work/stored/0000.pcap")"

# A report is written text by text. Each write of these 9 MB fails in turn: a first part is written then, and nothing after it.
# cut_short BEFORE: what is at fault with a run of which a write failed. The run before, of one write fewer, has written BEFORE bytes.
cut_short() {
    local size
    size=$(stat -c %s "$work/output")
    fault 1
    told faults $'refused 62 WriteFailed\n'
    [ "$size" -gt "$1" ] || echo "  bytes written: $size, by a write fewer: $1"
    head -c "$size" "$work/pairs.report" | byte_difference - "$work/output"
}
run_with "" "$work/pairs.recorded"
if can_count "9 MB of which each write fails"; then
    writes=$(count write) before=-1 bad=""
    for ((number = 1; number <= writes; number++)); do
        run_with "FAIL=write:$number" "$work/pairs.recorded"
        bad+=$(cut_short "$before")
        before=$(stat -c %s "$work/output")
    done
    verdict "9 MB of which each write fails" "$([ "$writes" -gt 9 ] || echo "  writes: $writes")$bad"
fi

# 400,000 openings take less than a second of a processor, and have three. A list of their pairs would take 96 seconds, and 16 lists would take six.
perl tests/capture.pl 400000x1 report > "$work/openings.report"
within "400,000 pairs" 3 unlimited "$work/openings.report" "$work/output" /dev/null --capture "$work/openings"

# Of a capture that is printed heads alone are kept, so its 45 MB take no more than 24 MB of addresses with all else; by its name, and through a pipe
# that gives it in small parts.
perl tests/capture.pl 34100 > "$work/six.pcap"
perl tests/capture.pl 34100 report > "$work/six.report"
limit=$(ulimit -S -v)
ulimit -S -v 24000
run_with GLIBC_TUNABLES=glibc.malloc.arena_max=1 /dev/null --capture "$work/six.pcap" --workers 2
ulimit -S -v "$limit"
verdict "45 MB printed in little memory" "$(well; byte_difference "$work/six.report" "$work/output")"
status=0
dd if="$work/six.pcap" bs=997 status=none | timeout "$patience" "$program" > "$work/output" 2> "$work/faults" || status=$?
verdict "45 MB printed in parts of 997 bytes" "$(well; byte_difference "$work/six.report" "$work/output")"

# Its dump has 90 MB.
perl tests/capture.pl 34100 delivered > "$work/six.delivered"
perl -0777 -ne 'print unpack "H*", $_' "$work/six.pcap" > "$work/six.dump"
within "a dump of 90 MB" 2 unlimited "$work/six.report" "$work/output" "$work/six.dump"
within "45 MB of standard input" 1 24000 "$work/six.report" "$work/output" "$work/six.pcap"
whole "a dump of 90 MB by 2 workers" six /dev/null --capture "$work/six.dump" --workers 2
whole "a dump of 90 MB" six "$work/six.dump"
rm "$work/six.dump"

# All reports are made before the first is printed: 64 of them, with 22 MB together, take no more than 54 MB of addresses with all else. One worker takes
# 28 MB, and two take up to 46 MB, as one waits with what it has made. Each report is as it is alone, except its number.
perl tests/capture.pl 4000x3 > "$work/pairs.few"
run "$work/pairs.few" --scenario examples/latency.json
many=()
for ((number = 0; number < 64; number++)); do
    many+=(--scenario examples/latency.json)
    sed "s/^scenario 0 /scenario $number /" "$work/output"
done > "$work/expected"
for workers in 1 2; do
    ulimit -S -v 54000
    run_with GLIBC_TUNABLES=glibc.malloc.arena_max=1 "$work/pairs.few" "${many[@]}" --workers $workers
    ulimit -S -v "$limit"
    verdict "22 MB of reports printed in little memory by $workers workers" "$(well; byte_difference "$work/expected" "$work/output")"
done

# two reports of 980 KB
perl tests/capture.pl 11000x3 > "$work/pairs.few"
run "$work/pairs.few" --scenario examples/latency.json
{ cat "$work/output"; sed 's/^scenario 0 /scenario 1 /' "$work/output"; } > "$work/expected"
same "two reports of 980 KB" "$work/pairs.few" "${many[@]:0:4}"

# 256 reports of 12 KB, which 16 workers make in texts of 90 bytes, are printed by a write for each text: that of a head and those of 127 ranges.
perl tests/capture.pl 127x3 > "$work/pairs.few"
run "$work/pairs.few" --scenario examples/latency.json
many=()
for ((number = 0; number < 256; number++)); do
    many+=(--scenario examples/latency.json)
    sed "s/^scenario 0 /scenario $number /" "$work/output"
done > "$work/expected"
same "256 reports" "$work/pairs.few" "${many[@]}"
run_with "" "$work/pairs.few" "${many[@]}" --workers 16
verdict "256 reports by 16 workers" "$(well; byte_difference "$work/expected" "$work/output")"
if can_count "256 reports printed text by text"; then
    verdict "256 reports printed text by text" "$([ "$(count write)" -le $((256 * 128)) ] || echo "  writes: $(count write)")"
fi

# A capture of 45 MB, loaded in six blocks and stored, takes 74 MB of addresses, and half of what it would take with the capture or its output in memory
# once more is granted. What is written goes out in batches of 256 KiB, of which there are 172, and a report. glibc has one arena: a second one, which
# the other worker would get if it starts early enough, takes 64 MB of addresses.
rm -rf "$work/stored"
mkdir "$work/stored"
ulimit -S -v 95000
run_with GLIBC_TUNABLES=glibc.malloc.arena_max=1 /dev/null --capture "$work/six.pcap" --workers 2 --out "$work/stored"
ulimit -S -v "$limit"
verdict "45 MB stored in little memory" "$(well; byte_difference "$work/six.delivered" "$work/stored/0000.pcap")"
if can_count "45 MB stored by few writes"; then
    verdict "45 MB stored by few writes" "$([ "$(count write)" -le 200 ] || echo "  writes: $(count write)")"
fi
close
