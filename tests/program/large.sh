#!/usr/bin/env bash
# The built program over large captures, where a body could give up for lack of memory and be right by every clause: each answer is compared with that
# of a plainer run, with what tests/capture.pl works out, or with the refusal that is due.
set -euo pipefail
cd "$(dirname "$0")/../.."
. tests/lib.sh
. tests/program/sizes.sh

# of named files at fault the first is told: one of 2^30 + 1 bytes, which takes no room on the disk, and one that is not there
truncate -s $((2 ** 30 + 1)) "$work/long"
refused "a long scenario file before one that is not there" "refused 6 CaptureTooLong" /dev/null --scenario "$work/long" --scenario "$work/none"
refused "a long scenario file after one that is not there" "refused 61 ReadFailed" /dev/null --scenario "$work/none" --scenario "$work/long"
refused "a long scenario file before a capture that is not there" "refused 6 CaptureTooLong" /dev/null --scenario "$work/long" --capture "$work/none"
refused "a long capture after a scenario file that is not there" "refused 61 ReadFailed" /dev/null --capture "$work/long" --scenario "$work/none"
rm "$work/long"

# A capture of 2^30 bytes is taken, and with a byte more it is too long: from standard input and by its name, by one worker, by two and by five; and
# stored by two, who load its 128 blocks. It has packets of 262,144 zeros, which are no IPv4, and for a rest a header and fewer zeros.
perl -e '
    open my $file, ">", $ARGV[0] or die;
    print $file pack("VvvVVVV", 0xa1b2c3d4, 2, 4, 0, 0, 65535, 1);
    for my $record (0 .. 4095) {
        seek $file, 24 + 262160 * $record, 0;
        print $file pack("VVVV", $record, 0, 262144, 262144);
    }
    truncate $file, 2 ** 30' "$work/longest"
cat > "$work/expected" << 'END'
scenario 0 records 4095 rest 196600 segment 0 short 0 notipv4 4095 badipv4 0 fragment 0 nottcp 0 cut 0 badtcp 0 sameends 0
connections 0 unopened 0
END
same "2^30 bytes" "$work/longest"
for workers in 1 2 5; do same "2^30 bytes by $workers workers" /dev/null --capture "$work/longest" --workers $workers; done
mkdir "$work/blocks"
run /dev/null --capture "$work/longest" --workers 2 --out "$work/blocks"
verdict "2^30 bytes in 128 blocks" "$(well; difference "$work/expected" "$work/blocks/0000.txt")"
truncate -s +1 "$work/longest"
refused "2^30 + 1 bytes" "refused 6 CaptureTooLong" "$work/longest"
for workers in 1 2 5; do
    refused "2^30 + 1 bytes by $workers workers" "refused 6 CaptureTooLong" /dev/null --capture "$work/longest" --workers $workers
done
refused "2^30 + 1 bytes in 129 blocks" "refused 6 CaptureTooLong" /dev/null --capture "$work/longest" --workers 2 --out "$work/blocks"
rm "$work/longest"

# A named capture of three blocks, which several threads load side by side, gives what it gives as standard input, which one thread loads;
# so do one whose last block is whole and one with a byte more, and its dump. A folder is no capture.
four=(--scenario examples/latency.json --scenario examples/slicer.json --scenario examples/bandwidth.json --scenario examples/slicer.json)
perl tests/capture.pl 14000 > "$work/three.pcap"
head -c $((2 << 23)) "$work/three.pcap" > "$work/two.pcap"
head -c $(((2 << 23) + 1)) "$work/three.pcap" > "$work/more.pcap"
od -An -v -tx1 "$work/two.pcap" | tr -d ' ' > "$work/two.dump"
for name in three.pcap two.pcap more.pcap two.dump; do
    rm -rf "$work/alone"
    mkdir "$work/alone"
    run "$work/$name" "${four[@]}"
    cp "$work/output" "$work/expected"
    run "$work/$name" "${four[@]}" --out "$work/alone"
    [ $name != three.pcap ] || verdict "$name, worked out apart" "$(
        well
        for number in 0 1 2 3; do
            perl tests/capture.pl 14000 report 0 $number | byte_difference - "$work/alone/000$number.txt"
            perl tests/capture.pl 14000 delivered | byte_difference - "$work/alone/000$number.pcap"
        done
        cat "$work"/alone/*.txt | byte_difference - "$work/expected"
    )"
    for workers in 1 2 3 16; do
        same "$name by $workers workers" /dev/null --capture "$work/$name" "${four[@]}" --workers $workers
        rm -rf "$work/by$workers"
        mkdir "$work/by$workers"
        run /dev/null --capture "$work/$name" "${four[@]}" --workers $workers --out "$work/by$workers"
        verdict "$name by $workers workers, stored" "$(well; folder_difference "$work/alone" "$work/by$workers")"
    done
done
refused "a folder as capture, by workers" "refused 61 ReadFailed" /dev/null --capture "$work" --workers 4

# 100,000 connections, each of a pair of its own, in three rounds: a report of 9 MB, and 400,000 written segments.
for what in recorded report delivered; do perl tests/capture.pl 100000x3 $what > "$work/pairs.$what" & done
wait
printed "100,000 pairs" pairs "$work/pairs.recorded"
for workers in 1 4; do whole "100,000 pairs by $workers workers" pairs /dev/null --capture "$work/pairs.recorded" --workers $workers; done
printed "100,000 pairs by 4 workers" pairs /dev/null --capture "$work/pairs.recorded" --workers 4
rm "$work"/pairs.*

# 400,000 connections in three rounds: 84 MB, which are eleven blocks and 1,200,000 records; a report of 36 MB, and 112 MB of written segments. And
# 110,000 with 1,250 bytes of each client: 161 MB, which are 20 blocks, and 168 MB of written segments. In ranges of up to 2^20 records.
for what in recorded report delivered; do
    perl tests/capture.pl 400000x3 $what > "$work/many.$what" &
    perl tests/capture.pl 110000x3x1250 $what > "$work/wide.$what" &
done
wait
whole "84 MB by 2 workers" many /dev/null --capture "$work/many.recorded" --workers 2
whole "84 MB by 5 workers, ranges of 100,000" many /dev/null --capture "$work/many.recorded" --workers 5 --cut 100000
whole "84 MB, range of 1,048,576" many "$work/many.recorded" --cut 1048576
printed "84 MB" many "$work/many.recorded"
printed "84 MB by 4 workers, range of 1,048,576" many /dev/null --capture "$work/many.recorded" --workers 4 --cut 1048576
rm "$work"/many.*
whole "161 MB by 2 workers" wide /dev/null --capture "$work/wide.recorded" --workers 2
whole "161 MB by 16 workers" wide /dev/null --capture "$work/wide.recorded" --workers 16
whole "161 MB" wide "$work/wide.recorded"
printed "161 MB by 2 workers" wide /dev/null --capture "$work/wide.recorded" --workers 2
rm "$work"/wide.*

# A capture of 318 MB, which is 38 blocks: zeros that are no IPv4, and after 1,200 records of them 3,000 segments. Two workers store what one stores.
perl -e '
    open my $file, ">", $ARGV[0] or die;
    print $file pack("VvvVVVV", 0xa1b2c3d4, 2, 4, 0, 0, 65535, 1);
    for my $record (0 .. 1199) {
        seek $file, 24 + 262160 * $record, 0;
        print $file pack("VVVV", 0, 0, 262144, 262144);
    }
    truncate $file, 24 + 262160 * 1200;' "$work/zeros.pcap"
perl tests/capture.pl 3000 | tail -c +25 >> "$work/zeros.pcap"
perl tests/capture.pl 3000 delivered > "$work/zeros.delivered"
perl tests/capture.pl 3000 report | sed 's/records 3002/records 4202/; s/notipv4 0/notipv4 1200/' > "$work/zeros.report"
for workers in 1 2; do whole "318 MB by $workers workers" zeros /dev/null --capture "$work/zeros.pcap" --workers $workers; done
rm "$work"/zeros.*

# Ten reports of 40,000 connections, 35 MB together: printed, and stored. What the scenarios do downstream changes nothing, since no server sends.
perl tests/capture.pl 40000x3 > "$work/ten.recorded"
ten=()
for number in {0..9}; do
    ten+=(--scenario "examples/$([ $((number % 2)) = 0 ] && echo latency || echo slicer).json")
    perl tests/capture.pl 40000x3 report 0 "$number" > "$work/ten.$number"
done
cat "$work"/ten.[0-9] > "$work/ten.report"
for workers in 1 4; do printed "ten reports by $workers workers" ten "$work/ten.recorded" "${ten[@]}" --workers $workers; done
mkdir "$work/by-ten"
run "$work/ten.recorded" "${ten[@]}" --workers 4 --out "$work/by-ten"
perl tests/capture.pl 40000x3 delivered > "$work/ten.delivered"
verdict "ten reports by 4 workers, stored" "$(
    well
    for number in {0..9}; do
        byte_difference "$work/ten.$number" "$work/by-ten/000$number.txt"
        byte_difference "$work/ten.delivered" "$work/by-ten/000$number.pcap"
    done
)"
rm -r "$work"/ten.* "$work/by-ten"

# Two reports of 400,000 connections have over 800,000 lines.
perl tests/capture.pl 400000x1 > "$work/openings"
perl tests/capture.pl 400000x1 report > "$work/openings.report"
sed 's/^scenario 0 /scenario 1 /' "$work/openings.report" | cat "$work/openings.report" - > "$work/lines.report"
echo '[]' > "$work/openings.json"
for workers in 1 4; do
    printed "800,000 lines by $workers workers" lines "$work/openings" --scenario "$work/openings.json" --scenario "$work/openings.json" --workers $workers
done
rm "$work"/openings* "$work/lines.report"
close
