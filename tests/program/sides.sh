#!/usr/bin/env bash
# The built program on both sides of its constants: a capture, or scenarios, of a size below a constant, of its size and above it. What is stored
# and printed of each, from standard input and by name, by some numbers of workers, is what tests/rows/expected.py makes of it; where a constant
# shows in the writes or the phases of threads of a run, these are counted too. docs/internals/constants.tsv names the rows of the table at the end.
# Arguments are the constants whose rows are tried; without any, all are.
set -euo pipefail
cd "$(dirname "$0")/../.."
. tests/lib.sh
. tests/program/calls.sh
can "sides of constants" python3 perl || { close; exit; }

# ---- Captures. Each prints one of a size, of which the constant is a limit; the scenarios that it is run under stand in `scenarios`.

# bytes: segments of capture.awk, in order of time, as a capture.
bytes() { sort -s -n -k 1,1 | awk -f tests/capture.awk | tr -d ' \n' | tr a-f A-F | basenc -d --base16; }

# scenario TOXIC: one more scenario, with this toxic for what clients send, if any.
scenario() {
    printf '[{"name":"web","upstream":"10.0.0.2:80","toxics":[%s]}]' "${1:+{\"stream\":\"upstream\",$1\}}" > "$work/${#scenarios[@]}.json"
    scenarios+=("$work/${#scenarios[@]}.json")
}

# sent LENGTH..: an opening, and segments of the client of these lengths, a microsecond after one another.
sent() {
    printf '1.000000 c>s SYN 1000 0\n1.000001 s>c SYN ACK 5000 1001\n'
    printf '%s\n' "$@" | awk '$1 { printf "2.%06d c>s PSH ACK %d 5001 \"%c\"*%d\n", NR, 1001 + sum, 97 + NR % 26, $1; sum += $1 }'
}

# times COUNT WORD: the word as often.
times() { yes "$2" | head -n "$1"; }

# ended NUMBER COUNT: the connection of a client with this number that COUNT segments are written of: the opening, a byte in each, and two ends.
ended() {
    local client=10.1.0.$1:40000 data=$(($2 - 5))
    # shellcheck disable=SC2046
    sent $(times $data 1) | sed "s/c>s/$client>s/; s/s>c/s>$client/"
    printf '3.%06d %s\n' "$1" "$client>s FIN ACK $((1001 + data)) 5001" "$1" "s>$client FIN ACK 5001 $((1002 + data))"
}

# laid PLACE LENGTH: a capture from standard input with packets of zeros before its records, of which the first begins at byte PLACE of the file then,
# and has a packet of LENGTH bytes, which is more than its frame has.
laid() {
    perl -0777 -e '
        my ($place, $length) = @ARGV;
        my $file = <STDIN>;
        my ($len, $gap) = (unpack("x32 V", $file), $place - 24);
        print substr $file, 0, 24;
        for my $left (reverse 1 .. 1 + int $gap / 262160) {
            my $zeros = int($gap / $left) - 16;
            print pack("VVVV", 0, 0, $zeros, $zeros), "\0" x $zeros;
            $gap -= 16 + $zeros;
        }
        print substr($file, 24, 8), pack("VV", $length, $length), substr($file, 40, $len), "\0" x ($length - $len), substr $file, 40 + $len;
    ' "$@"
}

# shellcheck disable=SC2046
full() { sent $(times 171 1460) "$@" | bytes; }                      # 171 full segments, of which 261,864 bytes are written, and others
batch() { full $(($1 - 261934)) 1; }                                 # bytes that are written before the last segment, which has a byte
input() { full $(($1 - 261864)); }                                   # bytes of the capture
pair() { { ended 1 31; ended 2 $(($1 - 31)); } | bytes; }            # segments that are written of two connections together
parts() { ended 1 $(($1 + 5)) | bytes; }                             # parts of a line
each() { for client in 1 2 3; do ended $client "$1"; done | bytes; } # segments of each connection
bare() { ended 1 5 | sed -n "1,$(($1 - 1))p" | bytes; }              # segments without payload, of which the opening's ACK is not recorded
piece() { sent "$1" 1 | bytes; }                                     # bytes of the first chunk
conns() { perl tests/capture.pl "$1x3"; }                            # connections
many() { conns "$1"; for _ in {1..16}; do scenario; done; }          # connections, under 17 scenarios
# shellcheck disable=SC2046
records() { sent $(times $(($1 - 2)) 1) | bytes; }                   # records
# bytes of the first chunk, at 1 KB a second
chunk() {
    scenarios=()
    scenario '"type":"bandwidth","attributes":{"rate":1}'
    piece "$1"
}
# scenarios, of which each has another latency
under() {
    scenarios=()
    for ((ms = 1; ms <= $1; ms++)); do scenario '"type":"latency","attributes":{"latency":'$ms'}'; done
    pair 62
}
# bytes of the capture
file() {
    local len
    len=$(pair 62 | wc -c)
    pair 62 | laid $(($1 + 24 - len)) 54
}
# bytes of a record whose packet begins with the last byte of a block
packet() { pair 62 | laid $(((1 << 23) - 17)) $(($1 - 16)); }
# segments that come after a later one: backwards, each of them over the first byte of the next one, and of another connection beside it
turned() {
    awk -v count="$1" 'BEGIN {
        for (c = 1; c <= 2; c++) printf "1.000000 10.1.0.%d:40000>s SYN 1000 0\n", c
        for (k = count; k >= 0; k--) for (c = 1; c <= 2; c++)
            printf "2.%06d 10.1.0.%d:40000>s PSH ACK %d 1 \"%c%c%s\"\n", count + 1 - k, c, 1001 + 2 * k, 97 + k % 26, 97 + k % 7, c == 1 ? "x" : ""
    }' | bytes
}
# instant DIGITS TICKS: a time, by the digits that its ticks have in a second.
instant() { printf '%d.%0*d' $(($2 / 10 ** $1)) "$1" $(($2 % 10 ** $1)); }
# ticks from the first segment of 20 connections to the last one of every other; the others have one a tick before it
ticks() {
    local digits=${2:-9} at c
    at=$((10 ** digits + 5))
    {
        [ "$digits" = 6 ] || echo nanoseconds
        for c in {0..19}; do echo "$(instant "$digits" $((at + c))) 10.1.0.$c:40000>s SYN 1000 0"; done
        for c in {0..19}; do echo "$(instant "$digits" $((at + $1 - c % 2))) 10.1.0.$c:40000>s PSH ACK 1001 1 \"$c\""; done
    } | bytes
}
micros() { ticks "$1" 6; }
# bytes of a line of the report: digits of its ends make up for the 106 others
line() {
    local client=10.100.100.100:40000 server=10.100.100.200:40000 half=$((($1 - 106) / 2))
    {
        echo "1.000000 $client>$server vlan 4095 SYN 1000 0"
        echo "1.000000 $server>$client vlan 4095 SYN ACK 5000 1001"
        echo "$(instant 6 $((10 ** 6 + 10 ** (half - 1)))) $client>$server vlan 4095 FIN ACK 1001 5001"
        echo "$(instant 6 $((10 ** 6 + 10 ** ($1 - 107 - half)))) $server>$client vlan 4095 FIN ACK 5001 1002"
    } | bytes
}

# ---- Runs.

# counted KIND: how many writes the last run made, or phases in which threads were made.
counted() { if [ "$1" = phases ]; then phases | wc -w; else count "$1"; fi; }

# runs HOW WORKERS KIND NUMBER: what is at fault with runs over the capture. Of the one that prints or stores (HOW) by WORKERS workers, calls are counted.
runs() {
    local plan workers options words how made
    for plan in "1" "2 --capture $work/capture" "5 --capture $work/capture --cut 64" "16 --cut 3"; do
        read -r workers options <<< "$plan"
        [ "$workers" = 1 ] || options+=" --workers $workers"
        for how in printed stored; do
            words=$options
            rm -rf "$work/outputs"
            mkdir "$work/outputs"
            [ $how = printed ] || words+=" --out $work/outputs"
            # shellcheck disable=SC2086
            run_with "" "$work/capture" "${scenarios[@]/#/--scenario=}" $words
            well
            if [ $how = stored ]; then folder_difference "$work/apart" "$work/outputs"; else byte_difference "$work/printed" "$work/output"; fi
            if [ "$how $workers" = "${1-} ${2-}" ] && [ $is_counted = yes ]; then
                made=$(counted "$3")
                [ "$made" = "$4" ] || echo "  $how by $2: $made of $3, expected: $4"
            fi
        done
    done
}

run_with "" /dev/null -V
is_counted=yes
can_count "writes and threads" || is_counted=no

# The columns: a constant; what makes a capture of a size; sizes; in which run what is counted, by HOW WORKERS KIND; how much of it for each size; and a
# wrong body that the row is for.
while IFS='|' read -r constant make sizes run numbers wrong; do
    constant=${constant% } make=${make// } wrong=${wrong# }
    [[ $# = 0 || " $* " == *" $constant "* ]] || continue
    read -ra numbers <<< "$numbers"
    place=0
    for size in $sizes; do
        scenarios=()
        scenario
        $make "$size" > "$work/capture"
        rm -rf "$work/apart"
        mkdir "$work/apart"
        python3 tests/rows/expected.py --stored "$work/apart" "$work/capture" "${scenarios[@]}"
        cat "$work"/apart/*.txt > "$work/printed"
        # shellcheck disable=SC2086
        verdict "$constant $size ($wrong)" "$(runs $run ${numbers[place]-})"
        place=$((place + 1))
    done
done << 'END'
BATCH_LEN | batch | 262143 262144 262145 | stored 1 write | 3 4 4 | a batch of exactly 256 KiB is not appended, or is dropped
READ_LEN | input | 262143 262144 262145 | | | a read that fills the room is taken to be the last
GROUP_LEN | pair | 63 64 65 127 128 129 | | | a last group of one record is left out
ROOM_LIMIT | parts | 1023 1024 1025 | | | a line has at most as many segments as there was room for
BARE_SEGMENTS | bare | 4 5 | | | the end of the other side has no room
SHORT_SEGMENTS | each | 7 8 9 | | | a connection has at most as many segments as there was room for
RANGES_EACH | conns | 15 16 17 31 32 33 | printed 2 write | 16 9 10 17 12 12 | seven or nine ranges for each worker
RANGE_LEAST | many | 255 256 257 | printed 1 write | 34 34 51 | a range of exactly 256 is cut
LINES_LIMIT | conns | 4095 4096 4097 | printed 1 write | 2 2 3 | a range of exactly 4096 is cut
MOST_SLOTS | conns | 1023 1024 1025 | | | an opening beyond a fourth of the slots is not put
FEW | turned | 511 512 513 | | | segments that overlap are only sorted
LINE_ROOM | line | 135 136 137 | | | a line ends where the room does
PAYLOAD_LIMIT | piece | 1459 1460 1461 2920 2921 | | | a full segment is followed by one without a byte
SLICE | chunk | 99 100 101 | | | a piece has one byte more
SCENARIOS_EACH | under | 1 2 3 4 5 6 | stored 2 phases | 2 2 2 2 3 3 | a round has one scenario more
BLOCK_LEN | file | 8388607 8388608 8388609 | stored 2 phases | 2 2 3 | two blocks are loaded by one worker
SLICE_LIMIT | packet | 262159 262160 | | | a block has too few bytes of the next one
DEFAULT_WORKERS | conns | 40 | stored 1 phases | 0 | two workers if none are asked for
DEFAULT_CUT | records | 4095 4096 4097 | printed 2 phases | 0 0 1 | a range has one record more
TICKS_LIMIT | ticks | 274877906943 274877906944 274877906945 | | | exactly 2^38 ticks have a short key, which is 0
TICKS_LIMIT | micros | 274877906943 274877906944 274877906945 | | | exactly 2^38 ticks have a short key, which is 0
END
close
