#!/usr/bin/env bash
# Each growth of memory refused in turn: the built program, and the calls `rehearse` and `answers` of its library, answer as with ample
# memory (where a thread could not be made, by fewer workers), or they are refused for lack of memory. The program says so then, also if all
# later growths are refused too; it prints nothing, and has stored a first part of the files. The next call of the library, with the same values,
# answers in full. There is no third answer.
set -euo pipefail
cd "$(dirname "$0")/../.."
. tests/lib.sh
. tests/program/calls.sh
stored=crates/toxicap_program/stdin
folder=$work/folder
mkdir "$folder"

# starved NUMBER INPUT [ARGUMENT..]: runs the program on a file, this growth refused, with `+` after the number all later ones too; whether there
# was such a growth.
starved() {
    local number=$1 left=("$folder"/*)
    shift
    [ ! -e "${left[0]}" ] || rm "${left[@]}"
    run_with "FAIL=growth:$number" "$@"
    has_failed
}

# is_whole: whether the last run has the full answer, which stands in `ample`, `ample.faults` and `files`.
is_whole() {
    [ "$status" = "$ends" ] && cmp -s "$work/ample.faults" "$work/faults" && cmp -s "$work/ample" "$work/output" || return 1
    [ ! -e "$work/files/0000.pcap" ] || diff -rq "$work/files" "$folder" > /dev/null
}

# wanting: what the last run has that is not lack of memory, with a first part of the files and no other file.
wanting() {
    local file names=()
    refusal "refused 40 Memory"
    for file in "$work"/files/*; do
        [ -e "$folder/${file##*/}" ] || break
        names+=("${file##*/}")
        byte_difference "$file" "$folder/${file##*/}"
    done
    holds "$folder" "${names[@]}"
}

# each WHAT INPUT [ARGUMENT..]: refuses each growth of a run in turn, which ends with the status `ends`; or if `later` is `+`, from each growth on
# all, and no run is whole then.
each() {
    local what=$1$later number=1 bad=""
    shift
    starved 0 "$@" || true
    rm -rf "$work/files"
    cp "$work/output" "$work/ample"
    cp "$work/faults" "$work/ample.faults"
    cp -r "$folder" "$work/files"
    bad=$(fault $ends)
    while [ -z "$bad" ] && starved $number$later "$@"; do
        if [ -n "$later" ] || ! is_whole; then bad=$(wanting); fi
        [ -z "$bad" ] || bad="  growth $number"$'\n'"$bad"
        number=$((number + 1))
    done
    if [ -z "$bad" ] && [ $number = 1 ]; then skip "$what" "no growth can be refused: is the program linked statically?"; else verdict "$what" "$bad"; fi
    growths=$((growths + number - 1))
}

growths=0 ends=0 later=
printf '[{"name":"web","upstream":"web:80","toxics":[{"type":"slicer","attributes":{"average_size":3,"size_variation":1,"delay":5}}]}]' > "$work/named.json"
printf '[{"name":"a","upstream":"10.0.0.2:80","toxics":[{"type":"latency","attributes":{"latency":100,"jitter":20}}]}]' > "$work/late.json"
od -An -v -tx1 samples/http-get.pcap | tr -d " " > "$work/dump"
each "bare" "$stored"
each "a dump" "$work/dump"
each "hosts" "$stored" --host db=10.0.0.7 --host web=10.0.0.2 --scenario "$work/named.json"
each "two scenarios by 2 workers" "$stored" --scenario "$work/named.json" --scenario "$work/late.json" --host web=10.0.0.2 --workers 2 --cut 2
each "4 workers" "$stored" --workers 4 --cut 1
each "four scenarios stored by 1 worker" samples/http-get.pcap --scenario examples/latency.json --scenario examples/slicer.json \
    --scenario examples/bandwidth.json --scenario examples/limit_data.json --out "$folder"
each "three scenarios stored by 2 workers" samples/http-get.pcap --scenario examples/latency.json --scenario examples/slicer.json \
    --scenario examples/bandwidth.json --workers 2 --cut 2 --out "$folder"
perl tests/capture.pl 7000 > "$work/blocks.pcap"
each "a capture of two blocks by 2 workers" /dev/null --capture "$work/blocks.pcap" --scenario examples/latency.json --workers 2
each "--help" /dev/null --help
later=+
each "a dump" "$work/dump"
each "two scenarios by 2 workers" "$stored" --scenario "$work/named.json" --scenario "$work/late.json" --host web=10.0.0.2 --workers 2 --cut 2
each "three scenarios stored by 2 workers" samples/http-get.pcap --scenario examples/latency.json --scenario examples/slicer.json \
    --scenario examples/bandwidth.json --workers 2 --cut 2 --out "$folder"
each "--help" /dev/null --help
ends=1
each "a refusal" "$stored" --scenario "$work/named.json"
later=
each "a refusal" "$stored" --scenario "$work/named.json"

# long WHAT CAPTURE [ARGUMENT..]: of a run that prints more than 2^20 bytes forty growths, from the first to the last, are refused in turn. Then
# nothing is printed.
long() {
    local what=$1 capture=$2 all number bad refused=0
    shift 2
    run_with "" "$capture" "$@"
    can_count "$what" || return 0
    bad=$(well)
    cp "$work/output" "$work/ample"
    all=$(count growth)
    for ((number = 1; number <= 40; number++)); do
        run_with "FAIL=growth:$((all * number / 40))" "$capture" "$@"
        [ "$status" != 0 ] || ! cmp -s "$work/ample" "$work/output" || continue
        bad+=$(refusal "refused 40 Memory")
        refused=$((refused + 1))
    done
    verdict "$what" "$bad$([ $refused -gt 20 ] || echo "  refused: $refused times")"
}

# reports of 330 KB, and of 980 KB
eleven=()
for scenario in latency limit_data slow_close timeout bandwidth latency limit_data slow_close timeout bandwidth latency; do
    eleven+=(--scenario "examples/$scenario.json")
done
perl tests/capture.pl 4000x3 > "$work/pairs.pcap"
long "eleven reports" "$work/pairs.pcap" "${eleven[@]}"
perl tests/capture.pl 11000x3 > "$work/pairs.pcap"
long "two long reports by 2 workers" "$work/pairs.pcap" "${eleven[@]:0:4}" --workers 2
echo "$growths growths refused of the program"

# The library's calls: each test of the module `again` makes them twice and compares what they answer. It stops with the words `no memory
# yet` where a growth is refused before the first call.
program=$(realpath -m "${TESTS:-crates/rehearsal_tests/out/rehearsal_tests_tests}")
[ -x "$program" ] || { echo "$0: there are no tests at $program: build them by (cd crates/rehearsal_tests && rt test), or set TESTS" >&2; exit 2; }

growths=0
for test in $("$program" --list | sed -n 's/^\(tests::again::.*\): test$/\1/p'); do
    number=0 bad=""
    while [ -z "$bad" ]; do
        number=$((number + 1))
        starved $number /dev/null "$test" 2> /dev/null || break
        [ "$status" = 0 ] || grep -q '^no memory yet' "$work/faults" || bad="  growth $number: $(cat "$work/faults")"
    done
    [ -n "$bad" ] || bad=$(fault 0)
    verdict "$test" "$bad"
    growths=$((growths + number - 1))
done
verdict "tests of the module again" "$([ $growths != 0 ] || echo '  there are none')"
echo "$growths growths refused of the library"
close
