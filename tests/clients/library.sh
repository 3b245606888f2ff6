#!/usr/bin/env bash
# The library for C that release/library makes, against the program: the same bytes and lines of refusals, delivered lines as they are worked out apart,
# buffers that are left as they were but for the answer, ten thousand calls, eight threads, growths of memory that are refused, and programs over the
# clients in C, Python, Go and Rust; and in Rust sockets, searches, and what helps after refusals, against tests/clients/hints/rows.
# tests/clients/library.c makes the calls.
set -euo pipefail
cd "$(dirname "$0")/../.."
. tests/lib.sh
export CC=${CC:-gcc}
make_library
cat "$work/told"
verdict "the same bytes twice" "$(release/library "$work/again" > /dev/null; folder_difference "$kit" "$work/again")"

# the header alone, in C and C++
for standard in c99 c17; do
    verdict "toxicap.h in $standard" "$("$CC" -std=$standard -pedantic -Wall -Wextra -Werror -fsyntax-only -x c "$kit/include/toxicap.h" 2>&1 || true)"
done
if can "toxicap.h in C++" g++; then
    verdict "toxicap.h in C++" "$(g++ -std=c++11 -pedantic -Wall -Wextra -Werror -fsyntax-only -x c++ "$kit/include/toxicap.h" 2>&1 || true)"
fi

# build FILE WORD..: the test program, linked as the words say.
build() {
    "$CC" -std=c11 -O1 -g -Wall -Wextra -Werror -pthread -I "$kit/include" -o "$1" tests/clients/library.c "${@:2}" \
        -Wl,--wrap=malloc,--wrap=calloc,--wrap=realloc,--wrap=free 2>&1 || true
}
verdict "linked statically" "$(build "$work/library" "$kit/lib/libtoxicap.a")"
verdict "linked dynamically" "$(build "$work/dynamic" -L "$kit/lib" -ltoxicap "-Wl,-rpath,$kit/lib")"
printf '#include <toxicap.h>\nvoid own(ToxicapSizes *sizes);\nvoid own(ToxicapSizes *sizes) { toxicap_reports(0, 0, 0, sizes); }\n' > "$work/own.c"
verdict "a status that is left unused" "$(
    "$CC" -Werror -c -I "$kit/include" -o "$work/own.o" "$work/own.c" > "$work/told" 2>&1 && echo '  it compiles'
    grep -q 'unused-result' "$work/told" || cat "$work/told"
)"
"$CC" -w -shared -fPIC -I "$kit/include" -o "$work/own.so" "$work/own.c" "$kit/lib/libtoxicap.a"
verdict "what a library with the archive hands on" "$(nm -D --defined-only "$work/own.so" | grep -v ' own$' || true)"
caller=$work/library

# differs ARGUMENT..: what differs between the program and the library, called with the same arguments.
differs() {
    local called=0
    rm -rf "$work/expected" "$work/found"
    mkdir "$work/expected" "$work/found"
    run /dev/null "$@" --out "$work/expected"
    "$caller" answer "$@" --out "$work/found" > "$work/told" 2> "$work/line" || called=$?
    cat "$work/told"
    [ $called = "$status" ] || echo "  status $called of the library, $status of the program"
    difference "$work/faults" "$work/line"
    folder_difference "$work/expected" "$work/found"
}

# same ARGUMENT..: the library answers as the program does.
same() { verdict "the library: ${*//$work\//}" "$(differs "$@")"; }

# answered WHAT ARGUMENT..: so it does, and neither is refused.
answered() { verdict "the library: $1" "$(differs "${@:2}"; fault 0)"; }

# refused NAME ARGUMENT..: and both are refused, for what has this number and name.
refused() {
    verdict "the library: $1" "$(
        differs "${@:2}"
        grep -q "^refused $1\( \|$\)" "$work/line" || echo "  another refusal: $(cat "$work/line")"
    )"
}

# every sample under every file of the examples, scenarios or not, with and without a host
for sample in samples/*.pcap; do
    same --capture "$sample"
    for scenario in examples/*.json; do
        same --capture "$sample" --scenario "$scenario"
        same --capture "$sample" --scenario "$scenario" --host redis=10.77.0.3 --seed 7
    done
done
od -An -v -tx1 samples/http-get.pcap | tr -d ' ' > "$work/dump"
same --capture "$work/dump" --scenario examples/latency.json
shop=(--capture samples/shop.pcap --host redis=10.77.0.3 --host other=10.9.9.9 --seed 18446744073709551615)
for scenario in latency bandwidth slow_close timeout reset_peer slicer limit_data mobile-line redis-down; do
    shop+=(--scenario "examples/$scenario.json")
done
same "${shop[@]}"
caller=$work/dynamic same "${shop[@]}"

# delivered lines: of the samples and of outputs, such as those that the library gave last, as recorded and under all toxics
if can "lines" python3; then
    for capture in samples/*.pcap tests/recorded/*.pcap "$work/found"/*.pcap "$work/dump"; do
        verdict "lines of ${capture#$work/}" "$(
            for asked in "" "${shop[*]:2}"; do
                python3 -B tests/rows/expected.py --lines --capture "$capture" $asked > "$work/expected-lines"
                "$caller" lines --capture "$capture" $asked > "$work/lines" || true
                difference "$work/expected-lines" "$work/lines"
            done
        )"
    done
fi

# captures of 1, 5 and 20 MB, one in nanoseconds, and one of 2,500 connections; 10 and 256 scenarios, and 256 hosts
for size in 1 5 20; do
    perl tests/capture.pl $((size * 760)) > "$work/large.pcap"
    answered "$size MB" --capture "$work/large.pcap" --scenario examples/latency.json
done
{ printf '\x4d\x3c\xb2\xa1'; tail -c +5 samples/shop.pcap; } > "$work/nanoseconds.pcap"
answered "nanoseconds" --capture "$work/nanoseconds.pcap" --scenario examples/mobile-line.json --scenario examples/slicer.json
perl tests/capture.pl 2500x3 > "$work/connections.pcap"
answered "2,500 connections" --capture "$work/connections.pcap" --scenario examples/latency.json
answered "10 scenarios" "${shop[@]}" --scenario examples/cut-after-1kb.json
many=() kinds=(latency bandwidth slow_close timeout slicer limit_data mobile-line)
for ((scenario = 0; scenario < 256; scenario++)); do many+=(--scenario "examples/${kinds[scenario % 7]}.json"); done
answered "256 scenarios" --capture samples/http-get.pcap "${many[@]}"
hosts=() longest=()
for ((host = 0; host < 255; host++)); do hosts+=(--host "h$host=10.9.9.$host"); done
answered "256 hosts" --capture samples/shop.pcap --scenario examples/slow-database.json "${hosts[@]}" --host redis=10.77.0.3

for ((host = 255; host < 299; host++)); do hosts+=(--host "h$host=10.9.10.$((host - 255))"); done
answered "300 hosts" --capture samples/shop.pcap --scenario examples/slow-database.json "${hosts[@]}" --host redis=10.77.0.3
{ printf '[%65535s' ''; tail -c +2 examples/latency.json; } > "$work/wide.json"
answered "a scenario of 64 KiB" --capture samples/http-get.pcap --scenario "$work/wide.json" --scenario examples/slicer.json
for ((number = 0; number < 12; number++)); do longest+=(--scenario examples/latency.json); done
perl tests/capture.pl 12000x3 > "$work/connections.pcap"
answered "a report of 1 MiB" --capture "$work/connections.pcap" --scenario examples/latency.json
perl tests/capture.pl 1000x3 > "$work/connections.pcap"
answered "reports of 1 MiB" --capture "$work/connections.pcap" "${longest[@]}"

# refusals; those of each kind, as calls tell them, are in tests/clients/hints/rows
cp samples/http-get.pcap "$work/record"
printf '\xff\xff\xff\xff' | dd of="$work/record" bs=1 seek=32 conv=notrunc status=none
refused "5 RecordTooLong at 0" --capture "$work/record"
echo '[{"name":"a","upstream":"10.0.0.2:80","toxics":[{"type":"latency","toxicity":0.5}]}]' > "$work/faulty.json"
refused "21 BadToxicity" --capture samples/http-get.pcap --scenario "$work/faulty.json"
# the longest line of fewer than a thousand scenarios: of the last of 64 proxies, after eight toxics of each direction
{
    printf '['
    for ((proxy = 0; proxy < 63; proxy++)); do printf '{"name":"%s","upstream":"10.0.0.2:80"},' $proxy; done
    printf '{"name":"a","upstream":"10.0.0.2:80","toxics":['
    for ((toxic = 0; toxic < 16; toxic++)); do
        printf '{"name":"%s","type":"timeout","stream":"%s"},' $toxic "$([ $toxic -lt 8 ] && echo upstream || echo downstream)"
    done
    printf '{"name":"7","type":"timeout"}]}]'
} > "$work/longest.json"
refused "18 DuplicateToxic scenario 255 proxy 63 toxic 16" --capture samples/http-get.pcap "${many[@]:0:510}" --scenario "$work/longest.json"
for host in web =10.0.0.1 web=10.0.0 web=10.0.0.01 'a=10.0.0.1 ' ''; do
    refused "23 BadHost host 1" --capture samples/http-get.pcap --host a=10.0.0.1 --host "$host"
done
printf '[%.0s' {1..127} > "$work/deep.json"
printf ']%.0s' {1..127} >> "$work/deep.json"
refused "12 BadMember" --capture samples/http-get.pcap --scenario "$work/deep.json"

# task WHAT ARGUMENT..: a task of the test program finds no fault; its closing line is told.
task() {
    local ended=0
    "$caller" "${@:2}" > "$work/told" 2>&1 || ended=$?
    [ $ended != 0 ] || { sed "s/^/$1: /" "$work/told"; : > "$work/told"; }
    verdict "$1" "$(cat "$work/told"; [ $ended = 0 ] || echo "  status $ended")"
}
late=(--capture samples/http-get.pcap --scenario examples/latency.json)
mixed=(--capture samples/shop.pcap --scenario examples/mobile-line.json --scenario examples/slow-database.json --host redis=10.77.0.3)
task "inputs that are null, no end of a host, a text past the end" edges "${late[@]}" --host redis=10.77.0.3
task "ten thousand calls" again 10000 "${late[@]}"
task "two thousand calls that are refused" again 2000 --capture "$work/record" --scenario "$work/deep.json"
task "eight threads" threads 100 "${mixed[@]}"
task "eight threads, deep JSON" threads 100 --capture samples/http-get.pcap --scenario "$work/deep.json"
task "each growth refused, an answer" growths "${mixed[@]}"
task "each growth refused, a dump" growths --capture "$work/dump" --scenario examples/slicer.json
task "each growth refused, a refusal" growths --capture samples/http-get.pcap --scenario "$work/faulty.json" --host a=10.0.0.1
if can "valgrind" valgrind; then
    caller() { valgrind -q --error-exitcode=9 --leak-check=full --show-leak-kinds=all --errors-for-leak-kinds=all "$work/library" "$@"; }
    caller=caller
    task "an answer under valgrind" again 10 "${mixed[@]}"
    task "growths under valgrind" growths "${late[@]}"
    task "a refusal under valgrind" growths --capture "$work/record"
fi

# The examples: they store what the program stores, also where their first room is too small, and tell its refusals.
printf '[{"name":"web","upstream":"10.77.0.2:80","toxics":[{"type":"slicer","attributes":{"average_size":1}}]}]' > "$work/slices.json"
inputs=("$PWD/samples/shop.pcap" "$work/slices.json" "$PWD/examples/slow-database.json")
mkdir "$work/stored"
run /dev/null --capture "${inputs[0]}" --scenario "${inputs[1]}" --scenario "${inputs[2]}" --host redis=10.77.0.3 --out "$work/stored"
verdict "the program, of the examples' inputs" "$(well)"
run /dev/null --capture "${inputs[0]}" --scenario "${inputs[1]}" --scenario "${inputs[2]}"
cp "$work/faults" "$work/expected-line"

# example LANGUAGE COMMAND..
example() {
    local folder=$work/example-$1 ended=0
    mkdir "$folder"
    verdict "the example in $1" "$(
        cd "$folder"
        HOSTS=$'redis=10.77.0.3\n' timeout 20 "${@:2}" "${inputs[@]}" 2>&1 || echo "  status $?"
        folder_difference "$work/stored" "$folder"
    )"
    rm -f "$folder"/*
    (cd "$folder"; timeout 20 "${@:2}" "${inputs[@]}") > "$work/output" 2> "$work/line" || ended=$?
    # the examples in C, C++ and Rust also tell what helps
    [[ $1 != C* && $1 != Rust ]] || sed 1d "$work/line" | grep -q '^scenario 1, proxy . ".*": names are not looked up: ' \
        || verdict "the example in $1, what helps" "$(cat "$work/line")"
    sed -i 1q "$work/line"
    verdict "the example in $1, refused" "$([ $ended = 1 ] || echo "  status $ended"; difference "$work/expected-line" "$work/line"; holds "$folder")"
    (cd "$folder"; timeout 20 "${@:2}" "${inputs[0]}" none.json) > "$work/output" 2> "$work/line" || true
    verdict "the example in $1, no such scenario" "$(grep -q 'none\.json: ' "$work/line" && ! grep -q Traceback "$work/line" || cat "$work/line")"
}
unset HOSTS
verdict "the example in C, compiled" "$("$CC" -std=c11 -pedantic -Wall -Wextra -Werror -I "$kit/include" -o "$work/c" clients/c/rehearse.c \
    "$kit/lib/libtoxicap.a" 2>&1 || true)"
example C "$work/c"
if can "the example in C++" g++; then
    verdict "the example in C++, compiled" "$(g++ -x c++ -std=c++11 -pedantic -Wall -Wextra -Werror -I "$kit/include" -o "$work/c++" clients/c/rehearse.c \
        -x none "$kit/lib/libtoxicap.a" 2>&1 || true)"
    example C++ "$work/c++"
fi
# seeds: what Python's function raises for seeds out of range, and that it takes the least and the greatest.
seeds() {
    python3 -B - samples/http-get.pcap << 'END' 2>&1 || true
import sys
from toxicap import rehearse
capture = open(sys.argv[1], 'rb').read()
for seed in -1, 2**64, -2**64:
    try: print('  taken:', seed, rehearse(capture, [b'[]'], seed=seed)[0][1][:20])
    except ValueError as fault:
        if str(fault) != f'the seed {seed} is not from 0 to 2^64 - 1': print('  ', fault)
for seed in 0, 2**64 - 1: rehearse(capture, [b'[]'], seed=seed)
END
}
if can "the example in Python" python3; then
    example Python python3 -B "$PWD/clients/python/tests/rehearse.py"
    verdict "seeds in Python" "$(seeds)"
fi
if can "the example in Go" go; then
    verdict "the example in Go, compiled" "$(cd clients/go; go build -o "$work/go" ./tests/rehearse 2>&1 || true)"
    example Go "$work/go"
fi
if can "the example in Rust" rustc cc; then
    # compiled FILE WORD..: a file of the client in Rust, compiled as the words say.
    compiled() {
        verdict "$1 in Rust, compiled" "$(rustc --edition 2021 -D warnings -L "$kit/lib" --extern "toxicap=$work/libtoxicap.rlib" --out-dir "$work" "${@:2}" \
            "clients/rust/$1.rs" 2>&1 || true)"
    }
    verdict "the client in Rust, compiled" "$(rustc --edition 2021 --cfg 'feature="native"' -D warnings -L "$kit/lib" --crate-type rlib \
        --crate-name toxicap --out-dir "$work" clients/rust/src/lib.rs 2>&1 || true)"
    compiled examples/rehearse
    example Rust "$work/rehearse"
    for tests in sockets outputs rows search; do
        compiled "tests/$tests" --test
        verdict "$tests in Rust" "$(timeout "$patience" "$work/$tests" -q > "$work/told" 2>&1 || cat "$work/told")"
    done
fi
close
