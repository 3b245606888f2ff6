#!/usr/bin/env bash
# The built program's command line: its exit statuses, what it prints and what it tells on standard error.
set -euo pipefail
cd "$(dirname "$0")/../.."
. tests/lib.sh
stored=crates/toxicap_program/stdin
report=crates/toxicap_program/stdout

# reported INPUT [ARGUMENT..]: a run over a file prints the report of the stored run.
reported() {
    run "$@"
    verdict "toxicap ${*:2} < $1" "$(well; difference "$report" "$work/output")"
}

# unread LINE INPUT [ARGUMENT..]: a run over a file is refused with this line.
unread() {
    local line=$1
    shift
    run "$@"
    verdict "toxicap ${*:2} < $1" "$(refusal "$line")"
}

# refused LINE [ARGUMENT..]: a run over the stored run's input is refused with this line.
refused() { unread "$1" "$stored" "${@:2}"; }

# misread TEXT [ARGUMENT..]: this text is told as a fault of the command line, and where help is.
misread() {
    run "$stored" "${@:2}"
    verdict "toxicap ${*:2}" "$(fault 2; silent output; told faults "$1"$'\n\nFor more information, try \'--help\'.\n')"
}

# misused [ARGUMENT..]: these arguments are told as a fault of the command line.
misused() {
    run "$stored" "$@"
    verdict "toxicap $*" "$(
        fault 2
        silent output
        grep -q '^error: ' "$work/faults" || echo '  no error is told'
        [ "$(tail -n 1 "$work/faults")" = "For more information, try '--help'." ] || echo '  help is not offered'
    )"
}

# said TEXT INPUT [ARGUMENT..]: a run over a file prints this text.
said() {
    run "${@:2}"
    verdict "toxicap ${*:3} < $2" "$(well; told output "$1")"
}

# names FILE TEXT..: what a file does not have of these texts.
names() {
    local file=$1 text
    shift
    for text in "$@"; do grep -qF -e "$text" "$file" || echo "  no $text"; done
}

reported "$stored"
reported /dev/null --capture "$stored" --seed 7 --workers 2 --cut 1
reported "$stored" --seed 18446744073709551615 --workers 16 --cut 1048576

# the plain session: from standard input or a file, by the least and the most workers and records, and under two scenarios in order, of which the
# second names a host
session=crates/library_example/stdin
counts=$'records 7 rest 0 segment 7 short 0 notipv4 0 badipv4 0 fragment 0 nottcp 0 cut 0 badtcp 0 sameends 0\nconnections 1 unopened 0'

# line PROXY UP: the lines of a scenario's report, but for the first one's two words, where this is told of the proxy and of the client's line.
line() { printf '%s\n0 10.0.0.1:40000 > 10.0.0.2:80 proxy %s up %s down 0/0/0 fin+3000 max 0\n' "$counts" "$1" "$2"; }
bare="scenario 0 $(line - '5/5/0 fin+2000 max 0')"$'\n'
slow="scenario 1 $(line 0 '5/5/0 fin+101000 max 100000')"$'\n'
printf '[]' > "$work/bare.json"
printf '[{"name":"web","upstream":"web:80","toxics":[{"type":"latency","stream":"upstream","attributes":{"latency":100}}]}]' > "$work/slow.json"
said "$bare" $session
said "$bare" /dev/null --capture $session
said "$bare" $session --workers 16 --cut 1048576
said "$bare" $session --workers 1 --cut 1
said "$bare$slow" /dev/null --capture=$session --host db=10.0.0.7 --scenario "$work/bare.json" --scenario="$work/slow.json" --host=web=10.0.0.2

# seeded TIMES UP WORD: what is told of the client's line where a toxic that would take all its bytes applies TIMES times in a million.
# The first words that are drawn are 872,008 of a million with the seed 0, which is the one where none is told, and 663,470 with the seed 42.
seeded() {
    printf '[{"name":"web","upstream":"10.0.0.2:80","toxics":[{"type":"timeout","stream":"upstream","toxicity_ppm":%s}]}]' "$1" > "$work/seeded.json"
    said "scenario 0 $(line 0 "$2")"$'\n' $session --scenario "$work/seeded.json" "$3"
}
kept="5/5/0 fin+2000 max 0" taken="0/5/0 open max 0"
seeded 872009 "$taken" --cut=1
seeded 872008 "$kept" --cut=1
seeded 872009 "$taken" --seed=0
seeded 663471 "$kept" --seed=0
seeded 663471 "$taken" --seed=42
seeded 663470 "$kept" --seed=42

# captures that are refused
printf 'a1b2cd34 00020004 00000000 00000000 0000ffff 00000001' > "$work/unknown"
printf 'd4c' > "$work/broken"
printf 'd4c3b2a1 02000400 00000000 00000000 ffff0000 01000000 00000000 00000000 01000400 01000400' > "$work/long"
unread "refused 1 ShortHeader" /dev/null
unread "refused 2 BadMagic" "$work/unknown"
unread "refused 5 RecordTooLong at 0" "$work/long"
unread "refused 55 BadDump at 3" "$work/broken"

# what is refused first: hosts, files of scenarios, the capture's bytes, its dump, scenarios, the capture, and then the folder
printf '[' > "$work/broken.json"
none=$work/none
unread "refused 23 BadHost host 0" /dev/null --capture "$none" --scenario "$none" --host x --out "$none"
unread "refused 61 ReadFailed" /dev/null --capture "$work/broken" --scenario "$none" --out "$none"
unread "refused 61 ReadFailed" /dev/null --capture "$none" --scenario "$work/broken.json" --out "$none"
unread "refused 55 BadDump at 3" /dev/null --capture "$work/broken" --scenario "$work/broken.json" --out "$none"
unread "refused 10 NotJson scenario 0" /dev/null --scenario "$work/broken.json" --out "$none"
unread "refused 1 ShortHeader" /dev/null --out "$none"
refused "refused 60 ShelfFailed after 0" --out "$none"

# hosts
printf '[{"name":"web","upstream":"web:80"}]' > "$work/named.json"
reported "$stored" --scenario "$work/named.json" --host db=10.0.0.7 --host=web=10.0.0.2
refused "refused 15 UnknownHost scenario 0 proxy 0" --scenario "$work/named.json"
refused "refused 23 BadHost host 0" --host web
refused "refused 23 BadHost host 1" --host a=10.0.0.9 --host b
refused "refused 23 BadHost host 1" --host a=10.0.0.9 --host a=10.0.0.9
refused "refused 23 BadHost host 0" --host =10.0.0.9
refused "refused 23 BadHost host 0" --host a=b=10.0.0.9

# scenarios: all are read before they are too many, and the capture is looked at last
many=()
for _ in {1..256}; do many+=(--scenario "$work/bare.json"); done
unread "refused 1 ShortHeader" /dev/null "${many[@]}"
refused "refused 22 TooManyScenarios" "${many[@]}" --scenario "$work/bare.json"
unread "refused 22 TooManyScenarios" /dev/null "${many[@]}" --scenario "$work/bare.json"
refused "refused 10 NotJson scenario 256" "${many[@]}" --scenario "$work/broken.json"
unread "refused 10 NotJson scenario 257" /dev/null "${many[@]}" --scenario "$work/bare.json" --scenario "$work/broken.json"

# the line of each refusal of a scenario has its place: the scenario, its proxy, and the toxic of that where it is of one
# toxics COUNT LAST: COUNT toxics of a proxy, the last one of them such.
toxics() {
    local toxic
    for ((toxic = 1; toxic < $1; toxic++)); do printf '{"type":"timeout","name":"t%s","stream":"%s"},' $toxic "$([ $toxic -gt 8 ] || echo upstream)"; done
    printf '%s' "$2"
}

# placed LINE TEXT: as the last of 256 scenarios, this text is refused with this line.
placed() {
    printf '%s' "$2" > "$work/last.json"
    refused "$1" "${many[@]:0:510}" --scenario "$work/last.json"
}

# last PROXY: 64 proxies of which this is the last.
last() {
    local proxy
    printf '['
    for ((proxy = 0; proxy < 63; proxy++)); do printf '{"name":"p%s","upstream":"10.0.0.2:80"},' $proxy; done
    printf '%s]' "$1"
}
placed "refused 11 NotArray scenario 255" '{}'
placed "refused 13 DuplicateProxy scenario 255 proxy 63" "$(last '{"name":"p7","upstream":"10.0.0.2:80"}')"
placed "refused 14 BadUpstream scenario 255 proxy 63" "$(last '{"name":"p","upstream":"10.0.0.2"}')"
placed "refused 18 DuplicateToxic scenario 255 proxy 63 toxic 15" \
    "$(last '{"name":"p","upstream":"10.0.0.2:80","toxics":['"$(toxics 16 '{"type":"timeout","name":"t3"}')"']}')"
placed "refused 19 AttributeRange scenario 255 proxy 63 toxic 15" \
    "$(last '{"name":"p","upstream":"10.0.0.2:80","toxics":['"$(toxics 16 '{"type":"bandwidth"}')"']}')"
placed "refused 20 TooMany scenario 255 proxy 63 toxic 8" \
    "$(last '{"name":"p","upstream":"10.0.0.2:80","toxics":['"$(toxics 9 '{"type":"timeout","stream":"upstream"}')"']}')"

# and those of a host, of a record, of a dump, and of a folder, each with the largest number here
hosts=()
for host in {0..254}; do hosts+=(--host "h$host=10.1.2.$host"); done
refused "refused 23 BadHost host 255" "${hosts[@]}" --host h77=10.0.0.9
{ head -c 24 crates/library_example/stdin; head -c 1600000 /dev/zero; printf '\0\0\0\0\0\0\0\0\xff\xff\xff\xff\0\0\0\0'; } > "$work/long.pcap"
unread "refused 5 RecordTooLong at 100000" "$work/long.pcap"
{ printf '%01000000d' 0; echo -; } > "$work/broken"
unread "refused 55 BadDump at 1000000" "$work/broken"
mkdir -p "$work/full/0255.txt"
refused "refused 60 ShelfFailed after 511" "${many[@]}" --out "$work/full"

# paths where nothing is, and folders, which open and cannot be read
for path in "$work/nothing" "$work" ""; do
    refused "refused 61 ReadFailed" --capture "$path"
    refused "refused 61 ReadFailed" --scenario "$path"
done
unread "refused 61 ReadFailed" .
refused "refused 60 ShelfFailed after 0" --out "$work/nothing"
refused "refused 60 ShelfFailed after 0" --out ""

# paths that end in a blank are others than those without it
mkdir "$work/there" "$work/there "
cp $session "$work/capture "
cp "$stored" "$work/capture"
cp "$work/slow.json" "$work/scenario "
cp "$work/bare.json" "$work/scenario"
said "${slow/scenario 1/scenario 0}" /dev/null --capture "$work/capture " --scenario "$work/scenario " --host web=10.0.0.2
run /dev/null --capture "$work/capture " --out "$work/there "
verdict "a folder whose name ends in a blank" "$(well; silent output; holds "$work/there"; holds "$work/there " 0000.pcap 0000.txt)"
refused "refused 61 ReadFailed" --capture "$stored "
refused "refused 61 ReadFailed" --scenario "$work/bare.json "
refused "refused 60 ShelfFailed after 0" --out "$work/full "

# paths that begin in blanks are others too, and so are those of letters that are not ASCII; and all of a path counts that has over 3,800 bytes
# placed_at WHAT CAPTURE SCENARIO FOLDER: the verdicts on runs that read files of these paths, and store in such a folder, which is made here.
placed_at() {
    mkdir "$4"
    run /dev/null --capture "$2" --scenario "$3" --host web=10.0.0.2
    verdict "read by paths $1" "$(well; told output "${slow/scenario 1/scenario 0}")"
    run /dev/null --capture "$2" --scenario "$3" --host web=10.0.0.2 --out "$4"
    verdict "stored by paths $1" "$(
        well
        silent output
        holds "$4" 0000.pcap 0000.txt
        printf '%s' "${slow/scenario 1/scenario 0}" | byte_difference - "$4/0000.txt"
    )"
}
mkdir "$work/paths"
cp "$work/bare.json" "$work/paths/scenario"
cp "$stored" "$work/paths/capture"
mkdir "$work/paths/there"
far=$work/paths
while [ ${#far} -lt 3800 ]; do far+=/$(printf '%0200d' 0); done
mkdir -p "$far"
session_path=$PWD/$session
pushd "$work/paths" > /dev/null
for front in ' ' '   ' $'\t' $'\n'; do
    cp "$session_path" "${front}capture"
    cp "$work/slow.json" "${front}scenario"
    placed_at "after $(printf %q "$front")" "${front}capture" "${front}scenario" "${front}there"
done
verdict "paths without blanks" "$(holds there)"
for letters in $'\xc3\xa4\xc3\x98 \xe6\x96\x87' $'\xf0\x9d\x84\x9e' $'a\xcc\x81' $'"\\\'$\n*' -o --; do
    cp "$session_path" "./$letters.pcap"
    cp "$work/slow.json" "./$letters.json"
    placed_at "of $(printf %q "$letters")" "./$letters.pcap" "./$letters.json" "./$letters"
done
# the path - is a name like any other, and neither standard input nor standard output
cp "$session_path" -- "$work/paths/-"
run /dev/null --capture - --scenario "$work/slow.json" --host web=10.0.0.2
verdict "--capture -" "$(well; told output "${slow/scenario 1/scenario 0}")"
cp "$work/slow.json" -- "$work/paths/-"
run "$session_path" --scenario - --host web=10.0.0.2
verdict "--scenario -" "$(well; told output "${slow/scenario 1/scenario 0}")"
run "$session_path" --out -
verdict "--out -, which is a file" "$(refusal "refused 60 ShelfFailed after 0")"
rm -- "$work/paths/-"
unread "refused 61 ReadFailed" "$session_path" --capture -
unread "refused 61 ReadFailed" "$work/slow.json" --scenario -
unread "refused 60 ShelfFailed after 0" "$session_path" --out -
mkdir -- "$work/paths/-"
run "$session_path" --out -
verdict "--out -" "$(well; silent output; holds "$work/paths/-" 0000.pcap 0000.txt)"
# a slash or a line feed at the end of a path: a file has no slash, a folder may have some, and a name with a line feed is another one; a path that is
# trimmed is found
mkdir there2 $'there2\n' 'there3'
cp "$session_path" plain
cp "$work/slow.json" plain.json
cp "$session_path" $'fed\n'
cp "$work/slow.json" $'fed.json\n'
for end in / // /. $'\n'; do
    unread "refused 61 ReadFailed" "$session_path" --scenario "plain.json$end"
    unread "refused 61 ReadFailed" /dev/null --capture "plain$end"
done
run /dev/null --capture $'fed\n' --scenario $'fed.json\n' --host web=10.0.0.2 --out $'there2\n'
verdict "paths that end in a line feed" "$(
    well
    silent output
    holds there2
    holds $'there2\n' 0000.pcap 0000.txt
    printf '%s' "${slow/scenario 1/scenario 0}" | byte_difference - $'there2\n/0000.txt'
)"
for path in fed fed.json; do unread "refused 61 ReadFailed" /dev/null --capture "$path"; done
for end in / // /. ///./; do
    rm -rf there3
    mkdir there3
    run "$session_path" --out "there3$end"
    verdict "--out there3$end" "$(well; silent output; holds there3 0000.pcap 0000.txt)"
done
popd > /dev/null
cp $session "$far/capture"
cp "$work/slow.json" "$far/scenario"
placed_at "of ${#far} bytes" "$far/capture" "$far/scenario" "$far/there"

# files of over 300 KB by their paths, whose ends count
printf '[%400000s]' '' > "$work/wide.json"
printf '[%400000s' '' > "$work/open.json"
{ head -c 30 "$stored"; printf '%400000s' ''; tail -c +31 "$stored"; } > "$work/wide.txt"
reported /dev/null --capture "$work/wide.txt" --scenario "$work/wide.json"
unread "refused 10 NotJson scenario 1" /dev/null --capture "$work/wide.txt" --scenario "$work/wide.json" --scenario "$work/open.json"

# a writer that cannot be written
status=0
timeout "$patience" "$program" < "$stored" > /dev/full 2> "$work/faults" || status=$?
: > "$work/output"
verdict "toxicap > /dev/full" "$(refusal "refused 62 WriteFailed")"

# the files of --out: those that are there are replaced, and others stay
mkdir "$work/outputs"
printf 'an older file, which is replaced, and longer than what comes' | tee "$work/outputs/0000.pcap" > "$work/outputs/0001.txt"
run "$stored" --out "$work/outputs"
verdict "the files of --out" "$(
    well
    silent output
    difference "$report" "$work/outputs/0000.txt"
    [ "$(stat -c %s "$work/outputs/0000.pcap")" = 24 ] || echo '  a capture that has not 24 bytes'
    [ "$(stat -c %s "$work/outputs/0001.txt")" = 60 ] || echo '  another file does not stay'
    holds "$work/outputs" 0000.pcap 0000.txt 0001.txt
)"

# faults of the command line
misread "error: invalid value '17' for '--workers <N>': 17 is not in 1..=16" --workers 17
misread "error: invalid value '1\u{1b}[2J\n' for '--workers <N>': invalid digit found in string" --workers $'1\e[2J\n'
run "$stored" $'a\e[2J\n\xe2\x80\xae"\\'
verdict "a word with control characters" "$(
    fault 2
    head -n 1 "$work/faults" > "$work/line"
    printf '%s\n' "error: unexpected argument 'a\u{1b}[2J\n\u{202e}\"\\' found" | byte_difference - "$work/line"
    ! grep -n $'\e\|\xe2' "$work/faults"
)"
run "$stored" --capture $'\xff'
verdict "a word that is not text" "$(fault 2; silent output; told faults $'error: a word of the command line is not text in UTF-8\n')"
misused --seed 1 --seed 2
misused --capture a --capture b
misused --out a --out b
misused --workers 0
misused --workers x
misused --cut 0
misused --cut 1048577
misused --seed -1
misused --seed 1.5
misused --seed 18446744073709551616
misused --seeds 1
misused --capture
misused session.pcap
misused -x
misused ""

# the texts that are asked for, on standard output
run /dev/null --help
verdict "toxicap --help" "$(
    well
    names "$work/output" '--capture <PATH>' '--scenario <PATH>' '--host <NAME=ADDR>' '--seed <N>' '--workers <N>' '--cut <N>' '--out <DIR>' \
        '[default: standard input]' '[default: 0]' '[default: 1]' '[default: 4096]' 'Scenarios:' 'Toxics:' 'Reports:' 'Refusals:' 'Documents:' 'Exit status:' 'Examples:'
    ! grep -n '.\{80\}' "$work/output"
)"
verdict "refusals and toxics in --help" "$(
    tail -n +2 docs/refusals.tsv | cut -f 1,2 | while read -r number name; do
        grep -qE "^ +$number $name  " "$work/output" || echo "  no $number $name"
    done
    tail -n +2 docs/toxics.tsv | cut -f 1,2 | grep -v '^any' | tr '\t' '\n' | while read -r word; do
        grep -qE "^ +([a-z_]+ +)?$word " "$work/output" || echo "  no $word"
    done
)"
sed -n '/^Scenarios:/,/^Toxics:/s/^    //p' "$work/output" | sed -n '/^\[/,/^\]/p' > "$work/shown.json"
verdict "the scenario of --help" "$(names "$work/shown.json" name listen upstream toxics latency limit_data)"
reported "$stored" --scenario "$work/shown.json"
run /dev/null -h
verdict "toxicap -h" "$(
    fault 0
    [ ! -s "$work/faults" ] || echo '  something is told'
    names "$work/output" '--capture <PATH>' '--out <DIR>' '[default: 4096]' 'Exit status:' 'Examples:'
    [ "$(wc -l < "$work/output")" -lt 48 ] || echo '  it is longer than a screen'
    ! grep -n '.\{80\}' "$work/output"
)"
run /dev/null --version
verdict "toxicap --version" "$(
    well
    [ "$(head -n 1 "$work/output")" = 'toxicap 1.0.0' ] || echo '  another version'
    names "$work/output" 'pcap 2.4' Ethernet IPv4 TCP JSON
)"
run /dev/null -V
verdict "toxicap -V" "$(well; told output $'toxicap 1.0.0\n')"

close
