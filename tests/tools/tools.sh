#!/usr/bin/env bash
# What holds of each tool that is over tools/tool.py: what it says has no control characters of its command line; standard output has all
# or nothing, and is no input; inputs may be links and pipes, as for the program. Then the two that store files: after a signal that asks for an end no
# folder is left; what they replace, and what they don't. It wants python3, and for `record` the right to a network of its own.
set -euo pipefail
cd "$(dirname "$0")/../.."
. tests/lib.sh
if ! can "tools" python3; then close; exit; fi
make_library
tools=(closed_loop explain fixtures for_sensors redact report timeline)
! own_network "record, of the tools" || tools+=(record)
export TOXICAP=$program
mkdir "$work"/{bin,files,links,pipes,out,tmp}
for tool in "${tools[@]}"; do ln -s "$PWD/tools/$tool" "$work/bin/toxicap-${tool//_/-}"; done
cp samples/shop.pcap examples/slicer.json "$work/files"
"$program" --capture samples/shop.pcap --scenario examples/slicer.json --out "$work/files"
echo '{"captures": ["shop.pcap"], "scenarios": ["slicer.json"]}' > "$work/files/fixtures.json"
ln -s ../files/{shop.pcap,slicer.json,0000.pcap,0000.txt,fixtures.json} "$work/links"

# take TOOL FOLDER: a command line of the tool, `words`, and what its standard input is, `input`, with files of this folder.
take() {
    input=/dev/null
    case $1 in
        closed_loop) words=(--capture "$2/shop.pcap" --scenario "$2/slicer.json" --out "$work/out") ;;
        explain) words=(--capture "$2/shop.pcap" --scenario "$2/slicer.json") ;;
        fixtures) words=(verify "$2/fixtures.json") ;;
        record) words=("$work/out/session.pcap" -- bash -c '! : 2> /dev/null < /dev/tcp/127.0.0.1/9') ;;
        for_sensors) words=(--recording "$2/shop.pcap" "$2/0000.pcap") ;;
        redact) words=(--text basket) input=$2/shop.pcap ;;
        report) words=(--form csv "$2/0000.txt") ;;
        timeline) words=("$2/0000.pcap") ;;
    esac
}

# tool TOOL INPUT WORD..: runs it by its command's name; `status`, and the files `output` and `faults`, are what came.
tool() {
    status=0
    timeout "$patience" "$work/bin/toxicap-${1//_/-}" "${@:3}" < "$2" > "$work/output" 2> "$work/faults" || status=$?
    LC_ALL=C sed -i "s|$work/[a-z]*/||g" "$work/output" "$work/faults"
}

# stopped TOOL LINE: it was to end with status 2 and this line, and to write nothing.
stopped() {
    fault 2
    silent output
    told faults "toxicap-${1//_/-}: $2"$'\n'
}

# escaped: it was to end with status 2, to write nothing, and to tell of the word, escaped.
escaped() {
    fault 2
    silent output
    grep -qF '\x1b[2J' "$work/faults" || cat "$work/faults"
    [ "$(tr -d '\n' < "$work/faults" | tr -d '[:print:]' | wc -c)" = 0 ] || cat -A "$work/faults"
}

# place TOOL WORDS: runs it with its standard output closed in one of these ways: /dev/full, a pipe that nobody reads, none.
place() {
    take "$1" "$work/files"
    status=0
    python3 -c 'import os, signal, sys
way, *words = sys.argv[1:]
if way == "full": os.dup2(os.open("/dev/full", os.O_WRONLY), 1)
if way == "pipe":
    read, write = os.pipe()
    os.dup2(write, 1)
    os.close(read)
if way == "none": os.close(1)
os.execv(words[0], words)' "$2" "$work/bin/toxicap-${1//_/-}" "${words[@]}" < "$input" > "$work/output" 2> "$work/faults" || status=$?
}

for tool in "${tools[@]}"; do
    tool "$tool" /dev/null --help
    verdict "$tool: its name" "$(well; [[ $(head -n 1 "$work/output") = "usage: toxicap-${tool//_/-} "* ]] || head "$work/output")"
    take "$tool" "$work/files"
    tool "$tool" "$input" $'--a\e[2J\n' "${words[@]}"
    verdict "$tool: a word with control characters" "$(escaped)"

    # where standard output takes nothing
    for way in full pipe none; do
        case $way in full) why=": No space left on device" ;; pipe) why=": Broken pipe" ;; none) why=" is closed" ;; esac
        [[ $tool$way != @(closed_loop|record)@(full|pipe) ]] || continue  # they print nothing
        place "$tool" $way
        verdict "$tool: standard output, $way" "$(stopped "$tool" "standard output$why")"
    done

    # links and pipes as inputs
    take "$tool" "$work/files"
    tool "$tool" "$input" "${words[@]}"
    [ $tool = fixtures ] || verdict "$tool" "$(fault 0)"
    cp "$work/output" "$work/expected"
    take "$tool" "$work/links"
    tool "$tool" "$input" "${words[@]}"
    verdict "$tool: links" "$(byte_difference "$work/expected" "$work/output")"
    [ $tool != fixtures ] || continue  # it reads its inputs twice, and refuses what is no file
    take "$tool" "$work/pipes"
    rm -f "$work/pipes"/*
    for word in "${words[@]}" "$input"; do
        [[ $word = "$work"/pipes/* ]] || continue
        mkfifo "$word"
        # shellcheck disable=SC2016
        timeout "$patience" sh -c 'cat "$0" > "$1"' "$work/files/${word##*/}" "$word" &
    done
    tool "$tool" "$input" "${words[@]}"
    verdict "$tool: pipes" "$(fault 0; byte_difference "$work/expected" "$work/output")"
    wait
done

# names of files with control characters
none=$work/$'none\e[2J\n'
tool closed_loop /dev/null --capture "$none" --scenario examples/slicer.json --out "$work/out"
verdict "closed_loop: a name with control characters" "$(escaped)"
tool explain /dev/null --scenario "$none"
verdict "explain: a name with control characters" "$(escaped)"
tool fixtures /dev/null verify "$none.json"
verdict "fixtures: a name with control characters" "$(escaped)"
for tool in for_sensors report timeline; do
    tool $tool /dev/null "$none"
    verdict "$tool: a name with control characters" "$(escaped)"
done
tool record /dev/null "$none/session.pcap" -- true
verdict "record: a name with control characters" "$(escaped)"
tool redact /dev/null --regex $'(\e[2J'
verdict "redact: a pattern with control characters" "$(escaped)"

# standard output that is an input stays as it is
for tool in explain fixtures for_sensors redact report timeline; do
    take $tool "$work/links"
    for file in shop.pcap 0000.pcap 0000.txt fixtures.json; do
        [[ "$input ${words[*]}" = *"/$file"* ]] || continue
        cp "$work/files/$file" "$work/kept"
        : > "$work/output"
        status=0
        "$work/bin/toxicap-${tool//_/-}" "${words[@]}" < "$input" 2> "$work/faults" >> "$work/files/$file" || status=$?
        verdict "$tool: standard output is $file" "$(stopped $tool 'standard output is an input: write to another file'; byte_difference "$work/kept" "$work/files/$file")"
        cp "$work/kept" "$work/files/$file"
    done
done

# signals, while the program sleeps: no folder is left
printf '#!/bin/sh\necho run > %q\nexec sleep 20\n' "$work/runs" > "$work/sleeper"
chmod +x "$work/sleeper"
for tool in closed_loop fixtures; do
    for signal in TERM HUP INT; do
        take $tool "$work/files"
        [ $tool != fixtures ] || words[0]=make
        rm -f "$work/runs"
        TMPDIR=$work/tmp TOXICAP=$work/sleeper python3 -c 'import os, signal, sys
signal.signal(signal.SIGINT, signal.SIG_DFL)
os.execv(sys.argv[1], sys.argv[1:])' "$work/bin/toxicap-${tool//_/-}" "${words[@]}" < /dev/null > "$work/output" 2> "$work/faults" &
        job=$!
        for ((tries = 0; tries < 600; tries++)); do [ ! -s "$work/runs" ] || break; sleep 0.1; done
        kill -$signal $job
        status=0
        wait $job 2> "$work/shell" || status=$?
        verdict "$tool: asked to end by SIG$signal" "$(
            fault $((128 + $(kill -l $signal)))
            silent output faults
            find "$work/tmp" "$work/out" "$work/files" -mindepth 1 -name '*.unfinished' -o -path "$work/tmp/*" | sed 's/^/  left: /'
        )"
    done
done

# closed_loop: what stands in the folder
# looped FOLDER WORD..: runs it into a folder.
looped() { tool closed_loop /dev/null --capture "${3:-$work/files/shop.pcap}" --scenario examples/slicer.json --out "$1"; }
stored=(0000.pcap 0000.txt 0001.pcap 0001.txt recording.pcap)
# untouched FOLDER WHAT LINE: it was to stop with this line, and to leave the folder as it was.
untouched() { verdict "closed_loop: $2" "$(stopped closed_loop "$3"; folder_difference "$work/before" "$1")"; }
rm -rf "$work/out"
mkdir "$work/out" "$work/other"
echo mine > "$work/other/file"
ln -s ../other/file "$work/out/0000.pcap"
ln -s ../other/none "$work/out/0000.txt"
looped "$work/out"
verdict "closed_loop: links are replaced" "$(
    well
    holds "$work/out" "${stored[@]}"
    find "$work/out" -type l
    holds "$work/other" file
    echo mine | byte_difference - "$work/other/file"
)"
for kind in fifo dir link; do
    rm -rf "$work/out/0001.txt"
    case $kind in fifo) mkfifo "$work/out/0001.txt" ;; dir) mkdir "$work/out/0001.txt" ;; link) ln -s /dev/null "$work/out/0001.txt" ;; esac
    rm -f "$work/out/recording.pcap"
    looped "$work/out"
    verdict "closed_loop: a $kind in place of a file" "$(
        stopped closed_loop "0001.txt is no file that may be replaced: move it away"
        holds "$work/out" 0000.pcap 0000.txt 0001.pcap 0001.txt
    )"
done
rm -rf "$work/out"
mkdir "$work/out"
cp samples/shop.pcap "$work/out/recording.pcap"
ln "$work/out/recording.pcap" "$work/out/0001.pcap"
cp -a "$work/out" "$work/before"
looped "$work/out" '' "$work/out/recording.pcap"
untouched "$work/out" "an input of a file's name" "recording.pcap is an input, which is not replaced: choose another folder"
rm "$work"/{out,before}/recording.pcap
looped "$work/out" '' "$work/out/0001.pcap"
untouched "$work/out" "an input, by another name" "0001.pcap is an input, which is not replaced: choose another folder"
status=0
(ulimit -f 1; "$work/bin/toxicap-closed-loop" --capture samples/shop.pcap --scenario examples/slicer.json --out "$work/out" < /dev/null > "$work/output" 2> "$work/faults") || status=$?
untouched "$work/out" "no room" "a file of TMPDIR, or beside an output: File too large"

# fixtures: an input that lies among them
(cd "$work/files" && tool fixtures /dev/null make)
cp "$work/files/fixtures/slicer.txt" "$work/kept"
echo '{"captures": ["fixtures/slicer.pcap"], "scenarios": ["slicer.json"]}' > "$work/files/fixtures.json"
(cd "$work/files" && tool fixtures /dev/null make; verdict_of=$status; echo "$verdict_of" > "$work/status")
status=$(cat "$work/status")
verdict "fixtures: an input among them" "$(
    stopped fixtures 'fixtures/slicer.pcap is an input, which is not replaced: move it elsewhere'
    holds "$work/files/fixtures" manifest.json slicer.pcap slicer.txt
    byte_difference "$work/kept" "$work/files/fixtures/slicer.txt"
)"
close
