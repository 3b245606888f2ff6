#!/usr/bin/env bash
# A file that a run of the built program has read is not replaced, and is no draft: the capture, a scenario or standard input, by whatever path, also if the
# system can't tell which file was read. Nor is a file that may not be written.
set -euo pipefail
cd "$(dirname "$0")/../.."
. tests/lib.sh
. tests/program/calls.sh
. tests/program/stored.sh

# A file that the run reads is not replaced: neither the capture, nor a scenario, nor standard input, nor what a link leads to.
# spared WHAT NUMBER FILE: the verdict on the last run, which was refused after NUMBER files, where FILE was to stay as the capture is.
spared() { verdict "$1" "$(refusal "refused 60 ShelfFailed after $2"; byte_difference "$capture" "$3")"; }

folder
cp "$capture" "$work/folder/0000.pcap"
run /dev/null --capture "$work/folder/0000.pcap" "${late[@]}" --out "$work/folder"
spared "the capture is not replaced" 0 "$work/folder/0000.pcap"
run "$work/folder/0000.pcap" "${late[@]}" --out "$work/folder"
spared "nor is standard input" 0 "$work/folder/0000.pcap"
status=0
(cd "$work/folder" && timeout "$patience" "$program" --capture 0000.pcap --out . > "$work/output" 2> "$work/faults") || status=$?
spared "nor by paths without a folder" 0 "$work/folder/0000.pcap"

folder
cp "$capture" "$work/recording"
ln -s ../recording "$work/folder/0001.pcap"
ln -s recording "$work/named"
run /dev/null --capture "$work/named" "${late[@]}" "${late[@]}" --out "$work/folder"
spared "nor is a link that leads to it" 2 "$work/folder/0001.pcap"

folder
ln "$work/recording" "$work/folder/0000.pcap"
run /dev/null --capture "$work/recording" "${late[@]}" --out "$work/folder"
spared "nor is another name of it" 0 "$work/folder/0000.pcap"

folder
cp "${late[1]}" "$work/folder/0001.txt"
run "$capture" "${late[@]}" --scenario "$work/folder/0001.txt" --out "$work/folder"
verdict "nor is a scenario" "$(refusal "refused 60 ShelfFailed after 3"; byte_difference "${late[1]}" "$work/folder/0001.txt")"

# Nor is any of six scenarios, each in turn under the last name, nor one of the three under the first names, nor the last of 256.
for ((number = 0; number < 6; number++)); do
    folder
    cp "${late[1]}" "$work/folder/0005.txt"
    six=()
    for ((scenario = 0; scenario < 6; scenario++)); do
        if [ $scenario = $number ]; then six+=(--scenario "$work/folder/0005.txt"); else six+=("${late[@]}"); fi
    done
    run "$capture" "${six[@]}" --out "$work/folder"
    verdict "nor is scenario $number of six" "$(refusal "refused 60 ShelfFailed after 11"; byte_difference "${late[1]}" "$work/folder/0005.txt")"
done
folder
three=()
for number in 0 1 2; do
    cp "${late[1]}" "$work/folder/000$number.txt"
    three+=(--scenario "$work/folder/000$number.txt")
done
run "$capture" "${three[@]}" --out "$work/folder"
verdict "nor are three scenarios" "$(
    refusal "refused 60 ShelfFailed after 1"
    holds "$work/folder" 0000.pcap 0000.txt 0001.txt 0002.txt
    for number in 0 1 2; do byte_difference "${late[1]}" "$work/folder/000$number.txt"; done
)"
folder
cp "${late[1]}" "$work/folder/0255.txt"
all=()
for ((scenario = 0; scenario < 255; scenario++)); do all+=("${late[@]}"); done
run "$capture" "${all[@]}" --scenario "$work/folder/0255.txt" --out "$work/folder"
verdict "nor is the last of 256 scenarios" "$(refusal "refused 60 ShelfFailed after 511"; byte_difference "${late[1]}" "$work/folder/0255.txt")"

folder
cp "$capture" "$work/folder/0001.pcap"
run "$work/folder/0001.pcap" "${late[@]}" --out "$work/folder"
verdict "a file of another number stays by itself" "$(well; holds "$work/folder" 0000.pcap 0000.txt 0001.pcap; byte_difference "$capture" "$work/folder/0001.pcap")"

# A file that the run reads is no draft that a killed run left: it is not removed, and no draft is made at its path.
# read_draft WHAT NUMBER FILE: the verdict on the last run, where FILE, at the path of the draft with this number, was to stay as it is.
read_draft() {
    local draft=toxicap.unfinished-$2
    verdict "$1 at the path of draft $2" "$(part_stored "$2" "$draft"; byte_difference "$3" "$work/folder/$draft")"
}
for number in 0 1; do
    draft=$work/folder/toxicap.unfinished-$number
    folder
    cp "$capture" "$draft"
    run /dev/null --capture "$draft" "${late[@]}" --out "$work/folder"
    read_draft "the capture" $number "$capture"
    folder
    cp "$capture" "$draft"
    run "$draft" "${late[@]}" --out "$work/folder"
    read_draft "standard input" $number "$capture"
    folder
    cp "${late[1]}" "$draft"
    run "$capture" --scenario "$draft" --out "$work/folder"
    read_draft "a scenario" $number "${late[1]}"
    folder
    ln "$work/recording" "$draft"
    run /dev/null --capture "$work/recording" "${late[@]}" --out "$work/folder"
    read_draft "another name of the capture" $number "$capture"
    folder
    ln -s ../recording "$draft"
    run /dev/null --capture "$work/recording" "${late[@]}" --out "$work/folder"
    read_draft "a link that leads to the capture" $number "$capture"
    verdict "the link at the path of draft $number" "$([ -L "$draft" ] || echo "  it is gone")"
done

# By two workers the drafts of four scenarios are eight: a run that reads the file of one of them stores all, as one worker does.
four=("${late[@]}" "${late[@]}" "${late[@]}" "${late[@]}")
folder
cp "$capture" "$work/folder/toxicap.unfinished-5"
mkdir "$work/four"
run "$capture" "${four[@]}" --out "$work/four"
cp "$capture" "$work/four/toxicap.unfinished-5"
run /dev/null --capture "$work/folder/toxicap.unfinished-5" "${four[@]}" --workers 2 --out "$work/folder"
verdict "the capture at the path of draft 5" "$(well; silent output; folder_difference "$work/four" "$work/folder")"

# One that no draft of the run wants stays, and all is stored.
folder
cp "$capture" "$work/folder/toxicap.unfinished-9"
cp "${late[1]}" "$work/folder/toxicap.unfinished-10"
echo left > "$work/folder/toxicap.unfinished-11"
for input in /dev/null "$work/folder/toxicap.unfinished-9"; do
    named=(--capture "$work/folder/toxicap.unfinished-9")
    [ "$input" = /dev/null ] || named=()
    run "$input" "${named[@]}" --scenario "$work/folder/toxicap.unfinished-10" --out "$work/folder"
    verdict "inputs at paths that no draft wants, by $([ "$input" = /dev/null ] && echo name || echo "standard input")" "$(
        well
        holds "$work/folder" 0000.pcap 0000.txt toxicap.unfinished-10 toxicap.unfinished-9
        byte_difference "$capture" "$work/folder/toxicap.unfinished-9"
        byte_difference "${late[1]}" "$work/folder/toxicap.unfinished-10"
        byte_difference "$work/new/0000.pcap" "$work/folder/0000.pcap"
    )"
done

# What was read is known by the open file. A run that has opened its capture stands still before the last of its reads, and the capture's path gets
# to lead elsewhere: the file that was read is not replaced all the same.
folder
cp "$capture" "$work/folder/0000.pcap"
cp "$capture" "$work/elsewhere"
ln -sfn folder/0000.pcap "$work/named"
mkdir "$work/aside"
run_with "" /dev/null --capture "$work/named" "${late[@]}" --out "$work/aside"
if can_count "a path that changes while a run reads"; then
    if begin_with "FAIL=read:$(count read) CAUSE=stop" /dev/null --capture "$work/named" "${late[@]}" --out "$work/folder"; then
        ln -sfn elsewhere "$work/named"
        end_begun CONT
        verdict "a path that changes while a run reads" "$(
            refusal "refused 60 ShelfFailed after 0"
            byte_difference "$capture" "$work/folder/0000.pcap"
        )"
    else
        end_begun KILL
        verdict "a path that changes while a run reads" "  the run does not stand still"
    fi
fi

# Where it can't be seen which file was read, nothing is stored. Each look at a file fails in turn, and then all of them.
# unseen WHAT FILE COPY INPUT [ARGUMENT..]: the verdicts on runs that read the copy of a file under the first output's name.
unseen() {
    local what=$1 file=$2 copy=$3 number=0 bad=""
    shift 3
    while [ -z "$bad" ]; do
        number=$((number + 1))
        cp "$file" "$copy"
        run_with "FAIL=stat:$number CAUSE=5" "$@" --out "$work/folder"
        has_failed || break
        bad=$(refusal "refused 60 ShelfFailed after 0"; byte_difference "$file" "$copy")
    done
    [ -n "$bad" ] || [ $number != 1 ] || bad="  there is no look"
    verdict "$what, where a look at a file fails" "${bad:+  look $number$'\n'}$bad"
    cp "$file" "$copy"
    run_with "FAIL=stat:1+ CAUSE=5" "$@" --out "$work/folder"
    verdict "$what, where all looks at files fail" "$(refusal "refused 60 ShelfFailed after 0"; byte_difference "$file" "$copy")"
}
folder
run_with "" "$capture" "${late[@]}" --out "$work/folder"
if can_count "looks at files that fail"; then
    folder
    copy=$work/folder/0000.pcap
    unseen "standard input" "$capture" "$copy" "$copy" "${late[@]}"
    unseen "a named capture" "$capture" "$copy" /dev/null --capture "$copy" "${late[@]}"
    unseen "a scenario" "${late[1]}" "$copy" "$capture" --scenario "$copy"
    folder
    run_with "FAIL=stat:1+ CAUSE=5" "$capture" "${late[@]}" --out "$work/folder"
    verdict "an input elsewhere, where all looks at files fail" "$(refusal "refused 60 ShelfFailed after 0"; holds "$work/folder")"
    run_with "FAIL=stat:1+ CAUSE=5" "$capture" "${late[@]}"
    verdict "a run that prints, where all looks at files fail" "$(well; difference "$work/new/0000.txt" "$work/output")"
fi

# A pipe, a file without a name, and none at all are standard input too: the first ones are read, and a run that names its capture needs none.
folder
run <(cat "$capture") "${late[@]}" --out "$work/folder"
verdict "a pipe as standard input" "$(well; folder_difference "$work/new" "$work/folder")"
folder
cp "$capture" "$work/nameless"
exec 3< "$work/nameless"
rm "$work/nameless"
status=0
timeout "$patience" "$program" "${late[@]}" --out "$work/folder" <&3 > "$work/output" 2> "$work/faults" || status=$?
exec 3<&-
verdict "a file without a name as standard input" "$(well; folder_difference "$work/new" "$work/folder")"

# In a root that has the program and what it needs, and no /dev: standard input can't be looked at there, and a named capture can.
root=$work/bare-root
mkdir -p "$root/folder"
cp "$program" "$root/toxicap"
for file in $(ldd "$program" 2> /dev/null | grep -o '/[^ ]*' || true); do
    mkdir -p "$root/${file%/*}"
    cp -L "$file" "$root/$file"
done
cp "$capture" "$root/recording"
cp "${late[1]}" "$root/late.json"
rooted=(chroot "$root")
if [ "$(id -u)" != 0 ]; then rooted=(unshare --map-root-user "${rooted[@]}"); fi

# run_rooted INPUT [ARGUMENT..]: runs the program there; its folder is `folder` of the script then.
run_rooted() {
    local input=$1
    shift
    status=0
    timeout "$patience" "${rooted[@]}" /toxicap "$@" < "$input" > "$work/output" 2> "$work/faults" || status=$?
}
run_rooted /dev/null -V
if [ $status = 0 ]; then
    run_rooted "$capture" --scenario /late.json
    verdict "without /dev, printed" "$(well; difference "$work/new/0000.txt" "$work/output")"
    run_rooted /dev/null --capture /recording --scenario /late.json --out /folder
    verdict "without /dev, a named capture" "$(well; folder_difference "$work/new" "$root/folder")"
    rm "$root"/folder/*
    run_rooted "$capture" --scenario /late.json --out /folder
    verdict "without /dev, standard input" "$(refusal "refused 60 ShelfFailed after 0"; holds "$root/folder")"
    cp "$capture" "$root/folder/0000.pcap"
    run_rooted "$root/folder/0000.pcap" --scenario /late.json --out /folder
    verdict "without /dev, standard input of an output's name" "$(
        refusal "refused 60 ShelfFailed after 0"
        byte_difference "$capture" "$root/folder/0000.pcap"
    )"
    cp "$capture" "$root/folder/0000.pcap"
    run_rooted /dev/null --capture /folder/0000.pcap --scenario /late.json --out /folder
    verdict "without /dev, a named capture of an output's name" "$(
        refusal "refused 60 ShelfFailed after 0"
        byte_difference "$capture" "$root/folder/0000.pcap"
    )"
else
    skip "a root without /dev" "the program can't be run in another root"
fi

# Files that may not be written, by root as nobody: an output's, of which the old one stays; and the inputs, which are read all the same.
folder
echo old > "$work/folder/0000.txt"
cp "$capture" "$work/read-only"
cp "${late[1]}" "$work/read-only.json"
chmod a-w "$work"/folder/0000.txt "$work"/read-only*
bound=("$program")
if [ "$(id -u)" = 0 ]; then
    cp "$program" "$work/copy"
    chmod 711 "$work"
    chown -R 65534:65534 "$work/folder"
    bound=(setpriv --reuid=65534 --regid=65534 --clear-groups "$work/copy")
fi

# run_bound: runs the program over these inputs as one who may not write them.
run_bound() {
    status=0
    timeout "$patience" "${bound[@]}" --capture "$work/read-only" --scenario "$work/read-only.json" --out "$work/folder" \
        > "$work/output" 2> "$work/faults" || status=$?
}
if "${bound[@]}" -V > /dev/null 2>&1; then
    run_bound
    verdict "a file that may not be written" "$(refusal "refused 60 ShelfFailed after 1"; echo old | byte_difference - "$work/folder/0000.txt")"
    rm -f "$work"/folder/*
    run_bound
    verdict "inputs that may not be written" "$(well; folder_difference "$work/new" "$work/folder")"
else
    skip "files that may not be written" "root may write each, and cannot run as nobody"
fi
close
