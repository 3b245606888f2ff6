#!/usr/bin/env bash
# Files that the built program stores in a folder: what is there already is replaced, what killed runs left goes, and what stands in the way is refused,
# such as a link, a pipe and a folder (full disks are those of failing_disk.sh). No file is touched but outputs and what killed runs left.
set -euo pipefail
cd "$(dirname "$0")/../.."
. tests/lib.sh
. tests/program/calls.sh
. tests/program/stored.sh

verdict "two files" "$(well; holds "$work/new" 0000.pcap 0000.txt; difference examples/latency.txt "$work/new/0000.txt")"

# A file has the mode that a new one gets.
for modes in 022:644 027:640; do
    folder
    umask_before=$(umask)
    umask "${modes%:*}"
    run "$capture" "${late[@]}" --out "$work/folder"
    umask "$umask_before"
    verdict "modes under umask ${modes%:*}" "$(
        well
        folder_difference "$work/new" "$work/folder"
        find "$work/folder" -mindepth 1 ! -perm "${modes#*:}" -printf '  mode of %f: %m\n'
    )"
done

folder
echo old > "$work/folder/0000.pcap"
printf 'unfinished of a killed run, and longer than a report.%.0s' {1..100} | tee "$work/folder/toxicap.unfinished-0" > "$work/folder/toxicap.unfinished-1"
run "$capture" "${late[@]}" --out "$work/folder"
verdict "what a killed run left is replaced" "$(well; folder_difference "$work/new" "$work/folder")"

# What killed runs left goes, also where this run has no such number; files of other names stay, and what no run has left: a folder, a link, a pipe.
folder
others=(my.unfinished-1 toxicap.unfinished toxicap.unfinished-{,+7,-1,007,1x,x} toxicap.unfinished.1)
for name in toxicap.unfinished-{0,7,63,1000} "${others[@]}"; do echo "$name" > "$work/folder/$name"; done
run "$capture" "${late[@]}" --out "$work/folder"
verdict "what killed runs left, of all numbers" "$(
    well
    holds "$work/folder" 0000.pcap 0000.txt "${others[@]}"
    for name in "${others[@]}"; do echo "$name" | byte_difference - "$work/folder/$name"; done
    for name in 0000.pcap 0000.txt; do byte_difference "$work/new/$name" "$work/folder/$name"; done
)"

folder
echo target > "$work/target"
ln -s "$work/target" "$work/folder/toxicap.unfinished-7"
mkfifo "$work/folder/toxicap.unfinished-8"
mkdir "$work/folder/toxicap.unfinished-9"
run "$capture" "${late[@]}" --out "$work/folder"
verdict "a link, a pipe and a folder that no draft wants" "$(
    well
    holds "$work/folder" 0000.pcap 0000.txt toxicap.unfinished-{7,8,9}
    [ "$(readlink "$work/folder/toxicap.unfinished-7")" = "$work/target" ] || echo "  the link is gone"
    [ -p "$work/folder/toxicap.unfinished-8" ] || echo "  the pipe is gone"
    [ -d "$work/folder/toxicap.unfinished-9" ] || echo "  the folder is gone"
    echo target | byte_difference - "$work/target"
)"

# Among 3,000 files, of which the name of one is no text.
folder
(cd "$work/folder" && touch kept-{1..3000} $'kept-\xff' && echo left | tee toxicap.unfinished-{1,2,{1000..1039}} > /dev/null)
run "$capture" "${late[@]}" --out "$work/folder"
verdict "what killed runs left, among 3,000 files" "$(
    well
    [ "$(find "$work/folder" -name 'kept-*' | wc -l)" = 3001 ] || echo "  files are gone"
    rm -f "$work"/folder/kept-*
    folder_difference "$work/new" "$work/folder"
)"

# 64 drafts are what 16 workers have at once, and what they leave where they are killed: the next run by as many has its outputs there and no more.
forty=()
for ((scenario = 0; scenario < 40; scenario++)); do forty+=("${late[@]}"); done
folder
run "$capture" "${forty[@]}" --out "$work/folder"
mv "$work/folder" "$work/forty"
folder
for ((place = 0; place < 64; place++)); do printf 'unfinished of a killed run, and longer than a report.%.0s' {1..100} > "$work/folder/toxicap.unfinished-$place"; done
run "$capture" "${forty[@]}" --workers 16 --out "$work/folder"
verdict "64 drafts of a killed run are replaced" "$(well; folder_difference "$work/forty" "$work/folder")"

# An empty path is no folder: neither the one where the program runs, nor the root of the file system. No draft is made there, and so none is removed.
folder
(cd / && printf '%s\n' .* *) > "$work/root"
pushd "$work/folder" > /dev/null
run_with "" "$work/new/0000.pcap" --out ""
popd > /dev/null
(cd / && printf '%s\n' .* *) > "$work/root-after"
verdict "an empty path" "$(
    refusal "refused 60 ShelfFailed after 0"
    holds "$work/folder"
    [ ! -e "$work/calls" ] || [ "$(count remove)" = 0 ] || echo "  files that were removed: $(count remove)"
    difference "$work/root" "$work/root-after"
)"

# A file may have 8,192 bytes, and the capture has more. The signal that tells it is passed over, so that the write fails.
folder
echo old > "$work/folder/0000.pcap"
status=0
(trap '' XFSZ; ulimit -f 8
    exec timeout "$patience" "$program" --capture samples/shop.pcap --out "$work/folder" > "$work/output" 2> "$work/told") || status=$?
cp "$work/told" "$work/faults"
verdict "no room" "$(refusal "refused 60 ShelfFailed after 0"; holds "$work/folder" 0000.pcap; echo old | byte_difference - "$work/folder/0000.pcap")"

folder
mkdir "$work/folder/0000.txt"
run "$capture" "${late[@]}" --out "$work/folder"
verdict "a folder of the report's name" "$(
    refusal "refused 60 ShelfFailed after 1"
    holds "$work/folder" 0000.pcap 0000.txt
    byte_difference "$work/new/0000.pcap" "$work/folder/0000.pcap"
)"

folder
ln -s "$work/target" "$work/folder/0000.txt"
run "$capture" "${late[@]}" --out "$work/folder"
verdict "a link of the report's name" "$(well; folder_difference "$work/new" "$work/folder"; echo target | byte_difference - "$work/target")"

folder
ln -s "$work/missing" "$work/folder/0000.txt"
run "$capture" "${late[@]}" --out "$work/folder"
verdict "a link of the report's name to nothing" "$(
    well
    folder_difference "$work/new" "$work/folder"
    [ ! -L "$work/folder/0000.txt" ] || echo "  the link is there"
    [ ! -e "$work/missing" ] || echo "  its target was made"
)"

# A draft takes no path where something stands that no run has left: a link, which is not followed, a pipe, for which no run waits, and a folder.
for number in 0 1; do
    draft=toxicap.unfinished-$number
    for target in target missing; do
        folder
        ln -s "$work/$target" "$work/folder/$draft"
        run "$capture" "${late[@]}" --out "$work/folder"
        verdict "a link to a $target file at the path of draft $number" "$(
            part_stored $number $draft
            [ "$(readlink "$work/folder/$draft")" = "$work/$target" ] || echo "  the link is gone"
            echo target | byte_difference - "$work/target"
            [ ! -e "$work/missing" ] || echo "  its target was made"
        )"
    done
    folder
    mkfifo "$work/folder/$draft"
    run "$capture" "${late[@]}" --out "$work/folder"
    verdict "a pipe at the path of draft $number" "$(part_stored $number $draft; [ -p "$work/folder/$draft" ] || echo "  the pipe is gone")"
    folder
    mkdir "$work/folder/$draft"
    run "$capture" "${late[@]}" --out "$work/folder"
    verdict "a folder at the path of draft $number" "$(part_stored $number $draft; [ -d "$work/folder/$draft" ] || echo "  the folder is gone")"
done

folder
mkfifo "$work/folder/0000.txt"
run "$capture" "${late[@]}" --out "$work/folder"
verdict "a pipe of the report's name" "$(refusal "refused 60 ShelfFailed after 1"; [ -p "$work/folder/0000.txt" ] || echo "  the pipe is gone")"

mkdir "$work/one" "$work/other"
clean_up() { umount "$work/one" "$work/other" 2> /dev/null || true; }
# Files of two disks that have one inode number are two: a capture of one disk spares no file of the other.
if mount -t tmpfs tmpfs "$work/one" 2> /dev/null && mount -t tmpfs tmpfs "$work/other" 2> /dev/null; then
    cp "$capture" "$work/one/recording"
    echo old > "$work/other/0000.pcap"
    if [ "$(stat -c %i "$work/one/recording")" = "$(stat -c %i "$work/other/0000.pcap")" ]; then
        for input in "$work/one/recording" /dev/null; do
            named=()
            [ "$input" != /dev/null ] || named=(--capture "$work/one/recording")
            rm -f "$work"/other/*
            umount "$work/other"
            mount -t tmpfs tmpfs "$work/other"
            echo old > "$work/other/0000.pcap"
            run "$input" "${named[@]}" "${late[@]}" --out "$work/other"
            verdict "a file of another disk with the inode number of $([ "$input" = /dev/null ] && echo a named capture || echo standard input)" "$(
                well
                folder_difference "$work/new" "$work/other"
            )"
        done
    else
        skip "files of two disks with one inode number" "the first files of two disks have others"
    fi
else
    skip "files of two disks with one inode number" "no disks can be made here"
fi

run "$capture" --out "$work/nowhere"
verdict "no folder" "$(refusal "refused 60 ShelfFailed after 0")"
mkfifo "$work/pipe"
run "$capture" --out "$work/pipe"
verdict "a pipe in place of a folder" "$(refusal "refused 60 ShelfFailed after 0")"
close
