#!/usr/bin/env bash
# Runs of the built program that are killed, at many instants, and before and after each of their calls of the disk in turn: each file in the folder is the
# old one whole or the new one whole.
set -euo pipefail
cd "$(dirname "$0")/../.."
. tests/lib.sh
. tests/program/calls.sh
. tests/program/stored.sh

# sums FOLDER: the sum of each file, with its name.
sums() { (cd "$1" && sha256sum -- *); }

# A run of 64 scenarios by one to four workers is killed at many instants: each file is the old one whole, or the new one.
many=()
for ((scenario = 0; scenario < 64; scenario++)); do many+=("${late[@]}"); done
folder
run "$capture" "${many[@]}" --out "$work/folder"
sums "$work/folder" > "$work/whole"
mkdir "$work/old"
for file in "$work"/folder/*; do echo old > "$work/old/${file##*/}"; done
sums "$work/old" >> "$work/whole"
bad=$(well)
for ((instant = 1; instant <= 40; instant += 3)); do
    folder
    cp "$work"/old/* "$work/folder"
    "$program" --capture "$capture" "${many[@]}" --workers $((1 + instant % 4)) --out "$work/folder" &
    sleep "0.$(printf '%03d' "$instant")"
    kill -KILL $! 2> /dev/null || true
    wait $! 2> /dev/null || true
    rm -f "$work"/folder/toxicap.unfinished*
    sums "$work/folder" > "$work/sums"
    [ "$(wc -l < "$work/sums")" = 128 ] || bad+="  killed after $instant ms: $(wc -l < "$work/sums") files"$'\n'
    torn=$(grep -vxFf "$work/whole" "$work/sums" || true)
    [ -z "$torn" ] || bad+="  killed after $instant ms, torn:"$'\n'"$torn"$'\n'
done
verdict "killed at 14 instants" "$bad"

# Killed right before and right after each of its calls in turn that opens, makes, reads, looks at, writes, renames, removes or closes a file, or holds or
# lists the folder: each output is the old file or the new one, whole, the new ones first, and beside them are drafts alone; the next run has its
# outputs there and no more. Where drafts are removed, a run before had left two.
both=("${late[@]}" --scenario examples/limit_data.json)
named=(/dev/null --capture "$capture" "${both[@]}" --out "$work/folder")
names=(0000.pcap 0000.txt 0001.pcap 0001.txt)
folder
run "${named[@]}"
mv "$work/folder" "$work/both"

# survived: what is at fault with the folder after the last run, which was killed.
survived() {
    local name is_old=no
    fault 137
    for name in "${names[@]}"; do
        if ! cmp -s "$work/both/$name" "$work/folder/$name"; then
            is_old=yes
            echo old | byte_difference - "$work/folder/$name"
        elif [ $is_old = yes ]; then
            echo "  $name is new, and one before it is not"
        fi
    done
    find "$work/folder" -mindepth 1 ! -name '0*' ! -name 'toxicap.unfinished-[0-9]' -printf '  another file: %f\n'
}

# killed WHEN KIND: the verdict on runs that are killed `before` or `after` each call of a kind.
killed() {
    local number=0 name bad=""
    while [ -z "$bad" ]; do
        number=$((number + 1))
        folder
        for name in "${names[@]}"; do echo old > "$work/folder/$name"; done
        case $2 in remove | lock | list) echo left | tee "$work"/folder/toxicap.unfinished-{1,9} > /dev/null ;; esac
        run_with "FAIL=$2:$number CAUSE=$1" "${named[@]}" 2> /dev/null
        has_failed || break
        bad=$(survived)
        run "${named[@]}"
        bad+=$(well; folder_difference "$work/both" "$work/folder")
    done
    [ -n "$bad" ] || bad=$(well; folder_difference "$work/both" "$work/folder"; [ $number != 1 ] || echo "  there is no call")
    verdict "killed $1 each $2" "${bad:+  $2 $number$'\n'}$bad"
    kills=$((kills + number - 1))
}

# removed WHEN DRAFT: the verdict on a run that is killed `before` or `after` it removes a draft, for which a folder has the name; DRAFT is left.
removed() {
    local bad
    folder
    mkdir "$work/folder/0001.txt"
    run_with "FAIL=remove:1 CAUSE=$1" "${named[@]}" 2> /dev/null
    bad=$(fault 137; holds "$work/folder" "${names[@]}" ${2:+"$2"})
    rmdir "$work/folder/0001.txt"
    run "${named[@]}"
    verdict "killed $1 a draft is removed" "$bad$(well; folder_difference "$work/both" "$work/folder")"
    kills=$((kills + 1))
}
kills=0
folder
run_with "" "${named[@]}"
if can_count "kills before and after each call"; then
    for when in before after; do
        for kind in open create read stat write rename remove close lock list; do killed $when $kind; done
    done
    removed before toxicap.unfinished-1
    removed after ""
    echo "killed $kills times"
fi
close
