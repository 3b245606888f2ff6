#!/usr/bin/env bash
# A disk that fails under the built program while it stores four scenarios, by one worker and by two: each call of the disk fails once, in turn, or
# fails from then on; and disks of many sizes are full. What is left is what the last line says: after `60 .. after N` the first N files are the new
# ones whole, and the others the old ones; no draft is left except one that cannot be removed; and a run that ends with 0 has stored all. Two workers
# and four leave what one leaves.
set -euo pipefail
cd "$(dirname "$0")/../.."
. tests/lib.sh
. tests/program/calls.sh
capture=samples/http-get.pcap
folder=$work/folder new=$work/new
files=() four=()
for name in latency limit_data slow_close timeout; do
    four+=(--scenario "examples/$name.json")
    number=$(printf '%04d' $((${#files[@]} / 2)))
    files+=("$number.pcap" "$number.txt")
done
mkdir "$new"
run "$capture" "${four[@]}" --out "$new"
verdict "the eight files are the stored examples" "$(
    well
    number=0
    for name in latency limit_data slow_close timeout; do
        sed "s/^scenario 0 /scenario $number /" "examples/$name.txt" | byte_difference - "$new/000$number.txt"
        sum_difference "$(sed -n "s/  $name.pcap\$//p" examples/captures.sha256)" "$new/000$number.pcap"
        number=$((number + 1))
    done
)"

# anew: the folder with eight old files, and with a draft that a killed run left.
anew() {
    local name
    rm -rf "$folder"
    mkdir "$folder"
    for name in "${files[@]}"; do echo old > "$folder/$name"; done
    echo left > "$folder/toxicap.unfinished-9"
}

# as_told [DRAFT [SEEN]]: what is at fault with the last run, which was to leave what its status and its line tell. DRAFT may be left too; a run that
# could not read leaves all as it was. Where a look failed by which it was to see its own files once all were published, SEEN, all are the new ones.
as_told() {
    local number stored=8 draft=${1-}
    if [ "$status" != 0 ]; then
        fault 1
        case $(cat "$work/faults") in
            'refused 60 ShelfFailed after '[0-8]) stored=$(tail -c 2 "$work/faults") ;;
            *)
                told faults $'refused 61 ReadFailed\n'
                stored=0 draft=toxicap.unfinished-9
                echo left | byte_difference - "$folder/$draft"
                ;;
        esac
    else
        silent faults
    fi
    silent output
    [ -z "${2-}" ] || stored=8
    for ((number = 0; number < 8; number++)); do
        if [ $number -lt "$stored" ]; then cat "$new/${files[number]}"; else echo old; fi | byte_difference - "$folder/${files[number]}"
    done
    [ -z "$draft" ] || rm -f "$folder/$draft"
    holds "$folder" "${files[@]}"
}

# spared KIND: the draft that a run may leave of which a call of this kind failed: the one that it could not remove, or the one of the killed run,
# where the folder was not held or listed, or that was not looked at.
spared() {
    case $1 in
        remove) failed_name ;;
        lock | list | stat | open) echo toxicap.unfinished-9 ;;
    esac
}

# named WORKERS: what is at fault with the number that the last run told: the failed call was of a file, or of its draft, and only those before it
# count. Two workers have a draft for each file, and one has two.
named() {
    local told number places=8 name
    [ "$status" != 0 ] || return 0
    told=$(tail -c 2 "$work/faults")
    name=$(failed_name)
    case $name in
        toxicap.unfinished-[0-7]) [ "$1" = 2 ] || places=2; number=${name#*-} ;;
        000[0-3].*) number=$((2 * ${name:3:1})); [ "$name" = "${name%.txt}" ] || number=$((number + 1)) ;;
        *) return 0 ;;
    esac
    [ $((told % places)) = "$number" ] || echo "  after $told, and the call was of $name"
}

# each WORKERS KIND CAUSE: each call of a kind fails in turn, until a run has no more of them.
each() {
    local workers=$1 kind=$2 number=0 bad="" seen
    while [ -z "$bad" ]; do
        number=$((number + 1))
        anew
        run_with "FAIL=$kind:$number CAUSE=$3" /dev/null --capture "$capture" "${four[@]}" --out "$folder" --workers "$workers"
        has_failed || break
        seen=""
        [ "$kind" != stat ] || [ "$(count rename)" != 8 ] || seen=yes
        bad=$(as_told "$(spared "$kind")" "$seen")
        case $kind$seen in create | write | rename | statyes) bad+=$(named "$workers") ;; esac
    done
    [ -n "$bad" ] || bad=$(fault 0; as_told; [ $number != 1 ] || [ "$kind" = sync ] || echo "  there is no call")
    verdict "$kind by $workers workers, cause $3" "${bad:+  $kind $number$'\n'}$bad"
    failures=$((failures + number - 1))
}
# A failed write that is ignored leaves a torn file with status 0, and a failed rename that is ignored leaves a file less.
failures=0 device=5 room=28 nothing=0
run_with "" /dev/null -V
can_count "each call fails" || { close; exit; }
for workers in 1 2; do
    for kind in open create read rename stat remove sync close lock list; do each $workers $kind $device; done
    for kind in create rename sync; do each $workers $kind $room; done
    for cause in $room $nothing; do each $workers write $cause; done
done
echo "$failures calls failed"

# A draft that cannot be removed, once its file cannot be stored, is all that is left of the others.
for workers in 1 2; do
    number=0 bad=""
    while [ -z "$bad" ]; do
        number=$((number + 1))
        anew
        rm "$folder/0002.txt"
        mkdir "$folder/0002.txt"
        run_with "FAIL=remove:$number CAUSE=$device" /dev/null --capture "$capture" "${four[@]}" --out "$folder" --workers $workers
        has_failed || break
        rmdir "$folder/0002.txt" && echo old > "$folder/0002.txt"
        bad=$(refusal "refused 60 ShelfFailed after 5"; [ -e "$folder/$(failed_name)" ] || echo "  $(failed_name) is gone"; as_told "$(failed_name)")
    done
    [ $number -gt 2 ] || bad+="  files removed: $number"
    verdict "each draft that is not removed, by $workers workers" "${bad:+  remove $number$'\n'}$bad"
done

# What fails from some call on: two workers leave what one leaves. Files are published in order by the same thread, drafts are made by any.
# left: the status, the line and the folder after the last run.
left() {
    echo "status $status"
    cat "$work/output" "$work/faults"
    (cd "$1" && find . -type f -exec sha256sum {} + | sort -k 2)
}
for kind in create:1 rename:{1,2,3,4,5,6,7,8}; do
    for workers in 1 2; do
        anew
        run_with "FAIL=$kind+ CAUSE=$device" /dev/null --capture "$capture" "${four[@]}" --out "$folder" --workers $workers
        left "$folder" > "$work/left.$workers"
        verdict "from $kind on, by $workers workers" "$(
            has_failed || echo "  no call failed"
            refusal "refused 60 ShelfFailed after $((${kind#*:} - 1))"
            as_told
            difference "$work/left.1" "$work/left.$workers"
        )"
    done
done

# Full disks: from 1 page of 4,096 bytes to as many as all files want, without files and with old ones, of captures of 9 KB. Two workers and four
# leave what one leaves. A round that ends at its first draft without room is found.
mkdir "$work/disk"
clean_up() { umount "$work/disk" 2> /dev/null || true; }

# on_disk PAGES OLD WORKERS SCENARIOS: a run on a disk of PAGES pages with OLD old files; what it leaves stands in `left.WORKERS`.
on_disk() {
    local name
    mount -t tmpfs -o "size=$((4 * $1))k" tmpfs "$work/disk"
    for name in "${files[@]:0:$2}"; do echo old > "$work/disk/$name"; done
    run samples/shop.pcap "${four[@]:0:2*$4}" --out "$work/disk" --workers "$3"
    left "$work/disk" > "$work/left.$3"
    umount "$work/disk"
}
if mount -t tmpfs -o size=8k tmpfs "$work/disk" 2> /dev/null; then
    umount "$work/disk"
    for scenarios in 2 4; do
        for old in 0 $((2 * scenarios)); do
            bad="" lines=""
            for ((pages = 1; pages <= 5 * scenarios + 4; pages += scenarios / 2)); do
                [ $pages -ge $old ] || continue
                on_disk $pages $old 1 $scenarios
                lines+=$(grep -v ' \./' "$work/left.1" | xargs)$'\n'
                for workers in 2 4; do
                    on_disk $pages $old $workers $scenarios
                    [ -n "$bad" ] || bad=$(difference "$work/left.1" "$work/left.$workers" | head -n 4)
                    [ -z "$bad" ] || { bad="  $((4 * pages)) KB, by $workers workers:"$'\n'"$bad"; break 2; }
                done
            done
            verdict "full disks, $scenarios scenarios, $old old files" "$bad$(
                [ -n "$bad" ] || grep -q '^status 1 refused 60 ' <<< "$lines" || echo "  no disk is too small"
                [ -n "$bad" ] || grep -q '^status 0' <<< "$lines" || echo "  all disks are too small"
            )"
        done
    done
else
    skip "full disks" "no disk of 8 KiB can be made here"
fi
close
