#!/usr/bin/env bash
# Drafts of the built program, where a run has many of them at once or large ones: what one worker leaves is left by many, also where a file has the
# path of a draft of two digits, or few files may be open; files of 2 MB are spared where they were read, and are old or new ones, whole, where a run
# is killed. Names that are almost those of drafts stay.
set -euo pipefail
cd "$(dirname "$0")/../.."
. tests/lib.sh
. tests/program/calls.sh
patience=60
capture=samples/http-get.pcap
late=(--scenario examples/latency.json)
folder=$work/folder

# anew: the folder without files.
anew() {
    rm -rf "$folder"
    mkdir "$folder"
}

# many COUNT: as many scenarios, and the folder `many` with what one worker stores of them.
many() {
    local number
    scenarios=()
    for ((number = 0; number < $1; number++)); do scenarios+=("${late[@]}"); done
    anew
    run "$capture" "${scenarios[@]}" --out "$folder"
    verdict "$1 scenarios by one worker" "$(well; [ "$(find "$folder" -type f | wc -l)" = $((2 * $1)) ] || echo "  other files")"
    rm -rf "$work/many"
    mv "$folder" "$work/many"
}

# first COUNT [NAME..]: what is at fault with the folder, which was to have the first files of `many` and then those of these names.
first() {
    local number all=()
    for ((number = 0; number < $1; number++)); do all+=("$(printf '%04d' $((number / 2))).$([ $((number % 2)) = 0 ] && echo pcap || echo txt)"); done
    for number in "${all[@]}"; do byte_difference "$work/many/$number" "$folder/$number"; done | head -n 1
    shift
    holds "$folder" "${all[@]}" "$@" | cut -c 1-200
}

# Nine scenarios, whose outputs would replace what was read: a capture at the path of file 8, and a scenario at that of file 7, by their names, and by
# links in the folder that lead to them. A round that spares only what its first files would replace is found, and one that goes by names.
many 9
for workers in 1 2 5; do
    for way in name link "another name"; do
        for case in 8:0004.pcap 7:0003.txt; do
            count=${case%:*} name=${case#*:}
            case $name in *.pcap) source=$capture ;; *) source=${late[1]} ;; esac
            anew
            cp "$source" "$work/read"
            case $way in
                name) cp "$source" "$folder/$name"; read=$folder/$name ;;
                link) ln -s ../read "$folder/$name"; read=$work/read ;;
                *) ln "$work/read" "$folder/$name"; read=$work/read ;;
            esac
            was=$(stat -c %i "$folder/$name")
            case $name in
                *.pcap) run /dev/null --capture "$read" "${scenarios[@]}" --workers $workers --out "$folder" ;;
                *) run "$capture" "${scenarios[@]:0:16}" --scenario "$read" --workers $workers --out "$folder" ;;
            esac
            verdict "$name is read, by $way, with $workers workers" "$(
                refusal "refused 60 ShelfFailed after $count"
                byte_difference "$source" "$read"
                [ "$(stat -c %i "$folder/$name")" = "$was" ] || echo "  $name is another file"
                first "$count" "$name"
            )"
        done
    done
done

# 40 scenarios by 16 workers, which have 64 drafts at once. What stands at the path of a draft, and no run has left, stays; the rest is as one worker
# leaves it, who has drafts 0 and 1 alone. A run that ends at the first draft of a round that cannot be made is found, and one that follows a link.
many 40
echo target > "$work/target"
# stands WHAT PATH: makes it there.
stands() {
    case $1 in
        "a link") ln -s "$work/target" "$2" ;;
        "a link to nothing") ln -s "$work/missing" "$2" ;;
        "a pipe") mkfifo "$2" ;;
        "a folder") mkdir "$2" ;;
    esac
}
# kind_of PATH: what stands there, and which one it is.
kind_of() { stat -c '%F %i' "$1" 2> /dev/null || echo nothing; }
for number in 10 37 63 64 79; do
    for what in "a link" "a link to nothing" "a pipe" "a folder"; do
        draft=toxicap.unfinished-$number
        anew
        stands "$what" "$folder/$draft"
        was=$(kind_of "$folder/$draft")
        run "$capture" "${scenarios[@]}" --workers 16 --out "$folder"
        verdict "$what at the path of draft $number" "$(
            well
            [ "$(kind_of "$folder/$draft")" = "$was" ] || echo "  it is gone"
            echo target | byte_difference - "$work/target"
            [ ! -e "$work/missing" ] || echo "  its target was made"
            first 80 "$draft"
        )"
    done
done

# A file there, which a killed run may have left, goes: a read-only one, one without any mode, and one that something holds.
for number in 10 63 79; do
    for what in 444 000 held; do
        anew
        echo left > "$folder/toxicap.unfinished-$number"
        if [ $what = held ]; then
            can "a draft that something holds" flock || continue
            exec 3< "$folder/toxicap.unfinished-$number"
            flock 3
        else
            chmod $what "$folder/toxicap.unfinished-$number"
        fi
        run "$capture" "${scenarios[@]}" --workers 16 --out "$folder"
        exec 3<&-
        verdict "a draft $number that was left, $what" "$(well; first 80)"
    done
done

# Names that are almost those of drafts are of a user's files. A sweep that looks at the front of a name, or takes any number, removes some.
others=(7.5 '7~')
for end in ' 7' '7 ' 0.5 00 07 08 $'7\n' 7.5 70x 7x '7~'; do others+=("toxicap.unfinished-$end"); done
others+=(Toxicap.unfinished-7 toxicap.unfinished7 toxicap.unfinished--7 toxicap.unfinished-$'\xd9\xa7' toxicap-unfinished-7 xtoxicap.unfinished-7)
anew
for name in "${others[@]}"; do echo "$name" > "$folder/$name"; done
run "$capture" "${scenarios[@]}" --workers 16 --out "$folder"
verdict "names that are almost those of drafts" "$(
    well
    for name in "${others[@]}"; do
        echo "$name" | byte_difference - "$folder/$name"
        rm -f "$folder/$name"
    done
    first 80
)"

# 64 scenarios where few files may be open: one worker has two drafts open at once, and 16 have up to 64. A run that gives up there is found.
many 64
for workers in 1 2 16; do
    anew
    status=0
    (ulimit -n 40
        exec timeout "$patience" "$program" --capture "$capture" "${scenarios[@]}" --workers $workers --out "$folder" \
            > "$work/output" 2> "$work/faults") || status=$?
    verdict "64 scenarios by $workers workers, of whom 40 files may be open" "$(well; first 128)"
done

# Files of 2 MB, which are written in nine batches: as a draft's file they are spared if they are read. A sweep that removes what was read is found.
perl tests/capture.pl 1600 > "$work/large.pcap"
anew
run "$work/large.pcap" --out "$folder"
rm -rf "$work/many"
mv "$folder" "$work/many"
verdict "2 MB, worked out apart" "$(
    well
    perl tests/capture.pl 1600 delivered | byte_difference - "$work/many/0000.pcap"
    perl tests/capture.pl 1600 report | byte_difference - "$work/many/0000.txt"
)"
for case in 0:0 1:1 2:2 10:2 4000:2; do
    draft=toxicap.unfinished-${case%:*}
    for input in name "standard input"; do
        anew
        cp "$work/large.pcap" "$folder/$draft"
        if [ "$input" = name ]; then run /dev/null --capture "$folder/$draft" --out "$folder"; else run "$folder/$draft" --out "$folder"; fi
        verdict "2 MB that are read, at the path of draft ${case%:*}, by $input" "$(
            if [ "${case#*:}" = 2 ]; then well; else refusal "refused 60 ShelfFailed after ${case#*:}"; fi
            byte_difference "$work/large.pcap" "$folder/$draft"
            first "${case#*:}" "$draft"
        )"
    done
done

# Killed before and after each of its writes: the old files of 2 MB stay whole, a draft is left, and the next run has its outputs there and no more.
head -c 2200000 /dev/zero > "$work/old"
run_with "" "$work/large.pcap" --out "$folder"
if can_count "kills between writes of 2 MB"; then
    bad="" number=0
    while [ -z "$bad" ]; do
        number=$((number + 1))
        when=$([ $((number % 2)) = 0 ] && echo before || echo after)
        anew
        cp "$work/old" "$folder/0000.pcap"
        cp "$work/old" "$folder/0000.txt"
        run_with "FAIL=write:$number CAUSE=$when" /dev/null --capture "$work/large.pcap" --out "$folder" 2> /dev/null
        has_failed || break
        bad=$(
            fault 137
            for name in 0000.pcap 0000.txt; do byte_difference "$work/old" "$folder/$name"; done
            [ -e "$folder/toxicap.unfinished-1" ] || echo "  there is no draft"
            find "$folder" -mindepth 1 ! -name '0000.*' ! -name 'toxicap.unfinished-[01]' -printf '  another file: %f\n'
        )
        run "$work/large.pcap" --out "$folder"
        bad+=$(well; first 2)
    done
    verdict "killed at each write of 2 MB" "${bad:+  write $number$'\n'}$bad$([ $number -gt 9 ] || echo "  writes: $((number - 1))")"
fi
close
