#!/usr/bin/env bash
# Runs of the built program at once, with one folder: while a run stores there, another is refused at once and leaves all as it is. So a run that ends
# with 0 has had all its files there, and in the end the files are those of one run. One run stands still at some of its calls while others come; 200
# pairs begin together.
set -euo pipefail
cd "$(dirname "$0")/../.."
. tests/lib.sh
. tests/program/calls.sh
patience=60
. tests/program/two_runs.sh
if can "worked out apart" python3; then
    for kind in one other; do
        mkdir "$work/apart"
        python3 tests/rows/expected.py --stored "$work/apart" "$capture" "$work/$kind"[0-7].json
        verdict "worked out apart, $kind" "$(folder_difference "$work/apart" "$work/$kind")"
        rm -r "$work/apart"
    done
fi

# kept: what is at fault with the last run, which was to be refused at once and to leave the folder as it was, as `before` has it.
kept() {
    refusal "refused 60 ShelfFailed after 0"
    folder_difference "$work/before" "$folder"
}

# stands CALL: the verdicts on runs that come while one stands still before this call, of which others are to know.
stands() {
    local call=$1 workers
    anew
    # shellcheck disable=SC2086
    if ! begin_with "FAIL=$call CAUSE=stop" "$capture" ${words[one]} --workers 2 --out "$folder"; then
        end_begun KILL
        verdict "a run that stands still before $call" "  it does not"
        return 0
    fi
    rm -rf "$work/before" "$work/there"
    cp -r "$folder" "$work/before"
    for workers in 1 4; do
        # shellcheck disable=SC2086
        run "$capture" ${words[other]} --workers $workers --out "$folder"
        verdict "by $workers workers, while a run stands still before $call" "$(kept)"
    done
    ln -sfn folder "$work/there"
    # shellcheck disable=SC2086
    run "$capture" ${words[other]} --out "$work/there/."
    verdict "by another path, while a run stands still before $call" "$(kept)"
    rm -rf "$work/beside"
    mkdir "$work/beside"
    # shellcheck disable=SC2086
    run "$capture" ${words[other]} --out "$work/beside"
    verdict "in another folder, while a run stands still before $call" "$(well; folder_difference "$work/other" "$work/beside")"
    # shellcheck disable=SC2086
    run "$capture" ${words[other]}
    verdict "printed, while a run stands still before $call" "$(well; cat "$work"/other/*.txt | byte_difference - "$work/output")"
    end_begun CONT
    verdict "a run that stood still before $call" "$(well; folder_difference "$work/one" "$folder")"
}

# ends CALL: the verdict on a run that comes after one that was killed where it stood still before this call.
ends() {
    anew
    # shellcheck disable=SC2086
    begin_with "FAIL=$1 CAUSE=stop" "$capture" ${words[one]} --workers 2 --out "$folder" || true
    end_begun KILL
    # shellcheck disable=SC2086
    run "$capture" ${words[other]} --out "$folder"
    verdict "after a run that was killed before $1" "$(well; folder_difference "$work/other" "$folder")"
}
run_with "" /dev/null -V
if can_count "runs that stand still"; then
    for call in write:1 write:10 rename:1 rename:4 rename:16; do
        stands $call
        ends $call
    done
fi

# A folder that something else than a run holds.
if can "a folder that something else holds" flock; then
    anew
    exec 3< "$folder"
    flock 3
    # shellcheck disable=SC2086
    run "$capture" ${words[one]} --out "$folder"
    verdict "a folder that something else holds" "$(refusal "refused 60 ShelfFailed after 0"; holds "$folder")"
    flock -u 3
    # shellcheck disable=SC2086
    run "$capture" ${words[one]} --out "$folder"
    verdict "a folder that is held no more" "$(well; folder_difference "$work/one" "$folder")"
    exec 3<&-
fi

# 200 pairs. A run that is refused is refused at once, and has seen none of its files.
# refused_at_once KIND OTHER: what is at fault with a run of a pair that was refused.
refused_at_once() {
    local sum name
    status=$(cat "$work/$1.status")
    [ "$status" != 0 ] || return 0
    cp "$work/$1.faults" "$work/faults"
    told faults $'refused 60 ShelfFailed after 0\n'
    while read -r sum name; do
        [ "${whose[$sum $name]-torn}" = "$2" ] || echo "  at the end of $1, which was refused, $name is of: ${whose[$sum $name]-torn}"
    done < "$work/$1.seen"
}

# settled: what is at fault with the folder once both runs of a pair have ended: it has the files of one that stored.
settled() {
    local kind
    holds "$folder" "${names[@]}"
    for kind in one other; do
        if [ "$(cat "$work/$kind.status")" = 0 ] && [ -z "$(folder_difference "$work/$kind" "$folder")" ]; then return 0; fi
    done
    echo "  the files are not those of one run that stored, but of:"
    (cd "$folder" && sha256sum -- 0*) | while read -r sum name; do echo "    ${whose[$sum $name]-torn}"; done | uniq -c
}
both=0 bad=""
for ((pair = 0; pair < 200; pair++)); do
    anew
    order=(one other)
    [ $((pair % 2)) = 0 ] || order=(other one)
    workers=(1 4)
    [ $((pair / 2 % 2)) = 0 ] || workers=(4 1)
    takes "${order[0]}" "${workers[0]}" 0 &
    takes "${order[1]}" "${workers[1]}" "0.00$((pair / 4 % 10))" &
    wait
    fault=$(seen one other; seen other one; refused_at_once one other; refused_at_once other one; settled)
    [ -z "$fault" ] || bad+="  pair $pair, $(cat "$work/one.status") and $(cat "$work/other.status"):"$'\n'"$fault"$'\n'
    [ "$(cat "$work"/{one,other}.status | xargs)" != "0 0" ] || both=$((both + 1))
done
verdict "200 pairs" "$(head -n 60 <<< "$bad" | grep . || true)"
echo "of 200 pairs both stored in $both"
close
