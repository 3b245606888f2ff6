#!/usr/bin/env bash
# Runs of the built program that no lock keeps apart: the folder is replaced by another one while a run stores there, and a second run comes into the
# new one; or the file system has no locks. A run that ends with 0 has its own files at all paths of its outputs at that moment, whole; one that
# cannot is refused. ROUNDS says how many rounds of each kind there are, 16 without it.
set -euo pipefail
cd "$(dirname "$0")/../.."
. tests/lib.sh
. tests/program/calls.sh
. tests/program/two_runs.sh
patience=60
rounds=${ROUNDS:-16}
run_with "" /dev/null -V
can_count "runs that stand still" || { close; exit; }

# replace WAY: the folder, by a new one without files, as `rm -rf` or `mv` makes it.
replace() {
    rm -rf "$work/aside"
    case $1 in removed) rm -rf "$folder" ;; moved) mv "$folder" "$work/aside" ;; esac
    mkdir "$folder"
}

# begins CALL WORKERS [SETTING]: a run of the kind `one`, in a folder made anew, which stands still right before this call; where it has no such call
# the answer is no.
begins() {
    anew
    # shellcheck disable=SC2086
    begin_with "FAIL=$1 CAUSE=stop ${3-}" /dev/null --capture "$capture" ${words[one]} --workers "$2" --out "$folder" && return 0
    end_begun KILL
    return 1
}

# goes_on: the run that stands still goes on to its end; what the folder has then is kept.
goes_on() {
    end_begun CONT
    looks one
    cp "$work/output" "$work/one.output"
    cp "$work/faults" "$work/one.faults"
    echo $status > "$work/one.status"
}

# own KIND: what is at fault with a run of this kind that ended with 0 while no other one stored: its files alone are in the folder.
own() {
    local kind=$1
    status=$(cat "$work/$kind.status")
    if [ "$status" = 0 ]; then
        [ ! -s "$work/$kind.missing" ] || cat "$work/$kind.missing"
        folder_difference "$work/$kind" "$folder"
    else
        fault 1
        grep -qxE 'refused 60 ShelfFailed after ([0-9]|1[0-6])' "$work/$kind.faults" || cat "$work/$kind.faults"
    fi
}

# in_time KIND OTHER: what is at fault with a run of a pair that ended with 0, by the instants at which the files were published that were there at
# its end: at that moment all were its own, so none of the other one's came before one of its own. A file that was replaced meanwhile tells nothing.
in_time() {
    local sum name time
    [ "$(cat "$work/$1.status")" = 0 ] || return 0
    while read -r sum name; do
        time=$(sed -n "s/^$name //p" "$work/$1.times" | uniq)
        [ "$(wc -l <<< "$time")" != 1 ] || echo "$time ${whose[$sum $name]-torn} $name"
    done < "$work/$1.seen" | sort -n | awk -v kind="$1" -v other="$2" '
        $2 == other && !at { at = $1; name = $3 }
        $2 == kind && at && $1 > at { print "  " name " is of " other ", and " $3 " of " kind " came later"; exit }'
}

# rivals SETTING..: the other run of a pair, by 1 worker or 4 in turn.
rivals() { takes other $((1 + 3 * (round % 2))) "0.00$((round % 10))" "$@"; }

# The calls before which a run by 1 worker, and by 2, stands still: of drafts, of publishing, and the last look at a file.
declare -A last=()
for workers in 1 2; do
    anew
    # shellcheck disable=SC2086
    run_with "" /dev/null --capture "$capture" ${words[one]} --workers $workers --out "$folder"
    last[$workers]=$(count stat)
done
calls=(create:3 rename:2 stat:last create:1 write:4 rename:16 rename:3 create:16)

# place ROUND: how the run of a round is called, the call before which it stands still, and how the folder is replaced.
place() {
    workers=$((1 + $1 % 2))
    call=${calls[$1 / 2 % ${#calls[@]}]/last/${last[$workers]}}
    way=$([ $((($1 / 2 + $1 / 16) % 2)) = 0 ] && echo removed || echo moved)
}

# A run that goes by paths alone ends with 0 without its first files, or publishes a draft of the other run.
# replaced WHAT MODE: rounds in which the folder is replaced while a run stands still. The second run comes after the first one has ended, or it comes
# and ends before the first one goes on, or both store at once.
replaced() {
    local round bad="" fault stored=0
    for ((round = 0; round < rounds; round++)); do
        place $round
        begins "$call" $workers || { bad+="  it does not stand still before $call"$'\n'; continue; }
        replace "$way"
        case $2 in
            after)
                goes_on
                fault=$(own one)
                takes other 1 0
                fault+=$(own other; [ "$(cat "$work/other.status")" = 0 ] || echo "  the second run is refused")
                ;;
            before) takes other 1 0; fault=$(own other); goes_on; fault+=$(own one) ;;
            at_once) rivals & rival=$!; goes_on; wait $rival; fault=$(seen one other; seen other one) ;;
        esac
        [ -z "$fault" ] || bad+="  round $round, before $call by $workers workers, $way, $(cat "$work"/{one,other}.status | xargs):"$'\n'"$fault"$'\n'
        [ "$(cat "$work/one.status")" != 0 ] || stored=$((stored + 1))
    done
    verdict "$1" "$(head -n 40 <<< "$bad" | grep . || true)"
    echo "$1: of $round rounds the first run stored in $stored"
}
replaced "replaced, and the second run comes after" after
replaced "replaced, and the second run comes before" before
replaced "replaced, and both store at once" at_once

# Without locks (ENOLCK, EOPNOTSUPP). A run by one worker stands still where it has no draft, and another one stores all. One that does not look at
# its files at its end ends with 0.
lockless=(37 95)
bad="" stored=0
for ((round = 0; round < rounds; round++)); do
    call=create:$((3 + 2 * (round % 7)))
    settings=(LD_PRELOAD="$work/calls.so" LOCKLESS="${lockless[round % 2]}")
    begins "$call" 1 "${settings[1]}" || { bad+="  it does not stand still before $call"$'\n'; continue; }
    takes other $((1 + 3 * (round % 2))) 0 "${settings[@]}"
    fault=$([ "$(cat "$work/other.status")" = 0 ] || echo "  the other run is refused"; own other)
    goes_on
    fault+=$(own one)
    [ -z "$fault" ] || bad+="  round $round, before $call:"$'\n'"$fault"$'\n'
    [ "$(cat "$work/one.status")" != 0 ] || stored=$((stored + 1))
done
verdict "without locks, one after the first files of another" "$(head -n 40 <<< "$bad" | grep . || true)"

# Pairs that begin together without locks. While a run looks at its last files, or after it, the other one may replace any.
bad="" stored=0
for ((round = 0; round < rounds; round++)); do
    anew
    settings=(LD_PRELOAD="$work/calls.so" LOCKLESS="${lockless[round % 2]}")
    rivals "${settings[@]}" &
    takes one $((1 + round / 2 % 2)) 0 "${settings[@]}"
    wait
    fault=$(seen one other any; seen other one any; in_time one other; in_time other one)
    [ -z "$fault" ] || bad+="  pair $round, $(cat "$work/one.status") and $(cat "$work/other.status"):"$'\n'"$fault"$'\n'
    [ "$(cat "$work"/{one,other}.status | xargs)" = "1 1" ] || stored=$((stored + 1))
done
verdict "pairs without locks" "$(head -n 40 <<< "$bad" | grep . || true)"
echo "of $rounds pairs without locks one stored in $stored"
close
