# shellcheck shell=bash
# What scripts share in which two kinds of runs, `one` and `other`, store in one folder at once. A script says
#     . tests/program/two_runs.sh
# after tests/lib.sh and tests/program/calls.sh. `words` has then what each kind is called with, the folders `one` and `other` have its files, of which
# each differs from that of the same name, and `names` are their names.
capture=samples/shop.pcap
folder=$work/folder

# Eight scenarios each of one kind of run and of the other.
declare -A words=([one]="" [other]="")
for kind in one other; do
    for number in {0..7}; do
        case $kind in one) latency=1$number ;; other) latency=5$number ;; esac
        toxics="[{\"type\":\"latency\",\"attributes\":{\"latency\":$latency,\"jitter\":3}}]"
        printf '[{"name":"web","upstream":"10.77.0.2:80","toxics":%s},{"name":"redis","upstream":"10.77.0.3:6379","toxics":%s}]' \
            "$toxics" "$toxics" > "$work/$kind$number.json"
        words[$kind]+=" --scenario $work/$kind$number.json"
    done
    mkdir "$work/$kind"
    # shellcheck disable=SC2086
    run "$capture" ${words[$kind]} --out "$work/$kind"
    verdict "a run alone, $kind" "$(well)"
done
mapfile -t names < <(cd "$work/one" && printf '%s\n' 0*)
verdict "the files of one and the other" "$(
    [ ${#names[@]} = 16 ] || echo "  files: ${names[*]}"
    for name in "${names[@]}"; do ! cmp -s "$work/one/$name" "$work/other/$name" || echo "  $name is the same"; done
)"

# The kind of run that made a file, by its sum and name.
declare -A whose=()
for kind in one other; do
    while read -r sum name; do whose[$sum $name]=$kind; done < <(cd "$work/$kind" && sha256sum -- "${names[@]}" | sed 's/  */ /')
done
backwards=()
for ((place = ${#names[@]} - 1; place >= 0; place--)); do backwards+=("${names[place]}"); done

# anew: the folder without files.
anew() {
    rm -rf "$folder"
    mkdir "$folder"
}

# looks KIND: keeps what the folder has now, at the end of a run of this kind. It reads the files from the last to the first, since a run that comes
# then replaces them from the first on; `times` has when each was published, before and after they are read.
looks() {
    (
        cd "$folder" || exit
        stat -c '%n %.9Z' -- "${backwards[@]}" > "$work/$1.before" 2> "$work/$1.missing"
        sha256sum -- "${backwards[@]}" > "$work/$1.seen" 2> "$work/$1.missing"
        stat -c '%n %.9Z' -- "${backwards[@]}" 2> "$work/$1.missing" | cat "$work/$1.before" - > "$work/$1.times"
    ) || true
}

# takes KIND WORKERS WAIT [SETTING..]: one run of a pair, after a wait, and what the folder has at the moment it ends. Settings are of the
# environment, as those of tests/program/calls.c.
takes() {
    local kind=$1 status=0
    sleep "$3"
    # shellcheck disable=SC2086
    timeout "$patience" env "${@:4}" "$program" --capture "$capture" ${words[$kind]} --workers "$2" --out "$folder" \
        > "$work/$kind.output" 2> "$work/$kind.faults" || status=$?
    looks "$kind"
    echo $status > "$work/$kind.status"
}

# seen KIND OTHER [ANY]: what is at fault with a run of a pair. From the last file to the first there are at its end: if it has stored, its own files,
# and then what the other one has replaced since, or with a third word both in any order; if it was refused, whole files of either.
seen() {
    local kind=$1 other=$2 any=${3-} sum name which later=$1
    status=$(cat "$work/$kind.status")
    cp "$work/$kind.output" "$work/output"
    cp "$work/$kind.faults" "$work/faults"
    silent output
    if [ "$status" = 0 ]; then
        well
        [ ! -s "$work/$kind.missing" ] || cat "$work/$kind.missing"
    else
        fault 1
        grep -qxE 'refused 60 ShelfFailed after ([0-9]|1[0-6])' "$work/faults" || cat "$work/faults"
    fi
    while read -r sum name; do
        which=${whose[$sum $name]-torn}
        [ "$status" = 0 ] || [ $which = torn ] || continue
        [ -z "$any" ] || later=$kind
        [ "$which" = "$other" ] || [ "$which" = "$later" ] || echo "  at the end of $kind, with status $status, $name is of: $which"
        later=$which
    done < "$work/$kind.seen"
}
