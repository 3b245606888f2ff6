# shellcheck shell=bash
# What the scripts share that store one scenario in a folder. A script says
#     . tests/program/stored.sh
# after tests/lib.sh. The folder `new` has what is to be stored of the capture under the scenario.
patience=60
capture=samples/http-get.pcap
late=(--scenario examples/latency.json)

# folder: makes the folder anew.
folder() {
    rm -rf "$work/folder"
    mkdir "$work/folder"
}

# part_stored MOST [NAME..]: what is at fault with the last run, which was to be refused for a file that could not be stored. At most MOST of its two
# files came before: the folder has these, whole, and then the ones that are named.
part_stored() {
    local most=$1 number=0 names=(0000.pcap 0000.txt)
    shift
    while [ "$number" -lt "$most" ] && [ -e "$work/folder/${names[number]}" ]; do
        byte_difference "$work/new/${names[number]}" "$work/folder/${names[number]}"
        number=$((number + 1))
    done
    refusal "refused 60 ShelfFailed after $number"
    holds "$work/folder" "${names[@]:0:number}" "$@"
}

folder
run "$capture" "${late[@]}" --out "$work/folder"
mv "$work/folder" "$work/new"
