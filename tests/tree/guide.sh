#!/usr/bin/env bash
# The commands that the pages for users show:
#     tests/tree/guide.sh [RELEASE]
# Each page has a folder of its own, with samples/, examples/, tools/ and clients/. Each block ```sh of it is run there as one script, and has to print what
# stands in the block ```text right after it. A command that fails ends its block, which has failed then, also within a pipe; but a block that shows a
# status ($?) is run by plain bash, and goes on. Blocks ```sh live record: they are run in a private network of two hosts, as root with ip netns, each
# is ended as by Ctrl-C after a session, and no later block may change a recording; of what they print only standard output is compared. A block is
# skipped where a tool that it names is missing, and one over the library for C where that is not built. RELEASE is the whole path of a release that
# is unpacked: its pages, its files and its program are taken, and its blocks ```sh live are left out.
set -uo pipefail
cd "$(dirname "$0")/../.." || exit 2
. tests/lib.sh
top=${1:-$PWD} release=${1:-}
[ -z "$release" ] || program=$release/toxicap
unset TOXICAP
tools=(tshark editcap tcprewrite jq git xxd gzip parallel gcc python3 jsonschema tcpdump dumpcap ethtool curl)
mapfile -t pages < <(cd "$top" && printf '%s\n' {,examples/,tools/,docs/}README.md docs/use/*.md)
[ -n "$release" ] || pages+=(docs/internals/trust.md)
client=toxicap-client-$$ server=toxicap-server-$$ network=no webs=()

clean_up() {
    [ ${#webs[@]} = 0 ] || kill "${webs[@]}" 2> /dev/null
    [ $network = no ] || { ip netns del $client; ip netns del $server; }
}

# open_network: two hosts and a line between them, each with samples/ on a web server; none where the system doesn't let it.
open_network() {
    local host
    [ "$(id -u)" = 0 ] && type -P ip curl python3 > /dev/null && ip netns add $client 2> /dev/null || return
    ip netns add $server
    network=yes
    ip link add eth0 netns $client type veth peer name eth0 netns $server
    ip -n $client addr add 10.79.0.1/24 dev eth0
    ip -n $server addr add 10.79.0.2/24 dev eth0
    for host in $client $server; do
        ip -n "$host" link set lo up
        ip -n "$host" link set eth0 up
        ip netns exec "$host" python3 -m http.server 80 --directory "$top/samples" > /dev/null 2>&1 &
        webs+=($!)
    done
    for host in 127.0.0.1 10.79.0.2; do session $host --retry 20 --retry-connrefused --retry-delay 1; done
}

# session HOST [OPTION..]: one session of the first host with a web server.
session() { ip netns exec $client curl -s -o /dev/null "${@:2}" "http://$1/shop.pcap"; }

# live SCRIPT: runs it on the first host. If it records, a session is held once it listens, through lo where it records there.
live() {
    local job tries host=10.79.0.2
    : > "$work/faults"
    [[ $1 != *'-i lo'* ]] || host=127.0.0.1
    set -m
    ip netns exec $client bash -eo pipefail -c "$1" > "$work/output" 2> "$work/faults" &
    job=$!
    set +m
    if [[ $1 =~ tcpdump|dumpcap ]]; then
        for ((tries = 0; tries < 400; tries++)); do
            ! grep -q 'listening on\|^File: ' "$work/faults" || break
            sleep 0.05
        done
        session $host
        sleep 0.5
        kill -INT -- -$job 2> /dev/null
    fi
    wait $job
}

missed=''
# captures_of SCRIPT: the captures that it names.
captures_of() { grep -oE '[A-Za-z0-9_./-]+\.pcap' <<< "$1" | tr '\n' ' '; }

# run_block PLACE KIND SCRIPT: runs a block; `ran` tells whether, and what it printed is the file `output`. A block that names a capture of a block
# that was skipped is skipped too, where the capture is not there.
run_block() {
    local tool file expected=() stop=(-e -o pipefail)
    ran=no status=0
    [[ $3 != *tools/report* && $3 != *tools/timeline* && $3 != *tools/closed_loop* && $3 != *tools/for_sensors* ]] || expected+=(python3)
    for tool in "${tools[@]}"; do ! grep -qw -- "$tool" <<< "$3" || expected+=("$tool"); done
    can "$1" "${expected[@]}" || { missed+=" $(captures_of "$3")"; return; }
    for file in $(captures_of "$3"); do
        [[ " $missed " != *" $file "* ]] || [ -e "$file" ] || { skip "$1" "$file is of a block that was skipped"; return; }
    done
    if [[ $3 = *libtoxicap* || $3 = *-L*lib* || $3 = *clients/python/find_bug* ]] && [ ! -d lib ]; then
        skip "$1" "there is no library for C: (cd crates/toxicap_c && rt lib) builds it"
        return
    fi
    if [ "$2" = sh ]; then
        [[ $3 != *'$?'* ]] || stop=()
        bash "${stop[@]}" -c "$3" > "$work/output" 2>&1 || status=$?
        sed -i '/^Running as user "root"/d' "$work/output"
        cp "$work/output" "$work/faults"
    elif [ $network = yes ]; then
        touch "$work/begun"
        live "$3" || status=$?
        find "$PWD" -name '*.pcap' -newer "$work/begun" -exec sha256sum {} + >> "$work/recorded"
    else
        skip "$1" "a private network takes root and ip netns"
        return
    fi
    ran=yes
    verdict "$1" "$(fault 0)"
}

# run_page PAGE: runs its blocks, in a folder of its own.
run_page() {
    local line number=0 begun=0 inside=no kind='' text='' last=''
    missed=''
    mkdir -p "$work/pages/$1"
    cd "$work/pages/$1" || exit 2
    cp -r "$top/samples" "$top/examples" "$top/tools" "$top/clients" .
    [ ! -d "$work/library" ] || cp -a "$work/library/include" "$work/library/lib" .
    ! type -P git > /dev/null || git init -q .
    while IFS= read -r line; do
        number=$((number + 1))
        if [[ $line != '```'* ]]; then
            if [ $inside = yes ]; then text+=$line$'\n'; elif [ -n "$line" ]; then last=''; fi
        elif [ $inside = no ]; then
            inside=yes kind=${line#'```'} begun=$number text=''
        else
            case "$kind,$last" in
                'sh live',*) if [ -n "$release" ]; then ran=no; else run_block "$1:$begun" "$kind" "$text"; fi ;;
                sh,*) run_block "$1:$begun" "$kind" "$text" ;;
                text,sh*)
                    printf '%s' "$text" > "$work/expected"
                    [ "$ran" = no ] || verdict "$1:$begun" "$(difference "$work/expected" "$work/output")"
                    ;;
            esac
            last=$kind inside=no
        fi
    done < "$top/$1"
}

mkdir "$work/bin" "$work/pages"
ln -s "$program" "$work/bin/toxicap"
if [ -n "$release" ]; then
    mkdir "$work/library"
    cp -a "$release/include" "$release/lib" "$work/library"
elif [ -n "${LIBRARY:-}" ] || [ -f crates/toxicap_c/out/libtoxicap_c.a ]; then release/library "$work/library" > /dev/null
fi
export HOME=$work PATH=$work/bin:$PATH LC_ALL=C.UTF-8
if type -P git > /dev/null; then
    git config --global init.defaultBranch main
    git config --global user.name tester
    git config --global user.email tester@example.org
fi
[ -n "$release" ] || open_network
touch "$work/recorded"
for page in "${pages[@]}"; do run_page "$page"; done
if [ -z "$release" ]; then
    cd "$top" || exit 2
    # shellcheck disable=SC2016
    verdict "its line in crates.txt" "$(grep -qxF "$(grep -oE 'library_example may_wait[^`]*' docs/internals/contributing.md)" crates.txt || echo '  it is another')"
fi
[ ! -s "$work/recorded" ] || verdict "the recordings are as they were" "$(sha256sum -c --quiet "$work/recorded" 2>&1)"
close
