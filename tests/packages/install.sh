# shellcheck shell=bash disable=SC2154
# The rows of docs/use/install.md. tests/packages/packages.sh reads it.

# docs/use/install.md, row by row
export DEBIAN_FRONTEND=noninteractive
# prepared ROW: what a suite has already, in the folder of the row.
prepared() {
    case $1 in
        Go) go mod init suite ;;
        Rust) cargo init -q --lib --vcs none --name suite . ;;
    esac
}
# in_copy FOLDER COMMAND..: runs a command, in a folder, where what it changes of the system is thrown away.
in_copy() {
    # shellcheck disable=SC2016
    HIDDEN=$repository unshare --mount sh -euc '
        mount -t tmpfs none "$0"
        mkdir "$0/up" "$0/work" "$0/root"
        mount -t overlay overlay -o "lowerdir=/,upperdir=$0/up,workdir=$0/work" "$0/root"
        mount --bind /proc "$0/root/proc"
        mount --bind /dev "$0/root/dev"
        [ ! -d "$0/root$HIDDEN" ] || mount -t tmpfs none "$0/root$HIDDEN"
        mkdir -p "$0/root/$1"
        cp -r "$1"/. "$0/root/$1"
        folder=$1
        shift
        root=$0
        exec chroot "$root/root" sh -c "cd \"\$0\" && exec \"\$@\"" "$folder" "$@"
    ' "$work/copy" "$@"
}
# runs_containers TOOL: whether it can run a container at all: one with no file in it ends with 127 for a program that is not there.
runs_containers() {
    local image ended=0
    tar -cf "$work/nothing.tar" -T /dev/null
    image=$(timeout 60 "$1" import -q "$work/nothing.tar" 2> /dev/null || timeout 60 "$1" import "$work/nothing.tar" 2> /dev/null) || return 1
    timeout 60 "$1" run --rm "$image" /nothing > /dev/null 2>&1 || ended=$?
    "$1" rmi -f "$image" > /dev/null 2>&1 || true
    [ $ended = 127 ]
}
mkdir "$work/copy"
number=0
while IFS='|' read -r _ what type check prints _; do
    [[ $type = *'`'* && $check = *'`'* && $prints = *'`'* ]] || continue
    number=$((number + 1))
    what=$(sed 's/^ *//; s/ *$//' <<< "$what")
    # shellcheck disable=SC2016
    for cell in type check prints; do declare "$cell=$(sed 's/^ *`//; s/` *$//' <<< "${!cell}")"; done
    row="docs/use/install.md, $what"
    tools=()
    for tool in tar gzip pkg-config gcc go cargo docker podman; do [[ " $type $check " != *" $tool "* ]] || tools+=("$tool"); done
    [[ $what != Go ]] || tools+=(gcc)
    can "$row" "${tools[@]}" || continue
    for tool in docker podman; do
        [[ $type != *"$tool"* ]] || runs_containers $tool || { skip "$row" "no container can be run"; continue 2; }
    done
    file=$(grep -oE "toxicap[_-]${version}[^ /]*\.(gz|deb|whl|tar)" <<< "$type" || echo SHA256SUMS)
    [ -e "$made/$file" ] || { skip "$row" "$file is not made here"; continue; }
    [[ $what != Python ]] || python3 -c 'import ensurepip' 2> /dev/null || { skip "$row" "ensurepip is not here"; continue; }
    place=(out_of_reach)
    # shellcheck disable=SC2088
    [[ $type != *'~/'* ]] || place+=(env "HOME=$work/row/home")
    [[ $what != GitHub ]] || place+=(env "RUNNER_TEMP=$work/row")
    if [[ $type = *apt-get* ]]; then
        can "$row" apt-get || continue
        in_copy "$away" true 2> /dev/null || { skip "$row" "no copy of the system can be had"; continue; }
        place=(in_copy "$work/row")
    fi
    rm -rf "$work/row"
    cp -r "$made" "$work/row"
    # shellcheck disable=SC2016
    verdict "$row" "$(
        cd "$work/row"
        prepared "$what" > "$work/told" 2>&1 || cat "$work/told"
        "${place[@]}" bash -euc 'eval "$1" > told 2>&1 || { echo "  status $?"; cat told; exit; }; eval "$2" 2>&1 || echo "  status $?"' \
            row "$type" "$check" > "$work/output" 2>&1 || echo "  status $?"
        last=$(tail -n 1 "$work/output" | tr -s '[:blank:]' ' ')
        [[ $last = "$prints"* ]] || { echo "  it prints: $last, expected: $prints"; cat "$work/output"; }
    )"
    for tool in docker podman; do
        [[ $type != *"$tool"* ]] || "$tool" rmi -f "toxicap:latest" "localhost/toxicap:$version" > /dev/null 2>&1 || true
    done
done < docs/use/install.md
verdict "rows of docs/use/install.md" "$([ $number -ge 10 ] || echo "  $number")"
verdict "docs/use/install.md is about $version" "$(
    grep -ohE '[-_@]v?[0-9]+\.[0-9]+\.[0-9]+' docs/use/install.md | tr -d '@v_-' | sort -u | grep -vx "$version" || true
)"
