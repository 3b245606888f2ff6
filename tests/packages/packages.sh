#!/usr/bin/env bash
# The packages of a release, for those who put toxicap into their suites: the wheel for Python, the library by pkg-config and CMake, the modules for
# Go and Rust, the image, the action for GitHub. Each is made twice, the same bytes, put into a fresh place from where this repository can't be seen,
# and its own example is run there; each row of docs/use/install.md likewise. What a machine has no language or tool for is skipped. TOXICAP is a program
# with its object file beside it, LIBRARY the crate's static library and KIT the kit, as for release/parts.
set -euo pipefail
cd "$(dirname "$0")/../.."
. tests/lib.sh
unset MINISIGN_KEY TOXICAP_LIBRARY PYTHONPATH PKG_CONFIG_PATH CGO_CFLAGS CGO_LDFLAGS
export TOXICAP=$program SOURCE_DATE_EPOCH=${SOURCE_DATE_EPOCH:-1700000000} MAINTAINER="A maintainer <maintainer@example.org>"
GOCACHE=$(go env GOCACHE 2> /dev/null) || GOCACHE=$work/go-cache
export GOPROXY=off GO111MODULE=on GOFLAGS='' GOCACHE
parts=$work/parts made=$work/made away=$work/away
version=$("$program" -V | cut -d ' ' -f 2)
mkdir "$away"
cp samples/*.pcap "$away"
cp examples/{latency,bandwidth,redis-down,slow-database}.json "$away"

try_out_of_reach

# quiet COMMAND..: what a command says that should say nothing, and its status where it is not 0.
quiet() {
    "$@" 2>&1 || echo "  status $?"
}

# passes WHAT COMMAND..: a command ends well, out of reach of this repository; else what it says is told.
passes() { verdict "$1" "$(out_of_reach "${@:2}" > "$work/told" 2>&1 || { echo "  status $?"; cat "$work/told"; })"; }

# the_same WHAT COMMAND..: a command, whose last word will be a folder, makes there the bytes that release/packages made.
the_same() {
    verdict "$1" "$(
        umask 077
        "${@:2}" "$work/again" > "$work/told" 2>&1 || { echo "  status $?"; cat "$work/told"; }
        [ -n "$(ls -A "$work/again" 2> /dev/null)" ] || echo '  nothing is made'
        find "$work/again" -type f -printf '%f\n' | while read -r file; do
            byte_difference "$made/$file" "$work/again/$file"
            [ "$(stat -c %a "$made/$file")" = 644 ] || echo "  the mode of $file is $(stat -c %a "$made/$file")"
        done
    )"
    rm -rf "$work/again"
}

# block FILE KIND NUMBER: the text of a Markdown file's block of this kind, the first of which has the number 1.
block() { awk -v fence="\`\`\`$2" -v number="$3" '$0 == "```" { inside = 0 } inside { print } $0 == fence && ++count == number { inside = 1 }' "$1"; }

# size FILE MOST: what is wrong with a file that is to have fewer bytes.
size() { [ "$(stat -c %s "$1")" -lt "$2" ] || echo "  $1 has $(stat -c %s "$1") bytes, and not fewer than $2"; }

# shared WHAT FOLDER: a package has share/toxicap there, whole.
shared() { verdict "share/toxicap of $1" "$(folder_difference "$work/share" "$2")"; }

if [ ! -f "$program.o" ]; then
    skip "packages" "there is no object file at $program.o"
    close
    exit
fi
release/parts "$parts" > "$work/told" 2>&1 || { echo "$0: there are no parts" >&2; cat "$work/told" >&2; exit 2; }
if can "all packages" python3 dpkg-deb tar gzip; then
    verdict "release/packages" "$(release/packages "$version" "$made" > "$work/told" 2>&1 || cat "$work/told")"
    verdict "release/packages into a folder with files" "$(! release/packages "$version" "$made" > "$work/told" 2>&1 || echo '  they are taken')"
else
    scripts=(modules image)
    ! type -P python3 > /dev/null || scripts+=(wheel sbom)
    for each in "${scripts[@]}"; do "release/$each" "$parts" "$made" > "$work/told"; done
    release/sums "$made" > "$work/told"
fi
release/share "$work/share"
verdict "the sums of all" "$(
    cd "$made"
    sha256sum --quiet --strict -c SHA256SUMS 2>&1 || true
    [ "$(wc -l < SHA256SUMS)" = "$(find . -type f ! -name SHA256SUMS | wc -l)" ] || cat SHA256SUMS
)"

# unpacked FILE: unpacks one of the packages into the fresh place.
unpacked() { tar -C "$away" -xzf "$made/$1"; }

. tests/packages/python.sh
. tests/packages/c.sh
. tests/packages/go.sh
. tests/packages/rust.sh
. tests/packages/image.sh
. tests/packages/trust.sh
. tests/packages/action.sh
. tests/packages/install.sh
close
