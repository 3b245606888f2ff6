#!/usr/bin/env bash
# What helps after a refusal: a second line, on a terminal or by TOXICAP_HINTS=1. What it says of most captures, scenarios and hosts is in
# tests/clients/hints/rows; here are inputs of other kinds: standard input, pipes, folders, files that are too long, and names that are cut.
set -euo pipefail
cd "$(dirname "$0")/../.."
. tests/lib.sh
. tests/program/typed.sh

# helps LINE REMEDY WORDS: the program with these words of the shell is refused with a line, and on a terminal that is followed by this.
helps() {
    verdict "$1: $2" "$(said "$1\r\ntoxicap: $2\r\n" "cd '$here' && '$program' $3")"
    (cd "$here" && eval "'$program' $3" > "$work/output" 2> "$work/faults") || true
    verdict "$1, where standard error is no terminal" "$(printf '%s\n' "$1" | cmp - "$work/faults" 2>&1 || true)"
    (cd "$here" && eval "TOXICAP_HINTS=1 '$program' $3" > "$work/output" 2> "$work/faults") || true
    verdict "$1, by TOXICAP_HINTS" "$(printf '%b\n' "$1" "toxicap: $2" | cmp - "$work/faults" 2>&1 || true)"
}

# standard input, where a named file of the same bytes is told in the same words
capture next.pcap 0a0d0d0a 1c000000 4d3c2b1a 01000000 ffffffff ffffffff
capture cooked.pcap a1b23c4d 00020004 00000000 00000000 0000ffff 00000071
capture old.pcap d4c3b2a1 02000300 00000000 00000000 ffff0000 01000000
capture torn.pcap d4c3b2a1 "$start" 01000000 00000000 00000000 00000000 00000000 00000000 00000000 01000400 01000400
for name in old torn; do od -An -v -tx1 "$here/$name.pcap" | tr -d ' \n' > "$here/$name.txt"; done
printf 'd4c3 b2a1\n0200 0x00\n' > "$here/dump.txt"
helps 'refused 2 BadMagic' 'next.pcap is a pcapng file: editcap -F pcap IN OUT converts it' '--capture next.pcap'
helps 'refused 2 BadMagic' 'standard input is a pcapng file: editcap -F pcap IN OUT converts it' '< next.pcap'
helps 'refused 4 BadLink' 'standard input is an "any" capture (link type 113): record on one interface, tcpdump -i eth0, not any' '< cooked.pcap'
made='xxd -r -p IN OUT makes a file of it first, then editcap -F pcap' give='give a pcap file, or a dump as xxd -p IN OUT makes it'
helps 'refused 3 BadVersion' "standard input is a dump, and is of another pcap version than 2.4: $made IN OUT writes it again" '< old.txt'
helps 'refused 55 BadDump at 16' \
    "standard input is read as a dump, by its first byte, and byte 16 is no hexadecimal digit, or its last byte has but one: $give" '< dump.txt'
if can "a file that xxd makes of a dump" xxd; then
    verdict "a file that xxd makes of a dump" "$(cd "$here" && xxd -r -p torn.txt made.pcap 2>&1; byte_difference "$here/torn.pcap" "$here/made.pcap")"
fi

# files that are too long
truncate -s $((2 ** 30 + 1)) "$here/long"
helps 'refused 6 CaptureTooLong' 'long has more than 2^30 bytes: it is no scenario' '--scenario long'
truncate -s $((2 ** 30)) "$here/most"
(cd "$here" && TOXICAP_HINTS=1 "$program" --scenario most --scenario long < shop.pcap > "$work/output" 2> "$work/faults") || true
verdict "a scenario of 2^30 bytes is not too long" "$(told faults $'refused 6 CaptureTooLong\ntoxicap: long has more than 2^30 bytes: it is no scenario\n')"
rm "$here/most"
helps 'refused 6 CaptureTooLong' "long has more than 2^30 bytes: tshark -r IN -Y 'tcp.port == 6379' -F pcap -w OUT keeps what matters" '--capture long'
printf 'd' > "$here/long"
truncate -s $((2 ** 30 + 1)) "$here/long"
helps 'refused 6 CaptureTooLong' 'long is a dump, and has more than 2^30 bytes: xxd -r -p IN OUT makes a file of it, of half its length at most' '--capture long'
rm "$here/long"

# scene WORDS TEXT: a scenario of this text is no JSON, as these words tell.
scene() {
    printf '%s' "$2" > "$here/s.json"
    helps 'refused 10 NotJson scenario 0' "s.json $1" '--capture shop.pcap --scenario s.json'
}
scene 'has a number too large for a float at line 1 column 2: attributes are whole numbers, as --help shows' '[1e999]'
scene 'nests deeper than 127 levels at line 1 column 128: a scenario needs five' "$(printf '%0128d' 0 | tr 0 '[')"

# names that are cut
expected='HOST:PORT is expected, such as 10.0.0.2:6379 or redis:6379: no URL, no IPv6 address, a port from 1 to 65535'
# first MOST LENGTH: a name of this length as it is shown.
first() { if [ "$2" -le "$1" ]; then printf "%0$2d" 0; else printf "%0$1d.." 0; fi; }
for names in 59 60 61 80; do
    printf "[{\"name\":\"%0${names}d\",\"upstream\":\"x\"}]" 0 > "$here/long.json"
    helps 'refused 14 BadUpstream scenario 1 proxy 0' "long.json, proxy 0 \"$(first 60 $names)\": its \"upstream\" is \"x\", and $expected" \
        '--capture shop.pcap --scenario bare.json --scenario long.json'
done
mkfifo "$here/pipe"
verdict "a pipe is not read again" "$(
    said 'refused 11 NotArray scenario 0\r\ntoxicap: pipe is read once, and what is wrong is not known: keep the scenario in a file\r\n' \
        "cd '$here' && { printf '{}' > pipe & } && '$program' --capture shop.pcap --scenario pipe"
)"
# a scenario from standard input, which is then the capture too; and one that is too long
helps 'refused 1 ShortHeader' 'standard input was read as a scenario, and is read once: --capture names a file' '--scenario /dev/stdin < <(cat web.json)'
helps 'refused 6 CaptureTooLong' '/dev/stdin has more than 2^30 bytes: it is no scenario' \
    "--capture shop.pcap --scenario /dev/stdin < <(head -c $((2 ** 30 + 1)) /dev/zero)"
cp "$here/shop.pcap" "$here/wide.pcap"
truncate -s 200M "$here/wide.pcap"
verdict "refused 40 Memory" "$(
    said 'refused 40 Memory\r\ntoxicap: memory was refused: fewer --workers, or a smaller capture, take less\r\n' \
        "ulimit -v 100000; '$program' --capture '$here/wide.pcap'"
)"

# folders
mkdir "$here/out" "$here/taken"
touch "$here/file"
helps 'refused 60 ShelfFailed after 0' 'nowhere: No such file or directory; --out names a folder that exists: mkdir makes one' '--capture shop.pcap --out nowhere'
helps 'refused 60 ShelfFailed after 0' '"": No such file or directory; --out names a folder that exists: mkdir makes one' "--capture shop.pcap --out ''"
helps 'refused 60 ShelfFailed after 0' 'file is no folder: choose another --out' '--capture shop.pcap --out file'
mkdir "$here/out/0000.txt" "$here/linked" "$here/piped"
mkdir -p "$here/drafted/toxicap.unfinished-0"
mkfifo "$here/piped/0000.txt"
cp "$here/shop.pcap" "$here/taken/0000.pcap"
ln "$here/web.json" "$here/linked/0000.txt"
helps 'refused 60 ShelfFailed after 1' 'out/0000.txt is a folder: move it, or choose another --out' '--capture shop.pcap --out out'
helps 'refused 60 ShelfFailed after 1' 'piped/0000.txt is no file: move it, or choose another --out' '--capture shop.pcap --out piped'
stands='stands where files are first written: wait for other runs of this folder, then move it, or choose another --out'
helps 'refused 60 ShelfFailed after 0' "drafted/toxicap.unfinished-0 $stands" '--capture shop.pcap --out drafted'
# the drafts of an output that is made alone; where something stands at one of a round only, that does no harm
bares=$(printf -- ' --scenario bare.json%.0s' {1..32})
for drafts in 0 1 2; do
    mkdir -p "$here/round$drafts/toxicap.unfinished-$drafts"
    status=0
    (cd "$here" && eval "TOXICAP_HINTS=1 '$program' --capture shop.pcap$bares --workers 16 --out round$drafts") > "$work/output" 2> "$work/faults" || status=$?
    verdict "draft $drafts" "$(if [ $drafts = 2 ]; then fault 0; else told faults "refused 60 ShelfFailed after $drafts
toxicap: round$drafts/toxicap.unfinished-$drafts $stands
"; fi)"
done
helps 'refused 60 ShelfFailed after 0' 'taken/0000.pcap: the run has read it, and it is not replaced: choose another --out' '--capture taken/0000.pcap --out taken'
helps 'refused 60 ShelfFailed after 0' 'taken/0000.pcap: the run has read it, and it is not replaced: choose another --out' '--out taken < taken/0000.pcap'
helps 'refused 60 ShelfFailed after 1' 'linked/0000.txt: the run has read it, and it is not replaced: choose another --out' \
    '--capture shop.pcap --scenario web.json --out linked'

# files that cannot be read: the scenarios in their order, and then the capture
helps 'refused 61 ReadFailed' 'nothing: No such file or directory' '--capture nothing'
helps 'refused 61 ReadFailed' '"": No such file or directory' "--capture ''"
helps 'refused 61 ReadFailed' '-: No such file or directory; without --capture the capture is read from standard input' '--capture -'
for paths in 199 200 201; do helps 'refused 61 ReadFailed' "$(first 200 $paths): No such file or directory" "--capture $(printf "%0${paths}d" 0)"; done
helps 'refused 61 ReadFailed' 'out: Is a directory' '--capture nothing --scenario bare.json --scenario out'
helps 'refused 61 ReadFailed' 'standard input cannot be read: --capture names a file' '< .'
python3 -c 'import socket, sys; socket.socket(socket.AF_UNIX).bind(sys.argv[1])' "$here/socket"
socket='socket is no regular file, and may be what cannot be read: name a regular file in its place'
helps 'refused 61 ReadFailed' "$socket" '--capture socket'
helps 'refused 61 ReadFailed' "$socket" '--scenario socket < shop.pcap'
if [ "$(id -u)" != 0 ]; then
    touch "$here/closed"
    chmod 0 "$here/closed"
    helps 'refused 61 ReadFailed' 'closed: Permission denied' '--capture closed'
fi
helps 'refused 62 WriteFailed' 'standard output took no more: the disk is full, or what read it has ended' '--capture shop.pcap > /dev/full'
close
