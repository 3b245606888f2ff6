# shellcheck shell=bash
# What the scripts share that run the program on a terminal: those of util-linux's `script`. A script says
#     . tests/program/typed.sh
# after tests/lib.sh. `here` is a folder for what commands name, with a sample; where there is no `script`, the calling script ends here.
can "what is said on a terminal" script || { close; exit; }
here=$work/here
mkdir "$here"
cp samples/shop.pcap "$here"
web='"name":"web","upstream":"10.77.0.2:80"'
printf '[{%s}]' "$web" > "$here/web.json"
printf '[]' > "$here/bare.json"

# said TEXT COMMAND: what is at fault with a command of the shell, which was to say this on a terminal; a typed end of input is all that it is given.
said() {
    printf '%b' "$1" > "$work/expected"
    SHELL=$BASH script -qec "$2" /dev/null < /dev/null | tr -d '\004\b' > "$work/found" || true
    cmp "$work/expected" "$work/found" > /dev/null || { echo "  expected: $(cat -v "$work/expected")"; echo "  found:    $(cat -v "$work/found")"; }
}

# capture FILE DIGITS..: a file of these bytes.
capture() { printf '%s' "${*:2}" | tr -d ' ' | sed 's/../\\x&/g' | xargs -0 printf > "$here/$1"; }
start='02000400 00000000 00000000 ffff0000'
