# Makes a dump of recorded segments, one a line: TIME DIRECTION FLAGS SEQ ACK [PAYLOAD], as
#     1.001000 c>s PSH ACK 1001 5001 "hello"
# c, s and d are the hosts of the worked rows; another host is ADDRESS:PORT. A payload is a text in quotes (no quote and no blank in it),
# or 0x and hexadecimal digits, and is repeated by *N. A line `record TIME HEX` has any bytes. Checksums are left unfilled.
# Words `vlan N` before the flags give the frame a tag, as in
#     1.001000 c>s vlan 7 PSH ACK 1001 5001 "hello"
# N is the tag's 16 bits: the lower 12 are the VLAN's number, the others its priority. It is decimal, or 0x and hexadecimal digits: 0x2007 is
# priority 1 of VLAN 7. A frame of `vlan 7 vlan 8` has two tags, in this order.
# A first line `nanoseconds` gives the file that magic number: TIME has nine digits after the point then. A line `highest` puts the highest
# byte of each field first; with `-v turned=1` each file has the other order.
function field(number, digits) { return sprintf("%0" digits "x", number) }
# whether the highest byte of each field comes first
function falls() { return highest + 0 != turned + 0 }
# a number of 32 bits as the file has it: its lowest byte first, or its highest
function ordered(number,    text) {
    text = wide(number)
    return falls() ? text : substr(text, 7, 2) substr(text, 5, 2) substr(text, 3, 2) substr(text, 1, 2)
}
function heading() {
    if (headed++) return
    print ordered(nanoseconds ? 2712812621 : 2712847316) " " (falls() ? "00020004" : "02000400") " 00000000 00000000 " ordered(65535) " " ordered(1)
}
function wide(number) { return sprintf("%04x%04x", int(number / 65536), number % 65536) }
# a number in decimal, or in hexadecimal digits after 0x
function value(text,    number, place) {
    if (text !~ /^0x/) return text + 0
    number = 0
    for (place = 3; place <= length(text); place++) number = 16 * number + index("0123456789abcdef", tolower(substr(text, place, 1))) - 1
    return number
}
function host(name,    parts, places) {
    if (name == "c") name = "10.0.0.1:40000"
    if (name == "s") name = "10.0.0.2:80"
    if (name == "d") name = "10.0.0.3:40001"
    split(name, parts, ":")
    split(parts[1], places, ".")
    mac = "0200000000" field(places[4], 2)
    address = field(places[1], 2) field(places[2], 2) field(places[3], 2) field(places[4], 2)
    port = field(parts[2], 4)
}
function payload(text,    parts, digits, times, i) {
    times = split(text, parts, "*") == 2 ? parts[2] : 1
    text = parts[1]
    digits = ""
    if (text ~ /^0x/) one = substr(text, 3)
    else {
        one = ""
        for (i = 2; i < length(text); i++) one = one codes[substr(text, i, 1)]
    }
    while (times-- > 0) digits = digits one
    return digits
}
function record(time, bytes,    parts) {
    split(time, parts, ".")
    len = length(bytes) / 2
    heading()
    print ordered(parts[1]) " " ordered(parts[2]) " " ordered(len) " " ordered(len) " " bytes
}
BEGIN {
    for (i = 32; i < 127; i++) codes[sprintf("%c", i)] = field(i, 2)
    values["FIN"] = 1; values["SYN"] = 2; values["RST"] = 4; values["PSH"] = 8; values["ACK"] = 16
}
END { heading() }
/^#/ || NF == 0 { next }
$1 == "nanoseconds" { nanoseconds = 1; next }
$1 == "highest" { highest = 1; next }
$1 == "record" { record($2, $3); next }
{
    split($2, ends, ">")
    host(ends[1]); mac_from = mac; from = address; port_from = port
    host(ends[2])
    tags = ""
    for (place = 3; $place == "vlan"; place += 2) tags = tags "8100" field(value($(place + 1)), 4)
    flags = 0
    for (; $place in values; place++) flags += values[$place]
    data = place + 2 <= NF ? payload($(place + 2)) : ""
    ip = "4500" field(40 + length(data) / 2, 4) "0000400040060000" from address
    tcp = port_from port wide($place) wide($(place + 1)) "50" field(flags, 2) "ffff00000000"
    record($1, mac mac_from tags "0800" ip tcp data)
}
