#!/usr/bin/env bash
# What the built program refuses, and next to it what it takes: headers and records of captures, dumps, texts of scenarios, their proxies and toxics.
# Each capture is given as a dump, and as the bytes that it stands for.
set -euo pipefail
cd "$(dirname "$0")/../.."
. tests/lib.sh
session=crates/library_example/stdin

# judged EXPECTED: what is at fault with the last run, which was to be refused with this line, or to tell this after the number of its scenario.
judged() {
    case $1 in
        refused*) refusal "$1" ;;
        *)
            well
            [[ $(head -n 1 "$work/output") == "scenario 0 $1 "* ]] || printf '  expected: %s\n  found:    %s\n' "$1" "$(head -n 1 "$work/output")"
            ;;
    esac
}

# text EXPECTED TEXT: what comes of this text as a capture.
text() {
    printf '%s' "$2" > "$work/text"
    run "$work/text"
    verdict "${2:0:60}" "$(judged "$1")"
}

# capture EXPECTED DIGITS: what comes of a dump, and of its bytes.
capture() {
    text "$@"
    tr -d ' ' <<< "$2" | tr a-f A-F | basenc -d --base16 > "$work/bytes"
    run "$work/bytes"
    verdict "the bytes of ${2:0:60}" "$(judged "$1")"
}

# headers in both orders: as they are to be, of nanoseconds, too short, with an unknown magic number, of versions 2.3 and 3.4, of link type 113, and of
# link type 1 with bits of a frame check sequence
empty="records 0 rest 0"
capture "$empty" "d4c3b2a1 02000400 00000000 00000000 ffff0000 01000000"
capture "$empty" "a1b2c3d4 00020004 00000000 00000000 0000ffff 00000001"
capture "$empty" "4d3cb2a1 02000400 00000000 00000000 ffff0000 01000000"
capture "$empty" "a1b23c4d 00020004 00000000 00000000 0000ffff 00000001"
capture "refused 1 ShortHeader" "d4c3b2a1 02000400 00000000 00000000 ffff0000 010000"
capture "refused 1 ShortHeader" "a1b2c3d4 00020004 00000000 00000000 0000ffff 000000"
text "refused 1 ShortHeader" ""
capture "refused 2 BadMagic" "d4cdb2a1 02000400 00000000 00000000 ffff0000 01000000"
capture "refused 2 BadMagic" "a1b2cdd4 00020004 00000000 00000000 0000ffff 00000001"
capture "refused 2 BadMagic" "a1b2cd34 00020004 00000000 00000000 0000ffff 00000001"
capture "refused 3 BadVersion" "d4c3b2a1 02000300 00000000 00000000 ffff0000 01000000"
capture "refused 3 BadVersion" "a1b2c3d4 00020003 00000000 00000000 0000ffff 00000001"
capture "refused 3 BadVersion" "d4c3b2a1 03000400 00000000 00000000 ffff0000 01000000"
capture "refused 3 BadVersion" "a1b2c3d4 00030004 00000000 00000000 0000ffff 00000001"
capture "refused 4 BadLink" "d4c3b2a1 02000400 00000000 00000000 ffff0000 71000000"
capture "refused 4 BadLink" "a1b2c3d4 00020004 00000000 00000000 0000ffff 00000071"
capture "refused 4 BadLink" "a1b2c3d4 00020004 00000000 00000000 0000ffff 24000001"
# time zone, accuracy and the longest packet are not looked at
capture "$empty" "d4c3b2a1 02000400 77000077 77000000 77ff0077 01000000"
capture "$empty" "a1b2c3d4 00020004 77000077 00000077 77000077 00000001"

# an unknown magic number whose first byte is the digit 4 makes a broken dump, and so does an odd digit; the dump of one is read
text "refused 55 BadDump at 1" $'4\xcd\xb2\xa1\x02'
text "refused 2 BadMagic" "34cdb2a1 02000400 00000000 00000000 ffff0000 01000000"
text "refused 55 BadDump at 3" "d4c"
text "records 1 rest 7" "$(cat crates/toxicap_program/stdin)"

# the longest record, whose bytes are there or not, and one that is longer by a byte, also as the second one
little="d4c3b2a1 02000400 00000000 00000000 ffff0000 01000000"
big="a1b2c3d4 00020004 00000000 00000000 0000ffff 00000001"
packet=$(printf '%0524288d' 0)
capture "records 0 rest 16" "$little 00000000 00000000 00000400 00000400"
capture "records 0 rest 16" "$big 00000000 00000000 00040000 00040000"
long="records 1 rest 0 segment 0 short 0 notipv4 1"
capture "$long" "$little 00000000 00000000 00000400 00000400 $packet"
capture "$long" "$big 00000000 00000000 00040000 00040000 $packet"
capture "refused 5 RecordTooLong at 0" "$little 00000000 00000000 01000400 01000400"
capture "refused 5 RecordTooLong at 0" "$big 00000000 00000000 00040001 00040001"
capture "refused 5 RecordTooLong at 0" "$little 00000000 00000000 01000400 01000400 ${packet}00"
capture "refused 5 RecordTooLong at 0" "$big 00000000 00000000 00040001 00040001 ${packet}00"
capture "refused 5 RecordTooLong at 1" "$little 00000000 00000000 03000000 03000000 000000 00000000 00000000 ffffffff ffffffff"

# scenario EXPECTED TEXT [WORD..]: what comes of this text as a scenario for the plain session, and with these words.
scenario() {
    printf '%s' "$2" > "$work/scenario.json"
    run $session --scenario "$work/scenario.json" "${@:3}"
    verdict "${2:0:120}" "$(judged "$1")"
}
taken="records 7 rest 0"
scenario "refused 10 NotJson scenario 0" ''
scenario "refused 10 NotJson scenario 0" '['
scenario "refused 10 NotJson scenario 0" $'["\xff"]'
scenario "refused 10 NotJson scenario 0" "$(printf '%0200d' 0 | tr 0 '[')$(printf '%0200d' 0 | tr 0 ']')"
scenario "refused 11 NotArray scenario 0" '{}'
scenario "refused 12 BadMember scenario 0 proxy 0" '[1]'
scenario "refused 13 DuplicateProxy scenario 0 proxy 1" '[{"name":"a","upstream":"10.0.0.2:80"},{"name":"a","upstream":"nowhere"}]'
scenario "$taken" "[{\"name\":\"a\",\"upstream\":\"10.0.0.2:80\",\"colour\":\"$(printf '%05000000d' 0)\"}]"

# proxies COUNT: COUNT proxies.
proxies() {
    local proxy
    printf '[{"name":"p","upstream":"10.0.0.2:80"}'
    for ((proxy = 1; proxy < $1; proxy++)); do printf ',{"name":"p%s","upstream":"10.0.0.2:80"}' $proxy; done
    printf ']'
}
scenario "$taken" "$(proxies 63)"
scenario "$taken" "$(proxies 64)"
scenario "refused 20 TooMany scenario 0 proxy 64" "$(proxies 65)"

# proxy EXPECTED UPSTREAM [MEMBERS [WORD..]]: what comes of a proxy with this upstream, with further members and words.
proxy() { scenario "$1" '[{"name":"web","upstream":"'"$2"'"'"${3-}"'}]' "${@:4}"; }
proxy "$taken" 10.0.0.2:80
for upstream in 10.0.0.2 :80 10.0.0.2:0 10.0.0.2:65536 '[::1]:80' 10.0.0.2:http 10.0.0.2:+80 10.0.0.2:000080 10.0.0.2:00000 10.0.0.2: '10.0.0.2:8 0'; do
    proxy "refused 14 BadUpstream scenario 0 proxy 0" "$upstream"
done
unknown="refused 15 UnknownHost scenario 0 proxy 0"
proxy "$unknown" redis:80
proxy "refused 12 BadMember scenario 0 proxy 0" 10.0.0.2:80 ',"enabled":"yes"'
# what is nearly an address is a name, which is unknown without a host
for name in 010.0.0.2 10.0.0.256 1 ...; do
    proxy "$unknown" $name:00080
    proxy "$taken" $name:00080 '' --host $name=10.0.0.2
    verdict "the host $name is met" "$(grep -q ' 10.0.0.2:80 proxy 0 ' "$work/output" || echo '  it is not')"
done

# toxics EXPECTED NUMBER TOXICS: a proxy with these toxics is refused so at this one of them; where the number is empty, it is taken.
toxics() { proxy "${2:+refused }$1${2:+ scenario 0 proxy 0 toxic $2}" 10.0.0.2:80 ',"toxics":['"$3"']'; }
# of TYPE MEMBERS ATTRIBUTES: a toxic of this type on upstream.
of() { printf '{"type":"%s","stream":"upstream"%s,"attributes":{%s}}' "$@"; }
toxics "12 BadMember" 0 '{"attributes":{}}'
toxics "12 BadMember" 0 '{"type":"latency","name":5}'
toxics "16 UnknownToxic" 0 "$(of explode '' '')"
toxics "17 BadStream" 0 '{"type":"latency","stream":"sideways"}'
latency=$(of latency '' '"latency":100,"jitter":0')
toxics "18 DuplicateToxic" 1 "$latency,$latency"
# a name that is not told is the type and the stream, and names of both directions stand beside each other
named=$(of timeout ',"name":"latency_downstream"' '')
toxics "18 DuplicateToxic" 1 "$named,"'{"type":"latency"}'
toxics "$taken" "" "$named,"'{"type":"latency","name":"slow"}'
for number in 1000000001 -1 1.5 '"1"' -0 1.0 1e3 '[]' true; do
    toxics "19 AttributeRange" 0 "$(of latency ',"toxicity":1' '"latency":'"$number"',"jitter":0')"
done
for attributes in '' '"rate":null' '"rate":1000001'; do toxics "19 AttributeRange" 0 "$(of bandwidth '' "$attributes")"; done
for attributes in '' '"average_size":5,"size_variation":5'; do toxics "19 AttributeRange" 0 "$(of slicer '' "$attributes")"; done
toxics "19 AttributeRange" 0 "$(of limit_data '' '"bytes":1000000000001')"
for member in '"toxicity":2' '"toxicity":0.5' '"toxicity":1.0' '"toxicity":"1"' '"toxicity_ppm":1000001' '"toxicity":2,"toxicity_ppm":5'; do
    toxics "21 BadToxicity" 0 "$(of latency ",$member" '"latency":100')"
done
toxics "19 AttributeRange" 0 "$(of bandwidth ',"toxicity":2' '')"
# eight toxics of a direction, with one of the other; a ninth, whose place counts those of the other direction too
eight=$(for number in 0 1 2 3 4 5 6 7; do printf '{"type":"timeout","stream":"upstream","name":"t%s"},' $number; done)
ninth='{"type":"timeout","stream":"upstream","name":"last"}'
toxics "$taken" "" "$eight"'{"type":"timeout"}'
toxics "20 TooMany" 8 "$eight$ninth"
toxics "20 TooMany" 9 "$eight"'{"type":"timeout"},'"$ninth"
close
