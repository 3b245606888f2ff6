#!/usr/bin/env bash
# tools/report loses nothing: from its JSON lines every line of a report is made again, and from its CSV every connection's line, over the
# reports of the examples and of the rows; each of these JSON lines is valid by examples/report.schema.json, and wrong ones are not. The table and
# the diff are compared with texts that were written by hand. It wants python3, for the schema with its library jsonschema.
set -euo pipefail
cd "$(dirname "$0")/../.."
. tests/lib.sh
if ! can "tools/report" python3; then
    close
    exit
fi

# whole WHAT REPORT..: compares what is made again of reports with their lines.
whole() {
    local what=$1
    shift
    cat "$@" > "$work/report"
    tools/report "$@" | python3 tests/tools/remade.py > "$work/lines"
    verdict "$what as JSON lines" "$(difference "$work/report" "$work/lines")"
    awk '$1 == "scenario" { scenario = $2 } $3 == ">" { print scenario ": " $0 }' "$@" > "$work/connections"
    tools/report --form csv "$@" | python3 tests/tools/remade.py csv > "$work/lines"
    verdict "$what as CSV" "$(difference "$work/connections" "$work/lines")"
}
whole "reports of the examples" examples/*.txt
whole "reports of the rows" tests/rows/*/report

run samples/shop.pcap --scenario examples/bandwidth.json
tools/report examples/bandwidth.txt > "$work/expected"
tools/report < "$work/output" > "$work/lines"
verdict "a report of the program" "$(well; difference "$work/expected" "$work/lines")"

# judged refused|taken FILE: the JSON lines of a file that the schema refuses, or takes.
judged() {
    python3 -W ignore - "$1" "$2" << 'END'
import json, jsonschema, sys
with open('examples/report.schema.json') as file: schema = json.load(file)
jsonschema.Draft202012Validator.check_schema(schema)
validator = jsonschema.Draft202012Validator(schema)
with open(sys.argv[2]) as lines:
    for line in lines:
        if validator.is_valid(json.loads(line)) == (sys.argv[1] == 'taken'): print('  ' + line.rstrip())
END
}

# not_lines: a line of a connection, and then JSON that is no line of a report: most of it that line with one change.
not_lines() {
    local side='{"delivered":3,"recorded":3,"lost":0,"end":"fin","at":7,"max":0}'
    local line='{"line":"connection","scenario":0,"connection":0,"client":"10.0.0.1:4","server":"10.0.0.2:80","vlan":null,"proxy":null,"up":UP,"down":UP}'
    line=${line//UP/$side}
    echo "$line" | jq -c '., del(.vlan), del(.down), .line = "scenario", .line = "row", .proxy = "web", .proxy = 64, .vlan = 0, .connection = -1,
        .connection = "0", .client = "10.0.0.1", .client = "redis:6379", .more = 1, .file = 0, .file = "", .up.end = "FIN", .up.end = "open", .up.at = null, .up.at = -1,
        .up.delivered = 1.5, .down.lost = null, del(.down.max), .down.late = 0, [.]'
    echo '{"line":"connections","scenario":0,"connections":1}'
    echo '{"line":"scenario","scenario":0,"records":1}'
    echo '[]'
}
if can "the schema of JSON lines" jq; then
    if python3 -c 'import jsonschema' 2> /dev/null; then
        tools/report examples/*.txt tests/rows/*/report > "$work/lines"
        verdict "JSON lines by the schema" "$(judged refused "$work/lines")"
        not_lines > "$work/all"
        sed -n 1p "$work/all" > "$work/lines"
        verdict "the line that wrong ones are made of" "$(judged refused "$work/lines")"
        sed 1d "$work/all" > "$work/lines"
        verdict "$(wc -l < "$work/lines") wrong lines by the schema" "$(judged taken "$work/lines")"
    else
        skip "the schema of JSON lines" "Python's library jsonschema is not here"
    fi
fi

# counts SCENARIO UNOPENED: the first lines of a report of two connections.
counts() {
    echo "scenario $1 records 9 rest 0 segment 8 short 0 notipv4 1 badipv4 0 fragment 0 nottcp 0 cut 0 badtcp 0 sameends 0"
    echo "connections 2 unopened $2"
}
{
    counts 0 0
    echo '0 10.0.0.1:4000 > 10.0.0.3:6379 proxy 1 up 12/12/0 fin+41786 max 0 down 3018/3018/5 fin+1243493 max 1203000'
    echo '1 10.0.0.1:4001 > 10.0.0.2:80 vlan 7 proxy - up 0/83/0 refused max 0 down 0/6388/0 open max 0'
} > "$work/old"
{
    counts 1 2
    echo '0 10.0.0.1:4000 > 10.0.0.3:6379 proxy 1 up 12/12/0 fin+41286 max 0 down 18/3018/5 close+900 max 1203250'
    echo '1 10.0.0.1:4001 > 10.0.0.2:80 vlan 7 proxy - up 0/83/0 refused max 0 down 0/6388/0 open max 0'
} > "$work/new"
cat > "$work/names.json" << 'END'
[{"name": "web", "upstream": "10.0.0.2:8080"}, {"name": "redis", "upstream": "10.0.0.3:6379"}]
END

# writes WHAT STATUS TEXT ARGUMENT..: tools/report ends with this status, and writes this text: to standard error where the status is 2.
writes() {
    local what=$1 due=$2
    printf '%s\n' "$3" > "$work/text"
    shift 3
    status=0
    tools/report "$@" > "$work/output" 2> "$work/faults" || status=$?
    sed -i "s|$work/||g" "$work/output" "$work/faults"
    verdict "$what" "$(
        fault "$due"
        if [ "$due" = 2 ]; then silent output; difference "$work/text" "$work/faults"; else silent faults; difference "$work/text" "$work/output"; fi
    )"
}

writes "a table" 0 'scenario 0 names.json: records 9, notipv4 1, connections 2
connection  client         server         vlan  proxy  direction  delivered  recorded  lost  end               at          max
0           10.0.0.1:4000  10.0.0.3:6379        redis  up              12 B      12 B   0 B  fin        41.786 ms     0.000 ms
                                                       down          3018 B    3018 B   5 B  fin      1243.493 ms  1203.000 ms
1           10.0.0.1:4001  10.0.0.2:80    7     -      up               0 B      83 B   0 B  refused                  0.000 ms
                                                       down             0 B    6388 B   0 B  open                     0.000 ms' \
    --form table --scenario "$work/names.json" "$work/old"
writes "a table in nanoseconds, without names" 0 'scenario 0: records 9, notipv4 1, connections 2
connection  client         server         vlan  proxy  direction  delivered  recorded  lost  end               at          max
0           10.0.0.1:4000  10.0.0.3:6379        1      up              12 B      12 B   0 B  fin      0.041786 ms  0.000000 ms
                                                       down          3018 B    3018 B   5 B  fin      1.243493 ms  1.203000 ms
1           10.0.0.1:4001  10.0.0.2:80    7     -      up               0 B      83 B   0 B  refused               0.000000 ms
                                                       down             0 B    6388 B   0 B  open                  0.000000 ms' \
    --form table --unit ns "$work/old"
differing='unopened 0 -> 2
0 10.0.0.1:4000 > 10.0.0.3:6379 up: fin at 41.786 ms -> 41.286 ms (-0.500 ms)
0 10.0.0.1:4000 > 10.0.0.3:6379 down: delivered 3018 B -> 18 B (-3000 B), end fin at 1243.493 ms -> close at 0.900 ms, max 1203.000 ms -> 1203.250 ms (+0.250 ms)
connections that differ: 1 of 2'
writes "a diff of two files" 1 "old scenario 0 names.json -> new scenario 1 names.json
$differing" --form diff --scenario "$work/names.json" --scenario "$work/names.json" "$work/old" "$work/new"
cat "$work/old" "$work/new" > "$work/both"
writes "a diff of two scenarios" 1 "scenario 0 names.json -> scenario 1 names.json
$differing" --form diff --scenario "$work/names.json" --scenario "$work/names.json" "$work/both"
writes "no difference" 0 'connections that differ: 0 of 2' --form diff "$work/old" "$work/old"
sed 's/proxy 1/proxy 0/; s/:4001/:4002/' "$work/old" > "$work/others"
writes "another proxy, another client" 1 'old scenario 0 -> others scenario 0
0 10.0.0.1:4000 > 10.0.0.3:6379 proxy 1 -> 0
1 10.0.0.1:4001 > 10.0.0.2:80 client 10.0.0.1:4001 -> 10.0.0.1:4002
connections that differ: 2 of 2' --form diff "$work/old" "$work/others"
sed '$d; s/^connections 2/connections 1/' "$work/old" > "$work/fewer"
writes "a connection more" 1 'old scenario 0 -> fewer scenario 0
connections 2 -> 1
1 10.0.0.1:4001 > 10.0.0.2:80 only in the first
connections that differ: 1 of 2' --form diff "$work/old" "$work/fewer"

# Files of one report each, all of scenario 0, as tools/fixtures makes them: the n-th scenario file has the names of the n-th one.
one() {
    echo 'scenario 0 records 5 rest 0 segment 5 short 0 notipv4 0 badipv4 0 fragment 0 nottcp 0 cut 0 badtcp 0 sameends 0'
    echo 'connections 1 unopened 0'
    echo "0 10.0.0.1:4000 > 10.0.0.3:6379 proxy $1 up 12/12/0 fin+41786 max 0 down 18/18/0 fin+900 max 0"
}
one 1 > "$work/slow.txt"
one 0 > "$work/cut,2.txt"
echo '[{"name": "redis", "upstream": "10.0.0.3:6379"}]' > "$work/cut.json"
names=(--scenario "$work/names.json" --scenario "$work/cut.json")
writes "a table of two files" 0 'slow.txt scenario 0 names.json: records 5, connections 1
connection  client         server         proxy  direction  delivered  recorded  lost  end         at       max
0           10.0.0.1:4000  10.0.0.3:6379  redis  up              12 B      12 B   0 B  fin  41.786 ms  0.000 ms
                                                 down            18 B      18 B   0 B  fin   0.900 ms  0.000 ms

cut,2.txt scenario 0 cut.json: records 5, connections 1
connection  client         server         proxy  direction  delivered  recorded  lost  end         at       max
0           10.0.0.1:4000  10.0.0.3:6379  redis  up              12 B      12 B   0 B  fin  41.786 ms  0.000 ms
                                                 down            18 B      18 B   0 B  fin   0.900 ms  0.000 ms' \
    --form table "${names[@]}" "$work/slow.txt" "$work/cut,2.txt"
writes "a diff of two files, each with its names" 0 'connections that differ: 0 of 1' --form diff "${names[@]}" "$work/slow.txt" "$work/cut,2.txt"
writes "a diff of two files, the names exchanged" 2 "report: slow.txt scenario 0 cut.json has no proxy 1" \
    --form diff "${names[2]}" "${names[3]}" "${names[0]}" "${names[1]}" "$work/slow.txt" "$work/cut,2.txt"
cp "$work/names.json" "$work/later.json"
sed 's/close+900 /close+901 /' "$work/both" > "$work/both.2"
writes "two files of two reports each: names by number" 1 'both scenario 1 later.json -> both.2 scenario 1 later.json
0 10.0.0.1:4000 > 10.0.0.3:6379 down: close at 0.900 ms -> 0.901 ms (+0.001 ms)
connections that differ: 1 of 4' --form diff --scenario "$work/names.json" --scenario "$work/later.json" "$work/both" "$work/both.2"
writes "the CSV of two files" 0 'file,scenario,connection,client,server,vlan,proxy,up_delivered,up_recorded,up_lost,up_end,up_at,up_max,down_delivered,down_recorded,down_lost,down_end,down_at,down_max
slow.txt,0,0,10.0.0.1:4000,10.0.0.3:6379,,1,12,12,0,fin,41786,0,18,18,0,fin,900,0
"cut,2.txt",0,0,10.0.0.1:4000,10.0.0.3:6379,,0,12,12,0,fin,41786,0,18,18,0,fin,900,0' --form csv "$work/slow.txt" "$work/cut,2.txt"
# Names of files that a spreadsheet would calculate.
verdict "the CSV of names that would be calculated" "$(
    cd "$work"
    for name in =1 +1 @1 -1; do cp slow.txt "./$name"; done
    "$OLDPWD/tools/report" --form csv -- =1 +1 @1 -1 | cut -d , -f 1,2 > cells
    printf '%s\n' file,scenario "'=1,0" "'+1,0" "'@1,0" "'-1,0" > expected
    difference expected cells
)"
sed '$d; s/connections 1/connections 0/' "$work/slow.txt" > "$work/none.txt"
sed '$d' "$work/slow.txt" > "$work/torn.txt"
writes "the JSON of two files" 0 '{"line":"scenario","file":"none.txt","scenario":0,"records":5,"rest":0,"segment":5,"short":0,"notipv4":0,"badipv4":0,"fragment":0,"nottcp":0,"cut":0,"badtcp":0,"sameends":0}
{"line":"connections","file":"none.txt","scenario":0,"connections":0,"unopened":0}
{"line":"scenario","file":"none.txt","scenario":0,"records":5,"rest":0,"segment":5,"short":0,"notipv4":0,"badipv4":0,"fragment":0,"nottcp":0,"cut":0,"badtcp":0,"sameends":0}
{"line":"connections","file":"none.txt","scenario":0,"connections":0,"unopened":0}' "$work/none.txt" "$work/none.txt"
writes "a torn report of two" 2 "report: torn.txt: the report of scenario 0 is torn: it has 0 of 1 connections" --form table "$work/slow.txt" "$work/torn.txt"

echo 'connections 4' > "$work/none"
head -n 3 "$work/old" > "$work/torn"
sed 1d "$work/old" > "$work/beheaded"
writes "no report" 2 "report: none: line 1 is no report's: 'connections 4'; toxicap prints reports, and --out stores them as .txt" "$work/none"
writes "a report without its first line" 2 "report: beheaded: line 1 comes before a line of a scenario: 'connections 2 unopened 0'" "$work/beheaded"
for form in json csv table; do
    status=0
    tools/report --form $form "$work/torn" > "$work/output" 2> "$work/faults" || status=$?
    verdict "a torn report, $form" "$(fault 2; silent output; told faults $'report: the report of scenario 0 is torn: it has 1 of 2 connections\n')"
done
head -c -1 "$work/old" > "$work/cut"
writes "a torn line" 2 "report: cut: line 4 is torn: it has no line feed; store the report again" --form table "$work/cut"
writes "a diff of one report" 2 "report: a diff wants two files with equally many reports, or one file with two; these have 1" --form diff "$work/old"
writes "a proxy that the file has not" 2 "report: scenario 0 names.json has no proxy 9" --form table --scenario "$work/names.json" \
    <(sed 's/proxy 1/proxy 9/' "$work/old")
writes "too few scenario files" 2 "report: there is no --scenario for scenario 1" --form table --scenario "$work/names.json" "$work/new"
writes "too few scenario files for a diff" 2 "report: there is no --scenario for scenario 1" --form diff --scenario "$work/names.json" "$work/both"
writes "no scenario file" 2 "report: old is no scenario file: an array of proxies with names is expected" --form table --scenario "$work/old" "$work/old"
# Peers that the program does not write: a cell that a table calculates, one that takes a terminal over, numbers that are none.
refused() {
    sed "3s|10.0.0.1:4000|$1|" "$work/old" > "$work/forged"
    for form in json csv table diff; do
        status=0
        tools/report --form $form "$work/forged" > "$work/output" 2> "$work/faults" || status=$?
        verdict "a peer of another form, $form: $1" "$(
            fault 2
            grep -qx "report: $work/forged: line 3 is no report's: .*" "$work/faults" || cat -A "$work/faults"
            [ "$(tr -d '\n' < "$work/faults" | tr -d '[:print:]' | wc -c)" = 0 ] || echo '  it has control characters'
            grep -qaF -- "${1%%:*}" "$work/output" && cat "$work/output" || true
        )"
    done
}
refused '=HYPERLINK("http://192.0.2.1","x")'
refused $'\e[2J:4000'
refused '+10.0.0.1:4000'
refused '010.0.0.1:4000'
refused '10.0.0.256:4000'
refused '10.0.0.1'
printf 'scenario 00\n' > "$work/forged"
writes "a number with zeros before it" 2 "report: forged: line 1 is no report's: 'scenario 00'; toxicap prints reports, and --out stores them as .txt" "$work/forged"
evil=$work/$'old\e[31m\n'
cp "$work/old" "$evil"
cp "$work/names.json" "$evil.json"
status=0
tools/report --form table --scenario "$evil.json" "$evil" "$evil" > "$work/output" 2> "$work/faults" || status=$?
sed -n "1s|^$work/||p" "$work/output" > "$work/line"
printf '%s\n' 'old\x1b[31m\n scenario 0 old\x1b[31m\n.json: records 9, notipv4 1, connections 2' > "$work/expected"
verdict "names with control characters" "$(well; difference "$work/expected" "$work/line")"
status=0
tools/report <&- > "$work/output" 2> "$work/faults" || status=$?
verdict "standard input closed" "$(fault 2; silent output; told faults $'report: standard input is closed\n')"
writes "no such file" 2 "report: absent: No such file or directory" "$work/absent"
close
