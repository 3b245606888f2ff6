#!/usr/bin/env bash
# tools/fixtures: refusals, foreign files and kills leave the folder as it was. It wants python3.
set -euo pipefail
cd "$(dirname "$0")/../.."
. tests/lib.sh
. tests/tools/project.sh

# what stops it
# hint WORD..: what helps after a refusal, as the program says it of these words in the folder of the project.
hint() { (cd "$work/project" && TOXICAP_HINTS=1 "$program" "$@" < /dev/null 2>&1 | sed -n 's/^toxicap: /: /p') || true; }
project
echo '{}' > "$work/project/scenarios/redis-down.json"
fails "a refused scenario" "captures/shop.pcap under scenarios/redis-down.json: refused 11 NotArray scenario 0$(
    hint --capture captures/shop.pcap --scenario scenarios/redis-down.json)"
project
edit fixtures.json '/hosts/d'
fails "an unknown host" "captures/shop.pcap under scenarios/slow-database.json: refused 15 UnknownHost scenario 0 proxy 0$(
    hint --capture captures/shop.pcap --scenario scenarios/slow-database.json)"
project
rm "$work/project/captures/shop.pcap"
fails "no capture" "captures/shop.pcap: No such file or directory"
project
edit fixtures.json 's/"hosts"/"host"/'
fails "a misspelt field" "fixtures.json: unknown field \"host\"; its fields are captures and scenarios, and where they are needed hosts and seed"
project
edit fixtures.json '/"captures"/d'
fails "a field less" "fixtures.json: no field captures; its fields are captures and scenarios, and where they are needed hosts and seed"
project
edit fixtures.json 's/"captures"/"capture"/'
fails "a misspelt field that must be there" \
    "fixtures.json: unknown field \"capture\"; its fields are captures and scenarios, and where they are needed hosts and seed"
project
edit fixtures.json 's/"seed": 0/"seed": "7"/'
fails "a seed that is a text" "fixtures.json: seed is no whole number from 0 to 2^64 - 1"
project
edit fixtures.json 's|\["captures/shop.pcap"\]|"captures/shop.pcap"|'
fails "a capture that is no array" "fixtures.json: captures is no array of one path or more"
project
edit fixtures.json 's|scenarios/redis-down|captures/slow-database|'
cp examples/redis-down.json "$work/project/captures/slow-database.json"
fails "two scenarios of a name" "two fixtures would have the name slow-database"
project
edit fixtures/manifest.json '1s/^/<<<<<<< HEAD\n/'
fails "a manifest that is no JSON" "fixtures/manifest.json is no JSON: Expecting value: line 1 column 1 (char 0): move the folder away, and make it again"
project
TOXICAP=/none/toxicap fails "no program" "there is no program /none/toxicap: put it on the path, or name it in TOXICAP"
TOXICAP=no-toxicap fails "no command" "there is no program no-toxicap: put it on the path, or name it in TOXICAP"

for number in -1 18446744073709551616; do
    project
    edit fixtures.json "s/\"seed\": 0/\"seed\": $number/"
    fails "the seed $number" "fixtures.json: seed is no whole number from 0 to 2^64 - 1"
done
# What is no regular file: a FIFO, which nobody writes to, and a folder. Each call ends.
for each in fixtures.json captures/shop.pcap scenarios/redis-down.json; do
    project
    rm "$work/project/$each"
    mkdir "$work/project/$each"
    fails "a folder in place of $each" "$each is no regular file"
    rmdir "$work/project/$each"
    mkfifo "$work/project/$each"
    for command in verify make; do
        status=0
        (cd "$work/project" && timeout 60 "$tools/fixtures" $command > "$work/output" 2> "$work/faults") || status=$?
        verdict "a FIFO in place of $each: $command" "$(fault 2; silent output; told faults "fixtures: $each is no regular file"$'\n')"
    done
done
# Names of files and hosts, and a version, that would write lines of their own.
project
evil=$'captures/a\nadded host b\e[31m.pcap'
cp "$work/project/captures/shop.pcap" "$work/project/$evil"
edit fixtures.json 's|"captures/shop.pcap"|"captures/a\\nadded host b\\u001b[31m.pcap"|; s|"redis"|"\\u001b", "redis"|; s|"\\u001b"|"k\\u001b]": "10.0.0.9", "\\u001b"|'
sed -i 's|"\\u001b", ||' "$work/project/fixtures.json"
sed -i 's|"toxicap |"toxi\\ncap |' "$work/project/fixtures/manifest.json"
fixtures verify
verdict "names with control characters" "$(
    fault 2
    silent output
    told faults 'fixtures: captures/a\nadded host b\x1b[31m.pcap under scenarios/slow-database.json: refused 23 BadHost host 0'"$(hint --host=$'k\e]=10.0.0.9')"$'\n'
)"
sed -i 's|"k\\u001b]": "10.0.0.9", ||' "$work/project/fixtures.json"
fixtures verify
verdict "lines with control characters" "$(listed 1 "changed program toxi\\ncap ${version#toxicap } to $version" 'added input captures/a\nadded host b\x1b[31m.pcap' \
    "stale input captures/shop.pcap")"
# Recipes of all shapes: each ends with a line.
project
verdict "recipes of all shapes" "$(cd "$work/project" && python3 "$recipes" "$tools/fixtures" 60 1 2>&1)"
# No room for the manifest: a script stands for the program, whose files have no bytes. Python finds no folder for verify then.
printf '%s\n' '#!/bin/sh' 'for word; do case $word in' '--version) echo toxicap 0 ;;' '--out=*) : > "${word#*=}/0000.pcap"; : > "${word#*=}/0000.txt" ;;' 'esac; done' > "$work/empty"
chmod +x "$work/empty"
project
keep
for command in make verify; do
    told=$( (cd "$work/project"; ulimit -f 0; TOXICAP=$work/empty "$tools/fixtures" $command < /dev/null 2>&1 || echo "status $?") )
    verdict "no room for a file: $command" "$([[ $told = $'fixtures: a file of TMPDIR, or beside an output: '[FN]*$'\nstatus 2' ]] || echo "$told"; folder_difference "$work/before" "$work/project")"
done

# foreign files
# kept WHAT FILE: verify tells that this file of the folder is foreign, and make stops before it.
kept() {
    keep
    fixtures verify
    verdict "$1: verify" "$(fault 1; grep -qx "foreign output $2" "$work/output" || cat "$work/output" "$work/faults")"
    fixtures make
    verdict "$1: make" "$(stopped "fixtures/$2 is none of the files that the manifest lists: move it away")"
}
project
echo mine > "$work/project/fixtures/notes.txt"
kept "a foreign file" notes.txt
cp examples/latency.json "$work/project/scenarios/notes.json"
edit fixtures.json 's|scenarios/redis-down|scenarios/notes|'
kept "a foreign file of a fixture's name" notes.txt
project
rm "$work/project/fixtures/manifest.json"
kept "no manifest" redis-down.pcap
project
rm "$work/project/fixtures/redis-down.pcap"
mkdir "$work/project/fixtures/redis-down.pcap"
kept "a folder in place of a fixture" redis-down.pcap
project
edit fixtures.json 's/"seed": 0/"seed": 7/'
printf '#!/bin/sh\necho mine > fixtures/notes.txt\nexec %q "$@"\n' "$program" > "$work/slow"
chmod +x "$work/slow"
TOXICAP=$work/slow fixtures make
verdict "a foreign file that comes meanwhile" "$(
    fault 2
    echo mine | byte_difference - "$work"/project/fixtures.*.unfinished/made/notes.txt
    holds "$work/project/fixtures" manifest.json redis-down.pcap redis-down.txt slow-database.pcap slow-database.txt
)"

# kills: the seed is another, so that the folder would change
project
edit fixtures.json 's/"seed": 0/"seed": 7/'
keep
fixtures make
cp -a "$work/project/fixtures" "$work/new"
# again: the project as before the kills.
again() {
    rm -rf "$work/project"
    cp -a "$work/before" "$work/project"
}
# A program that stores half of a capture, in its run number KILL, and then kills the script.
cat > "$work/killer" << END
#!/bin/sh
echo run >> "\$RUNS"
if [ "\$(wc -l < "\$RUNS")" = "\$KILL" ]; then
    for word; do case \$word in --out=*) echo half > "\${word#--out=}/0000.pcap" ;; esac; done
    kill -KILL \$PPID
    exit
fi
exec $(printf %q "$program") "\$@"
END
chmod +x "$work/killer"
export RUNS=$work/runs KILL
for KILL in 1 2 3; do
    again
    : > "$RUNS"
    TOXICAP=$work/killer fixtures make 2> "$work/shell"
    verdict "killed in run $KILL of the program" "$(fault 137; folder_difference "$work/before/fixtures" "$work/project/fixtures")"
done
status=137 olds=0 news=0
for ((step = 1; status == 137 && step < 200; step++)); do
    again
    status=0
    (cd "$work/project" && python3 "$killed" $step "$tools/fixtures" make > "$work/output" 2> "$work/faults") 2> "$work/shell" || status=$?
    if [ $news = 0 ] && [ -z "$(folder_difference "$work/before/fixtures" "$work/project/fixtures")" ]; then
        olds=$((olds + 1))
    else
        news=$((news + 1))
        verdict "killed at step $step, after the exchange" "$(folder_difference "$work/new" "$work/project/fixtures")"
    fi
    ended=$status
    fixtures make
    verdict "made after a kill at step $step" "$(fault 0; folder_difference "$work/new" "$work/project/fixtures")"
    status=$ended
done
verdict "kills before and after the exchange" "$([ $status = 0 ] && [ $olds -gt 5 ] && [ $news -gt 5 ] || echo "  status $status, $olds before, $news after")"
again
status=0
(cd "$work/project" && python3 "$killed" 0 "$tools/fixtures" make > "$work/output" 2> "$work/faults") || status=$?
verdict "where folders cannot be exchanged in one step" "$(
    listed 0 "changed seed 0 to 7" "changed output slow-database.pcap" "changed output slow-database.txt"
    folder_difference "$work/new" "$work/project/fixtures"
    holds "$work/project" captures fixtures fixtures.json scenarios
)"

# the command line
for words in "" "prune" "make fixtures.json more"; do
    # shellcheck disable=SC2086
    fixtures $words
    verdict "words: $words" "$(fault 2; silent output; [[ $(head -n 1 "$work/faults") = 'usage: fixtures make|verify [FILE]' ]] || cat "$work/faults")"
done
fixtures make fixtures
verdict "a file without .json" "$(fault 2; silent output; told faults $'fixtures: fixtures does not end in .json, or has no name before it: name a file that lists captures and scenarios\n')"
close
