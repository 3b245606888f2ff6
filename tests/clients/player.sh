#!/usr/bin/env bash
# The players in Python, Go and Rust, which serve a connection of an output capture to real clients: Python's http.client, Go's net/http, curl and
# redis-cli, where they are. The steps of players are compared with ones worked out by hand, and those of Go and Rust with those of Python. It wants
# python3; sockets are those of 127.0.0.1, ports are the system's choice, and nothing waits longer than a few minutes.
set -euo pipefail
cd "$(dirname "$0")/../.."
. tests/lib.sh
outputs=$work/outputs players=()
export PYTHONPATH=$PWD/clients/python OUTPUTS=$outputs CGO_ENABLED=0
clean_up() { [ ${#players[@]} = 0 ] || kill "${players[@]}" 2> /dev/null || true; }

# outputs_of NAME CAPTURE UPSTREAM.. -- MEMBER: a folder of outputs: under proxies before these servers, each with this member, and under none.
outputs_of() {
    local name=$1 capture=$2 proxies='' upstream
    shift 2
    for upstream; do
        [ "$upstream" != -- ] || break
        proxies+=",{\"name\":\"$upstream\",\"upstream\":\"$upstream\",${*: -1}}"
    done
    mkdir -p "$outputs/$name"
    printf '[%s]' "${proxies#,}" > "$work/$name.json"
    run /dev/null --capture "$capture" --scenario "$work/$name.json" --scenario "$work/untouched.json" --out "$outputs/$name"
    verdict "$name" "$(well)"
}

# toxics TOXIC..: the member of a proxy; each toxic is TYPE, and perhaps ATTRIBUTE=NUMBER and a stream.
toxics() {
    local toxic text='' type attribute stream
    for toxic; do
        read -r type attribute stream <<< "$toxic"
        text+=",{\"type\":\"$type\",\"stream\":\"${stream:-downstream}\",\"attributes\":{${attribute:+\"${attribute%=*}\":${attribute#*=}}}}"
    done
    echo "\"toxics\":[${text#,}]"
}

# serve LANGUAGE NAME [OPTION..]: runs a player as a command, and sets `port`.
serve() {
    local tries
    : > "$work/port"
    timeout 600 "$work/player-$1" "${@:3}" "$outputs/$2/0000.pcap" "$outputs/$2/0001.pcap" > "$work/port" 2> "$work/told" &
    players+=($!)
    for ((tries = 0; tries < 2400; tries++)); do
        [ ! -s "$work/port" ] || break
        sleep 0.05
    done
    port=$(cat "$work/port")
}

# client WHAT STATUS TEXT COMMAND..: a client of the player that serves, which has to end with this status and print this text, in a minute.
client() {
    local ended=0
    timeout 60 "${@:4}" < /dev/null > "$work/client" 2> "$work/client-told" || ended=$?
    printf '%b' "$3" > "$work/expected"
    verdict "$1" "$([ $ended = "$2" ] || echo "  status $ended: $(cat "$work/client-told")"; difference "$work/expected" "$work/client")"
}

if ! can "players" python3; then close; exit; fi

printf '[]' > "$work/untouched.json"
http=10.77.0.2:80 sessions=(10.0.0.2:6379 10.0.0.2:7001 10.0.0.2:7002 10.0.0.2:7003)
for made in sessions pause rounds; do awk -f tests/capture.awk "tests/clients/player/$made" > "$work/$made.dump"; done
python3 -B tests/clients/player/much.py > "$work/much.pcap"
for case in untouched late:'latency latency=300' in-a-year:'latency latency=1000000000' cut:'limit_data bytes=100' cut-body:'limit_data bytes=200' closed:'timeout timeout=250' \
    late-up:'latency latency=300 upstream' silent-up:'timeout timeout=0 upstream' silent:'timeout timeout=0;timeout timeout=0 upstream' reset:'bandwidth rate=1;reset_peer timeout=205'; do
    IFS=';' read -r -a list <<< "$([[ $case != *:* ]] || echo "${case#*:}")"
    outputs_of "http-${case%%:*}" samples/http-get.pcap $http -- "$(toxics "${list[@]}")"
done
outputs_of http-down samples/http-get.pcap $http -- '"enabled":false'
outputs_of http-slices samples/http-get.pcap $http -- '"toxics":[{"type":"slicer","attributes":{"average_size":20,"delay":5000}}]'
outputs_of http-late-pauses "$work/pause.dump" 10.0.0.2:80 -- "$(toxics 'latency latency=250')"
outputs_of much "$work/much.pcap" 10.0.0.2:80 -- "$(toxics)"
outputs_of sessions-untouched "$work/sessions.dump" "${sessions[@]}" -- "$(toxics)"
outputs_of sessions-late "$work/sessions.dump" "${sessions[@]}" -- "$(toxics 'latency latency=300')"
outputs_of sessions-reset "$work/sessions.dump" "${sessions[@]}" -- "$(toxics 'reset_peer timeout=5')"
outputs_of sessions-cut "$work/sessions.dump" "${sessions[@]}" -- "$(toxics 'limit_data bytes=2')"
outputs_of sessions-closed "$work/sessions.dump" "${sessions[@]}" -- "$(toxics 'timeout timeout=50')"
outputs_of sessions-down "$work/sessions.dump" "${sessions[@]}" -- '"enabled":false'
outputs_of sessions-mixed "$work/sessions.dump" 10.0.0.2:7001 -- '"enabled":false'
outputs_of slices "$work/rounds.dump" 10.0.0.2:80 -- '"toxics":[{"type":"slicer","attributes":{"average_size":2,"delay":5000}}]'

verdict "steps" "$(
    (cd "$outputs" && python3 -B "$OLDPWD/tests/clients/player/dump_steps.py" sessions-{late,reset,cut,closed,down}) > "$work/steps" 2>&1 || echo "  status $?"
    difference tests/clients/player/expected "$work/steps"
)"
for scenario in examples/*.json; do
    case $scenario in */live-proxies.json | *.schema.json) continue ;; esac
    name=shop-$(basename "$scenario" .json)
    mkdir "$outputs/$name"
    run /dev/null --capture samples/shop.pcap --scenario "$scenario" --scenario "$work/untouched.json" --host redis=10.77.0.3 --seed 4 --out "$outputs/$name"
    verdict "$name" "$(well)"
done
verdict "steps of the examples" "$(
    (cd "$outputs" && python3 -B "$OLDPWD/tests/clients/player/dump_steps.py" ./*) > "$work/steps" 2> "$work/faults" || cat "$work/faults"
    [ "$(wc -l < "$work/steps")" -gt 300 ] || wc -l < "$work/steps"
)"

for tests in clients limits; do
    verdict "Python, $tests" "$(timeout 900 python3 -B tests/clients/player/$tests.py > "$work/output" 2>&1 || cat "$work/output")"
done
printf '#!/bin/sh\nexec python3 -B -m toxicap.player --limit 60 "$@"\n' > "$work/player-python"
chmod +x "$work/player-python"
languages=(python)
if can "Go" go; then
    go_here() { (cd clients/go && timeout 1200 go "$@"); }
    verdict "Go, net/http" "$(STEPS=$work/steps go_here test -count=1 -timeout 900s ./tests/player > "$work/output" 2>&1 || cat "$work/output")"
    verdict "Go, a command" "$(go_here build -o "$work/command" ./player 2>&1)"
    printf '#!/bin/sh\nexec %q -limit 60s "$@"\n' "$work/command" > "$work/player-go"
    chmod +x "$work/player-go"
    languages+=(go)
fi

if can "Rust" rustc cc; then
    # without the feature that takes the library
    verdict "Rust, compiled" "$(rustc --edition 2021 -O -D warnings --crate-type rlib --crate-name toxicap --out-dir "$work" clients/rust/src/lib.rs 2>&1 &&
        rustc --edition 2021 -O -D warnings --test --extern "toxicap=$work/libtoxicap.rlib" -o "$work/player-rust" clients/rust/tests/player.rs 2>&1)"
    verdict "Rust, a player" "$(STEPS=$work/steps timeout 600 "$work/player-rust" -q > "$work/output" 2>&1 || cat "$work/output")"
fi

for language in "${languages[@]}"; do
    if can "curl, $language" curl; then
        get() { curl -sS --max-time "$1" -A 'a client whose request has 82 bytes or more' "http://127.0.0.1:$port/hello.txt"; }
        export -f get
        hello='Hello from the sample server.\n'
        for case in "untouched:0:60:$hello" "late:0:60:$hello" "cut-body:18:60:${hello:0:14}" closed:52:60: reset:56:60: silent:28:1: down:7:60:; do
            IFS=: read -r name status most text <<< "$case"
            serve "$language" "http-$name"
            export port
            client "curl, $language, $name" "$status" "$text" bash -c "get $most"
        done
    fi
    if can "redis-cli, $language" redis-cli; then
        serve "$language" sessions-untouched
        client "redis-cli, $language" 0 'PONG\n' redis-cli -p "$port" PING
        serve "$language" sessions-late
        client "redis-cli, $language, late" 0 'PONG\n' redis-cli -p "$port" PING
        serve "$language" sessions-cut
        client "redis-cli, $language, cut" 1 '' redis-cli -p "$port" PING
    fi
    serve "$language" sessions-untouched --connection 3,1
    found=$(
        exec 3<> "/dev/tcp/127.0.0.1/$port" 4<> "/dev/tcp/127.0.0.1/$port"
        printf 'one?' >&4
        timeout 60 head -c 1 <&4
        timeout 60 head -c 5 <&3
    ) || true
    verdict "$language, two connections" "$([ "$found" = 1hello ] || echo "  $found")"
    verdict "$language, a fault" "$(
        status=0
        timeout 60 "$work/player-$language" samples/http-get.pcap samples/http-get.pcap > "$work/output" 2> "$work/faults" || status=$?
        fault 1
        silent output
        if [ "$language" = python ]; then told faults $'player: no output capture of toxicap: it has another file header\n'; else
            told faults 'player: the first output: no output capture of toxicap: it has another file header (the program or Rehearse makes one of a recording)'$'\n'
        fi
    )"
    [ "$language" = python ] || verdict "$language, connections that are none" "$(
        for numbers in x 0,7; do timeout 60 "$work/player-$language" -connection $numbers "$outputs"/http-late/000{0,1}.pcap 2>&1 || true; done > "$work/output"
        told output 'player: -connection x: numbers of the report are expected, such as 0,2, or all
player: there is no connection 7: there are 0 (10.77.0.2:80)
'
    )"
    verdict "$language, swapped outputs" "$(
        status=0
        timeout 60 "$work/player-$language" "$outputs"/http-late/000{1,0}.pcap > "$work/output" 2> "$work/faults" || status=$?
        fault 1
        silent output
        told faults 'player: connection 0 has more or earlier bytes in the first output: the output under the scenario has to come first, '\
'the untouched one second'$'\n'
    )"
    verdict "$language, no client" "$(
        status=0 limit=1
        [ "$language" = python ] || limit=1s
        timeout 60 "$work/player-$language" --limit $limit "$outputs"/http-late/000{0,1}.pcap > "$work/output" 2> "$work/faults" || status=$?
        fault 1
        grep -qx "player: port $(cat "$work/output"): no client came (limit 1[.0 ]*s)" "$work/faults" || cat "$work/faults"
    )"
done
close
