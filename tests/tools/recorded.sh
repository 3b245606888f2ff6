#!/usr/bin/env bash
# The tools beside the program over two real captures: redis-cli at a server, with a pipeline, and HTTP by curl and nginx in a VLAN. What is expected was
# worked out by hand from what was recorded: of the first connection the server sent 5,011 and 289 bytes, of the others 45 and 4, and 2,178.
# It wants python3; Go is tried where it is.
set -euo pipefail
cd "$(dirname "$0")/../.."
. tests/lib.sh
if ! can "the tools over real captures" python3; then close; exit; fi
top=$PWD
make_library
export TOXICAP=$program PYTHONDONTWRITEBYTECODE=1
cd "$work"
cp "$top"/tests/recorded/*.pcap .
echo '[]' > untouched.json
echo '[{"name":"redis","upstream":"192.0.2.2:6379","toxics":[{"type":"limit_data","attributes":{"bytes":1000}}]},
       {"name":"web","upstream":"198.51.100.2:80","toxics":[{"type":"limit_data","attributes":{"bytes":1000}}]}]' > cut.json

# the bytes of each connection down, as the report, the events, the drawing and the report's other forms have them
for capture in redis-pipeline vlan; do
    case $capture in redis-pipeline) expected='1000 45 4' servers=192.0.2.2:6379 ;; vlan) expected='289 1000' servers=198.51.100.2:80 ;; esac
    mkdir $capture-cut $capture-untouched
    run /dev/null --capture $capture.pcap --scenario cut.json --out $capture-cut
    run /dev/null --capture $capture.pcap --scenario untouched.json --out $capture-untouched
    verdict "$capture" "$(well)"
    found=$(sed -n 's|.* down \([0-9]*\)/.*|\1|p' $capture-cut/0000.txt | xargs)
    verdict "$capture: report" "$([ "$found" = "$expected" ] || echo "  $found")"
    found=$(python3 -c 'import sys, toxicap
print(*[sum(len(chunk) for time, chunk in down.chunks) for up, down in toxicap.delivered(open(sys.argv[1], "rb").read())])' $capture-cut/0000.pcap 2>&1)
    verdict "$capture: events" "$([ "$found" = "$expected" ] || echo "  $found")"
    "$top/tools/timeline" $capture-cut/0000.pcap > drawn.svg 2> faults || true
    verdict "$capture: timeline" "$(cat faults; python3 "$top/tests/tools/timeline.py" drawn.svg $capture-cut/0000.txt $capture.pcap)"
    found=$("$top/tools/report" $capture-cut/0000.txt | python3 -c 'import json, sys
print(*[line["down"]["delivered"] for line in map(json.loads, sys.stdin) if line["line"] == "connection"])' 2>&1)
    verdict "$capture: report as JSON" "$([ "$found" = "$expected" ] || echo "  $found")"
    found=$("$top/tools/explain" --capture $capture.pcap --scenario cut.json 2>&1 | grep -oE 'effect on [0-9]+ of [0-9]+|no connection meets it; servers of the capture: [^ ]+' | sort | xargs -d '\n' || true)
    case $capture in redis-pipeline) effect='effect on 1 of 3' ;; vlan) effect='effect on 1 of 2' ;; esac
    verdict "$capture: explain" "$([ "$found" = "$effect no connection meets it; servers of the capture: $servers" ] || echo "  $found")"
done

# fixtures of both, made and verified; one byte changed is seen
cat > fixtures.json << 'END'
{"captures": ["redis-pipeline.pcap", "vlan.pcap"], "scenarios": ["cut.json"], "hosts": {}, "seed": 0}
END
verdict "fixtures" "$(
    "$top/tools/fixtures" make > made 2>&1 || cat made
    for capture in redis-pipeline vlan; do
        byte_difference $capture-cut/0000.pcap fixtures/$capture-cut.pcap
        byte_difference $capture-cut/0000.txt fixtures/$capture-cut.txt
    done
    "$top/tools/fixtures" verify 2>&1
)"
printf 'x' | dd of=fixtures/vlan-cut.pcap bs=1 seek=200 conv=notrunc 2> faults
verdict "fixtures: a byte is another" "$("$top/tools/fixtures" verify > changed 2>&1 || echo "status $?" >> changed; printf 'changed output vlan-cut.pcap\nstatus 1\n' > expected; difference expected changed)"

# redact: the values of keys, and the name of the client; bytes, times and ends stay
redacted() {
    "$top/tools/redact" "${@:3}" < "$1.pcap" > redacted.pcap 2> faults || cat faults
    ! grep -qaE "$2" redacted.pcap || echo "  $2 is left"
    "$program" < "$1.pcap" > before
    "$program" < redacted.pcap > after
    difference before after
}
verdict "redact: redis-pipeline" "$(grep -qa value-1 redis-pipeline.pcap || echo '  no value'; redacted redis-pipeline 'value-[0-9]' --regex 'value-[0-9]+')"
verdict "redact: vlan" "$(grep -qa curl/7 vlan.pcap || echo '  no curl'; redacted vlan 'curl/7' --text curl/7.88.1)"

# players: a client that sends what was sent gets 1,000 bytes and an end, and the whole answer as it was recorded
cat > played.py << 'END'
import socket, sys
from toxicap import delivered
sent = b''.join(chunk for time, chunk in delivered(open('redis-pipeline-untouched/0000.pcap', 'rb').read())[0][0].chunks)
with socket.create_connection(('127.0.0.1', int(sys.argv[1])), timeout=60) as server:
    server.sendall(sent)
    server.shutdown(socket.SHUT_WR)
    answer = b''
    while chunk := server.recv(65536): answer += chunk
print(len(sent), len(answer), answer[:4])
END
for outputs in cut untouched; do
    case $outputs in cut) expected="9119 1000 b'+OK\\r'" ;; untouched) expected="9119 5011 b'+OK\\r'" ;; esac
    rm -f port
    timeout 120 python3 -m toxicap.player --limit 60 redis-pipeline-$outputs/0000.pcap redis-pipeline-untouched/0000.pcap > port 2> faults &
    for ((tries = 0; tries < 600; tries++)); do [ -s port ] && break || sleep 0.1; done
    found=$(timeout 100 python3 played.py "$(cat port)" 2>&1 || echo "  status $?")
    wait $! || found+="  the player: $(cat faults)"
    verdict "player: $outputs" "$([ "$found" = "$expected" ] || echo "  $found")"
done
if can "the player in Go" go; then
    GOCACHE=$(cd "$top" && go env GOCACHE)
    export GOCACHE
    (cd "$top/clients/go" && CGO_ENABLED=0 go build -o "$work/player" ./player)
    rm -f port
    timeout 120 ./player -limit 60s redis-pipeline-cut/0000.pcap redis-pipeline-untouched/0000.pcap > port 2> faults &
    for ((tries = 0; tries < 600; tries++)); do [ -s port ] && break || sleep 0.1; done
    found=$(timeout 100 python3 played.py "$(cat port)" 2>&1 || echo "  status $?")
    wait $! || found+="  the player: $(cat faults)"
    verdict "player in Go" "$([ "$found" = "9119 1000 b'+OK\\r'" ] || echo "  $found")"
fi

# the least seed under which the first answer is cut is that of the program's runs
sed 's/"type"/"toxicity_ppm":100000,"type"/g' cut.json > seldom.json
for ((seed = 0; seed < 500; seed++)); do
    "$program" --capture redis-pipeline.pcap --scenario seldom.json --seed $seed > report
    ! grep -q '^0 .* down 1000/5011/0 close' report || break
done
found=$(python3 -c 'from toxicap.search import least_seed
capture, seldom = (open(name, "rb").read() for name in ("redis-pipeline.pcap", "seldom.json"))
print(least_seed(capture, [seldom], b"", lambda outputs: b" down 1000/5011/0 close" in outputs[0][1], below=500, strict=False))' 2>&1)
verdict "searches" "$([ "$found" = $seed ] || echo "  $found, and by runs $seed")"
close
