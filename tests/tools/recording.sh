#!/usr/bin/env bash
# Recording in a network of its own, by tools/record: the lines of pages that call it, where in place of the test that they start a client in Python
# sends 50,000 bytes, and its server 200,000. What is recorded is rehearsed whole: each byte that was sent is delivered, none is lost, no frame is passed
# over, no record is torn, and each segment fits in a packet of a wire. Then runs of that client, and of pytest, as root and as another user, RUNS times
# each, or as often as a few seconds allow; recordings that are not whole; statuses and signals; and the page's test in Python, which records in its
# first run. It wants python3, and the right to a network of its own.
set -euo pipefail
cd "$(dirname "$0")/../.."
. tests/lib.sh
can "recording" python3 unshare || { close; exit; }
own_network "recording" || { close; exit; }
make_library
export PYTHONDONTWRITEBYTECODE=1

cat > "$work/live" << 'END'
#!/usr/bin/env python3
import socket, threading
request, answer = b"request 10" * 5000, b"the answer" * 20000


def serve(listener):
    server, _ = listener.accept()
    with server:
        taken = 0
        while taken < len(request): taken += len(server.recv(65536))
        server.sendall(answer)


with socket.create_server(("127.0.0.1", 0)) as listener:
    threading.Thread(target=serve, args=(listener,)).start()
    with socket.create_connection(listener.getsockname()) as client:
        client.sendall(request)
        received = b""
        while chunk := client.recv(65536): received += chunk
assert received == answer
END
cat > "$work/sizes.py" << 'END'
import pathlib, sys
capture, place, sizes = pathlib.Path(sys.argv[1]).read_bytes(), 24, []
while place < len(capture):
    ip = place + 30
    sizes.append(int.from_bytes(capture[ip + 2:ip + 4], "big") - 20 - (capture[ip + 32] >> 4) * 4)
    place += 16 + int.from_bytes(capture[place + 8:place + 12], "little")
if not 1000 < max(sizes) <= 1460: print("  payloads of up to", max(sizes), "bytes")
END
mkdir "$work/bin"
chmod +x "$work/live"
cp "$work/live" "$work/bin/pytest"
ln -s "$PWD/tools/record" "$work/bin/toxicap-record"
export PATH=$work/bin:$PATH
top=$PWD

# recorded PAGE: runs its line in a folder of its own, where `pytest` and `client.test` are the client and its server. `capture` is what it made.
recorded() {
    mkdir -p "$work/$1/testdata"
    sed -n '/^toxicap-record /p' "$1" > "$work/$1/recipe"
    cd "$work/$1"
    cp "$work/live" client.test
    status=0
    timeout "$patience" sh -e recipe > "$work/output" 2> "$work/faults" < /dev/null || status=$?
    cd "$top"
    capture=$(find "$work/$1" -name '*.pcap')
}

pages=$(grep -rl '^toxicap-record ' docs || true)
verdict "pages with a line" "$([ -n "$pages" ] || echo "  none")"
for page in $pages; do
    recorded "$page"
    verdict "$page: recorded" "$(fault 0; [ -s "$capture" ] || cat "$work/faults")"
    [ -s "$capture" ] || continue
    run "$capture"
    verdict "$page: rehearsed" "$(
        well
        tr '\n' ' ' < "$work/output" | grep -qE "^scenario 0 records ([0-9]+) rest 0 segment \1 .* sameends 0 connections 1 unopened 0 \
.* up 50000/50000/0 fin\+[0-9]+ max 0 down 200000/200000/0 fin\+[0-9]+ max 0 $" || cat "$work/output"
    )"
    verdict "$page: segments" "$(python3 -B "$work/sizes.py" "$capture" 2>&1)"
done
cd "$work"
rm bin/pytest

# what it says of a whole recording, and of a command
whole='1 connection, 0 frames cut, 0 bytes lost, 0 packets dropped by the kernel'
# records STATUS LINE WORD..: what is at fault with a run of it, which was to end so, and to say this last; if the line tells how a command ended, a
# capture is stored, else the older one stays. BY is a command before it.
records() {
    local ended=0
    echo older > s.pcap
    timeout "$patience" ${BY:+"${BY[@]}"} "${@:3}" > output 2> faults < /dev/null || ended=$?
    [ $ended = "$1" ] && [[ $(tail -n 1 faults) = *"$2"* ]] || { echo "  status $ended: $(cat output faults)"; return; }
    case $2,$(head -c 1 s.pcap) in *' ended with '*,M) ;; *' ended with '*) echo '  it is not stored' ;; *,o) ;; *) echo '  it is stored' ;; esac
    [ -z "$(find . -maxdepth 1 -name '*.unfinished')" ] || echo '  a folder is left'
}

users=('a user')
[ "$(id -u)" != 0 ] || users=(root 'a user')
host=python3
for each in python3 /usr/bin/python3; do ! "$each" -c 'import pytest' 2> /dev/null || { host=$each; break; }; done
printf 'import runpy\ndef test_live(): runpy.run_path("live")\n' > test_live.py
for user in "${users[@]}"; do
    BY=()
    [ "$(id -u),$user" != '0,a user' ] || BY=(unshare --user --map-user=1000 --map-group=1000)
    for command in ./live "$host -m pytest -q -p no:cacheprovider test_live.py"; do
        [ "$command" = ./live ] || "$host" -c 'import pytest' 2> /dev/null || { skip "pytest, by $user" "pytest is not here"; continue; }
        faulty='' count=0 begun=$SECONDS
        # shellcheck disable=SC2086
        while [ $count -lt "${RUNS:-1000}" ] && { [ -n "${RUNS-}" ] || [ $((SECONDS - begun)) -lt 4 ]; }; do
            faulty+=$(records 0 "toxicap-record: s.pcap: $whole; ${command%% *} ended with status 0" toxicap-record s.pcap -- $command)
            count=$((count + 1))
        done
        [ -z "${RUNS-}" ] || echo "$count runs of ${command##* }, by $user"
        verdict "$count runs of ${command##* }, by $user" "$faulty"
    done
    verdict "a status, by $user" "$(records 7 "$whole; bash ended with status 7" toxicap-record s.pcap -- bash -c './live; exit 7')"
done
BY=()

# recordings that are not whole, by a run `with` another constant, or that have no connection
cat > with << END
#!$(type -P python3)
import runpy, sys
import toxicap._network as network
exec(sys.argv[1])
sys.argv[:2] = ["toxicap-record"]
runpy.run_path("$top/tools/record", run_name="__main__")
END
chmod +x with
refused='! : < /dev/tcp/127.0.0.1/9'
none='s.pcap is not stored: it has no connection: client and server have to be started while it records, and to use 127.0.0.1'
verdict "packets that are dropped" "$(
    records 1 's.pcap is not stored: ' ./with 'network.SLOTS = 2' s.pcap -- ./live
    grep -qE 's.pcap is not stored: [1-9][0-9]* packets were dropped by the kernel: record again' faults || cat faults
)"
verdict "an older Linux" "$(
    records 0 "$whole; ./live ended with status 0" ./with 'network.IGNORE_OUTGOING = 999' s.pcap -- ./live
    [ "$(stat -c %s s.pcap)" -lt 400000 ] || echo '  it has packets twice'
)"
verdict "frames that are cut" "$(records 1 ' frames are cut: leave the MTU of lo at 1500' ./with 'network.SLOT = 256' s.pcap -- ./live)"
verdict "no connection" "$(records 1 "$none" toxicap-record s.pcap -- true)"
verdict "a probe" "$(records 0 "$whole; bash ended with status 0" toxicap-record s.pcap -- bash -c "$refused")"
without="${whole/,/ (1 without data left out),}"
verdict "a probe, left out" "$(records 0 "$without; bash ended with status 0" toxicap-record --no-probes s.pcap -- bash -c "$refused; ./live")"
verdict "probes alone, left out" "$(records 1 "$none" toxicap-record --no-probes s.pcap -- bash -c "$refused")"

# what it does not run, or replace; signals
verdict "no command" "$(records 127 'toxicap-record: ./nothing: No such file or directory' toxicap-record s.pcap -- ./nothing)"
verdict "no program" "$(records 126 'toxicap-record: ./test_live.py: Permission denied' toxicap-record s.pcap -- ./test_live.py)"
verdict "a word of the command" "$(records 2 's.pcap is an input, which is not replaced: choose another folder' toxicap-record s.pcap -- cat s.pcap)"
verdict "no folder" "$(records 2 'no is no folder that may be written: make it first, by mkdir, or choose another' toxicap-record no/s.pcap -- touch ran)"
# shellcheck disable=SC2016
verdict "SIGINT" "$(records 0 "$whole; bash ended with status 0" toxicap-record s.pcap -- bash -c './live; kill -INT $PPID')"
# shellcheck disable=SC2016
verdict "SIGTERM" "$(records 143 "$whole; bash ended with status 143" toxicap-record s.pcap -- bash -c './live; kill $PPID; exec sleep 60')"
# shellcheck disable=SC2016
off=(unshare -r sh -c 'for kind in user net; do echo 0 > /proc/sys/user/max_${kind}_namespaces; done; exec "$@"' sh)
forbidden='no network of its own can be had (user namespaces are off or used up): run it as root, or allow user namespaces'
verdict "no user namespaces" "$(BY=("${off[@]}"); records 2 "toxicap-record: $forbidden" toxicap-record s.pcap -- touch ran)"
verdict "nothing was run" "$([ ! -e ran ] || echo '  it was')"

# in Python: a page's test records in its first run, and needs no network in the second; a body that opens no connection, and one that raises
awk '$0 == "```" { inside = 0 } inside { print } $0 == "```python live" { inside = 1 }' "$top/docs/use/python.md" > test_page.py
if "$host" -c 'import pytest' 2> /dev/null; then
    for by in "" off; do
        BY=()
        [ -z $by ] || BY=("${off[@]}")
        "${BY[@]}" "$host" -m pytest -q -p no:cacheprovider -p toxicap.pytest_plugin test_page.py > output 2>&1 || true
        [ -n "$by" ] || sha256sum session.pcap > sum
        verdict "python.md's test, network $by" "$(grep -q '^1 passed' output || cat output; sha256sum --quiet -c sum 2>&1 || true)"
    done
else
    skip "python.md's test" "pytest is not here"
fi
cat > bodies.py << 'END'
import runpy, socket, sys, toxicap
for body in lambda: None, lambda: socket.create_connection(("127.0.0.1", 9)), lambda: runpy.run_path("live"):
    try:
        with toxicap.record("b.pcap"): body()
    except (ValueError, OSError) as error: print(type(error).__name__, error)
[connection] = toxicap.rehearse("b.pcap", [[]])[0].parsed.connections
print(connection.up[:3], connection.down[:3])
END
printf '%s\n' "ValueError $PWD/b.pcap is not stored: ${none#*: }" 'ConnectionRefusedError [Errno 111] Connection refused' \
    '(50000, 50000, 0) (200000, 200000, 0)' > expected
python3 bodies.py > output 2>&1 || true
verdict "toxicap.record" "$(difference expected output)"
"${off[@]}" python3 -c 'import toxicap
with toxicap.record("b.pcap"): open("ran", "w")' > output 2>&1 || true
verdict "toxicap.record without user namespaces" "$(grep -qF "PermissionError: $forbidden" output && [ ! -e ran ] || cat output)"
close
