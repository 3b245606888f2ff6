#!/usr/bin/env bash
# The client in Go is built without cgo, and for other systems and processors than those of the library: there `Rehearse` says what it needs, golden files
# stand for what it would give, and all else is as it is.
set -euo pipefail
cd "$(dirname "$0")/../.."
. tests/lib.sh

if ! can "Go elsewhere" go; then close; exit; fi
export CGO_ENABLED=0
cd clients/go
for place in linux/amd64 linux/arm64 windows/amd64 darwin/arm64; do
    verdict "$place" "$(GOOS=${place%/*} GOARCH=${place#*/} timeout 600 go vet . ./golden ./player ./tests/{conn,rehearse} 2>&1 || echo "  status $?")"
done
verdict "tests without cgo" "$(timeout 600 go test -count=1 . ./golden > "$work/told" 2>&1 || cat "$work/told")"
status=0
timeout 600 go build -o "$work/rehearse" ./tests/rehearse > "$work/told" 2>&1 || cat "$work/told"
cd ../..
"$work/rehearse" samples/http-get.pcap examples/latency.json > "$work/output" 2> "$work/faults" || status=$?
verdict "a rehearsal without cgo" "$(
    fault 1
    silent output
    told faults 'toxicap: Rehearse and Reports need Linux on x86-64 and a build with cgo (CGO_ENABLED=1, and a C compiler): elsewhere read outputs '\
'that were stored there'$'\n'
)"
status=0
"$work/rehearse" samples/http-get.pcap > "$work/output" 2> "$work/faults" || status=$?
verdict "a rehearsal without a scenario" "$(fault 2; silent output; told faults $'usage: rehearse CAPTURE SCENARIO..\n')"
mkdir "$work/stored" "$work/outputs"
echo '[]' > "$work/untouched.json"
run /dev/null --capture samples/http-get.pcap --scenario examples/latency.json --scenario "$work/untouched.json" --out "$work/outputs"
verdict "golden files without cgo" "$(
    well
    for ending in pcap txt; do
        cp "$work/outputs/0000.$ending" "$work/stored/late.$ending"
        cp "$work/outputs/0001.$ending" "$work/stored/late.untouched.$ending"
    done
    (cd clients/go && STORED=$work/stored timeout 600 go test -count=1 ./golden > "$work/told" 2>&1) || cat "$work/told"
)"
close
