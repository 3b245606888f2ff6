#!/usr/bin/env bash
# The Conns of clients/go, which have clocks of their own: rows that hold in each language (tests/clients/sockets/rows), their laws over output captures
# under random scenarios, and Go's net/http and other clients over Dialers, under the race detector and with the library for C if a C compiler is
# here. Nothing waits for a time of an output.
set -euo pipefail
cd "$(dirname "$0")/../.."
. tests/lib.sh

if ! can "Conns" go; then close; exit; fi
for made in player/sessions conn/keep-alive; do awk -f tests/capture.awk "tests/clients/$made" > "$work/${made#*/}.dump"; done
export TOXICAP=$program SAMPLES=$PWD/samples SESSIONS=$work/sessions.dump KEEP_ALIVE=$work/keep-alive.dump
export CGO_ENABLED=0
race=()
if can "the race detector" gcc; then
    make_library
    race=(-race) CGO_ENABLED=1
fi
verdict "Conns, compiled" "$(cd clients/go && timeout 600 go test "${race[@]}" -c -o "$work/conn" ./tests/conn 2>&1)"
verdict "rows" "$(cd clients/go && timeout 600 go test -count=1 -run '^TestSocketRows$' . > "$work/output" 2>&1 || cat "$work/output")"
while read -r name; do
    verdict "$name" "$(timeout 600 "$work/conn" -test.run "^$name\$" > "$work/output" 2>&1 || cat "$work/output")"
done < <(sed -n 's/^func \(Test[A-Za-z]*\)(.*/\1/p' clients/go/tests/conn/*_test.go)
close
