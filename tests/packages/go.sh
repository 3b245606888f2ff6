# shellcheck shell=bash disable=SC2154
# The module for Go: its tests, with and without cgo, and the examples of its page. tests/packages/packages.sh reads it.

# Go
the_same "the modules for Go and Rust, the same twice" release/modules "$parts"
if can "the module for Go" go gcc; then
    unpacked "toxicap-$version-go.tar.gz"
    # in_module COMMAND..: runs a command in the module, without a network.
    in_module() { (cd "$away/toxicap-$version-go" && out_of_reach "$@"); }
    shared "the module" "$away/toxicap-$version-go/share/toxicap"
    verdict "the module, as gofmt lays it out" "$(in_module gofmt -l . 2>&1)"
    verdict "the module, go vet" "$(quiet in_module go vet ./...)"
    if can "the module, staticcheck" go-staticcheck; then verdict "the module, staticcheck" "$(quiet in_module go-staticcheck ./...)"; fi
    for place in linux/amd64 windows/amd64 darwin/arm64; do
        verdict "the module without cgo, $place" "$(quiet in_module env CGO_ENABLED=0 "GOOS=${place%/*}" "GOARCH=${place#*/}" go vet ./...)"
    done
    verdict "the module's tests, under the race detector" "$(in_module go test -race -count=1 ./... > "$work/told" 2>&1 || cat "$work/told")"
    verdict "the module's tests without cgo" "$(in_module env CGO_ENABLED=0 go test -count=1 ./... > "$work/told" 2>&1 || cat "$work/told")"
    mkdir "$away/golden-go"
    cat > "$away/golden-go/slow_test.go" <<'END'
package suite

import (
	"os"
	"testing"

	"example.org/toxicap"
	"example.org/toxicap/golden"
)

func TestSlow(t *testing.T) {
	capture, err := os.ReadFile(os.Getenv("SAMPLE"))
	if err != nil {
		t.Fatal(err)
	}
	outputs, err := toxicap.Rehearse(capture, [][]byte{[]byte("[]")}, nil, 0)
	if err != nil {
		t.Fatal(err)
	}
	golden.Compare(t, "testdata/slow", outputs[0])
}
END
    # golden STATUS WORD..: runs that test in a module of its own, with these words; what it prints is in told
    golden() {
        local due=$1 status=0
        shift
        (cd "$away/golden-go" && SAMPLE=$PWD/../toxicap-$version-go/share/toxicap/samples/http-get.pcap out_of_reach go test -count=1 "$@") \
            > "$work/told" 2>&1 || status=$?
        [ $status = "$due" ] || { echo "  status $status"; cat "$work/told"; }
    }
    (
        cd "$away/golden-go"
        go mod init suite
        go mod edit -go=1.18 -require=example.org/toxicap@v1.0.0 "-replace=example.org/toxicap=../toxicap-$version-go"
    ) > "$work/told" 2>&1
    verdict "Go without golden files" "$(golden 1; grep -q 'there is no golden file testdata/slow.pcap' "$work/told" || cat "$work/told"; [ ! -e "$away/golden-go/testdata" ] || echo '  there is one')"
    verdict "go test -toxicap-update" "$(golden 0 -toxicap-update; holds "$away/golden-go/testdata" slow.pcap slow.txt; golden 0)"
    verdict "Go with another golden file" "$(
        sed -i 's:216/216:217/216:' "$away/golden-go/testdata/slow.txt"
        golden 1
        grep -q 'the golden file testdata/slow.txt differs in line 3:' "$work/told" || cat "$work/told"
    )"
    mkdir -p "$away/page-go/testdata"
    cp "$away/http-get.pcap" "$away/page-go/testdata"
    block docs/use/go.md go 1 > "$away/page-go/page_test.go"
    cp "$away/golden-go/go.mod" "$away/page-go"
    verdict "docs/use/go.md, as gofmt lays it out" "$(gofmt -l "$away/page-go" 2>&1)"
    # shellcheck disable=SC2016
    passes "docs/use/go.md" bash -c 'cd "$0" && go vet . && TOXICAP_UPDATE=1 go test ./... && go test -count=1 .' "$away/page-go"
    verdict "the module, vendored" "$(
        mkdir "$away/suite"
        cd "$away/suite"
        go mod init suite > "$work/told" 2>&1
        go mod edit -go=1.18 -require=example.org/toxicap@v1.0.0 "-replace=example.org/toxicap=../toxicap-$version-go"
        printf 'package suite\n\nimport _ "example.org/toxicap"\n' > suite.go
        { out_of_reach go mod vendor && rm -r "../toxicap-$version-go" && out_of_reach go build ./...; } 2>&1 || echo "  status $?"
    )"
fi
