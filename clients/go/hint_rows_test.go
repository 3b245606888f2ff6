//go:build cgo && linux && amd64

package toxicap

// Refusals of Rehearse against tests/clients/hints/rows, which has what the program says.

import (
	"encoding/hex"
	"errors"
	"os"
	"regexp"
	"strconv"
	"strings"
	"testing"
)

// cell gives the bytes of a cell of hosts or scenarios.
func cell(text string) []byte {
	return regexp.MustCompile(`\\(n|t|\\|x..)`).ReplaceAllFunc([]byte(text), func(escape []byte) []byte {
		if escape[1] == 'x' {
			char, _ := strconv.ParseUint(string(escape[2:]), 16, 8)
			return []byte{byte(char)}
		}
		return map[byte][]byte{'n': []byte("\n"), 't': []byte("\t"), '\\': []byte(`\`)}[escape[1]]
	})
}

func TestHints(t *testing.T) {
	for _, row := range strings.Split(string(readFile(t, "../../tests/clients/hints/rows")), "\n") {
		cells := strings.Split(row, "\t")
		if !strings.HasPrefix(row, "refused ") {
			continue
		}
		capture, err := hex.DecodeString(cells[3])
		if strings.HasSuffix(cells[3], ".pcap") {
			capture, err = os.ReadFile("../../samples/" + cells[3])
		}
		if err != nil {
			t.Fatal(err)
		}
		scenarios := [][]byte{}
		for _, scenario := range cells[5:] {
			scenarios = append(scenarios, cell(scenario))
		}
		if len(scenarios) == 0 {
			scenarios = [][]byte{[]byte("[]")}
		}
		_, err = Rehearse(capture, scenarios, cell(cells[4]), 0)
		var refusal *Refusal
		if !errors.As(err, &refusal) || !errors.Is(err, Kind(refusal.Number)) || refusal.Line() != cells[0] || refusal.Hint != cells[1] {
			t.Errorf("%v\nin place of\n%s\n%s", err, cells[0], cells[1])
		}
	}
}

func TestKinds(t *testing.T) {
	_, err := Reports(readFile(t, "../../samples/shop.pcap"), [][]byte{[]byte(`[{"name": "web", "upstream": "redis:80"}]`)}, nil, 0)
	if !errors.Is(err, ErrUnknownHost) || errors.Is(err, ErrBadUpstream) || ErrUnknownHost.Error() != "refused 15 UnknownHost" {
		t.Error(err)
	}
}
