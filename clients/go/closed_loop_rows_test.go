//go:build cgo && linux && amd64

package toxicap

import (
	"bytes"
	"context"
	"os"
	"path/filepath"
	"strconv"
	"testing"
)

// TestClosedLoop compares with what the function in Python gave: CASES names the folder that tests/clients/closed_loop/laws.py has filled.
func TestClosedLoop(t *testing.T) {
	cases, _ := filepath.Glob(filepath.Join(os.Getenv("CASES"), "*"))
	if len(cases) == 0 {
		t.Fatal("there is no case")
	}
	for _, folder := range cases {
		read := func(name string) []byte {
			content, err := os.ReadFile(filepath.Join(folder, name))
			if err != nil {
				t.Fatal(err)
			}
			return content
		}
		seed, _ := strconv.ParseUint(string(read("seed")), 10, 64)
		loop, err := ClosedLoop(context.Background(), read("capture"), read("scenario"), read("hosts"), seed)
		if err != nil {
			t.Errorf("%s: %v", folder, err)
		}
		found := map[string][]byte{
			"recording": loop.Recording, "rounds": []byte(strconv.Itoa(loop.Rounds)), "output.pcap": loop.Output.Capture,
			"output.txt": loop.Output.Report, "untouched.pcap": loop.Untouched.Capture, "untouched.txt": loop.Untouched.Report,
		}
		for name, content := range found {
			if !bytes.Equal(content, read(name)) {
				t.Errorf("%s: other bytes in %s", folder, name)
			}
		}
	}
}
