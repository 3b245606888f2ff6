//go:build !(cgo && linux && amd64)

package golden_test

import (
	"os"
	"path/filepath"
	"testing"

	"example.org/toxicap/golden"
)

// Where there is no library, the golden files of the folder STORED stand for what a rehearsal gives.
func TestElsewhere(t *testing.T) {
	stored := os.Getenv("STORED")
	if stored == "" {
		t.Skip("STORED names no folder")
	}
	path := filepath.Join(stored, "late")
	expected, err := os.ReadFile(path + ".pcap")
	if err != nil {
		t.Fatal(err)
	}
	if output := golden.Rehearse(t, path, nil, nil, nil, 0); string(output.Capture) != string(expected) || len(output.Report) == 0 {
		t.Errorf("%s", output.Report)
	}
	golden.Stale(t, stored)
	c, err := golden.Dialer(t, path, nil, nil, nil, 0).Dial("tcp", "web:80")
	if err != nil {
		t.Fatal(err)
	}
	c.Write(make([]byte, 82))
	if count, err := c.Read(make([]byte, 999)); err != nil || count != 186 {
		t.Error(count, err)
	}
	t.Run("in a fuzz test", func(t *testing.T) {
		golden.Dialer(t, "", nil, nil, nil, 0)
		t.Error("it is not skipped")
	})
}
