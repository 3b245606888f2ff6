// Package golden compares outputs with golden files, which have what a capture gave under a scenario when somebody last looked at it.
//
// The flag -toxicap-update of `go test` writes golden files that are missing or differ. It has a name of its own, since a second flag -update would
// stop each test that has one. Name the packages that use golden with it, since go test refuses a flag that a package does not know; for ./... set
// TOXICAP_UPDATE=1 in the environment. With -v the files that are written are listed.
package golden

import (
	"bytes"
	"context"
	"errors"
	"flag"
	"fmt"
	"io/fs"
	"os"
	"path/filepath"
	"strings"
	"sync"
	"testing"

	"example.org/toxicap"
)

var update = flag.Bool("toxicap-update", false, "write golden files of toxicap that are missing or differ")

// The absolute paths, without an ending, that were compared.
var used sync.Map

// An Option changes how a capture is rehearsed.
type Option int

// Closed has client and server wait for one another, as toxicap.ClosedLoop does; else each request is sent at its recorded time.
const Closed Option = 1

// Rehearse rehearses a capture under one scenario, compares what comes as Compare does, and gives it. A refusal ends the test, and a toxic without effect
// is logged. Where there is no library (toxicap.ErrNoLibrary) it gives the golden files.
func Rehearse(t testing.TB, path string, capture, scenario, hosts []byte, seed uint64, options ...Option) toxicap.Output {
	t.Helper()
	loop := rehearsed(t, capture, scenario, hosts, seed, options)
	logIdle(t, loop, scenario, hosts, seed)
	return compared(t, path, loop.Output)
}

// Dialer gives a Dialer of what Rehearse gives, for a client that is tested. The output under [] has golden files too, PATH.untouched.pcap and .txt. If
// the path is "", as in a fuzz test, nothing is compared. The test fails at its end if the client sent other requests than the recorded one (see
// toxicap.RequestError), or dialled no connection.
func Dialer(t testing.TB, path string, capture, scenario, hosts []byte, seed uint64, options ...Option) *toxicap.Dialer {
	t.Helper()
	loop := rehearsed(t, capture, scenario, hosts, seed, options)
	if path != "" {
		logIdle(t, loop, scenario, hosts, seed)
		loop.Output, loop.Untouched = compared(t, path, loop.Output), compared(t, path+".untouched", loop.Untouched)
	} else if loop.Output.Capture == nil {
		t.Skip(toxicap.ErrNoLibrary)
	}
	dialer, err := toxicap.NewDialer(loop.Output.Capture, loop.Untouched.Capture)
	if err != nil {
		t.Fatal(err)
	}
	t.Cleanup(func() {
		if err := dialer.Close(); err != nil {
			t.Error(err)
		}
	})
	return dialer
}

// rehearsed gives the outputs under a scenario and under []; none where there is no library.
func rehearsed(t testing.TB, capture, scenario, hosts []byte, seed uint64, options []Option) (loop toxicap.Loop) {
	t.Helper()
	loop.Recording = capture
	outputs, err := toxicap.Rehearse(capture, [][]byte{scenario, []byte("[]")}, hosts, seed)
	if err == nil && len(options) > 0 && options[0] == Closed {
		loop, err = toxicap.ClosedLoop(context.Background(), capture, scenario, hosts, seed)
	} else if err == nil {
		loop.Output, loop.Untouched = outputs[0], outputs[1]
	}
	if err != nil && !errors.Is(err, toxicap.ErrNoLibrary) {
		t.Fatal(err)
	}
	return loop
}

// logIdle logs the toxics without effect.
func logIdle(t testing.TB, loop toxicap.Loop, scenario, hosts []byte, seed uint64) {
	t.Helper()
	lines, _ := toxicap.Explain(loop.Recording, [][]byte{scenario}, hosts, seed)
	faults := strings.Join(loop.Output.Warnings(), "\n")
	for _, line := range lines {
		if !strings.Contains(faults, line) {
			t.Log(line)
		}
	}
}

// compared compares an output with golden files, or gives these where there is none.
func compared(t testing.TB, path string, output toxicap.Output) toxicap.Output {
	t.Helper()
	if output.Capture != nil {
		Compare(t, path, output)
		return output
	}
	used.Store(absolute(path), true)
	capture, err := os.ReadFile(path + ".pcap")
	report, other := os.ReadFile(path + ".txt")
	if err != nil || other != nil {
		t.Fatalf("there are no golden files %s.pcap and .txt, and none can be made: %v", path, toxicap.ErrNoLibrary)
	}
	return toxicap.Output{Capture: capture, Report: report}
}

// Compare fails the test if an output's capture is not the file PATH.pcap, or its report not PATH.txt. A relative path counts from the test's
// folder. It also fails, and writes nothing, if the output has Warnings: its scenario has an unknown field, or a proxy that no connection meets,
// or there is no connection.
func Compare(t testing.TB, path string, output toxicap.Output) {
	t.Helper()
	if warnings := output.Warnings(); len(warnings) > 0 {
		t.Errorf("the golden file %s would show nothing (golden.Same takes it):\n%s", path, strings.Join(warnings, "\n"))
		return
	}
	Same(t, path, output)
}

// Same compares as Compare does, also if nothing happens in the output.
func Same(t testing.TB, path string, output toxicap.Output) {
	t.Helper()
	used.Store(absolute(path), true)
	value := os.Getenv("TOXICAP_UPDATE")
	writes, failed := *update || value != "" && value != "0", false
	for _, file := range []struct {
		ending     string
		found      []byte
		difference func(expected, found []byte) string
	}{{".pcap", output.Capture, captureDifference}, {".txt", output.Report, textDifference}} {
		expected, err := os.ReadFile(path + file.ending)
		isMissing := errors.Is(err, fs.ErrNotExist)
		switch {
		case err == nil && bytes.Equal(expected, file.found):
			continue
		case writes && (err == nil || isMissing):
			if err = write(path+file.ending, file.found); err == nil {
				t.Logf("wrote %s (%d bytes)", path+file.ending, len(file.found))
				continue
			}
		case isMissing:
			err = fmt.Errorf("there is no golden file %s", path+file.ending)
		case err == nil:
			err = fmt.Errorf("the golden file %s differs %s", path+file.ending, file.difference(expected, file.found))
		}
		t.Error(err)
		failed = true
	}
	if failed && !writes {
		t.Log("go test -toxicap-update, or TOXICAP_UPDATE=1, writes golden files")
	}
}

// absolute gives one name for each path, or the path if the working folder is not known.
func absolute(path string) string {
	if found, err := filepath.Abs(path); err == nil {
		return found
	}
	return filepath.Clean(path)
}

func write(path string, text []byte) error {
	if err := os.MkdirAll(filepath.Dir(path), 0o777); err != nil {
		return err
	}
	return os.WriteFile(path, text, 0o666)
}

// Stale fails the test at its end, that is after its subtests, if the folder has golden files (a .pcap with a .txt beside it) with which nothing
// was compared. With the flag -run or -skip, by which tests are left out, it looks at nothing.
func Stale(t testing.TB, folder string) {
	t.Helper()
	t.Cleanup(func() {
		for _, name := range []string{"test.run", "test.skip"} {
			if filter := flag.Lookup(name); filter != nil && filter.Value.String() != "" {
				return
			}
		}
		reports, _ := filepath.Glob(filepath.Join(folder, "*.txt"))
		for _, report := range reports {
			path := strings.TrimSuffix(report, ".txt")
			_, err := os.Stat(path + ".pcap")
			text, _ := os.ReadFile(report)
			_, isUsed := used.Load(absolute(path))
			if err == nil && !isUsed && bytes.HasPrefix(text, []byte("scenario ")) {
				t.Errorf("the golden files %s.pcap and .txt are stale: no test compares with them", path)
			}
		}
	})
}
