//go:build cgo && linux && amd64

package golden_test

import (
	"encoding/binary"
	"fmt"
	"io"
	"os"
	"path/filepath"
	"strings"
	"testing"
	"time"

	"example.org/toxicap"
	"example.org/toxicap/golden"
)

// told is a test that only keeps what it is told.
type told struct {
	testing.TB
	errors, logs string
	ends         []func()
}

func (t *told) Helper()                           {}
func (t *told) Error(values ...any)               { t.errors += fmt.Sprintln(values...) }
func (t *told) Errorf(format string, v ...any)    { t.Error(fmt.Sprintf(format, v...)) }
func (t *told) Log(values ...any)                 { t.logs += fmt.Sprintln(values...) }
func (t *told) Logf(format string, values ...any) { t.Log(fmt.Sprintf(format, values...)) }
func (t *told) Cleanup(end func())                { t.ends = append(t.ends, end) }

// check compares what a test was told.
func check(t *testing.T, found, expected string) {
	t.Helper()
	if found != expected {
		t.Errorf("%s\nin place of\n%s", found, expected)
	}
}

func sample(t *testing.T, name string) []byte {
	t.Helper()
	capture, err := os.ReadFile("../share/toxicap/samples/" + name + ".pcap")
	if err != nil {
		t.Fatal(err)
	}
	return capture
}

var slow = toxicap.Scenario(toxicap.Proxy{Upstream: "10.77.0.2:80", Toxics: []toxicap.Toxic{{Type: "slicer", AverageSize: 150, Delay: time.Millisecond}}})

func TestGolden(t *testing.T) {
	capture := sample(t, "http-get")
	path := filepath.Join(t.TempDir(), "golden", "slow")
	fake := &told{}
	output := golden.Rehearse(fake, path, capture, slow, nil, 0)
	check(t, fake.errors, fmt.Sprintf("there is no golden file %s.pcap\nthere is no golden file %s.txt\n", path, path))
	t.Setenv("TOXICAP_UPDATE", "1")
	fake = &told{}
	golden.Compare(fake, path, output)
	wrote := fmt.Sprintf("wrote %s.pcap (%d bytes)\nwrote %s.txt (%d bytes)\n", path, len(output.Capture), path, len(output.Report))
	check(t, fake.errors+fake.logs, wrote)
	t.Setenv("TOXICAP_UPDATE", "")
	golden.Compare(t, path, output)

	// what differs is named
	later := append([]byte{}, output.Capture...)
	binary.LittleEndian.PutUint32(later[len(later)-66:], 999999) // the last record's microseconds
	other := []byte(strings.Replace(string(output.Capture), "sample", "simple", 1))
	report := []byte(strings.Replace(string(output.Report), "\nconnections 1", "\nconnections 2", 1))
	for found, expected := range map[*toxicap.Output]string{
		{Capture: output.Capture, Report: report}: ".txt differs in line 2:\nexpected: connections 1 unopened 0\nfound:    connections 2 unopened 0\n",
		{Capture: other, Report: output.Report}:   ".pcap differs in connection 0 down, chunk 2 (30 bytes at 5.61ms): expected ",
		{Capture: later, Report: output.Report}:   ".pcap differs in connection 0 down, its end: expected fin at ",
		{Capture: capture, Report: output.Report}: ".pcap differs from byte ",
	} {
		fake := &told{}
		golden.Same(fake, path, *found)
		if !strings.HasPrefix(fake.errors, "the golden file "+path+expected) {
			t.Errorf("%s\nin place of\n%s", fake.errors, expected)
		}
	}

	// files with which nothing was compared are stale, but not a recording with notes
	folder := filepath.Dir(path)
	old, notes := filepath.Join(folder, "old"), filepath.Join(folder, "notes")
	for _, ending := range []string{".pcap", ".txt"} {
		if err := os.Rename(path+ending, old+ending); err != nil {
			t.Fatal(err)
		}
		if err := os.WriteFile(notes+ending, []byte("notes"), 0o666); err != nil {
			t.Fatal(err)
		}
	}
	stale := func() string {
		fake := &told{}
		golden.Stale(fake, folder)
		fake.ends[0]()
		return fake.errors
	}
	check(t, stale(), fmt.Sprintf("the golden files %s.pcap and .txt are stale: no test compares with them\n", old))

	// a comparison by another path is one with them
	here, err := os.Getwd()
	if err != nil {
		t.Fatal(err)
	}
	another, err := filepath.Rel(here, old)
	if err != nil {
		t.Fatal(err)
	}
	golden.Same(t, another, output)
	check(t, stale(), "")
}

// end ends the test that is only told.
func (t *told) end() {
	for _, end := range t.ends {
		end()
	}
}

// A client over a Dialer, whose two outputs have golden files; what it does wrong fails the test at its end.
func TestDialer(t *testing.T) {
	capture := sample(t, "http-get")
	path := filepath.Join(t.TempDir(), "slow")
	t.Setenv("TOXICAP_UPDATE", "1")
	for _, row := range []struct{ sent, fault string }{
		{"", "no connection was dialled"}, {"GET", `the client reads after 3 bytes, and the recorded one sent " /hello.txt`},
		{strings.Repeat("x", 82), ""},
	} {
		fake := &told{}
		dialer := golden.Dialer(fake, path, capture, slow, nil, 0)
		t.Setenv("TOXICAP_UPDATE", "")
		if row.sent != "" {
			c, err := dialer.Dial("tcp", "web:80")
			if err != nil {
				t.Fatal(err)
			}
			c.Write([]byte(row.sent))
			if answer, err := io.ReadAll(c); (err == nil) != (row.fault == "") || err == nil && len(answer) != 216 {
				t.Errorf("%q, %v", answer, err)
			}
		}
		if fake.end(); !strings.Contains(fake.errors, row.fault) || row.fault == "" && fake.errors != "" {
			t.Error(fake.errors)
		}
	}
	for _, ending := range []string{".pcap", ".txt", ".untouched.pcap", ".untouched.txt"} {
		if _, err := os.Stat(path + ending); err != nil {
			t.Error(err)
		}
	}
	fake := &told{}
	golden.Dialer(fake, "", capture, slow, nil, 0)
	check(t, fake.errors, "")
}

// In the closed loop three requests under a second of latency take three seconds; at their recorded times they take one. It is as strict.
func TestClosed(t *testing.T) {
	capture, path := sample(t, "shop"), filepath.Join(t.TempDir(), "late")
	t.Setenv("TOXICAP_UPDATE", "1")
	late := toxicap.Scenario(toxicap.Proxy{Upstream: "10.77.0.3:6379", Toxics: []toxicap.Toxic{{Type: "latency", Latency: time.Second}}})
	for expected, options := range map[int64][]golden.Option{1: nil, 3: {golden.Closed}} {
		report, err := toxicap.ParseReport(golden.Rehearse(t, path, capture, late, nil, 0, options...).Report)
		if found := report.Connections[0].Down.At / 1000000; err != nil || found != expected {
			t.Errorf("%d seconds, and expected are %d: %v", found, expected, err)
		}
	}
	fake := &told{}
	golden.Rehearse(fake, path, capture, []byte(`[{"name": "web", "upstream": "10.77.0.2:81"}]`), nil, 0, golden.Closed)
	if !strings.Contains(fake.errors, "no connection meets it") {
		t.Error(fake.errors)
	}
}

// Toxics without effect are logged.
func TestIdleToxics(t *testing.T) {
	t.Setenv("TOXICAP_UPDATE", "1")
	path := filepath.Join(t.TempDir(), "idle")
	for text, toxic := range map[string]toxicap.Toxic{"its latency and jitter are 0": {Type: "latency"}, "is not passed": {Type: "limit_data", Bytes: 1000}} {
		fake := &told{}
		golden.Rehearse(fake, path, sample(t, "http-get"), toxicap.Scenario(toxicap.Proxy{Upstream: "10.77.0.2:80", Toxics: []toxicap.Toxic{toxic}}), nil, 0)
		if fake.errors != "" || !strings.Contains(fake.logs, "effect on 0 of 1 connection") || !strings.Contains(fake.logs, text) {
			t.Error(fake.errors, fake.logs)
		}
	}
}

// An output in which nothing happens is none for a golden file.
func TestNothingHappened(t *testing.T) {
	capture := sample(t, "http-get")
	t.Setenv("TOXICAP_UPDATE", "1")
	path := filepath.Join(t.TempDir(), "idle")
	for text, scenario := range map[string][]byte{
		`proxy 0 "web" (10.77.0.2:81): no connection meets it`: []byte(`[{"name": "web", "upstream": "10.77.0.2:81"}]`),
		"proxy 0: unknown field Enabled (is it enabled?)":      []byte(`[{"name": "web", "upstream": "10.77.0.2:80", "Enabled": false}]`),
	} {
		fake := &told{}
		golden.Rehearse(fake, path, capture, scenario, nil, 0)
		if !strings.Contains(fake.errors, text) || fake.logs != "" {
			t.Error(fake.errors, fake.logs)
		}
	}
	fake := &told{}
	golden.Rehearse(fake, path, capture[:24], []byte("[]"), nil, 0)
	if !strings.Contains(fake.errors, "capture: it has no connection and no record") {
		t.Error(fake.errors)
	}
	golden.Same(t, path, toxicap.Output{Capture: capture[:24]})
	golden.Rehearse(t, path, capture, []byte("[]"), nil, 0)
}
