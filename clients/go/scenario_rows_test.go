//go:build cgo && linux && amd64

package toxicap

// Scenarios, reports, Explain and FuzzScenario, and what Rehearse allocates.

import (
	"bytes"
	"encoding/binary"
	"errors"
	"math/rand"
	"os"
	"os/exec"
	"path/filepath"
	"reflect"
	"regexp"
	"runtime"
	"strings"
	"testing"
	"time"
)

func TestScenario(t *testing.T) {
	cut := Toxic{Type: "limit_data", Bytes: 200}
	for expected, scenario := range map[string][]byte{
		`[]`: Scenario(),
		`[{"enabled":false,"listen":":1","name":"db","upstream":"db:1"}]`: Scenario(Proxy{Upstream: "db:1", Name: "db", Disabled: true, Listen: ":1"}),
		`[{"name":"a:1","upstream":"a:1"},{"name":"a:1_3","upstream":"a:1"},{"name":"a:1_2","upstream":"b:1"}]`: Scenario(
			Proxy{Upstream: "a:1"}, Proxy{Upstream: "a:1"}, Proxy{Upstream: "b:1", Name: "a:1_2"}),
		`{"attributes":{"bytes":200},"type":"limit_data"}`: marshalled(cut),
		`{"attributes":{},"stream":"upstream","toxicity_ppm":250000,"type":"timeout"}`: marshalled(&Toxic{
			Type: "timeout", Stream: "upstream", Toxicity: 0.25}),
		`{"attributes":{"delay":1500,"jitter":1.5},"toxicity":0,"type":"slicer"}`: marshalled(Toxic{
			Type: "slicer", Delay: 1500 * time.Microsecond, Jitter: 1500 * time.Microsecond, Disabled: true}),
		`{"name":"a:1","toxics":[{"attributes":{"bytes":200},"type":"limit_data"},` +
			`{"attributes":{"bytes":200},"name":"limit_data_downstream_2","type":"limit_data"},` +
			`{"attributes":{"bytes":200},"stream":"upstream","type":"limit_data"}],"upstream":"a:1"}`: marshalled(Proxy{
			Upstream: "a:1", Toxics: []Toxic{cut, cut, {Type: "limit_data", Stream: "upstream", Bytes: 200}}}),
		"a=10.0.0.1\nb=10.0.0.2\n": Hosts(map[string]string{"b": "10.0.0.2", "a": "10.0.0.1"}),
	} {
		if string(scenario) != expected {
			t.Errorf("%s in place of %s", scenario, expected)
		}
	}
}

// A scenario that was parsed gives the outputs of its text: those of examples, of any bytes, and with each form of a toxicity. Made anew from proxies it
// has the same text.
func TestParsedScenarios(t *testing.T) {
	texts := [][]byte{[]byte(`[{"name": "web", "listen": "[::]:1", "upstream": "10.77.0.2:80", "Enabled": false, "toxics": [
		{"type": "latency", "attributes": {"latency": 1000000000, "x": []}, "toxicity": 0}, {"type": "slow_close", "attributes": {"delay": 7}, "toxicity": 1},
		{"type": "slicer", "attributes": {"average_size": 7, "delay": 7}, "toxicity": 0, "toxicity_ppm": 333333}]}]`)}
	names, _ := filepath.Glob("../../examples/*.json")
	for _, name := range names {
		if !strings.HasSuffix(name, "schema.json") && !strings.HasSuffix(name, "live-proxies.json") {
			texts = append(texts, readFile(t, name))
		}
	}
	for drawn := rand.New(rand.NewSource(7)); len(texts) < 100; {
		data := make([]byte, drawn.Intn(90))
		drawn.Read(data)
		texts = append(texts, FuzzScenario(data, "10.77.0.2:80", "redis:6379"))
	}
	capture := readFile(t, "../../samples/shop.pcap")
	for _, text := range texts {
		proxies, err := ParseScenario(text)
		if err != nil {
			t.Fatalf("%s: %v", text, err)
		}
		again, err := ParseScenario(Scenario(proxies...))
		outputs, other := Rehearse(capture, [][]byte{text}, hosts, 5)
		others, failed := Rehearse(capture, [][]byte{Scenario(again...)}, hosts, 5)
		if err != nil || other != nil || failed != nil || !bytes.Equal(outputs[0].Capture, others[0].Capture) || !bytes.Equal(outputs[0].Report, others[0].Report) {
			t.Errorf("%s: %v, %v, %v", text, err, other, failed)
		}
	}
	for _, text := range []string{`[`, `{}`, `[5]`, `[{"name": 5}]`, `[{"toxics": 5}]`, `[{"toxics": [{"attributes": 5}]}]`, `[{"enabled": "no"}]`,
		`[{"toxics": [{"attributes": {"rate": 1.5}}]}]`, `[{"toxics": [{"attributes": {"delay": -1}}]}]`, `[{"toxics": [{"attributes": {"latency": 9e99}}]}]`,
		`[{"toxics": [{"attributes": {"latency": 9223372036854775807}}]}]`, `[{"toxics": [{"toxicity_ppm": "1"}]}]`, `[{"toxics": [{"stream": []}]}]`} {
		if proxies, err := ParseScenario([]byte(text)); err == nil || proxies != nil || !strings.HasPrefix(err.Error(), "no scenario: ") {
			t.Errorf("%s: %v, %v", text, proxies, err)
		}
	}
	if _, err := Rehearse(capture, [][]byte{Scenario(Proxy{Upstream: "a:1", Toxics: []Toxic{{Type: "latency", Latency: 1}}})}, []byte("a=1.1.1.1"), 0); !errors.Is(
		err, ErrAttributeRange) {
		t.Error("a nanosecond:", err)
	}
}

func TestReport(t *testing.T) {
	text, err := Reports(readFile(t, "../../samples/shop.pcap"), [][]byte{[]byte("[]"), readFile(t, "../../examples/redis-down.json")}, hosts, 0)
	if err != nil {
		t.Fatal(err)
	}
	reports, err := ParseReports(text)
	if err != nil || len(reports) != 2 || len(reports[0].Connections) != 4 || reports[1].Scenario != 1 {
		t.Fatal(reports, err)
	}
	for _, row := range []struct{ found, expected any }{
		{reports[0].Records, reports[0].Classes["segment"]},
		{reports[0].Connections[2].Server, "10.77.0.3:6379"},
		{reports[0].Connections[2].Proxy, -1},
		{reports[0].Connections[2].Down.Recorded, int64(3009)},
		{reports[1].Connections[2].Proxy, 1},
		{reports[1].Connections[2].Down, Direction{0, 3009, 0, "refused", -1, 0}},
	} {
		if row.found != row.expected {
			t.Errorf("%v in place of %v", row.found, row.expected)
		}
	}
	tagged := "scenario 3 records 7 rest 5 segment 6 cut 1\nconnections 1 unopened 2\n" +
		"0 10.0.0.1:5 > 10.0.0.2:80 vlan 7 proxy 1 up 1/2/3 close+4 max 5 down 6/7/8 open max 9\n"
	expected := Report{3, 7, 5, map[string]int{"segment": 6, "cut": 1}, 2, []Connection{
		{"10.0.0.1:5", "10.0.0.2:80", 7, 1, Direction{1, 2, 3, "close", 4, 5}, Direction{6, 7, 8, "open", -1, 9}}}}
	if report, err := ParseReport([]byte(tagged)); err != nil || !reflect.DeepEqual(report, expected) {
		t.Error(report, err)
	}
	for place := range tagged {
		if _, err := ParseReport([]byte(tagged[:place])); err == nil {
			t.Errorf("%q is taken", tagged[:place])
		}
	}
	if server := serverOf(map[string]any{"upstream": "redis:06379"}, []byte("web=10.0.0.1\nredis=10.0.0.3\n")); server != "10.0.0.3:6379" {
		t.Error(server)
	}
	if _, err := ParseReport([]byte("refused 1 ShortHeader")); err == nil || err.Error() != `no report of toxicap: line 1 is "refused 1 ShortHeader"` {
		t.Error(err)
	}
}

// captured gives the sample with its frames changed.
func captured(t *testing.T, change func(frame []byte)) []byte {
	capture := readFile(t, "../../samples/http-get.pcap")
	for place := 24; place < len(capture); {
		size := int(binary.LittleEndian.Uint32(capture[place+8:]))
		change(capture[place+16 : place+16+size])
		place += 16 + size
	}
	return capture
}

func TestExplain(t *testing.T) {
	whole := readFile(t, "../../samples/http-get.pcap")
	unopened := captured(t, func(frame []byte) { frame[47] &^= 2 })
	newer := captured(t, func(frame []byte) { frame[12], frame[13] = 0x86, 0xdd })
	idle := `scenario 1 proxy 0 toxic 0 "latency_downstream": effect on 0 of 1 connection; on 1: its latency and jitter are 0`
	for _, row := range []struct {
		capture            []byte
		scenario, expected string
	}{
		{whole, `[{"name": "web", "upstream": "10.77.0.2:80", "listen": "x", "toxics": [{"type": "timeout"}]}]`, ""},
		{whole, `[]`, ""},
		{whole, `[{"name": "web", "upstream": "10.77.0.2:8080"}]`,
			`scenario 1 proxy 0 "web" (10.77.0.2:8080): no connection meets it; servers of the capture: 10.77.0.2:80`},
		{whole, `[{"name": "web", "upstream": "10.77.0.2:80"}, {"name": "late", "upstream": "10.77.0.2:080"}]`,
			`scenario 1 proxy 1 "late" (10.77.0.2:080): no connection meets it; proxy 0 stands before the same server, and is met first`},
		{whole, `[{"name": "web", "upstream": "10.77.0.2:80", "Enabled": false, "toxics": [{"type": "latency", "attributes": {"latencyy": 1, "rate": 1}},
			{"type": "timeout", "timeout": 7, "enabled": false}], "stream": 1}]`, `scenario 1 proxy 0: unknown field Enabled (is it enabled?)
scenario 1 proxy 0: unknown field stream (it belongs in the toxic)
scenario 1 proxy 0 toxic 0 attributes: unknown field latencyy (is it latency?)
scenario 1 proxy 0 toxic 0 attributes: unknown field rate (known are latency, jitter)
scenario 1 proxy 0 toxic 1: unknown field enabled (only a proxy can be disabled; for a toxic write "toxicity": 0)
scenario 1 proxy 0 toxic 1: unknown field timeout (it belongs in "attributes")`},
		{whole[:24], `[]`, "capture: it has no connection and no record: the filter of the recording matched nothing, or it was stopped too early"},
		{unopened, `[]`, "capture: it has no connection; 12 of 12 segments are unopened: the opening of their sessions is not in the capture; " +
			"start recording before the client connects"},
		{newer, `[]`, "capture: it has no connection; 12 of 12 records are notipv4: IPv6 (localhost may be ::1), ARP, or two VLAN tags; " +
			"only IPv4 is rehearsed: connect to an IPv4 address, such as 127.0.0.1"},
	} {
		lines, err := Explain(row.capture, [][]byte{[]byte("[]"), []byte(row.scenario)}, nil, 0)
		expected := row.expected
		if strings.Contains(expected, "latencyy") {
			expected += "\n" + idle
		}
		if told := strings.Join(lines, "\n"); err != nil || told != expected {
			t.Errorf("%v:\n%s\nin place of\n%s", err, told, expected)
		}
		outputs, err := Rehearse(row.capture, [][]byte{[]byte("[]"), []byte(row.scenario)}, nil, 0)
		if told := strings.Join(outputs[1].Warnings(), "\n"); err != nil || told != row.expected {
			t.Error(err, told)
		}
	}
}

// Toxics without effect on the one connection that meets their proxy, with the reason.
func TestIdleToxics(t *testing.T) {
	whole := readFile(t, "../../samples/http-get.pcap")
	unanswered := captured(t, func(frame []byte) {
		if frame[47]&0x12 == 0x12 {
			frame[47] = 0x10
		}
	})
	for _, row := range []struct {
		capture                []byte
		toxics, name, expected string
	}{
		{whole, `{"type": "slow_close"}`, "0 \"slow_close_downstream\"", "its delay is 0"},
		{whole, `{"type": "limit_data", "stream": "upstream", "attributes": {"bytes": 82}}`, "0 \"limit_data_upstream\"",
			"its limit of 82 bytes is not passed (at most 82 came, downstream up to 216)"},
		{whole, `{"type": "timeout", "name": "a b"}, {"type": "latency", "attributes": {"latency": 9}}`, "1 \"latency_downstream\"",
			"all is the same without it, on this capture and beside the other toxics"},
		{whole, `{"type": "timeout", "toxicity_ppm": 1}`, "0 \"timeout_downstream\"", "it is not drawn (toxicity_ppm 1)"},
		{unanswered, `{"type": "latency", "attributes": {"latency": 9}}`, "0 \"latency_downstream\"",
			"no bytes flow downstream (upstream up to 82 bytes)"},
	} {
		scenario := `[{"name": "web", "upstream": "10.77.0.2:80", "toxics": [` + row.toxics + `]}]`
		lines, err := Explain(row.capture, [][]byte{[]byte(scenario)}, nil, 0)
		expected := "scenario 0 proxy 0 toxic " + row.name + ": effect on 0 of 1 connection; on 1: " + row.expected
		if told := strings.Join(lines, "\n"); err != nil || told != expected {
			t.Errorf("%v:\n%s\nin place of\n%s", err, told, expected)
		}
	}
}

// Explain tells of the same toxics as the tool explain, in the same words, under scenarios of any bytes.
func TestEffects(t *testing.T) {
	if _, err := exec.LookPath("python3"); err != nil {
		t.Skip("python3 is not here")
	}
	toolLine := regexp.MustCompile(`(?m)^\S+: (proxy \d+ toxic \d+ "\S+": effect on 0 of [1-9].*)$`)
	drawn, folder, told := rand.New(rand.NewSource(5)), t.TempDir(), 0
	for round := 0; round < 24; round++ {
		name, server := "http-get.pcap", "10.77.0.2:80"
		if round%2 == 1 {
			name, server = "shop.pcap", "10.77.0.3:6379"
		}
		data := make([]byte, 8+drawn.Intn(60))
		drawn.Read(data)
		scenario, path := FuzzScenario(data, server), filepath.Join(folder, "scenario.json")
		if err := os.WriteFile(path, scenario, 0o666); err != nil {
			t.Fatal(err)
		}
		printed, _ := exec.Command("../../tools/explain", "--capture", "../../samples/"+name, "--scenario", path, "--seed", "7").Output()
		expected := []string{}
		for _, found := range toolLine.FindAllStringSubmatch(string(printed), -1) {
			expected = append(expected, "scenario 0 "+found[1])
		}
		lines, err := Explain(readFile(t, "../../samples/"+name), [][]byte{scenario}, nil, 7)
		if err != nil || strings.Join(lines, "\n") != strings.Join(expected, "\n") {
			t.Errorf("%s under %s: %v:\n%s\nin place of\n%s", name, scenario, err, strings.Join(lines, "\n"), printed)
		}
		told += len(expected)
	}
	if told < 8 {
		t.Errorf("%d toxics have no effect", told)
	}
}

// 250 scenarios of any bytes are taken, and have each toxic in each direction.
func TestFuzzScenario(t *testing.T) {
	source, scenarios := rand.New(rand.NewSource(1)), [][]byte{FuzzScenario(nil, "10.77.0.2:80")}
	for len(scenarios) < 250 {
		data := make([]byte, source.Intn(60))
		source.Read(data)
		scenarios = append(scenarios, FuzzScenario(data, "10.77.0.2:80", "redis:6379"))
		if again := FuzzScenario(data, "10.77.0.2:80", "redis:6379"); !bytes.Equal(again, scenarios[len(scenarios)-1]) {
			t.Error(again)
		}
	}
	if _, err := Reports(readFile(t, "../../samples/shop.pcap"), scenarios, hosts, 0); err != nil {
		t.Error(err)
	}
	if string(scenarios[0]) != `[{"name":"10.77.0.2:80","upstream":"10.77.0.2:80"}]` {
		t.Error(string(scenarios[0]))
	}
	all := string(bytes.Join(scenarios, nil))
	for _, text := range []string{`"latency"`, `"bandwidth"`, `"slow_close"`, `"timeout"`, `"reset_peer"`, `"slicer"`, `"limit_data"`} {
		if count := strings.Count(all, `"type":`+text); count < 20 || !strings.Contains(all, `"stream":"upstream","type":`+text) {
			t.Error(text, count)
		}
	}
	if !strings.Contains(all, `"enabled":false`) || !strings.Contains(all, `"toxicity_ppm"`) {
		t.Error("each proxy is enabled, or each toxic applies to all")
	}
}

// What Rehearse allocates of a capture of 8 MB: at most 1.2 times its outputs, and the room of the first try.
func TestRoom(t *testing.T) {
	capture := readFile(t, "../../samples/shop.pcap")
	for records := append([]byte{}, capture[24:]...); len(capture) < 8<<20; {
		capture = append(capture, records...)
	}
	cut := Scenario(Proxy{Upstream: "10.77.0.2:80", Disabled: true}, Proxy{Upstream: "10.77.0.3:6379", Disabled: true})
	for _, scenarios := range [][][]byte{{cut, cut, cut, cut, cut, cut, cut, cut}, {[]byte("[]"), cut}} {
		var before, after runtime.MemStats
		runtime.ReadMemStats(&before)
		outputs, err := Rehearse(capture, scenarios, nil, 0)
		runtime.ReadMemStats(&after)
		if err != nil {
			t.Fatal(err)
		}
		size := 0
		for _, output := range outputs {
			size += len(output.Capture) + len(output.Report)
		}
		if taken := int(after.TotalAlloc - before.TotalAlloc); taken > size/5*6+firstRoom*9/4 {
			t.Errorf("%d bytes for outputs of %d", taken, size)
		}
	}
}
