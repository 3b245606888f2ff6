//go:build cgo && linux && amd64

package toxicap

import (
	"encoding/binary"
	"fmt"
	"os/exec"
	"reflect"
	"strings"
	"testing"
	"time"
)

// Two connections of the same ports whose servers begin with the same number: the first answer comes when both await one.
func TestSamePorts(t *testing.T) {
	made := exec.Command("awk", "-f", "../../tests/capture.awk")
	made.Stdin = strings.NewReader(`1.000000 c>s SYN 1000 0
1.000100 s>c SYN ACK 5000 1001
1.000200 c>s PSH ACK 1001 5001 "one"
1.000300 s>c PSH ACK 5001 1004 "ONE"
1.010000 c>s SYN 1002 0
1.010100 s>c SYN ACK 5000 1003
1.010200 c>s PSH ACK 1003 5001 "two"
1.010300 s>c PSH ACK 5001 1006 "TWO"
`)
	capture, err := made.Output()
	if err != nil {
		t.Fatal(err)
	}
	late := Scenario(Proxy{Upstream: "10.0.0.2:80", Toxics: []Toxic{{Type: "latency", Latency: 100 * time.Millisecond}}})
	outputs, err := Rehearse(capture, [][]byte{late}, nil, 0)
	if err != nil {
		t.Fatal(err)
	}
	told := ""
	connections, err := Delivered(outputs[0].Capture)
	for number, lines := range connections {
		for _, line := range []Line{lines.Up, lines.Down} {
			for _, chunk := range line.Chunks {
				told += fmt.Sprintf("%d %v %s %s\n", number, chunk.Time, chunk.Direction, chunk.Bytes)
			}
		}
	}
	if expected := "0 200µs up one\n0 100.3ms down ONE\n1 200µs up two\n1 100.3ms down TWO\n"; err != nil || told != expected {
		t.Errorf("%v, %s", err, told)
	}
	if laid, err := Lines(capture, [][]byte{late}, nil, 0); err != nil || !reflect.DeepEqual(laid, [][]Delivery{connections}) {
		t.Errorf("%v, %v", err, laid)
	}
}

// Captures that toxicap did not write, made of an output: its SYN, SYN ACK and ACK, a request, two chunks and two FINs.
func TestOtherCaptures(t *testing.T) {
	recording := readFile(t, "../../samples/http-get.pcap")
	outputs, err := Rehearse(recording, [][]byte{[]byte("[]")}, nil, 0)
	if err != nil {
		t.Fatal(err)
	}
	output, records := string(outputs[0].Capture), []string{}
	for place := 24; place < len(output); place += len(records[len(records)-1]) {
		records = append(records, output[place:place+16+int(binary.LittleEndian.Uint32(outputs[0].Capture[place+8:]))])
	}
	of := func(numbers ...int) string {
		capture := output[:24]
		for _, number := range numbers {
			capture += records[number]
		}
		return capture
	}
	// changed gives the output up to a record, with another text at a place of it: 16 is its frame, 30 its IPv4 header, 50 its TCP header.
	changed := func(number, place int, text string) string {
		return of([]int{0, 1, 2, 3, 4, 5, 6, 7}[:number]...) + records[number][:place] + text + records[number][place+len(text):]
	}
	for _, row := range []struct{ capture, why string }{
		{output, "<nil>"},
		{string(recording), "it has another file header"},
		{output[:23], "it has another file header"},
		{output[:len(output)-1], "record 7: it is cut, or no TCP segment"},
		{of(0, 1), "record 0: no opening follows its SYN"},
		{of(0, 0, 1, 2), "record 0: no opening follows its SYN"},
		{of(3, 4, 5), "record 0: 0 connections go on with it"},
		{of(0, 1, 2, 3, 3), "record 4: 0 connections go on with it"},
		{of(0, 1, 2, 3, 5), "record 4: 0 connections go on with it"},
		{of(0, 1, 2, 3, 4, 5, 6, 6), "record 7: 0 connections go on with it"},
		{of(0, 1, 2, 4, 3), "record 4: its time is none, or falls back"},
		{changed(4, 58, "\xff\xff\xff\xff"), "record 4: 0 connections go on with it"},
		{changed(3, 39, "\x11"), "record 3: its headers are another's"},
		{changed(3, 63, "\x38"), "record 3: toxicap writes no such segment"},
	} {
		if _, err := Events([]byte(row.capture)); strings.TrimPrefix(fmt.Sprint(err), ErrNotOutput.Error()+": ") != row.why {
			t.Errorf("%v in place of %s", err, row.why)
		}
	}
}
