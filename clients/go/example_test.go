//go:build cgo && linux && amd64

package toxicap_test

import (
	"bufio"
	"context"
	"encoding/binary"
	"errors"
	"fmt"
	"io"
	"net/http"
	"os"
	"strings"
	"sync"
	"testing"
	"time"

	"example.org/toxicap"
)

const web = "10.77.0.2:80" // the server of the sample

var limit = toxicap.Scenario(toxicap.Proxy{Upstream: web, Toxics: []toxicap.Toxic{{Type: "limit_data", Bytes: 200}}})

// sample gives the bytes of a sample.
func sample(name string) []byte {
	capture, err := os.ReadFile("share/toxicap/samples/" + name)
	if err != nil {
		panic(err)
	}
	return capture
}

// outputs gives what the sample of an HTTP session gives under scenarios.
func outputs(scenarios ...[]byte) []toxicap.Output {
	outputs, err := toxicap.Rehearse(sample("http-get.pcap"), scenarios, nil, 7)
	if err != nil {
		panic(err)
	}
	return outputs
}

// An answer that is cut after 200 bytes, and a scenario whose host nobody names.
func Example() {
	report, err := toxicap.ParseReport(outputs(limit)[0].Report)
	if err != nil {
		panic(err)
	}
	down := report.Connections[0].Down
	fmt.Println(down.Delivered, "of", down.Recorded, "bytes of the answer came, then", down.End)
	named := toxicap.Scenario(toxicap.Proxy{Name: "db", Upstream: "redis:6379"})
	_, err = toxicap.Reports(sample("shop.pcap"), [][]byte{named}, nil, 7)
	fmt.Println(errors.Is(err, toxicap.ErrUnknownHost))
	fmt.Println(err)
	// Output:
	// 200 of 216 bytes of the answer came, then close
	// true
	// refused 15 UnknownHost scenario 0 proxy 0: scenario 0, proxy 0 "db": names are not looked up: give the address that the capture has by redis=ADDR among the hosts
}

// What a client reads: as recorded, a first read gives all headers of the answer, and in slices a part of them. So a client that takes one read for
// the headers passes with the one and fails with the other; net/http reads on.
func ExampleNewConn() {
	slices := toxicap.Scenario(toxicap.Proxy{Upstream: web, Toxics: []toxicap.Toxic{{Type: "slicer", AverageSize: 50, Delay: time.Millisecond}}})
	for _, output := range outputs([]byte("[]"), slices) {
		connections, err := toxicap.Delivered(output.Capture)
		if err != nil {
			panic(err)
		}
		one, err := toxicap.NewConn(connections[0])
		if err != nil {
			panic(err)
		}
		size, _ := one.Read(make([]byte, 65536))
		conn, _ := toxicap.NewConn(connections[0])
		response, err := http.ReadResponse(bufio.NewReader(conn), nil)
		if err != nil {
			panic(err)
		}
		body, err := io.ReadAll(response.Body)
		fmt.Printf("one read: %d bytes; net/http: %q, %v, after %v\n", size, body, err, conn.Now())
	}
	// Output:
	// one read: 186 bytes; net/http: "Hello from the sample server.\n", <nil>, after 3.653ms
	// one read: 50 bytes; net/http: "Hello from the sample server.\n", <nil>, after 7.61ms
}

// An answer that comes after three seconds meets a client that waits for two, and the test waits for neither.
func ExampleDialer() {
	late := toxicap.Scenario(toxicap.Proxy{Upstream: web, Toxics: []toxicap.Toxic{{Type: "latency", Latency: 3 * time.Second}}})
	both := outputs(late, []byte("[]"))
	dialer, err := toxicap.NewDialer(both[0].Capture, both[1].Capture)
	if err != nil {
		panic(err)
	}
	client := http.Client{Timeout: 2 * time.Second, Transport: dialer.Transport()}
	_, err = client.Get("http://web.example/hello.txt")
	fmt.Println(os.IsTimeout(err), "at", dialer.Conns()[0].Now().Round(2*time.Second))
	fmt.Println(dialer.Close())
	// Output:
	// true at 2s
	// <nil>
}

// An answer that is cut after 200 bytes, served to a client of real sockets; Close has what the client did wrong, if anything.
func ExamplePlayer() {
	both := outputs(limit, []byte("[]"))
	player, err := toxicap.NewPlayer(both[0].Capture, both[1].Capture)
	if err != nil {
		panic(err)
	}
	go player.Serve(context.Background())
	answer, err := http.Get(fmt.Sprintf("http://127.0.0.1:%d/hello.txt", player.Port))
	if err != nil {
		panic(err)
	}
	body, err := io.ReadAll(answer.Body)
	answer.Body.Close()
	fmt.Println(len(body), errors.Is(err, io.ErrUnexpectedEOF), player.Close())
	// Output:
	// 14 true <nil>
}

// A client that asks Redis three times waits for each answer, so a second of latency is three seconds of the session: at its recorded times all three
// requests are sent in the first milliseconds.
func ExampleClosedLoop() {
	scenario := toxicap.Scenario(toxicap.Proxy{Upstream: "10.77.0.3:6379", Toxics: []toxicap.Toxic{{Type: "latency", Latency: time.Second}}})
	loop, err := toxicap.ClosedLoop(context.Background(), sample("shop.pcap"), scenario, nil, 0)
	if err != nil {
		panic(err)
	}
	open, err := toxicap.Rehearse(sample("shop.pcap"), [][]byte{scenario}, nil, 0)
	if err != nil {
		panic(err)
	}
	for _, output := range []toxicap.Output{open[0], loop.Output} {
		connections, err := toxicap.Delivered(output.Capture)
		if err != nil {
			panic(err)
		}
		fmt.Println(connections[0].Down.End.Time.Round(time.Second))
	}
	// Output:
	// 1s
	// 3s
}

// The smallest scenario under which an answer is cut, and its least seed; a toxic without effect on that is left out.
func ExampleShrink() {
	scenario := toxicap.Scenario(toxicap.Proxy{Upstream: web, Toxics: []toxicap.Toxic{
		{Type: "latency", Latency: time.Second, Jitter: time.Second}, {Type: "limit_data", Bytes: 50, Toxicity: 0.2}}})
	isCut := func(outputs []toxicap.Output) bool {
		report, err := toxicap.ParseReport(outputs[0].Report)
		return err != nil || report.Connections[0].Down.End == "close"
	}
	found, err := toxicap.Shrink(context.Background(), sample("http-get.pcap"), scenario, nil, isCut, toxicap.Seeds{Below: 100, Workers: 4})
	fmt.Println(found, err)
	// Output:
	// seed 0 of [{"name":"10.77.0.2:80","toxics":[{"attributes":{"bytes":0},"type":"limit_data"}],"upstream":"10.77.0.2:80"}] <nil>
}

// Why a scenario has no effect.
func ExampleExplain() {
	scenario := []byte(`[{"name": "web", "upstream": "10.77.0.2:8080", "Enabled": false}]`)
	lines, err := toxicap.Explain(sample("http-get.pcap"), [][]byte{scenario}, nil, 0)
	if err != nil {
		panic(err)
	}
	fmt.Println(strings.Join(lines, "\n"))
	// Output:
	// scenario 0 proxy 0: unknown field Enabled (is it enabled?)
	// scenario 0 proxy 0 "web" (10.77.0.2:8080): no connection meets it; servers of the capture: 10.77.0.2:80
}

// Scenarios of any bytes: whatever the network does, a client gets a front part of the recorded answer, in some pieces.
func FuzzScenario(f *testing.F) {
	f.Add([]byte{2, 5, 0, 0, 9, 0, 50, 0, 0, 0, 8, 3, 232, 6, 0, 0, 10, 0, 200})
	f.Add([]byte{1, 4, 0, 0, 5, 0, 9})
	f.Fuzz(func(t *testing.T, data []byte) {
		var answers [2]string
		for number, output := range outputs([]byte("[]"), toxicap.FuzzScenario(data, web)) {
			connections, err := toxicap.Delivered(output.Capture)
			if err != nil {
				t.Fatal(err)
			}
			for _, chunk := range connections[0].Down.Chunks {
				answers[number] += string(chunk.Bytes)
			}
		}
		if !strings.HasPrefix(answers[0], answers[1]) {
			t.Errorf("%q", answers[1])
		}
	})
}

// The reports alone are those of the outputs, also of a hundred openings, for which the first room is too small, and each refusal is its line.
func TestReports(t *testing.T) {
	capture, scenarios := sample("http-get.pcap"), [][]byte{[]byte("[]"), limit}
	opening := capture[24 : 40+binary.LittleEndian.Uint32(capture[32:])]
	openings := append([]byte{}, capture[:24]...)
	for port := byte(0); port < 100; port++ {
		openings = append(openings, opening...)
		openings[len(openings)-len(opening)+51] = port
	}
	for _, capture := range [][]byte{capture, openings} {
		outputs, err := toxicap.Rehearse(capture, scenarios, nil, 0)
		if err != nil {
			t.Fatal(err)
		}
		reports, err := toxicap.Reports(capture, scenarios, nil, 0)
		if err != nil || string(reports) != string(outputs[0].Report)+string(outputs[1].Report) {
			t.Errorf("%v, %s", err, reports)
		}
	}
	if _, err := toxicap.Rehearse(nil, scenarios, nil, 0); !errors.Is(err, toxicap.ErrShortHeader) {
		t.Error(err)
	}
	if outputs, err := toxicap.Rehearse(capture, nil, nil, 0); err != nil || len(outputs) != 0 {
		t.Errorf("%v, %v", outputs, err)
	}
}

// Any goroutine may call: eight at once get the bytes that one alone gets.
func TestManyAtOnce(t *testing.T) {
	capture, scenarios := sample("shop.pcap"), [][]byte{[]byte("[]"), limit}
	alone, err := toxicap.Rehearse(capture, scenarios, nil, 7)
	if err != nil {
		t.Fatal(err)
	}
	var calls sync.WaitGroup
	for i := 0; i < 8; i++ {
		calls.Add(1)
		go func() {
			defer calls.Done()
			for round := 0; round < 25; round++ {
				outputs, err := toxicap.Rehearse(capture, scenarios, nil, 7)
				if err != nil {
					t.Error(err)
					return
				}
				for number, output := range outputs {
					if string(output.Capture) != string(alone[number].Capture) || string(output.Report) != string(alone[number].Report) {
						t.Errorf("scenario %d has other bytes", number)
						return
					}
				}
			}
		}()
	}
	calls.Wait()
}
