//go:build cgo && linux && amd64

package toxicap

// Searches that find the planted bug of a parser.

import (
	"bytes"
	"context"
	"fmt"
	"log"
	"os"
	"reflect"
	"strconv"
	"time"
)

var hosts = Hosts(map[string]string{"redis": "10.77.0.3"})

var line = Scenario(
	Proxy{Name: "web", Upstream: "10.77.0.2:80", Toxics: []Toxic{{Type: "bandwidth", Rate: 20}}},
	Proxy{Name: "redis", Upstream: "redis:6379", Toxics: []Toxic{
		{Type: "latency", Latency: 150 * time.Millisecond, Jitter: 50 * time.Millisecond},
		{Type: "bandwidth", Rate: 20},
		{Type: "slicer", Toxicity: 0.5, AverageSize: 40, SizeVariation: 20, Delay: 3 * time.Millisecond}}})

// replies makes a parser of Redis's replies: lines, and texts after a line with their length.
func replies() func([]byte) ([]string, error) {
	var rest []byte
	return func(payload []byte) (whole []string, err error) {
		rest = append(rest, payload...)
		for {
			start, end := 0, bytes.Index(rest, []byte("\r\n"))
			if end < 0 {
				return whole, nil
			}
			if rest[0] == '$' {
				size, err := strconv.Atoi(string(rest[1:end]))
				if err != nil {
					return whole, err
				}
				start, end = end+2, end+2+size
			}
			if len(rest) < end { // the planted bug: the two bytes after a text may not be there yet, so it has to be end+2
				return whole, nil
			}
			whole = append(whole, string(rest[start:end]))
			rest = rest[end+2:]
		}
	}
}

// received gives the chunks that the client of connection 2 gets, which asks for a basket of 3,000 bytes.
func received(outputs []Output) (chunks [][]byte) {
	for _, chunk := range must(Delivered(outputs[0].Capture))[2].Down.Chunks {
		chunks = append(chunks, chunk.Bytes)
	}
	return chunks
}

// fails tells whether the parser gives other replies for the chunks than for all their bytes at once.
func fails(outputs []Output) bool {
	chunks := received(outputs)
	whole, _ := Parser[string](replies).Feed(bytes.Join(chunks, nil))
	messages, err := Parser[string](replies).Feed(chunks...)
	return err != nil || !reflect.DeepEqual(messages, whole)
}

// must gives a value where there is no error.
func must[T any](value T, err error) T {
	if err != nil {
		log.Fatal(err)
	}
	return value
}

// Finds the planted bug in three ways.
func Example_planted() {
	capture, ctx := must(os.ReadFile("../../samples/shop.pcap")), context.Background()
	found, err := LeastSeed(ctx, capture, [][]byte{line}, hosts, fails, Seeds{Below: 1000, Workers: 4})
	if found == nil {
		log.Fatal("no seed below 1000 finds a bug ", err)
	}
	fmt.Println("least", found)
	smallest, err := Shrink(ctx, capture, line, hosts, fails, Seeds{Below: found.Seed + 1})
	fmt.Println(smallest, err)
	recorded := must(Rehearse(capture, [][]byte{[]byte("[]")}, nil, 0))
	size, messages, err := FeedPrefixes[string](replies, bytes.Join(received(recorded), nil))
	fmt.Println("prefix of", size, "bytes, then", len(messages), "replies and", err)
	// Output:
	// least seed 118
	// seed 0 of [{"name":"redis","toxics":[{"attributes":{"average_size":1,"delay":0,"size_variation":0},"type":"slicer"}],"upstream":"redis:6379"}] <nil>
	// prefix of 3007 bytes, then 0 replies and panic: runtime error: slice bounds out of range [3009:3007]
}
