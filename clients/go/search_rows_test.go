//go:build cgo && linux && amd64

package toxicap

// Searches against rows that were worked out by hand (tests/clients/search.json) and known parsers.

import (
	"bytes"
	"context"
	"encoding/json"
	"errors"
	"fmt"
	"os"
	"reflect"
	"regexp"
	"runtime"
	"strconv"
	"strings"
	"sync"
	"testing"
)

// readFile gives a file.
func readFile(t *testing.T, name string) []byte {
	t.Helper()
	text, err := os.ReadFile(name)
	if err != nil {
		t.Fatal(err)
	}
	return text
}

// row is one of tests/clients/search.json.
type row struct {
	Row, Sample, Hosts, Finds string
	Below                     uint64
	Scenarios                 []json.RawMessage
	Seed                      *uint64
	Smallest                  any
}

func TestRows(t *testing.T) {
	var rows []row
	if err := json.Unmarshal(readFile(t, "../../tests/clients/search.json"), &rows); err != nil {
		t.Fatal(err)
	}
	for _, row := range rows {
		row := row
		t.Run(row.Row, func(t *testing.T) { tryRow(t, row) })
	}
}

// tryRow compares what is found with a row.
func tryRow(t *testing.T, row row) {
	capture, expression := readFile(t, "../../samples/"+row.Sample+".pcap"), regexp.MustCompile(row.Finds)
	finds := func(outputs []Output) bool {
		for _, output := range outputs {
			if expression.Match(output.Report) {
				return true
			}
		}
		return false
	}
	texts := make([][]byte, len(row.Scenarios))
	for i, scenario := range row.Scenarios {
		texts[i] = scenario
	}
	for workers := 0; workers < 4; workers++ {
		seeds := Seeds{Below: row.Below, Workers: workers, Loose: true}
		found, err := LeastSeed(context.Background(), capture, texts, []byte(row.Hosts), finds, seeds)
		if err != nil || (found != nil) != (row.Seed != nil) || found != nil && found.Seed != *row.Seed {
			t.Error("least", found, err)
		}
		if row.Smallest == nil {
			continue
		}
		found, err = Shrink(context.Background(), capture, texts[0], []byte(row.Hosts), finds, seeds)
		var smallest any
		if err != nil || json.Unmarshal(found.Scenario, &smallest) != nil || !reflect.DeepEqual(smallest, row.Smallest) || found.Seed != *row.Seed {
			t.Error("smallest", found, err)
		}
	}
}

func TestWrongUses(t *testing.T) {
	const doesNothing = `what is searched does nothing (Loose takes it): scenario %d proxy 0 "web" (10.77.0.9:80): no connection meets it; servers of the capture: 10.77.0.2:80`
	ctx, capture := context.Background(), readFile(t, "../../samples/http-get.pcap")
	answer := func(answered bool) func([]Output) bool { return func([]Output) bool { return answered } }
	_, noSeed := LeastSeed(ctx, capture, [][]byte{[]byte("[]")}, nil, answer(true), Seeds{From: 7, Below: 7})
	_, refused := LeastSeed(ctx, capture, [][]byte{[]byte("[]"), []byte("[")}, nil, answer(true), Seeds{Workers: 3})
	_, shrinkRefused := Shrink(ctx, capture, []byte("["), nil, answer(true), Seeds{})
	_, passes := Shrink(ctx, capture, []byte("[]"), nil, answer(false), Seeds{Below: 3})
	_, untouched := Shrink(ctx, capture, []byte("[]"), nil, answer(true), Seeds{Below: 3})
	idle := Scenario(Proxy{Name: "web", Upstream: "10.77.0.9:80"})
	_, unmet := LeastSeed(ctx, capture, [][]byte{[]byte("[]"), idle}, nil, answer(true), Seeds{})
	_, shrinkUnmet := Shrink(ctx, capture, idle, nil, answer(true), Seeds{})
	for _, use := range []struct {
		err      error
		is       error
		expected string
	}{
		{noSeed, ErrNoSeeds, "there is no seed to try: Below is not above From"},
		{refused, ErrNotJson, "refused 10 NotJson scenario 1: scenario 1 ends before its JSON does"},
		{shrinkRefused, ErrNotJson, "refused 10 NotJson scenario 0: scenario 0 ends before its JSON does"},
		{passes, ErrPasses, "the scenario does not fail under these seeds: there is nothing to shrink"},
		{untouched, ErrFailsUntouched,
			"the scenario [], without toxics, fails too: there is nothing to shrink; make fails false for what was recorded"},
		{unmet, ErrDoesNothing, fmt.Sprintf(doesNothing, 1)},
		{shrinkUnmet, ErrDoesNothing, fmt.Sprintf(doesNothing, 0)},
	} {
		if !errors.Is(use.err, use.is) || use.err.Error() != use.expected {
			t.Errorf("%v in place of %s", use.err, use.expected)
		}
	}
}

// Any number of workers tries each seed from the first one up to the least under which the function is true, and its seed is that of one worker.
func TestWorkers(t *testing.T) {
	capture, scenario := readFile(t, "../../samples/shop.pcap"), [][]byte{line}
	outputs, err := Rehearse(capture, scenario, hosts, 40)
	if err != nil {
		t.Fatal(err)
	}
	for workers := 0; workers < 9; workers += 2 {
		tried, told := sync.Map{}, []uint64{}
		found, err := LeastSeed(context.Background(), capture, scenario, hosts, func(others []Output) bool {
			tried.Store(string(others[0].Capture), true)
			return bytes.Equal(others[0].Capture, outputs[0].Capture)
		}, Seeds{From: 10, Below: 200, Workers: workers, Progress: func(count uint64) { told = append(told, count) }})
		if err != nil || found == nil || found.Seed != 40 || found.Panic != nil {
			t.Error(workers, found, err)
		}
		for number, count := range told {
			if count != uint64(number) || len(told) < 31 || workers < 2 && len(told) > 31 {
				t.Fatal(workers, told)
			}
		}
		for seed := uint64(10); seed <= 40; seed++ {
			outputs, err := Rehearse(capture, scenario, hosts, seed)
			if _, is := tried.Load(string(outputs[0].Capture)); err != nil || !is {
				t.Error(workers, "seed", seed, "was not tried", err)
			}
		}
	}
}

// A context that ends gives what was found by then: the scenario that was shrunk so far, or nothing.
func TestContexts(t *testing.T) {
	capture := readFile(t, "../../samples/http-get.pcap")
	scenario := Scenario(Proxy{Upstream: "10.77.0.2:80", Toxics: []Toxic{{Type: "limit_data", Bytes: 100}, {Type: "slicer", AverageSize: 9, Delay: 5000}}})
	for calls := 0; calls < 30; calls++ {
		ctx, end := context.WithCancel(context.Background())
		count := 0
		fails := func(outputs []Output) bool {
			if count++; count == calls {
				end()
			}
			return strings.Contains(string(outputs[0].Report), " close+")
		}
		if calls == 0 {
			end()
		}
		found, err := Shrink(ctx, capture, scenario, nil, fails, Seeds{Below: 2})
		end()
		if (found == nil) != (calls == 0) || (err != nil) != errors.Is(err, context.Canceled) || calls < 9 && err == nil {
			t.Fatal(calls, found, err)
		}
		if found != nil {
			outputs, err := Rehearse(capture, [][]byte{found.Scenario}, nil, found.Seed)
			if err != nil || !fails(outputs) {
				t.Error(calls, found, err)
			}
		}
	}
	ctx, end := context.WithCancel(context.Background())
	found, err := LeastSeed(ctx, capture, [][]byte{scenario}, nil, func([]Output) bool { end(); return false }, Seeds{Below: 1 << 40, Workers: 2})
	if found != nil || err != context.Canceled {
		t.Error(found, err)
	}
}

// A function that panics is true, which is shown, and Shrink leaves out what has no effect without a call of the function.
func TestPanics(t *testing.T) {
	ctx, capture := context.Background(), readFile(t, "../../samples/http-get.pcap")
	proxies := []Proxy{{Upstream: "10.77.0.2:80", Toxics: []Toxic{{Type: "limit_data", Toxicity: 0.2, Bytes: 50}}}}
	for number := 1; number < 30; number++ {
		proxies = append(proxies, Proxy{Upstream: fmt.Sprintf("10.77.0.9:%d", number), Toxics: []Toxic{{Type: "timeout"}}})
	}
	found, err := LeastSeed(ctx, capture, [][]byte{Scenario(proxies...)}, nil, func([]Output) bool { panic("broken") }, Seeds{Below: 9, Loose: true})
	if err != nil || found == nil || !strings.HasPrefix(found.String(), "seed 0: panic: broken\n") || !strings.Contains(found.String(), "TestPanics") {
		t.Error(found, err)
	}
	answered, panicked := 0, 0
	found, err = Shrink(ctx, capture, Scenario(proxies...), nil, func(outputs []Output) bool {
		if strings.Contains(string(outputs[0].Report), " down 216/216/0 ") {
			answered++
			return false
		}
		panicked++
		panic("cut")
	}, Seeds{Loose: true})
	expected := `[{"name":"10.77.0.2:80","toxics":[{"attributes":{"bytes":0},"type":"limit_data"}],"upstream":"10.77.0.2:80"}]`
	if err != nil || string(found.Scenario) != expected || found.Seed != 0 || found.Panic == nil {
		t.Error(found, err)
	}
	if panicked > 11 { // none for the 29 proxies
		t.Error(panicked, answered)
	}
}

// A function that is broken by itself, or ends its goroutine, is no find: the search ends, unless runtime errors are asked for.
func TestRuntimeErrors(t *testing.T) {
	ctx, capture, scenarios := context.Background(), readFile(t, "../../samples/http-get.pcap"), [][]byte{[]byte("[]")}
	index := func(outputs []Output) bool { return outputs[1].Capture == nil }
	for name, search := range map[string]func(func([]Output) bool, Seeds) (*Found, error){
		"LeastSeed": func(fails func([]Output) bool, seeds Seeds) (*Found, error) {
			return LeastSeed(ctx, capture, scenarios, nil, fails, seeds)
		},
		"Shrink": func(fails func([]Output) bool, seeds Seeds) (*Found, error) {
			return Shrink(ctx, capture, scenarios[0], nil, fails, seeds)
		},
	} {
		for _, workers := range []int{0, 3} {
			found, err := search(index, Seeds{Workers: workers})
			var fault *PanicError
			var broken runtime.Error
			if found != nil || !errors.As(err, &fault) || !errors.As(err, &broken) || !strings.Contains(string(fault.Stack), "TestRuntimeErrors") {
				t.Error(name, found, err)
			}
			found, err = search(func([]Output) bool { runtime.Goexit(); return true }, Seeds{Workers: workers})
			if found != nil || !errors.As(err, &fault) || fault.Value != nil || !strings.Contains(err.Error(), "t.Fatal") {
				t.Error(name, found, err)
			}
		}
	}
	found, err := LeastSeed(ctx, capture, scenarios, nil, index, Seeds{RuntimeErrors: true})
	if err != nil || found == nil || found.Panic == nil {
		t.Error(found, err)
	}
}

// lines makes a right parser of lines: what is not ended yet is kept.
func lines() func([]byte) ([]string, error) {
	rest := ""
	return func(payload []byte) (whole []string, err error) {
		parts := strings.Split(rest+string(payload), "\n")
		rest = parts[len(parts)-1]
		return parts[:len(parts)-1], nil
	}
}

// forgetful makes a wrong parser: it parses each payload as if it were whole.
func forgetful(parse func(string) ([]string, error)) Parser[string] {
	return func() func([]byte) ([]string, error) {
		return func(payload []byte) ([]string, error) { return parse(string(payload)) }
	}
}

func TestFeedPrefixes(t *testing.T) {
	digits := regexp.MustCompile("[0-9]+")
	numbers := forgetful(func(text string) ([]string, error) { return digits.FindAllString(text, -1), nil })
	toLineFeed := forgetful(func(text string) ([]string, error) { return []string{text[:strings.Index(text, "\n")]}, nil })
	quoted := forgetful(func(text string) ([]string, error) { whole, err := strconv.Unquote(text); return []string{whole}, err })
	for _, row := range []struct {
		parser   Parser[string]
		stream   string
		size     int
		messages string
		err      string
	}{
		{lines, "", 0, "[]", "<nil>"},
		{lines, "\n", 0, "[]", "<nil>"},
		{lines, "+OK\n:1234\n", 0, "[]", "<nil>"},
		{lines, "+OK\n:12", 0, "[]", "<nil>"},
		{forgetful(func(text string) ([]string, error) { return strings.Fields(text), nil }), "a b", 0, "[]", "<nil>"},
		{numbers, "7 12 ", 3, "[7 1 2]", "<nil>"},
		{toLineFeed, "+OK\n", 1, "[]", "panic: runtime error: slice bounds out of range [:-1]"},
		{toLineFeed, "+OK", 3, "[]", "panic: runtime error: slice bounds out of range [:-1]"},
		{quoted, `"a"`, 1, "[]", "invalid syntax"},
		{quoted, `"a`, 2, "[]", "invalid syntax"},
	} {
		size, messages, err := FeedPrefixes(row.parser, []byte(row.stream))
		if told := fmt.Sprint(messages); size != row.size || told != row.messages || fmt.Sprint(err) != row.err {
			t.Errorf("%q: %d %s %v", row.stream, size, told, err)
		}
	}
	joined := func(messages []string) string { return strings.Join(messages, "") }
	asTheyCome := forgetful(func(text string) ([]string, error) { return []string{text}, nil })
	if size, messages, err := FeedPrefixesBy(asTheyCome, []byte("abc"), joined); size != 0 || messages != nil || err != nil {
		t.Error(size, messages, err)
	}
	if size, messages, err := FeedPrefixesBy(numbers, []byte("7 12 "), joined); size != 0 || messages != nil || err != nil {
		t.Error(size, messages, err)
	}
	if whole, err := Parser[string](lines).Feed([]byte("+O"), []byte("K\n:1"), []byte("\n:2")); fmt.Sprint(whole, err) != "[+OK :1] <nil>" {
		t.Error(whole, err)
	}
}
