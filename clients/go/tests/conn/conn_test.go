// Conns over output captures, which the program TOXICAP makes here: their laws under random scenarios, and clients over Dialers.
// SAMPLES, SESSIONS and KEEP_ALIVE name the folder of samples and two captures. Nothing waits for a time of an output.
package conn

import (
	"bytes"
	"errors"
	"fmt"
	"io"
	"math/rand"
	"net"
	"os"
	"os/exec"
	"path/filepath"
	"syscall"
	"testing"
	"time"

	"example.org/toxicap"
)

func sample(name string) string { return filepath.Join(os.Getenv("SAMPLES"), name+".pcap") }

// rehearsed gives the outputs of a capture under these scenarios, and last under none.
func rehearsed(t testing.TB, capture string, scenarios ...string) [][]byte {
	t.Helper()
	folder, arguments, outputs := t.TempDir(), []string{"--capture", capture, "--seed", "3"}, [][]byte{}
	for number, scenario := range append(scenarios, "[]") {
		path := filepath.Join(folder, fmt.Sprint(number, ".json"))
		if err := os.WriteFile(path, []byte(scenario), 0o666); err != nil {
			t.Fatal(err)
		}
		arguments = append(arguments, "--scenario", path)
	}
	stored := t.TempDir()
	if told, err := exec.Command(os.Getenv("TOXICAP"), append(arguments, "--out", stored)...).CombinedOutput(); err != nil {
		t.Fatalf("%v: %s", err, told)
	}
	for number := 0; number <= len(scenarios); number++ {
		output, err := os.ReadFile(filepath.Join(stored, fmt.Sprintf("%04d.pcap", number)))
		if err != nil {
			t.Fatal(err)
		}
		outputs = append(outputs, output)
	}
	return outputs
}

// web is a scenario for the server of the sample http-get, with these members of its proxy.
func web(members string) string { return `[{"name":"web","upstream":"10.77.0.2:80",` + members + `}]` }

// toxic is the one of a proxy.
func toxic(kind, attributes string) string {
	return fmt.Sprintf(`"toxics":[{"type":"%s","attributes":{%s}}]`, kind, attributes)
}

// expected is what a line gives to one who reads it.
type expected struct {
	bytes  []byte
	times  []time.Duration // of each byte
	chunks []int           // the number of each byte's chunk
	end    *toxicap.Event
}

func expectedOf(line toxicap.Line) expected {
	w := expected{end: line.End}
	for number, chunk := range line.Chunks {
		for _, each := range chunk.Bytes {
			w.bytes, w.times, w.chunks = append(w.bytes, each), append(w.times, chunk.Time), append(w.chunks, number)
		}
	}
	return w
}

// Reads of any sizes, with deadlines and without, give the delivered bytes in order and each at its time, and the end at its own.
func TestLaws(t *testing.T) {
	drawn, met := rand.New(rand.NewSource(71)), map[string]int{}
	for _, capture := range []string{sample("http-get"), sample("shop"), os.Getenv("SESSIONS")} {
		scenarios, data := []string{}, make([]byte, 250)
		for number := 0; number < 40; number++ {
			drawn.Read(data)
			scenarios = append(scenarios, string(toxicap.FuzzScenario(data, "10.77.0.2:80", "10.77.0.3:6379", "10.0.0.2:6379", "10.0.0.2:7001", "10.0.0.2:7002",
				"10.0.0.2:7003")))
		}
		for _, output := range rehearsed(t, capture, scenarios...) {
			connections, err := toxicap.Delivered(output)
			if err != nil {
				t.Fatal(err)
			}
			for _, connection := range connections {
				for _, sides := range []toxicap.Delivery{connection, {Up: connection.Down, Down: connection.Up}} {
					c, err := toxicap.NewConn(sides)
					if end := sides.Down.End; end != nil && end.End == "refused" {
						if met["refused"]++; !errors.Is(c.Close(), net.ErrClosed) || !errors.Is(err, syscall.ECONNREFUSED) {
							t.Error(err)
						}
						continue
					}
					if err != nil {
						t.Fatal(err)
					}
					c.Joins = drawn.Intn(2) == 0
					readAll(t, c, expectedOf(sides.Down), drawn, met)
				}
			}
		}
	}
	for _, what := range []string{"bytes", "joined", "late", "fin", "reset", "open", "refused"} {
		if met[what] < 30 {
			t.Errorf("%s: %d times", what, met[what])
		}
	}
}

// due is when a byte or the end comes that is read at a place, and what that is.
func (w expected) due(place int) (time.Duration, string) {
	switch {
	case place < len(w.bytes):
		return w.times[place], "bytes"
	case w.end != nil:
		return w.end.Time, w.end.End
	}
	return time.Duration(1 << 62), "open"
}

// until is the place after what a read gives then: bytes of one chunk, or of several.
func (w expected) until(place, most int, now time.Duration, joins bool) int {
	for begun := place; most > 0 && place < len(w.times) && w.times[place] <= now && (joins || w.chunks[place] == w.chunks[begun]); most-- {
		place++
	}
	return place
}

// readAll reads to the end.
func readAll(t *testing.T, c *toxicap.Conn, w expected, drawn *rand.Rand, met map[string]int) {
	t.Helper()
	for place, going := 0, true; going; {
		before, away := c.Now(), time.Duration(0)
		c.SetReadDeadline(time.Time{})
		if drawn.Intn(2) == 0 {
			away = time.Duration(1+drawn.Intn([]int{3, 50, 3000}[drawn.Intn(3)])) * time.Millisecond
			c.SetReadDeadline(time.Now().Add(away))
		}
		room := make([]byte, 1+drawn.Intn([]int{1, 10, 300, 1460, 65536}[drawn.Intn(5)]))
		count, err := c.Read(room)
		now := c.Now()
		due, what := w.due(place)
		if errors.Is(err, os.ErrDeadlineExceeded) {
			passed := now == before // when it was set, on a busy machine
			if met["late"]++; count > 0 || away == 0 || now < before || now > before+away || !passed && (now >= due || (now-before)%time.Millisecond != 0) {
				t.Fatalf("late by %v at %v after %v, due at %v", away, now, before, due)
			}
			continue
		}
		if c.Joins && err == nil {
			due, what = w.times[place+count-1], "joined"
			if away == 0 && count < len(room) && place+count < len(w.times) {
				t.Fatalf("%d of %d bytes are joined", count, len(w.times)-place)
			}
		}
		if met[what]++; what != "open" && now != due && (before < due || now != before) {
			t.Fatalf("%s came at %v after %v, due at %v", what, now, before, due)
		}
		ends := map[string]bool{"fin": err == io.EOF, "reset": errors.Is(err, syscall.ECONNRESET), "open": err == toxicap.ErrStillOpen && away == 0}
		if going = what == "bytes" || what == "joined"; !going && ends[what] {
			continue
		}
		next := w.until(place, len(room), now, c.Joins)
		if err != nil || !going || !bytes.Equal(room[:count], w.bytes[place:next]) {
			t.Fatalf("%s at %d: %v, %q", what, place, err, room[:count])
		}
		place = next
	}
}
