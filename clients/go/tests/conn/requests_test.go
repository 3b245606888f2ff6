package conn

import (
	"errors"
	"fmt"
	"io"
	"net"
	"os"
	"strings"
	"testing"
	"time"

	"example.org/toxicap"
)

// A client that reads in a goroutine of its own gets each answer after its request: also when it writes ahead, and in parts that are apart.
func TestAnswersWait(t *testing.T) {
	for _, requests := range [][]string{{"one?", "two?"}, {"one?two?"}, {"on", "e?", "two?"}} {
		c, answers := dial(t, os.Getenv("SESSIONS"), "[]", 1), make(chan string, 9)
		go func() {
			defer close(answers)
			for room := make([]byte, 99); ; {
				count, err := c.Read(room)
				if err != nil {
					answers <- err.Error()
					return
				}
				answers <- string(room[:count])
			}
		}()
		time.Sleep(100 * time.Millisecond)
		found, sent := "", 0
		for _, request := range requests {
			if len(answers) > 0 {
				t.Errorf("before the request: %q", <-answers)
			}
			fmt.Fprint(c, request)
			sent += len(request)
			expected := []string{"", "1", "122333"}[sent/4]
			soon(t, func() {
				for len(found) < len(expected) {
					found += <-answers
				}
			})
			if found != expected {
				t.Errorf("%q, and expected is %q", found, expected)
			}
			time.Sleep(30 * time.Millisecond)
		}
		if end := <-answers; end != toxicap.ErrStillOpen.Error() {
			t.Errorf("at the end: %s", end)
		}
	}
}

// A client that reads after a part of a request fails at once, and one whose Read waited before fails a second later; one that goes on to write in
// another goroutine does not.
func TestShortRequests(t *testing.T) {
	for _, isAhead := range []bool{false, true} {
		d := dialer(t, os.Getenv("SESSIONS"), "[]")
		c, err := d.Dial("tcp", "10.0.0.2:7001")
		if err != nil {
			t.Fatal(err)
		}
		if isAhead {
			time.AfterFunc(100*time.Millisecond, func() { fmt.Fprint(c, "on") })
		} else {
			fmt.Fprint(c, "on")
		}
		begun, other := time.Now(), (*toxicap.RequestError)(nil)
		_, err = c.Read(make([]byte, 9))
		if took := time.Since(begun); !errors.As(err, &other) || other.Connection != 1 || other.Place != 2 || string(other.Recorded) != "e?" ||
			(took > time.Second) != isAhead {
			t.Errorf("%v, after %v", err, took)
		}
		if err := d.Close(); err != error(other) {
			t.Error(err)
		}
	}
	longer, room := dial(t, os.Getenv("SESSIONS"), "[]", 1), make([]byte, 9)
	fmt.Fprint(longer, "one?!")
	longer.Read(room)
	time.AfterFunc(100*time.Millisecond, func() { fmt.Fprint(longer, "two?") })
	if count, err := longer.Read(room); err != nil || string(room[:count]) != "22" {
		t.Errorf("after a longer request: %q, %v", room[:count], err)
	}
	untouched := rehearsed(t, os.Getenv("SESSIONS"))[0]
	for round := 0; round < 300; round++ {
		d, err := toxicap.NewDialer(untouched, untouched, 1)
		if err != nil {
			t.Fatal(err)
		}
		c, err := d.Dial("tcp", "any.example:1")
		if err != nil {
			t.Fatal(err)
		}
		begun := make(chan struct{})
		go func() {
			c.Write([]byte("o"))
			close(begun)
			for _, each := range []byte("ne?two?") {
				c.Write([]byte{each})
			}
		}()
		<-begun
		soon(t, func() {
			if _, err := io.ReadFull(c, make([]byte, 6)); err != nil {
				t.Errorf("round %d: %v", round, err)
			}
		})
	}
}

// A client that sends other bytes than the recorded one, or more, fails at the first of them, if that is asked for.
func TestSameRequests(t *testing.T) {
	for _, row := range []struct {
		isSame   bool
		requests string
		count    int
		expected string
	}{{true, "one?two?", 8, ""}, {false, "DEL?two?", 8, ""}, {true, "DEL?", 0, `connection 1: the client sent "DEL?" at byte 0, and the recorded one "one?two?"`},
		{true, "onE?", 2, `connection 1: the client sent "E?" at byte 2, and the recorded one "e?two?"`},
		{true, "one?two?3", 8, `connection 1: the client sent "3" at byte 8, and the recorded one ""`}} {
		d := dialer(t, os.Getenv("SESSIONS"), "[]")
		d.SameRequests = row.isSame
		c, err := d.Dial("tcp", "10.0.0.2:7001")
		if err != nil {
			t.Fatal(err)
		}
		count, err := fmt.Fprint(c, row.requests)
		_, other := c.Read(make([]byte, 1))
		for _, found := range []error{err, other, d.Close()} {
			if row.expected == "" && found != nil || row.expected != "" && (found == nil || !strings.Contains(found.Error(), row.expected)) {
				t.Errorf("%s: %v", row.requests, found)
			}
		}
		if count != row.count {
			t.Errorf("%s: %d bytes", row.requests, count)
		}
	}
}

// A Read that waits for the client ends by Close, by a deadline in the past, and by its deadline.
func TestWaitsEnd(t *testing.T) {
	const soonish = 50 * time.Millisecond
	for _, each := range []struct {
		end      func(*toxicap.Conn)
		expected error
	}{
		{func(c *toxicap.Conn) { time.AfterFunc(soonish, func() { c.Close() }) }, net.ErrClosed},
		{func(c *toxicap.Conn) { time.AfterFunc(soonish, func() { c.SetReadDeadline(time.Unix(1, 0)) }) }, os.ErrDeadlineExceeded},
		{func(c *toxicap.Conn) { c.SetReadDeadline(time.Now().Add(soonish)) }, os.ErrDeadlineExceeded},
	} {
		c := dial(t, os.Getenv("SESSIONS"), "[]", 1)
		each.end(c)
		soon(t, func() {
			if _, err := c.Read(make([]byte, 1)); !errors.Is(err, each.expected) {
				t.Errorf("expected: %v, found: %v", each.expected, err)
			}
		})
	}
}

func TestALimit(t *testing.T) {
	outputs := rehearsed(t, os.Getenv("SESSIONS"))
	d, err := toxicap.NewDialer(outputs[0], outputs[0], 1)
	if err != nil {
		t.Fatal(err)
	}
	d.Limit = 50 * time.Millisecond
	c, err := d.Dial("tcp", "any.example:1")
	if err != nil {
		t.Fatal(err)
	}
	soon(t, func() {
		_, err := c.Read(make([]byte, 1))
		if !errors.Is(err, toxicap.ErrLimit) || !strings.HasSuffix(err.Error(), ": connection 1: the client sent 0 of 4 bytes (limit 50ms)") {
			t.Error(err)
		}
	})
	if _, err := toxicap.NewDialer(outputs[0], outputs[0], 9); !errors.Is(err, toxicap.ErrNoConnection) {
		t.Error(err)
	}
}
