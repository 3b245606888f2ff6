package toxicap_test

import (
	"context"
	"errors"
	"fmt"
	"io"
	"net"
	"os"
	"strings"
	"syscall"
	"testing"
	"time"

	"example.org/toxicap"
)

// answers is a connection whose server sends messages of four bytes, one each 300 ms, and then ends.
func answers(count int, end string) (d toxicap.Delivery) {
	at := time.Duration(0)
	for number := 0; number < count; number++ {
		at += 300 * time.Millisecond
		d.Down.Chunks = append(d.Down.Chunks, toxicap.Event{Time: at, Direction: "down", Bytes: []byte(fmt.Sprintf("m%02d\n", number))})
	}
	if end != "" {
		d.Down.End = &toxicap.Event{Time: at + 300*time.Millisecond, Direction: "down", End: end}
	}
	return d
}

func open(t *testing.T, d toxicap.Delivery) *toxicap.Conn {
	t.Helper()
	c, err := toxicap.NewConn(d)
	if err != nil {
		t.Fatal(err)
	}
	return c
}

// A client that drops what follows a message in one read gets all messages by chunks, and one of joined bytes.
func TestJoins(t *testing.T) {
	for _, joins := range []bool{false, true} {
		c, messages := open(t, answers(20, "fin")), []string{}
		c.Joins = joins
		for room := make([]byte, 4096); ; {
			count, err := c.Read(room)
			if err != nil {
				break
			}
			message, _, _ := strings.Cut(string(room[:count]), "\n")
			messages = append(messages, message)
		}
		if expected := map[bool]int{false: 20, true: 1}[joins]; len(messages) != expected || c.Now() != 6300*time.Millisecond {
			t.Errorf("joined %v: %q, at %v", joins, messages, c.Now())
		}
	}
	c, room := open(t, answers(20, "reset")), make([]byte, 10)
	c.Joins = true
	c.SetReadDeadline(time.Now().Add(time.Second))
	for _, expected := range []string{"m00\nm01\nm0", "2\n"} {
		if count, err := c.Read(room); err != nil || string(room[:count]) != expected || c.Now() != 900*time.Millisecond {
			t.Errorf("%q, %v, at %v", room[:count], err, c.Now())
		}
	}
	if _, err := c.Read(room); !errors.Is(err, os.ErrDeadlineExceeded) || c.Now().Round(100*time.Millisecond) != time.Second {
		t.Error(err, c.Now())
	}
	c.SetReadDeadline(time.Time{})
	if rest, err := io.ReadAll(c); len(rest) != 68 || !errors.Is(err, syscall.ECONNRESET) {
		t.Errorf("%q, %v", rest, err)
	}
}

// A Write meets a reset whose time has come, by a read or by Advance, also if bytes before it are not read.
func TestAdvance(t *testing.T) {
	c, sent := open(t, answers(2, "reset")), 0
	for ; ; sent++ {
		if _, err := c.Write(make([]byte, 1000)); errors.Is(err, syscall.ECONNRESET) {
			break
		} else if err != nil || sent > 9 {
			t.Fatalf("%d writes, %v", sent, err)
		}
		c.Advance(100 * time.Millisecond)
	}
	if _, err := c.Write([]byte("x")); sent != 9 || !errors.Is(err, syscall.EPIPE) {
		t.Errorf("%d writes, %v", sent, err)
	}
	if all, err := io.ReadAll(c); string(all) != "m00\nm01\n" || err != nil || c.Now() != 900*time.Millisecond {
		t.Errorf("%q, %v, at %v", all, err, c.Now())
	}
	c.Advance(-time.Hour)
	c.Advance(time.Hour)
	if c.Now() != time.Hour+900*time.Millisecond || len(c.Written()) != 9000 {
		t.Error(c.Now(), len(c.Written()))
	}
}

// Deadlines in the past, near and far, after which a Write fails too.
func TestDeadlines(t *testing.T) {
	c, room := open(t, answers(1, "fin")), make([]byte, 9)
	for tries := time.Duration(1); tries < 4; tries++ {
		c.SetDeadline(time.Now().Add(30 * time.Millisecond))
		_, err := c.Read(room)
		var timeout net.Error
		if !errors.Is(err, os.ErrDeadlineExceeded) || !errors.As(err, &timeout) || !timeout.Timeout() || c.Now() > tries*30*time.Millisecond {
			t.Errorf("%v, at %v", err, c.Now())
		}
		if _, err := c.Write(room); !errors.Is(err, os.ErrDeadlineExceeded) {
			t.Error(err)
		}
	}
	c.SetDeadline(time.Unix(1, 0))
	if _, err := c.Read(room); !errors.Is(err, os.ErrDeadlineExceeded) {
		t.Error(err)
	}
	for _, far := range []time.Time{time.Now().Add(1000 * time.Hour), time.Now().Add(1 << 62), {}} {
		c.SetDeadline(far)
		if _, err := c.Write(room); err != nil {
			t.Error(err)
		}
	}
	if all, err := io.ReadAll(c); string(all) != "m00\n" || err != nil || c.Now() != 600*time.Millisecond {
		t.Errorf("%q, %v, at %v", all, err, c.Now())
	}
	c.CloseWrite()
	if _, err := c.Write(room); !errors.Is(err, syscall.EPIPE) {
		t.Error(err)
	}
	c.Close()
	_, err := c.Read(nil)
	for _, err := range []error{err, c.Close(), c.CloseWrite(), c.SetDeadline(time.Now())} {
		if !errors.Is(err, net.ErrClosed) {
			t.Error(err)
		}
	}
}

// A deadline that is set before each of five requests stays where it is: under a context of one second the fourth answer, after 1.2, is late. Other
// deadlines between do not change that; one of a request's own begins with it.
func TestOneDeadline(t *testing.T) {
	var whole time.Time
	others := func(c *toxicap.Conn, times ...time.Duration) {
		for _, away := range times {
			c.SetDeadline(time.Now().Add(away))
		}
	}
	for name, set := range map[string]func(c *toxicap.Conn){
		"reads":           func(c *toxicap.Conn) { c.SetReadDeadline(whole) },
		"both":            func(c *toxicap.Conn) { c.SetDeadline(whole) },
		"a handshake's":   func(c *toxicap.Conn) { others(c, time.Minute); c.SetDeadline(whole) },
		"writes first":    func(c *toxicap.Conn) { c.SetWriteDeadline(whole); c.SetReadDeadline(whole) },
		"a shorter one":   func(c *toxicap.Conn) { others(c, time.Millisecond); c.SetDeadline(whole) },
		"seven others":    func(c *toxicap.Conn) { c.SetDeadline(whole); others(c, 1, 2, 3, 4, 5, 6, 7); c.SetDeadline(whole) },
		"none in between": func(c *toxicap.Conn) { c.SetDeadline(whole); c.SetDeadline(time.Time{}); c.SetDeadline(whole) },
	} {
		c, room, count := open(t, answers(5, "fin")), make([]byte, 4), 0
		ctx, end := context.WithTimeout(context.Background(), time.Second)
		defer end()
		for whole, _ = ctx.Deadline(); count < 5; count++ {
			if set(c); name == "reads" {
				time.Sleep(time.Millisecond)
			}
			if _, err := c.Read(room); errors.Is(err, os.ErrDeadlineExceeded) {
				break
			} else if err != nil {
				t.Fatal(err)
			}
		}
		if c.Now() > time.Second || count != int(c.Now()/(300*time.Millisecond)) {
			t.Errorf("%s: %d answers, at %v", name, count, c.Now())
		}
	}
	c := open(t, answers(5, "fin"))
	c.SetDeadline(time.Now().Add(time.Second))
	for number := 0; number < 5; number++ {
		c.SetDeadline(time.Now().Add(400 * time.Millisecond))
		if _, err := c.Read(make([]byte, 4)); err != nil {
			t.Error(err)
		}
	}
}

// What nobody made does not panic, and a connection that is refused is no nil in a net.Conn.
func TestZeroValues(t *testing.T) {
	c, room := &toxicap.Conn{}, make([]byte, 1)
	if _, err := c.Read(room); err != toxicap.ErrStillOpen {
		t.Error(err)
	}
	if _, err := c.Write(room); err != nil || c.Now() != 0 || c.CloseWrite() != nil || c.LocalAddr() == nil || c.Close() != nil {
		t.Error(err)
	}
	var dialed net.Conn
	var err error
	dialed, err = toxicap.NewConn(toxicap.Delivery{Down: toxicap.Line{End: &toxicap.Event{End: "refused"}}})
	if _, other := dialed.Read(room); !errors.Is(err, syscall.ECONNREFUSED) || !errors.Is(other, net.ErrClosed) {
		t.Error(err, other)
	}
	dialer, player := &toxicap.Dialer{}, &toxicap.Player{}
	conn, err := dialer.Dial("tcp", "a:1")
	if conn != nil || !errors.Is(err, toxicap.ErrNoConnection) || dialer.Close() != toxicap.ErrNotDialled {
		t.Error(conn, err)
	}
	if err := player.Serve(context.Background()); err != toxicap.ErrNoConnection || player.Close() != err || len(player.Received()) > 0 {
		t.Error(err)
	}
	for _, err := range []error{toxicap.Kind(0), &toxicap.Refusal{}, &toxicap.RequestError{}, &toxicap.PanicError{}} {
		if err.Error() == "" {
			t.Errorf("%T", err)
		}
	}
	if (toxicap.Output{}).Warnings() == nil || (*toxicap.Found)(nil).String() == "" {
		t.Error("nothing is told")
	}
}
