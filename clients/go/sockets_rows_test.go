package toxicap

import (
	"errors"
	"io"
	"os"
	"strconv"
	"strings"
	"syscall"
	"testing"
	"time"
)

// TestSocketRows has a client's Conn do what tests/clients/sockets/rows says, which is the same in each language.
func TestSocketRows(t *testing.T) {
	text, err := os.ReadFile("../../tests/clients/sockets/rows")
	if err != nil {
		t.Fatal(err)
	}
	rows := strings.Split(string(text), "\n== ")[1:]
	for _, row := range rows {
		name, rest, _ := strings.Cut(row, "\n")
		t.Run(name, func(t *testing.T) { playRow(t, strings.Split(strings.TrimSpace(rest), "\n")) })
	}
	if len(rows) < 10 {
		t.Error(len(rows))
	}
}

// playRow opens the connection of a row, and does the calls.
func playRow(t *testing.T, row []string) {
	there := Delivery{Up: rowLine(t, row, "recorded-up"), Down: rowLine(t, row, "recorded-down", "down")}
	here := Delivery{Up: rowLine(t, row, "up", "recorded-up"), Down: rowLine(t, row, "down")}
	d := &Dialer{Limit: time.Millisecond, all: []*offer{{here: here, there: there}}}
	for _, call := range row {
		d.SameRequests = d.SameRequests || call == "same"
	}
	dialled, err := d.Dial("tcp", "any.example:80")
	if err != nil {
		t.Fatal(err)
	}
	c, timeout := dialled.(*Conn), never
	for number, call := range row {
		words := append(strings.Split(call, " "), "", "")
		switch words[0] {
		case "timeout":
			timeout = milliseconds(t, words[1])
		case "advance":
			c.Advance(milliseconds(t, words[1]))
		case "shut":
			c.CloseWrite()
		case "write":
			if _, err := io.WriteString(c, words[1]); told(err, "taken") != words[2] {
				t.Fatal(number, call, err)
			}
		case "read":
			if c.read = (deadline{}); timeout < never {
				c.read = deadline{true, c.now + timeout}
			}
			room := make([]byte, 100)
			count, err := c.Read(room)
			if told(err, string(room[:count])) != words[1] || c.Now() != milliseconds(t, words[2]) {
				t.Fatalf("%d, %s: %q, %v, at %v", number, call, room[:count], err, c.Now())
			}
		}
	}
}

// rowLine gives a line by the first of these names that the row has.
func rowLine(t *testing.T, row []string, names ...string) (line Line) {
	for _, name := range names {
		for _, each := range row {
			words := strings.Split(each, " ")
			if words[0] != name {
				continue
			}
			event := Event{Time: milliseconds(t, words[1])}
			if words[2] == "fin" || words[2] == "reset" {
				event.End = words[2]
				line.End = &event
			} else {
				event.Bytes = []byte(words[2])
				line.Chunks = append(line.Chunks, event)
			}
		}
		if len(line.Chunks) > 0 || line.End != nil {
			return line
		}
	}
	return line
}

func milliseconds(t *testing.T, text string) time.Duration {
	number, err := strconv.Atoi(text)
	if err != nil {
		t.Fatal(err)
	}
	return time.Duration(number) * time.Millisecond
}

// told gives an error by the word of the rows.
func told(err error, without string) string {
	request := (*RequestError)(nil)
	switch {
	case err == nil:
		return without
	case err == io.EOF:
		return "fin"
	case errors.Is(err, os.ErrDeadlineExceeded):
		return "timeout"
	case errors.Is(err, syscall.ECONNRESET):
		return "reset"
	case errors.Is(err, syscall.EPIPE):
		return "broken"
	case err == ErrStillOpen:
		return "forever"
	case errors.As(err, &request) && len(request.Sent) > 0:
		return "other"
	case errors.As(err, &request) || errors.Is(err, ErrLimit):
		return "unasked"
	}
	return err.Error()
}
