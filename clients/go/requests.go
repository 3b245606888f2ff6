package toxicap

import (
	"errors"
	"fmt"
	"time"
)

// ErrLimit is the error if a client does nothing for the limit of real time that it has.
var ErrLimit = errors.New("limit")

// A RequestError tells that a client sends other requests than the recorded one did: other bytes, or fewer before it reads the answer.
type RequestError struct {
	Connection     int    // its number in the report
	Place          int    // of the first byte that is another, or missing
	Sent, Recorded []byte // at most 20 bytes from there on; Sent is empty if bytes are missing
}

// Error gives the place, and what both sent there.
func (e *RequestError) Error() string {
	if len(e.Sent) == 0 {
		return fmt.Sprintf("connection %d: the client reads after %d bytes, and the recorded one sent %q before the answer (record the client that is tested)",
			e.Connection, e.Place, e.Recorded)
	}
	return fmt.Sprintf("connection %d: the client sent %q at byte %d, and the recorded one %q (record the client that is tested)", e.Connection, e.Sent,
		e.Place, e.Recorded)
}

// otherRequest gives the error if what a client sent from a place on is not what the recorded one did.
func otherRequest(connection, place int, sent, recorded []byte) error {
	for ; place < len(sent) && place < len(recorded) && sent[place] == recorded[place]; place++ {
	}
	if place == len(sent) {
		return nil
	}
	return &RequestError{connection, place, few(sent, place), few(recorded, place)}
}

// few gives the first bytes from a place on.
func few(bytes []byte, place int) []byte {
	if place >= len(bytes) {
		return nil
	}
	if bytes = bytes[place:]; len(bytes) > 20 {
		return bytes[:20]
	}
	return bytes
}

// The requests of a client, for which answers wait.
type requests struct {
	number   int           // of the connection
	recorded []byte        // what the recorded client sent
	isSame   bool          // whether the client has to send the same
	limit    time.Duration // how long a Read waits for the client, in real time
	timeout  deadline      // that of the Dialer
	tell     func(error)   // is told of other requests

	answered int   // how many bytes were written when something was read last
	waiting  int   // how many Reads wait for the client
	isAhead  bool  // whether one did when the client wrote: it reads in a goroutine of its own
	isOfDial bool  // whether the deadlines are those of the dial
	fault    error // that the client sent other bytes
}

const (
	settled    = time.Second // a client that reads in a goroutine of its own has this long to go on with a request, or to close its side
	fairRounds = 20          // a client that reads after a part of a request has gone on within this number of turns of other goroutines, if it will
	fairRound  = 100 * time.Microsecond
)

// isAsked tells whether the client has done what something waits for.
func (c *Conn) isAsked(next Step) bool {
	return len(c.written) >= next.Need && (c.shut || !next.Closed)
}

// take keeps what the client writes, and gives how many bytes of it are right.
func (c *Conn) take(bytes []byte) int {
	place := len(c.written)
	c.written, c.isAhead = append(c.written, bytes...), c.isAhead || c.waiting > 0
	c.asked = append(c.asked, asked{len(c.written), c.now})
	if c.isSame {
		c.fault = otherRequest(c.number, place, c.written, c.recorded)
	}
	if other := (*RequestError)(nil); errors.As(c.fault, &other) {
		c.tell(c.fault)
		return other.Place - place
	}
	return len(bytes)
}

// endDial takes back the deadlines of the dial, if the client has read something and goes on.
func (c *Conn) endDial() {
	if c.isOfDial && c.hasRead {
		c.read, c.write, c.isOfDial = c.timeout, c.timeout, false
	}
}

// waitForClient waits until something changes, or as long as the client has for it; its error is that of a Read then.
func (c *Conn) waitForClient() error {
	c.endDial()
	next, sent := c.next(), len(c.written)
	isShort, most := c.answered < sent && sent < next.Need, c.limit
	if (isShort || sent >= next.Need) && most > settled {
		most = settled
	}
	if away := c.read.time() - c.now; away < most {
		most = away
	}
	if isShort && !c.isAhead {
		most = 0
	}
	switch {
	case c.isChanged(most):
		return nil
	case isShort:
		err := &RequestError{c.number, sent, nil, few(c.recorded[:next.Need], sent)}
		c.tell(err)
		return c.failed("read", err)
	case c.read.isSet:
		return c.late("read", c.read)
	case sent >= next.Need:
		return ErrStillOpen
	}
	return c.failed("read", fmt.Errorf("connection %d: the client sent %d of %d bytes (%w %v)", c.number, sent, next.Need, ErrLimit, c.limit))
}

// isChanged waits for a change, for some time and for some turns of other goroutines, which take longer on a busy machine; whether there was one.
func (c *Conn) isChanged(most time.Duration) bool {
	if c.changed == nil {
		c.changed = make(chan struct{})
	}
	changed := c.changed
	c.waiting++
	c.mutex.Unlock()
	defer func() {
		c.mutex.Lock()
		c.waiting--
	}()
	for round := 0; round < fairRounds; round++ {
		wait := fairRound
		if round == 0 && most > wait {
			wait = most
		}
		timer := time.NewTimer(wait)
		select {
		case <-changed:
			timer.Stop()
			return true
		case <-timer.C:
		}
	}
	return false
}
