package toxicap

import (
	"net"
	"time"
)

// A deadline of reads or writes on a connection's clock.
type deadline struct {
	isSet bool
	by    time.Duration
}

// time gives when it is.
func (d deadline) time() time.Duration {
	if d.isSet {
		return d.by
	}
	return never
}

// An instant of time.Now, and the time on a connection's clock that stands for it.
type instant struct {
	at time.Time
	by time.Duration
}

// mostKnown is how many instants a connection knows.
const mostKnown = 8

// SetDeadline sets both deadlines.
func (c *Conn) SetDeadline(at time.Time) error { return c.setDeadlines(at, nil, &c.read, &c.write) }

// SetReadDeadline sets until when a Read waits on the connection's clock.
func (c *Conn) SetReadDeadline(at time.Time) error { return c.setDeadlines(at, nil, &c.read) }

// SetWriteDeadline sets from when a Write fails.
func (c *Conn) SetWriteDeadline(at time.Time) error { return c.setDeadlines(at, nil, &c.write) }

// setDeadlines sets deadlines, and what is called when one has come.
func (c *Conn) setDeadlines(at time.Time, late func(), deadlines ...*deadline) error {
	c.mutex.Lock()
	defer c.mutex.Unlock()
	if c.gone {
		return c.failed("set", net.ErrClosed)
	}
	set := deadline{isSet: !at.IsZero()}
	if set.isSet {
		set.by = c.timeOf(at)
	}
	for _, each := range deadlines {
		*each = set
	}
	c.isOfDial, c.tellLate = false, late
	c.change()
	return nil
}

// timeOf gives the time on the clock that stands for an instant: that of an equal one before, and else the time from time.Now() on, or now if it has
// passed.
func (c *Conn) timeOf(at time.Time) time.Duration {
	away, set := time.Until(at), []instant{{at, never - 1}}
	if whole := (away-1)/time.Millisecond + 1; away <= 0 {
		set[0].by = c.now
	} else if whole < (never-c.now)/time.Millisecond {
		set[0].by = c.now + whole*time.Millisecond
	}
	for _, each := range c.known {
		if each.at.Equal(at) {
			set[0] = each
		} else if len(set) < mostKnown {
			set = append(set, each)
		}
	}
	c.known = set
	return set[0].by
}
