package toxicap

import (
	"errors"
	"io"
	"math"
	"net"
	"net/netip"
	"os"
	"sort"
	"sync"
	"syscall"
	"time"
)

// ErrStillOpen is the error of a Read without a deadline if nothing comes any more and the connection stays open: the client would wait forever.
var ErrStillOpen = errors.New("toxicap: nothing comes any more, the connection stays open, and there is no deadline: " +
	"a client without one waits forever, so give it one (SetReadDeadline, or Timeout of a Dialer)")

// A Conn is the client's end of a connection of an output capture, with a clock of its own, which begins at 0 when the connection is opened. No call
// waits for that clock: a Read moves it on to the time of what it gives, and Advance by any time. Writes take no time, also if a toxic upstream delays
// them in the capture.
//
// A Read gives bytes of one chunk, up to its room, so that borders are met. If Joins is set it gives all that comes before a deadline, an end, or an
// answer that waits for a further request, as to a client that is late to read: test a client both ways.
//
// A deadline is as far away on this clock as it is from time.Now() when it is set, in whole milliseconds, rounded up. One that is set again, such as that
// of a context for several requests, keeps its time on the clock; the eight set last are known. If nothing comes before a deadline, a Read moves the
// clock there, and its error is os.ErrDeadlineExceeded. After a FIN it is io.EOF, and on an open end ErrStillOpen. At a reset it is syscall.ECONNRESET,
// once; a Write meets a reset whose time has come, also if bytes before it are not read.
//
// A client that reads in one goroutine while it writes in another, such as net/http, gets its Conns from a Dialer: there an answer waits for its
// request. All methods may be called at the same time. The zero Conn is one on which nothing comes.
type Conn struct {
	Joins bool // set it before the first Read

	requests            // what answers wait for
	addresses [2]string // the client's and the server's

	mutex       sync.Mutex // of what follows, and of requests
	changed     chan struct{}
	now         time.Duration
	read, write deadline
	known       []instant // the deadlines that were set last, the last one first
	tellLate    func()    // is called when a deadline has come
	coming      []Step    // chunks, perhaps the first one in part, and the end
	written     []byte
	asked       []asked // how many bytes there were, and when
	shutAt      time.Duration
	hasRead     bool
	gone, shut  bool
	isReset     bool // whether the client has met the reset
	isCut       bool // whether a toxic ended both directions
	metCut      bool // whether a Write has met that end
}

type asked struct {
	count int
	at    time.Duration
}

const (
	never    = time.Duration(math.MaxInt64)
	openEnd  = "open" // the end of the steps of a line without an end
	unheard  = "192.0.2.1:49152"
	unserved = "192.0.2.2:80" // addresses for documentation, if a line has none
)

// NewConn opens a connection, one of those of Delivered. Its Read never waits, so its client is one that writes before it reads, or a parser. With the
// two lines exchanged it is the server's end. If the proxy was disabled the error is syscall.ECONNREFUSED, and the Conn is closed.
func NewConn(of Delivery) (*Conn, error) {
	c := &Conn{addresses: [2]string{of.Client, of.Server}}
	for _, chunk := range of.Down.Chunks {
		c.coming = append(c.coming, Step{Delay: chunk.Time, Bytes: chunk.Bytes})
	}
	end := Step{Delay: never, End: openEnd}
	if by := of.Down.End; by != nil {
		end = Step{Delay: by.Time, End: by.End}
		c.isCut = of.Up.End != nil && of.Up.End.Time == by.Time && of.Up.End.End == by.End
	}
	c.coming = append(c.coming, end)
	if c.gone = end.End == "refused"; c.gone {
		return c, c.failed("dial", os.NewSyscallError("connect", syscall.ECONNREFUSED))
	}
	return c, nil
}

// Now is the time of the connection's clock.
func (c *Conn) Now() time.Duration {
	c.mutex.Lock()
	defer c.mutex.Unlock()
	return c.now
}

// Advance moves the clock on, as if the client did something else for this time.
func (c *Conn) Advance(by time.Duration) {
	c.mutex.Lock()
	defer c.mutex.Unlock()
	if by > 0 {
		c.reach(c.now + by)
	}
	c.change()
}

// reach moves the clock on to a time, if that has not passed.
func (c *Conn) reach(at time.Duration) {
	if c.now < at {
		c.now = at
	}
}

// Written is what the client has written.
func (c *Conn) Written() []byte {
	c.mutex.Lock()
	defer c.mutex.Unlock()
	return append([]byte{}, c.written...)
}

// Read gives the next bytes.
func (c *Conn) Read(room []byte) (count int, err error) {
	c.mutex.Lock()
	defer c.mutex.Unlock()
	if len(room) == 0 && !c.gone {
		return 0, nil
	}
	if err := c.await(); err != nil {
		return 0, err
	}
	for next := c.next(); next.End == "" && count < len(room) && c.isAsked(next) && c.isDue(next, count > 0); next = c.next() {
		c.reach(c.due(next))
		size := copy(room[count:], next.Bytes)
		if next.Bytes = next.Bytes[size:]; len(next.Bytes) > 0 {
			c.coming[0] = next
		} else {
			c.coming = c.coming[1:]
		}
		count, c.answered, c.hasRead = count+size, len(c.written), true
	}
	switch {
	case count > 0:
		return count, nil
	case c.next().End == "reset" && !c.isReset:
		c.isReset = true
		return 0, c.failed("read", os.NewSyscallError("read", syscall.ECONNRESET))
	}
	return 0, io.EOF
}

// isDue tells whether a chunk is one that a Read gives, the first of it or one more.
func (c *Conn) isDue(next Step, more bool) bool {
	return !more || c.Joins && c.due(next) < c.read.time()
}

// due is when a step comes that waits for nothing more, but not before what stands before it.
func (c *Conn) due(step Step) time.Duration {
	since, away := time.Duration(0), step.Pause+step.Delay
	if step.Need > 0 {
		since = c.asked[sort.Search(len(c.asked), func(number int) bool { return c.asked[number].count >= step.Need })].at
	}
	if step.Closed && c.shutAt > since {
		since = c.shutAt
	}
	if away > never-since {
		return never
	}
	return since + away
}

// ended gives the server's end, if it has come: also if bytes before it are not read.
func (c *Conn) ended() (end string) {
	for number := len(c.coming) - 1; number >= 0; number-- {
		step := c.coming[number]
		if !c.isAsked(step) || c.due(step) > c.now {
			return ""
		}
		end += step.End
	}
	return end
}

// next gives what comes next.
func (c *Conn) next() Step {
	if len(c.coming) == 0 {
		return Step{Delay: never, End: openEnd}
	}
	return c.coming[0]
}

// await waits until the client has done what comes next waits for, and moves the clock on to it. Its error is that of a Read.
func (c *Conn) await() error {
	for !c.gone && c.fault == nil && c.read.time() > c.now && !c.isAsked(c.next()) {
		if err := c.waitForClient(); err != nil {
			return err
		}
	}
	switch {
	case c.gone:
		return c.failed("read", net.ErrClosed)
	case c.fault != nil:
		return c.failed("read", c.fault)
	case c.read.time() <= c.now || c.read.time() < c.due(c.next()):
		return c.late("read", c.read)
	case c.next().End == openEnd:
		return ErrStillOpen
	}
	c.reach(c.due(c.next()))
	return nil
}

// late moves the clock on to the deadline of reads or writes.
func (c *Conn) late(call string, by deadline) error {
	c.reach(by.time())
	if c.tellLate != nil {
		c.tellLate()
	}
	return c.failed(call, os.ErrDeadlineExceeded)
}

// Write keeps the bytes, at once.
func (c *Conn) Write(bytes []byte) (int, error) {
	c.mutex.Lock()
	defer c.mutex.Unlock()
	c.endDial()
	ended := c.ended()
	switch {
	case c.gone:
		return 0, c.failed("write", net.ErrClosed)
	case c.fault != nil:
		return 0, c.failed("write", c.fault)
	case c.write.time() <= c.now:
		return 0, c.late("write", c.write)
	case ended == "reset" && !c.isReset:
		c.isReset = true
		return 0, c.failed("write", os.NewSyscallError("write", syscall.ECONNRESET))
	case ended == "reset" || c.shut || c.metCut:
		return 0, c.failed("write", os.NewSyscallError("write", syscall.EPIPE))
	}
	c.metCut = ended == "fin" && c.isCut
	count := c.take(bytes)
	c.change()
	if c.fault != nil {
		return count, c.failed("write", c.fault)
	}
	return count, nil
}

// CloseWrite ends the client's side, as that of a net.TCPConn.
func (c *Conn) CloseWrite() error { return c.end(&c.shut) }

// Close ends the connection, and each call that waits.
func (c *Conn) Close() error { return c.end(&c.gone) }

func (c *Conn) end(what *bool) error {
	c.mutex.Lock()
	defer c.mutex.Unlock()
	if c.gone {
		return c.failed("close", net.ErrClosed)
	}
	if !c.shut {
		c.shutAt = c.now
	}
	*what = true
	c.change()
	return nil
}

// change has what waits look again.
func (c *Conn) change() {
	if c.changed != nil {
		close(c.changed)
		c.changed = nil
	}
}

// LocalAddr is the recorded client's address, or one for documentation.
func (c *Conn) LocalAddr() net.Addr { return tcpAddr(c.addresses[0], unheard) }

// RemoteAddr is the recorded server's address, or one for documentation.
func (c *Conn) RemoteAddr() net.Addr { return tcpAddr(c.addresses[1], unserved) }

func tcpAddr(text, without string) net.Addr {
	addr, err := netip.ParseAddrPort(text)
	if err != nil {
		addr = netip.MustParseAddrPort(without)
	}
	return net.TCPAddrFromAddrPort(addr)
}

func (c *Conn) failed(call string, err error) error {
	return &net.OpError{Op: call, Net: "tcp", Source: c.LocalAddr(), Addr: c.RemoteAddr(), Err: err}
}
