package toxicap

import (
	"fmt"
	"net"
	"os"
	"sync"
	"time"
)

const (
	apartInOutput = 2 * time.Millisecond // chunks that are this far apart in the output
	apartAtLeast  = time.Millisecond     // are so far apart when they are sent late, too
	lastLook      = 2 * time.Millisecond // for a client who had come, or what one had sent, when a player ends
	lastLooks     = 5                    // how many there are: on a busy machine the time of one may pass before it begins
)

// A client is one that has come, and its connection.
type client struct {
	part
	player  *Player
	socket  *net.TCPConn
	news    chan struct{} // that it sent something, or closed
	read    chan struct{} // closed when nothing more is read of it
	asked   time.Time     // since when the player waits for it
	missing string        // what was missing when the player ended, while it waited

	mutex    sync.Mutex // of what follows
	received []byte
	heard    []heard
	closed   time.Time // when it closed, or broke off
}

type heard struct {
	at    time.Time
	count int // bytes of the client so far
}

// welcome takes a client that has come.
func (p *Player) welcome(socket *net.TCPConn, part part) *client {
	socket.SetNoDelay(true)
	c := &client{part: part, player: p, socket: socket, news: make(chan struct{}, 1), read: make(chan struct{}), heard: []heard{{time.Now(), 0}}}
	p.mutex.Lock()
	defer p.mutex.Unlock()
	if p.clients = append(p.clients, c); p.life.Err() != nil {
		c.stop()
	}
	return c
}

// stop has what waits for the client come to its end.
func (c *client) stop() { c.socket.SetDeadline(time.Now()) }

// serve plays the connection, and closes it.
func (c *client) serve() {
	go c.receive()
	c.play()
	if c.player.life.Err() != nil {
		<-c.read
	}
	c.socket.Close()
	<-c.read
}

// play does the steps, and ends early if the client has gone or the player ends.
func (c *client) play() {
	var due, wrote time.Time
	for _, step := range c.steps {
		since, done := c.since(step)
		if !done {
			return
		}
		before := due
		due = since.Add(c.length(step))
		at := due
		if next := wrote.Add(c.apart(due.Sub(before))); step.End == "" && next.After(at) {
			at = next
		}
		if left := time.Until(at); left > 0 && !c.player.patience.during(c.player.life, left) {
			return
		}
		switch step.End {
		case "fin":
			c.socket.CloseWrite()
		case "reset":
			c.socket.SetLinger(0)
			return
		default:
			if !c.write(step.Bytes) {
				return
			}
			wrote = time.Now()
		}
	}
	c.await(func() bool { return !c.closed.IsZero() }, func() string { return "the client did not close" })
}

// length is how long a step takes once the client has done what it waits for.
func (c *client) length(step Step) time.Duration {
	length := step.Delay
	if !c.player.NoPauses {
		length += step.Pause
	}
	return time.Duration(float64(length) * c.player.Factor)
}

// apart is the least time between the end of a chunk and a chunk that is due that much later.
func (c *client) apart(later time.Duration) time.Duration {
	if c.player.Gap < apartAtLeast && later >= apartInOutput {
		return apartAtLeast
	}
	return c.player.Gap
}

// write sends a chunk; false if the client has gone, or the player ended before the client had taken all of it.
func (c *client) write(chunk []byte) bool {
	c.asked = time.Now()
	sent, err := c.socket.Write(chunk)
	if os.IsTimeout(err) {
		c.missing = fmt.Sprintf("the client left %d bytes", len(chunk)-sent)
	}
	return err == nil
}

// since is when the client had done what a step waits for; false if it never will, or the player ended before.
func (c *client) since(step Step) (at time.Time, done bool) {
	ready := func() bool { return len(c.received) >= step.Need && (!step.Closed || !c.closed.IsZero()) }
	c.await(func() bool { return ready() || !c.closed.IsZero() }, func() string {
		text := fmt.Sprintf("the client sent %d of %d bytes", len(c.received), step.Need)
		if step.Closed {
			text += " and did not close"
		}
		return text
	})
	c.mutex.Lock()
	defer c.mutex.Unlock()
	if !ready() || c.player.life.Err() != nil {
		return at, false
	}
	for c.heard[0].count < step.Need { // a later step needs no fewer bytes
		c.heard = c.heard[1:]
	}
	if at = c.heard[0].at; step.Closed && c.closed.After(at) {
		at = c.closed
	}
	return at, true
}

// await waits until it is enough; if the player ends before, what was missing is kept.
func (c *client) await(enough func() bool, missing func() string) {
	c.asked = time.Now()
	for {
		c.mutex.Lock()
		done := enough()
		c.mutex.Unlock()
		if done {
			return
		}
		select {
		case <-c.news:
		case <-c.player.life.Done():
			c.mutex.Lock()
			c.missing = missing()
			c.mutex.Unlock()
			return
		}
	}
}

// receive reads what the client sends, until it closes or the player ends.
func (c *client) receive() {
	defer close(c.read)
	room, looks := make([]byte, 65536), 0
	for {
		length, err := c.socket.Read(room)
		if os.IsTimeout(err) && looks < lastLooks {
			looks++
			c.socket.SetReadDeadline(time.Now().Add(lastLook))
			continue
		}
		c.mutex.Lock()
		c.received = append(c.received, room[:length]...)
		if c.heard = append(c.heard, heard{time.Now(), len(c.received)}); err != nil && !os.IsTimeout(err) {
			c.closed = time.Now()
		}
		fault := c.faultFrom(len(c.received) - length)
		c.mutex.Unlock()
		if fault != nil {
			c.player.fail(fault)
			c.player.stop()
			return
		}
		select {
		case c.news <- struct{}{}:
		default:
		}
		if err != nil {
			return
		}
	}
}

// faultFrom tells what is wrong with what the client sent from a place on: other bytes than the recorded one, or far more.
func (c *client) faultFrom(place int) error {
	switch more := len(c.received) - len(c.requests); {
	case c.player.SameRequests:
		return otherRequest(c.number, place, c.received, c.requests)
	case more > mostMore:
		return fmt.Errorf("connection %d: the client sent %d bytes more than the recorded one", c.number, more)
	}
	return nil
}
