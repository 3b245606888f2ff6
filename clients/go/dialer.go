package toxicap

import (
	"context"
	"errors"
	"fmt"
	"net"
	"os"
	"strings"
	"sync"
	"syscall"
	"time"
)

// ErrNotDialled is the error of a Dialer that nobody used.
var ErrNotDialled = errors.New("toxicap: no connection was dialled: have the client dial by the Dialer (Dial, DialContext, Transport)")

// A Dialer opens the connections of an output capture for a client that dials by itself:
//
//	client := http.Client{Transport: dialer.Transport()}
//	defer dialer.Close()
//
// The address of a recorded server opens the next connection of that server, and any other address the next connection of all.
//
// An answer waits until the client has written as many bytes as the recorded one had before it, and has closed its side if that one had. It comes as
// long after them as in the output. A client that reads after a part of a request fails at once, with a *RequestError; one whose Read waits in a
// goroutine of its own has a second of real time to go on. If it writes nothing for Limit, or up to a deadline, the Read fails. Record the client that
// is tested: after longer requests an answer may come early, unless SameRequests is set.
//
// The deadline of a context that dials is the first deadline of the connection, until the client sets one, or goes on after a read. A client that has a
// timer in place of deadlines does not see the connection's clock: set Timeout for it.
type Dialer struct {
	Limit        time.Duration     // 10 seconds
	Timeout      time.Duration     // if not 0, the first deadline of each connection on its clock, from its opening
	SameRequests bool              // whether a Write of other bytes than the recorded client's fails
	Joins        bool              // that of each Conn
	Hosts        map[string]string // the addresses of names that a client dials, such as {"redis": "10.77.0.3"}

	mutex sync.Mutex // of what follows
	all   []*offer
	conns []*Conn
	fault error // the first *RequestError
}

// An offer is a connection that is opened once.
type offer struct {
	number      int // in the report
	here, there Delivery
	isOpen      bool
}

// NewDialer makes a Dialer of connections, by their numbers in the report, or of all of them. Both captures are outputs of one recording, the second
// under the scenario without toxics, `[]`: it tells what the client had sent before each answer. They may be the same output.
func NewDialer(output, untouched []byte, connections ...int) (*Dialer, error) {
	here, there, err := both(output, untouched)
	if err != nil {
		return nil, err
	}
	numbers, err := chosen(connections, here)
	if err != nil {
		return nil, err
	}
	d := &Dialer{Limit: 10 * time.Second}
	for _, number := range numbers {
		d.all = append(d.all, &offer{number: number, here: here[number], there: there[number]})
	}
	return d, nil
}

// DialContext opens the next connection. Its error is syscall.ECONNREFUSED if that was refused, and if none is left.
func (d *Dialer) DialContext(ctx context.Context, network, address string) (net.Conn, error) {
	if err := ctx.Err(); err != nil {
		return nil, err
	}
	d.mutex.Lock()
	defer d.mutex.Unlock()
	found, err := d.next(address)
	if err != nil {
		return nil, &net.OpError{Op: "dial", Net: network, Err: err}
	}
	found.isOpen = true
	c, err := NewConn(found.here)
	if err != nil {
		return nil, err
	}
	c.Joins, c.coming = d.Joins, comingOf(found.here.Down, found.there)
	c.requests = requests{number: found.number, recorded: whole(found.there.Up), isSame: d.SameRequests, limit: d.Limit, tell: d.fail}
	if d.Timeout > 0 {
		c.timeout = deadline{true, d.Timeout}
	}
	c.read = c.timeout
	if at, is := ctx.Deadline(); is {
		if by := c.timeOf(at); by < c.read.time() {
			c.read, c.isOfDial = deadline{true, by}, true
		}
	}
	c.write = c.read
	d.conns = append(d.conns, c)
	return c, nil
}

// Dial is DialContext without a context.
func (d *Dialer) Dial(network, address string) (net.Conn, error) {
	return d.DialContext(context.Background(), network, address)
}

// next gives the next connection for an address.
func (d *Dialer) next(address string) (*offer, error) {
	if len(d.all) == 0 {
		return nil, ErrNoConnection
	}
	host, port, _ := net.SplitHostPort(address)
	if addr, is := d.Hosts[host]; is {
		address = net.JoinHostPort(addr, port)
	}
	isServer, all := false, []Delivery{}
	for _, each := range d.all {
		isServer, all = isServer || each.here.Server == address, append(all, each.here)
	}
	for _, each := range d.all {
		if !each.isOpen && (!isServer || each.here.Server == address) {
			return each, nil
		}
	}
	return nil, fmt.Errorf("no connection is left for %s, there are %s: %w", address, servers(all), os.NewSyscallError("connect", syscall.ECONNREFUSED))
}

// servers names connections by their servers, in order.
func servers(all []Delivery) string {
	told := []string{}
	for number, each := range all {
		if number == 8 {
			told = append(told, "..")
			break
		}
		told = append(told, fmt.Sprintf("%d (%s)", number, each.Server))
	}
	return strings.Join(told, ", ")
}

// fail keeps what a client did wrong first. It is called while a Conn is locked.
func (d *Dialer) fail(err error) {
	d.mutex.Lock()
	defer d.mutex.Unlock()
	if d.fault == nil {
		d.fault = err
	}
}

// Conns gives the connections that were opened, in order.
func (d *Dialer) Conns() []*Conn {
	d.mutex.Lock()
	defer d.mutex.Unlock()
	return append([]*Conn{}, d.conns...)
}

// Close closes the connections that were opened. Its error is the first *RequestError, or ErrNotDialled.
func (d *Dialer) Close() error {
	for _, c := range d.Conns() {
		c.Close()
	}
	d.mutex.Lock()
	defer d.mutex.Unlock()
	for _, each := range d.all {
		if each.isOpen {
			return d.fault
		}
	}
	return ErrNotDialled
}

// comingOf gives what comes on a line, and what each waits for; at an open end what would come next.
func comingOf(down Line, there Delivery) []Step {
	steps := stepsOf(down, there)
	if down.End != nil {
		return steps
	}
	r := recordingOf(there)
	next := r.step(r.answeredAt(len(whole(down))), Event{})
	return append(steps, Step{Need: next.Need, Closed: next.Closed, Delay: never, End: openEnd})
}
