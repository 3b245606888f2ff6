package toxicap

import (
	"context"
	"errors"
	"fmt"
	"io"
	"net"
	"os"
	"sync"
	"time"
)

// ErrNoClient is the error of a player to which no client came.
var ErrNoClient = errors.New("no client came")

// mostMore is how many bytes a client may send beyond those of the recorded one.
const mostMore = 1 << 20

// A Player serves the server's side of connections of an output capture to real clients on 127.0.0.1, chunk by chunk, and ends each as the capture
// does: by a FIN, by a reset, or not at all. Each client that comes gets the next connection; after the last one others are refused, and so is each
// when the proxy was disabled.
//
// An answer waits until the client has sent as many bytes as the recorded one had before it (and has closed, when that one had). From then on it
// takes as long as in the output: the recorded server's pause and what the toxics added, both times Factor (0: at once), and without the recorded
// pause when NoPauses is set. Record the client that is tested: for a shorter request there is no answer, and after longer ones an answer may come
// early. A client that closes before that gets no further answer.
//
// For Limit in all the player waits for clients: to come, to send enough, to take bytes, to close after the last step. It does not run while an
// answer waits for its time. When it has run out the player ends, and the error, an ErrLimit, tells what was missing: so a client that hangs is found,
// if Limit is below its own timeout. A client that sends 1 MiB more than the recorded one ends the player too.
//
// Each chunk is sent at once (TCP_NODELAY), and chunks that are due 2 ms or more apart stay 1 ms apart when the machine is late. The kernel still joins
// chunks that the client is late to read, and gives a chunk that is longer than its room in pieces. A client that reads late may miss bytes before a
// reset.
type Player struct {
	Port         int // of 127.0.0.1
	Factor       float64
	NoPauses     bool
	Limit        time.Duration
	Gap          time.Duration // from the end of a chunk to the next one, at the least
	SameRequests bool          // whether a client that sends other bytes than the recorded one ends the player, with a *RequestError

	parts    []part           // what clients get, in order
	listener *net.TCPListener // nil if clients are refused
	held     io.Closer        // what holds the port then
	life     context.Context
	end      context.CancelFunc
	patience patience

	serving sync.Once

	mutex   sync.Mutex // of what follows
	called  bool       // whether Serve was
	clients []*client
	fault   error // what ended the player first
}

// A part is a connection that is played.
type part struct {
	number   int // in the report
	steps    []Step
	requests []byte // what the recorded client sent
}

// NewPlayer makes a player of connections, by their numbers in the report, or of all of them. Both captures are outputs of one recording, the second
// under the scenario without toxics, `[]`: it tells what the client had sent before each answer, and when the server answered. Its times are those of
// the capture, its limit 10 seconds; change them before Serve is called. The port is open at once; Close ends it.
func NewPlayer(output, untouched []byte, connections ...int) (*Player, error) {
	parts, refused, err := partsOf(output, untouched, connections)
	if err != nil {
		return nil, err
	}
	p := &Player{Factor: 1, Limit: 10 * time.Second, parts: parts}
	p.life, p.end = context.WithCancel(context.Background())
	if refused {
		p.Port, p.held, err = hold()
	} else if p.listener, err = net.ListenTCP("tcp4", &net.TCPAddr{IP: net.IPv4(127, 0, 0, 1)}); err == nil {
		p.Port = p.listener.Addr().(*net.TCPAddr).Port
	}
	if err != nil {
		return nil, err
	}
	return p, nil
}

// partsOf gives what is played of two outputs, and whether each client is refused.
func partsOf(output, untouched []byte, connections []int) (parts []part, refused bool, err error) {
	here, there, err := both(output, untouched)
	if err != nil {
		return nil, false, err
	}
	numbers, err := chosen(connections, here)
	if err != nil {
		return nil, false, err
	}
	taken, without := -1, -1
	for _, number := range numbers {
		steps := stepsOf(here[number].Down, there[number])
		if is := len(steps) == 1 && steps[0].End == "refused"; is && without < 0 {
			without = number
		} else if !is && taken < 0 {
			taken = number
		}
		parts = append(parts, part{number, steps, whole(there[number].Up)})
	}
	if taken >= 0 && without >= 0 {
		return nil, false, fmt.Errorf("connection %d is refused and connection %d is not: one port cannot do both, name the connections of one server",
			without, taken)
	}
	return parts, without >= 0, nil
}

// chosen gives the numbers of connections, or of all.
func chosen(numbers []int, all []Delivery) ([]int, error) {
	if numbers == nil {
		for number := range all {
			numbers = append(numbers, number)
		}
	}
	for _, number := range numbers {
		if number < 0 || number >= len(all) {
			return nil, noConnection(number, all)
		}
	}
	if len(numbers) == 0 {
		return nil, ErrNoConnection
	}
	return numbers, nil
}

// Serve serves the clients, each to its end, and returns when the last one is done, when the limit has run out, at Close, or at the end of the context;
// its error is that of Close, or the context's. If clients are refused it returns at Close or after Limit. It can be called once.
func (p *Player) Serve(ctx context.Context) error {
	p.mutex.Lock()
	again := p.called
	p.called = true
	p.mutex.Unlock()
	switch {
	case p.life == nil:
		return ErrNoConnection
	case again:
		return errors.New("player: Serve is called for the second time")
	}
	done := make(chan struct{})
	defer close(done)
	go func() {
		select {
		case <-ctx.Done():
			p.fail(ctx.Err())
			p.stop()
		case <-done:
		}
	}()
	p.serving.Do(p.run)
	return p.result()
}

// run serves the clients, and keeps what was missing when the limit had run out.
func (p *Player) run() {
	if p.listener == nil {
		pause(p.life, p.Limit)
		return
	}
	p.patience.begin(p.Limit, p.stop)
	p.serve()
	ranOut := p.patience.end()
	p.stop()
	if missing := p.missing(); ranOut && missing != "" {
		p.fail(fmt.Errorf("%s (%w %v)", missing, ErrLimit, p.Limit))
	}
}

// serve serves each client that comes, up to the last.
func (p *Player) serve() {
	var each sync.WaitGroup
	defer each.Wait()
	defer p.listener.Close()
	for _, part := range p.parts {
		socket, err := p.accept()
		if err != nil {
			if !os.IsTimeout(err) && p.life.Err() == nil {
				p.fail(err)
			}
			return
		}
		came := p.welcome(socket, part)
		each.Add(1)
		go func() {
			defer each.Done()
			came.serve()
		}()
	}
}

// accept gives the next client; when the player ends, one who had come before.
func (p *Player) accept() (socket *net.TCPConn, err error) {
	for again := 0; ; again++ {
		if socket, err = p.listener.AcceptTCP(); !os.IsTimeout(err) || again == lastLooks {
			return socket, err
		}
		p.listener.SetDeadline(time.Now().Add(lastLook))
	}
}

// Close ends all connections, wherever they are, waits for Serve, and gives its error: what was missing when the limit had run out, other requests
// than the recorded ones, or that no client came. What clients had sent before counts. Each further call gives the same.
func (p *Player) Close() error {
	if p.life == nil {
		return ErrNoConnection
	}
	p.stop()
	if p.held != nil {
		p.held.Close()
	}
	p.serving.Do(p.run)
	return p.result()
}

// Received gives what each client sent, in the order in which they came; all of it after Close or Serve.
func (p *Player) Received() [][]byte {
	p.mutex.Lock()
	clients := p.clients
	p.mutex.Unlock()
	all := make([][]byte, len(clients))
	for place, client := range clients {
		client.mutex.Lock()
		all[place] = append([]byte{}, client.received...)
		client.mutex.Unlock()
	}
	return all
}

// stop ends all connections. What has come before is still taken.
func (p *Player) stop() {
	p.mutex.Lock()
	defer p.mutex.Unlock()
	if p.life.Err() != nil {
		return
	}
	p.end()
	if p.listener != nil {
		p.listener.SetDeadline(time.Now())
	}
	for _, client := range p.clients {
		client.stop()
	}
}

// fail keeps what ended the player, if nothing did before.
func (p *Player) fail(fault error) {
	p.mutex.Lock()
	defer p.mutex.Unlock()
	if p.fault == nil {
		p.fault = fmt.Errorf("player: port %d: %w", p.Port, fault)
	}
}

func (p *Player) result() error {
	p.mutex.Lock()
	defer p.mutex.Unlock()
	if p.fault == nil && p.listener != nil && len(p.clients) == 0 {
		return fmt.Errorf("player: port %d: %w", p.Port, ErrNoClient)
	}
	return p.fault
}

// missing tells what the player had waited for longest when it ended, if anything.
func (p *Player) missing() (told string) {
	first := time.Time{}
	for _, client := range p.clients {
		if client.missing != "" && (first.IsZero() || client.asked.Before(first)) {
			first, told = client.asked, fmt.Sprintf("connection %d: %s", client.number, client.missing)
		}
	}
	switch {
	case told != "" || len(p.clients) == len(p.parts):
		return told
	case len(p.clients) == 0:
		return ErrNoClient.Error()
	}
	return fmt.Sprintf("%d of %d clients came", len(p.clients), len(p.parts))
}
