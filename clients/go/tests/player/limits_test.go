// What ends players: limits, clients that give up, other requests; and several clients, chunks that are kept apart, and ports.
package clients

import (
	"bytes"
	"context"
	"errors"
	"fmt"
	"net"
	"os"
	"os/exec"
	"strings"
	"sync"
	"syscall"
	"testing"
	"time"

	"example.org/toxicap"
)

// ends wants the error with which a player ends while a client talks, "" for none, which Serve gives and each Close.
func ends(t *testing.T, name string, connections []int, settings func(*toxicap.Player), talk func(*toxicap.Player), expected string) {
	t.Helper()
	both := outputs(t, name)
	player, err := toxicap.NewPlayer(both[0], both[1], connections...)
	if err != nil {
		t.Fatal(err)
	}
	player.Limit = time.Minute
	settings(player)
	done := make(chan error, 1)
	go func() { done <- player.Serve(context.Background()) }()
	talk(player)
	select {
	case err = <-done:
	case <-time.After(time.Minute):
		t.Error("the player goes on")
	}
	for _, found := range []error{err, player.Close(), player.Close()} {
		if expected == "" && found != nil || expected != "" && (found == nil || !strings.Contains(found.Error(), expected)) {
			t.Errorf("expected: %q, found: %v", expected, found)
		}
	}
}

func TestLimits(t *testing.T) {
	late := func(name string, connections []int, talk func(*testing.T, *toxicap.Player), expected string) {
		t.Run(expected, func(t *testing.T) {
			t.Parallel()
			ends(t, name, connections, func(p *toxicap.Player) { p.Limit = short }, func(p *toxicap.Player) { talk(t, p) }, expected)
		})
	}
	late("sessions-untouched", []int{1}, func(t *testing.T, p *toxicap.Player) {
		client := connect(t, p)
		fmt.Fprint(client, "on")
		read(t, client, 1, "")
	}, ": connection 1: the client sent 2 of 4 bytes (limit 4s)")
	late("sessions-untouched", []int{2}, func(t *testing.T, p *toxicap.Player) {
		client := connect(t, p)
		fmt.Fprint(client, "sum")
		read(t, client, 1, "")
	}, ": connection 2: the client sent 3 of 3 bytes and did not close (limit 4s)")
	late("sessions-untouched", []int{3}, func(t *testing.T, p *toxicap.Player) {
		client := connect(t, p)
		read(t, client, 5, "hello")
		fmt.Fprint(client, "bye")
		read(t, client, 1, "")
	}, ": connection 3: the client did not close (limit 4s)")
	late("much", nil, func(t *testing.T, p *toxicap.Player) {
		fmt.Fprint(connect(t, p), "?")
	}, ": connection 0: the client left ")
	late("http-late", nil, func(*testing.T, *toxicap.Player) {}, ": no client came (limit 4s)")
	late("sessions-untouched", nil, func(t *testing.T, p *toxicap.Player) {
		client := connect(t, p)
		fmt.Fprint(client, strings.Repeat("x", 14))
		read(t, client, 7, "+PONG\r\n")
		client.Close()
	}, ": 1 of 4 clients came (limit 4s)")
	late("http-down", nil, func(*testing.T, *toxicap.Player) {}, "")
}

// The limit is one for all steps: a client that is twice late by less than the limit ends the player.
func TestALimitOfAllSteps(t *testing.T) {
	ends(t, "sessions-untouched", []int{1}, func(p *toxicap.Player) { p.Limit = short }, func(p *toxicap.Player) {
		client := connect(t, p)
		time.Sleep(short * 5 / 8)
		fmt.Fprint(client, "one?")
		read(t, client, 1, "1")
		time.Sleep(short * 5 / 8)
		fmt.Fprint(client, "two?")
		read(t, client, 1, "")
	}, ": connection 1: the client sent 4 of 8 bytes (limit 4s)")
}

// It does not run while an answer waits for its time.
func TestALimitBelowADelay(t *testing.T) {
	ends(t, "sessions-late", []int{0}, func(p *toxicap.Player) { p.Limit, p.Factor = short/2, 10 }, func(p *toxicap.Player) {
		client := connect(t, p)
		fmt.Fprint(client, strings.Repeat("x", 14))
		read(t, client, 7, "+PONG\r\n")
		client.Close()
	}, "")
}

// A client that closes before it has sent what an answer waits for gets none, and is no fault.
func TestAClientThatGivesUp(t *testing.T) {
	ends(t, "sessions-untouched", []int{1}, func(p *toxicap.Player) {}, func(p *toxicap.Player) {
		client := connect(t, p)
		fmt.Fprint(client, "on")
		client.(*net.TCPConn).CloseWrite()
		read(t, client, 1, "")
	}, "")
}

// A client that has come counts, and so does what it sent, even if Close is called before Serve has taken it or has begun.
func TestACloseRightAfterAClient(t *testing.T) {
	const workers, rounds = 8, 100
	both, lost := outputs(t, "sessions-untouched"), make(chan string, workers*rounds)
	var all sync.WaitGroup
	for worker := 0; worker < workers; worker++ {
		all.Add(1)
		go func() {
			defer all.Done()
			for round := 0; round < rounds; round++ {
				player, err := toxicap.NewPlayer(both[0], both[1], 1)
				if err != nil {
					t.Error(err)
					return
				}
				go player.Serve(context.Background())
				client := connect(t, player)
				fmt.Fprint(client, "one?")
				client.Close()
				err = player.Close()
				if received := player.Received(); err != nil || string(bytes.Join(received, nil)) != "one?" {
					lost <- fmt.Sprintf("%v, %q", err, received)
				}
			}
		}()
	}
	all.Wait()
	if len(lost) > 0 {
		t.Errorf("%d of %d clients are lost: %s", len(lost), workers*rounds, <-lost)
	}
}

// The end of a context ends the player, which says so.
func TestContexts(t *testing.T) {
	for _, name := range []string{"sessions-untouched", "http-down"} {
		both := outputs(t, name)
		player, err := toxicap.NewPlayer(both[0], both[1])
		if err != nil {
			t.Fatal(err)
		}
		player.Limit = time.Hour
		ctx, end := context.WithTimeout(context.Background(), late)
		defer end()
		if err := player.Serve(ctx); !errors.Is(err, context.DeadlineExceeded) || player.Close().Error() != err.Error() {
			t.Errorf("%s: %v", name, err)
		}
	}
}

// A client that floods the player ends it.
func TestAFlood(t *testing.T) {
	ends(t, "sessions-untouched", []int{1}, func(p *toxicap.Player) {}, func(p *toxicap.Player) {
		client := connect(t, p)
		for more := make([]byte, 1<<20); ; {
			if _, err := client.Write(more); err != nil {
				break
			}
		}
		if count := len(p.Received()[0]); count > 2<<20 {
			t.Errorf("%d bytes were taken", count)
		}
	}, " bytes more than the recorded one")
}

// A listener that fails ends the player, which says so: here it is shut down beside the player.
func TestAListenerThatFails(t *testing.T) {
	ends(t, "sessions-untouched", []int{1}, func(*toxicap.Player) {}, func(p *toxicap.Player) {
		for descriptor := 0; descriptor < 1024; descriptor++ {
			name, _ := syscall.Getsockname(descriptor)
			if at, is := name.(*syscall.SockaddrInet4); is && at.Port == p.Port {
				syscall.Shutdown(descriptor, syscall.SHUT_RDWR)
			}
		}
	}, "accept tcp4 127.0.0.1:")
}

func TestSeveralClients(t *testing.T) {
	both := outputs(t, "sessions-untouched")
	player, err := toxicap.NewPlayer(both[0], both[1])
	if err != nil {
		t.Fatal(err)
	}
	player.Limit = time.Minute
	go player.Serve(context.Background())
	sent, expected := []string{"0123456789abcd", "one?two?", "sum", "bye"}, []string{"+PONG\r\n", "122333", "6", "hello"}
	clients := []net.Conn{}
	for range sent {
		clients = append(clients, connect(t, player))
	}
	for place := range sent {
		other := len(sent) - 1 - place
		fmt.Fprint(clients[other], sent[other])
		if other == 2 {
			clients[other].(*net.TCPConn).CloseWrite()
		}
		read(t, clients[other], len(expected[other]), expected[other])
	}
	if _, err := net.Dial("tcp", fmt.Sprintf("127.0.0.1:%d", player.Port)); !errors.Is(err, syscall.ECONNREFUSED) {
		t.Errorf("another client: %v", err)
	}
	if err := player.Close(); err != nil {
		t.Error(err)
	}
	for place, found := range player.Received() {
		if string(found) != sent[place] {
			t.Errorf("received %d: %q", place, found)
		}
	}
	if err := player.Serve(context.Background()); err == nil {
		t.Error("it serves twice")
	}
}

func TestSameRequests(t *testing.T) {
	same := func(p *toxicap.Player) { p.SameRequests = true }
	ends(t, "sessions-untouched", []int{1}, same, func(p *toxicap.Player) {
		client := connect(t, p)
		fmt.Fprint(client, "one?")
		read(t, client, 1, "1")
		client.Close()
	}, "")
	ends(t, "sessions-untouched", []int{3, 1}, same, func(p *toxicap.Player) {
		other, client := connect(t, p), connect(t, p)
		read(t, other, 5, "hello")
		fmt.Fprint(client, "one?")
		read(t, client, 1, "1")
		fmt.Fprint(client, "tw0?")
		read(t, client, 1, "")
		read(t, other, 1, "")
	}, `: connection 1: the client sent "0?" at byte 6, and the recorded one "o?"`)
	ends(t, "sessions-untouched", []int{2}, same, func(p *toxicap.Player) {
		fmt.Fprint(connect(t, p), "sums")
	}, `: connection 2: the client sent "s" at byte 3, and the recorded one ""`)
}

// apart plays slices of an answer of 216 bytes until the client gets each with a read of its own, in one play of a few on a busy machine.
func apart(t *testing.T, settings func(*toxicap.Player)) {
	t.Helper()
	for tries := 0; ; tries++ {
		chunks, expected := [][]byte{}, 0
		client := connect(t, play(t, "http-slices", 0, settings))
		fmt.Fprint(client, strings.Repeat("x", 82))
		for room := make([]byte, 65536); ; {
			length, err := client.Read(room)
			if err != nil {
				break
			}
			chunks = append(chunks, append([]byte{}, room[:length]...))
		}
		both := outputs(t, "http-slices")
		connections, err := toxicap.Delivered(both[0])
		if err != nil {
			t.Fatal(err)
		}
		same := len(chunks) == len(connections[0].Down.Chunks)
		for place := 0; same && place < len(chunks); place++ {
			same = bytes.Equal(chunks[place], connections[0].Down.Chunks[place].Bytes)
			expected++
		}
		if same && expected > 5 {
			return
		}
		if tries == 9 {
			t.Fatalf("%d chunks, and %d in the output", len(chunks), len(connections[0].Down.Chunks))
		}
	}
}

func TestSlicesApart(t *testing.T) {
	apart(t, nil)
	apart(t, func(p *toxicap.Player) { p.Factor, p.Gap = 0, 20*time.Millisecond })
}

// Each Close after the first leaves alone what has got the number of the socket by then, and a program that is started does not get the socket.
func TestAPortThatIsHeld(t *testing.T) {
	sockets := func() int {
		listed, err := exec.Command("ls", "-l", "/proc/self/fd").Output()
		if err != nil {
			t.Skip("there is no list of open files")
		}
		return bytes.Count(listed, []byte("socket:"))
	}
	both, before := outputs(t, "http-down"), sockets()
	var all sync.WaitGroup
	for worker := 0; worker < 8; worker++ {
		all.Add(1)
		go func() {
			defer all.Done()
			for round := 0; round < 100; round++ {
				player, err := toxicap.NewPlayer(both[0], both[1])
				if err != nil {
					t.Error(err)
					return
				}
				player.Close()
				reader, writer, err := os.Pipe()
				if err != nil {
					t.Error(err)
					return
				}
				player.Close()
				if _, err := writer.Write([]byte("x")); err != nil {
					t.Errorf("a file of another was closed: %v", err)
				}
				reader.Close()
				writer.Close()
			}
		}()
	}
	all.Wait()
	play(t, "http-down", 0, nil)
	if count := sockets(); count != before {
		t.Errorf("a program has %d sockets more", count-before)
	}
}
