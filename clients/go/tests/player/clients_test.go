// Real clients at players, over the folder of outputs that OUTPUTS names. Nothing waits longer than a minute; what has
// to come late is looked at for its least time alone.
package clients

import (
	"bytes"
	"context"
	"errors"
	"fmt"
	"io"
	"net"
	"net/http"
	"os"
	"path/filepath"
	"strings"
	"syscall"
	"testing"
	"time"

	"example.org/toxicap"
)

const (
	late  = 500 * time.Millisecond // in which nothing may come
	short = 4 * time.Second        // a limit that is waited for
)

func outputs(t *testing.T, name string) [2][]byte {
	t.Helper()
	both := [2][]byte{}
	for place, file := range []string{"0000.pcap", "0001.pcap"} {
		capture, err := os.ReadFile(filepath.Join(os.Getenv("OUTPUTS"), name, file))
		if err != nil {
			t.Fatal(err)
		}
		both[place] = capture
	}
	return both
}

// play serves a connection, as the settings change the player.
func play(t *testing.T, name string, connection int, settings func(*toxicap.Player)) *toxicap.Player {
	t.Helper()
	both := outputs(t, name)
	player, err := toxicap.NewPlayer(both[0], both[1], connection)
	if err != nil {
		t.Fatal(err)
	}
	player.Limit = time.Minute
	if settings != nil {
		settings(player)
	}
	go player.Serve(context.Background())
	t.Cleanup(func() { player.Close() })
	return player
}

func connect(t *testing.T, player *toxicap.Player) net.Conn {
	t.Helper()
	client, err := net.DialTimeout("tcp", fmt.Sprintf("127.0.0.1:%d", player.Port), time.Minute)
	if err != nil {
		t.Fatal(err)
	}
	client.SetDeadline(time.Now().Add(time.Minute))
	t.Cleanup(func() { client.Close() })
	return client
}

// read wants the client's next bytes; up to the end where more is asked for than comes.
func read(t *testing.T, client net.Conn, length int, expected string) {
	t.Helper()
	found := make([]byte, length)
	count, _ := io.ReadFull(client, found)
	if string(found[:count]) != expected {
		t.Errorf("expected: %q, found: %q", expected, found[:count])
	}
}

func nothingComes(t *testing.T, client net.Conn) {
	t.Helper()
	client.SetReadDeadline(time.Now().Add(late))
	if count, err := client.Read(make([]byte, 1)); count > 0 || !os.IsTimeout(err) {
		t.Errorf("%d bytes come, %v", count, err)
	}
	client.SetReadDeadline(time.Now().Add(time.Minute))
}

// get is what net/http makes of the answer; its request has 82 bytes as the recorded one, or more.
func get(t *testing.T, player *toxicap.Player) (string, error) {
	t.Helper()
	client := http.Client{Timeout: time.Minute, Transport: &http.Transport{DisableKeepAlives: true}}
	answer, err := client.Get(fmt.Sprintf("http://127.0.0.1:%d/hello.txt", player.Port))
	if err != nil {
		return "", err
	}
	defer answer.Body.Close()
	body, err := io.ReadAll(answer.Body)
	return string(body), err
}

func TestAnswers(t *testing.T) {
	for name, least := range map[string]time.Duration{"http-untouched": 0, "http-late": 300 * time.Millisecond} {
		begun := time.Now()
		if body, err := get(t, play(t, name, 0, nil)); err != nil || body != "Hello from the sample server.\n" {
			t.Errorf("%s: %v, %q", name, err, body)
		}
		if took := time.Since(begun); took < least {
			t.Errorf("%s took %v", name, took)
		}
	}
	if body, err := get(t, play(t, "http-in-a-year", 0, func(p *toxicap.Player) { p.Factor = 0 })); err != nil || len(body) != 30 {
		t.Errorf("at once: %v, %q", err, body)
	}
}

func TestPauses(t *testing.T) {
	for _, without := range []bool{false, true} {
		begun, least := time.Now(), 250*time.Millisecond
		if without {
			least /= 2
		}
		client := connect(t, play(t, "http-late-pauses", 0, func(p *toxicap.Player) { p.Factor, p.NoPauses = 0.5, without }))
		fmt.Fprint(client, "?")
		read(t, client, 2, "!")
		if took := time.Since(begun); took < least {
			t.Errorf("it took %v", took)
		}
	}
}

func TestFaultyAnswers(t *testing.T) {
	for name, expected := range map[string]error{"http-cut-body": io.ErrUnexpectedEOF, "http-closed": io.EOF, "http-reset": syscall.ECONNRESET,
		"http-down": syscall.ECONNREFUSED} {
		if body, err := get(t, play(t, name, 0, nil)); !errors.Is(err, expected) {
			t.Errorf("%s: %v, %q", name, err, body)
		}
	}
	client := connect(t, play(t, "http-silent", 0, nil))
	fmt.Fprint(client, strings.Repeat("x", 82))
	nothingComes(t, client)
}

func TestSessions(t *testing.T) {
	client := connect(t, play(t, "sessions-untouched", 1, nil))
	fmt.Fprint(client, "one")
	nothingComes(t, client)
	fmt.Fprint(client, "?")
	read(t, client, 1, "1")
	nothingComes(t, client)
	fmt.Fprint(client, "two?")
	read(t, client, 5, "22333")
	nothingComes(t, client)

	client = connect(t, play(t, "sessions-untouched", 2, nil))
	fmt.Fprint(client, "sum")
	nothingComes(t, client)
	client.(*net.TCPConn).CloseWrite()
	read(t, client, 2, "6")

	player := play(t, "sessions-untouched", 3, nil)
	client = connect(t, player)
	read(t, client, 5, "hello")
	if _, err := net.Dial("tcp", fmt.Sprintf("127.0.0.1:%d", player.Port)); !errors.Is(err, syscall.ECONNREFUSED) {
		t.Errorf("a second client: %v", err)
	}
	nothingComes(t, client)
	fmt.Fprint(client, "bye")
	read(t, client, 1, "")
}

func TestAnEndAtAnyTime(t *testing.T) {
	for _, name := range []string{"http-in-a-year", "http-late", "http-down", "much"} {
		both := outputs(t, name)
		player, err := toxicap.NewPlayer(both[0], both[1], 0)
		if err != nil {
			t.Fatal(err)
		}
		player.Limit = time.Hour
		done := make(chan struct{})
		go func() { player.Serve(context.Background()); close(done) }()
		if name == "http-in-a-year" || name == "much" {
			fmt.Fprint(connect(t, player), strings.Repeat("x", 82))
			time.Sleep(late)
		}
		player.Close()
		<-done
	}
}

func TestFaults(t *testing.T) {
	late, sessions := outputs(t, "http-late"), outputs(t, "sessions-late")
	for _, fault := range []struct {
		output, untouched []byte
		connection        int
		is                error
		expected          string
	}{{late[0], late[1], 1, toxicap.ErrNoConnection, "there is no connection 1: there are 0 (10.77.0.2:80)"},
		{sessions[0], sessions[1], -1, toxicap.ErrNoConnection,
			"there is no connection -1: there are 0 (10.0.0.2:6379), 1 (10.0.0.2:7001), 2 (10.0.0.2:7002), 3 (10.0.0.2:7003)"},
		{late[0], sessions[0], 0, toxicap.ErrOutputs, "the outputs are not of one capture (connections: 1 and 4)"},
		{late[0], nil, 0, toxicap.ErrNotOutput,
			"the untouched output: no output capture of toxicap: it has another file header (rehearse the recording under [], too)"}} {
		_, err := toxicap.NewPlayer(fault.output, fault.untouched, fault.connection)
		if !errors.Is(err, fault.is) || err.Error() != fault.expected {
			t.Errorf("expected: %s, found: %v", fault.expected, err)
		}
	}
}

func TestSwappedOutputs(t *testing.T) {
	for _, name := range []string{"http-late", "http-late-up", "http-cut", "http-reset", "http-closed", "http-silent-up", "http-down", "sessions-late",
		"sessions-cut"} {
		both := outputs(t, name)
		_, err := toxicap.NewPlayer(both[1], both[0], 0)
		if !errors.Is(err, toxicap.ErrSwapped) || !strings.HasPrefix(err.Error(), "connection 0 has more or earlier bytes in the first output: ") {
			t.Errorf("%s: %v", name, err)
		}
		play(t, name, 0, nil)
	}
}

// Connections that are refused and others do not go with one port, and an empty list is none.
func TestConnectionsThatDoNotGoTogether(t *testing.T) {
	shop := outputs(t, "shop-redis-down")
	if _, err := toxicap.NewPlayer(shop[0], shop[1]); err == nil || !strings.HasSuffix(err.Error(),
		" is not: one port cannot do both, name the connections of one server") {
		t.Error(err)
	}
	if _, err := toxicap.NewPlayer(shop[0], shop[1], []int{}...); err != toxicap.ErrNoConnection {
		t.Error(err)
	}
}

func TestALimitBelowTheClients(t *testing.T) {
	player := play(t, "http-silent", 0, func(p *toxicap.Player) { p.Limit = time.Second })
	client := connect(t, player)
	fmt.Fprint(client, strings.Repeat("x", 82))
	read(t, client, 1, "")
	if err := player.Close(); err == nil || !strings.HasSuffix(err.Error(), ": connection 0: the client did not close (limit 1s)") {
		t.Errorf("at the limit: %v", err)
	}

	player = play(t, "http-untouched", 0, nil)
	if body, err := get(t, player); err != nil || len(body) != 30 {
		t.Errorf("%v, %q", err, body)
	}
	if err := player.Close(); err != nil {
		t.Error(err)
	}
}

// The steps of all folders are those that the helper for Python has, in the file STEPS.
func TestSteps(t *testing.T) {
	expected, err := os.ReadFile(os.Getenv("STEPS"))
	if err != nil {
		t.Fatal(err)
	}
	found := bytes.Buffer{}
	for _, line := range strings.Split(string(expected), "\n") {
		if !strings.HasPrefix(line, "== ") {
			continue
		}
		fmt.Fprintln(&found, line)
		both := outputs(t, line[3:])
		connections, err := toxicap.Events(both[0])
		for connection := range connections {
			var steps []toxicap.Step
			if steps, err = toxicap.Steps(both[0], both[1], connection); err != nil {
				break
			}
			for _, step := range steps {
				closed := map[bool]string{false: "open", true: "closed"}[step.Closed]
				fmt.Fprintf(&found, "%d %d %s %d %d %x%s\n", connection, step.Need, closed, step.Pause, step.Delay, step.Bytes, step.End)
			}
		}
		if err != nil {
			t.Error(err)
		}
	}
	if !bytes.Equal(expected, found.Bytes()) {
		t.Errorf("other steps:\n%s", found.String())
	}
}
