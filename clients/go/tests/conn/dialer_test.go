// Clients over Dialers: net/http, and such as read in a goroutine of their own.
package conn

import (
	"bufio"
	"bytes"
	"context"
	"errors"
	"fmt"
	"io"
	"log"
	"net"
	"net/http"
	"net/textproto"
	"os"
	"strings"
	"sync"
	"syscall"
	"testing"
	"time"

	"example.org/toxicap"
)

const longTime = time.Minute // in which each call that ends has ended

// dialer makes a Dialer of all connections of a capture under a scenario.
func dialer(t testing.TB, capture, scenario string) *toxicap.Dialer {
	t.Helper()
	outputs := rehearsed(t, capture, scenario)
	d, err := toxicap.NewDialer(outputs[0], outputs[1])
	if err != nil {
		t.Fatal(err)
	}
	return d
}

// dial opens the connection of a number.
func dial(t testing.TB, capture, scenario string, connection int) *toxicap.Conn {
	t.Helper()
	outputs := rehearsed(t, capture, scenario)
	d, err := toxicap.NewDialer(outputs[0], outputs[1], connection)
	if err != nil {
		t.Fatal(err)
	}
	c, err := d.Dial("tcp", "any.example:1")
	if err != nil {
		t.Fatal(err)
	}
	return c.(*toxicap.Conn)
}

// anyServer is a scenario in which all servers of the made captures have a toxic.
func anyServer(toxic string) string {
	proxies := []string{}
	for _, server := range []string{"10.0.0.2:80", "10.0.0.2:6379", "10.0.0.2:7001", "10.0.0.2:7002", "10.0.0.2:7003"} {
		proxies = append(proxies, fmt.Sprintf(`{"name":"%s","upstream":"%s","toxics":[%s]}`, server, server, toxic))
	}
	return "[" + strings.Join(proxies, ",") + "]"
}

// soon wants a call to end without a wait for a time of the capture.
func soon(t testing.TB, call func()) {
	t.Helper()
	done := make(chan struct{})
	go func() { defer close(done); call() }()
	select {
	case <-done:
	case <-time.After(longTime):
		t.Fatal("a call goes on")
	}
}

// get is what net/http makes of the answer of the sample.
func get(d *toxicap.Dialer) (string, error) {
	client := http.Client{Transport: d.Transport()}
	defer d.Close()
	answer, err := client.Get("http://any.example/hello.txt")
	if err != nil {
		return "", err
	}
	defer answer.Body.Close()
	body, err := io.ReadAll(answer.Body)
	return string(body), err
}

// quiet wants that nothing is logged, such as answers that come before their requests.
func quiet(t *testing.T) {
	logged := &bytes.Buffer{}
	log.SetOutput(logged)
	t.Cleanup(func() {
		log.SetOutput(os.Stderr)
		if logged.Len() > 0 {
			t.Errorf("logged: %s", logged)
		}
	})
}

func TestHTTP(t *testing.T) {
	quiet(t)
	for _, members := range []string{toxic("latency", `"latency":3000`), toxic("slicer", `"average_size":20,"delay":5000`),
		`"toxics":[{"type":"latency","stream":"upstream","attributes":{"latency":3000}}]`} {
		outputs := rehearsed(t, sample("http-get"), web(members))
		for round := 0; round < 200; round++ {
			d, err := toxicap.NewDialer(outputs[0], outputs[1])
			if err != nil {
				t.Fatal(err)
			}
			d.Joins = round%2 == 0
			if body, err := get(d); err != nil || body != "Hello from the sample server.\n" {
				t.Fatalf("%s: %q, %v", members, body, err)
			}
			if sent := string(d.Conns()[0].Written()); !strings.HasPrefix(sent, "GET /hello.txt HTTP/1.1\r\n") {
				t.Errorf("%q", sent)
			}
		}
	}
}

func TestHTTPFaults(t *testing.T) {
	quiet(t)
	for members, expected := range map[string]error{toxic("limit_data", `"bytes":200`): io.ErrUnexpectedEOF, toxic("timeout", `"timeout":250`): io.EOF,
		`"toxics":[{"type":"bandwidth","attributes":{"rate":1}},{"type":"reset_peer","attributes":{"timeout":205}}]`: syscall.ECONNRESET,
		`"enabled":false`: syscall.ECONNREFUSED, toxic("timeout", `"timeout":0`): toxicap.ErrStillOpen} {
		if body, err := get(dialer(t, sample("http-get"), web(members))); !errors.Is(err, expected) {
			t.Errorf("%s: %q, %v", members, body, err)
		}
	}
	d := dialer(t, sample("http-get"), web(toxic("latency", `"latency":3000`)))
	d.Timeout = 2 * time.Second
	_, err := get(d)
	var timeout net.Error
	if !errors.As(err, &timeout) || !timeout.Timeout() || d.Conns()[0].Now() != 2*time.Second {
		t.Errorf("%v, at %v", err, d.Conns()[0].Now())
	}
	if _, err := d.Dial("tcp", "any.example:80"); !errors.Is(err, syscall.ECONNREFUSED) || !strings.Contains(err.Error(), "there are 0 (10.77.0.2:80): ") {
		t.Errorf("a second connection: %v", err)
	}
}

// The timeout of an http.Client is one on the connection's clock, for each request anew, and so is the deadline of a context that dials.
func TestTimeouts(t *testing.T) {
	quiet(t)
	for _, row := range []struct {
		late, expected int
		isOwn          bool
	}{{600, 2, false}, {600, 2, true}, {3000, 0, false}} {
		d, count := dialer(t, os.Getenv("KEEP_ALIVE"), anyServer(fmt.Sprintf(`{"type":"latency","attributes":{"latency":%d}}`, row.late))), 0
		client := http.Client{Timeout: time.Second, Transport: d.Transport()}
		if row.isOwn {
			client.Transport = &http.Transport{DialContext: d.DialContext}
		}
		for ; count < 2; count++ {
			answer, err := client.Get("http://shop.test/" + string("ab"[count]))
			if err != nil {
				if !os.IsTimeout(err) {
					t.Error(err)
				}
				break
			}
			io.ReadAll(answer.Body)
			answer.Body.Close()
		}
		if count != row.expected || len(d.Conns()) != 1 || d.Conns()[0].Now() > 1600*time.Millisecond {
			t.Errorf("%d ms: %d answers, at %v", row.late, count, d.Conns()[0].Now())
		}
		d.Close()
	}
	d := dialer(t, os.Getenv("KEEP_ALIVE"), anyServer(`{"type":"latency","attributes":{"latency":600}}`))
	transport := d.Transport()
	for number, limit := range []time.Duration{0, 300 * time.Millisecond} {
		client := http.Client{Timeout: limit, Transport: transport}
		answer, err := client.Get("http://shop.test/" + string("ab"[number]))
		if os.IsTimeout(err) != (limit > 0) || len(d.Conns()) != 1 {
			t.Errorf("request %d: %v", number, err)
		} else if err == nil {
			io.ReadAll(answer.Body)
			answer.Body.Close()
		}
	}
	d = dialer(t, os.Getenv("SESSIONS"), anyServer(`{"type":"latency","attributes":{"latency":3000}}`))
	ctx, end := context.WithTimeout(context.Background(), time.Second)
	defer end()
	c, err := d.DialContext(ctx, "tcp", "10.0.0.2:7001")
	if err != nil {
		t.Fatal(err)
	}
	fmt.Fprint(c, "one?")
	if _, err := c.Read(make([]byte, 9)); !os.IsTimeout(err) {
		t.Errorf("under a context: %v", err)
	}
}

// The address of a recorded server opens its connections, by a name too, and another address the next one.
func TestAddresses(t *testing.T) {
	d := dialer(t, os.Getenv("SESSIONS"), "[]")
	d.Hosts = map[string]string{"db": "10.0.0.2"}
	for _, row := range []struct{ address, server string }{{"10.0.0.2:7003", "10.0.0.2:7003"}, {"any:1", "10.0.0.2:6379"}, {"db:7002", "10.0.0.2:7002"},
		{"db:7002", ""}, {"any:1", "10.0.0.2:7001"}, {"any:1", ""}} {
		c, err := d.Dial("tcp", row.address)
		if row.server == "" {
			const all = "there are 0 (10.0.0.2:6379), 1 (10.0.0.2:7001), 2 (10.0.0.2:7002), 3 (10.0.0.2:7003): connect: connection refused"
			if c != nil || !errors.Is(err, syscall.ECONNREFUSED) || !strings.HasSuffix(err.Error(), all) {
				t.Errorf("%s: %v", row.address, err)
			}
		} else if err != nil || c.RemoteAddr().String() != row.server || !strings.HasPrefix(c.LocalAddr().String(), "10.0.0.1:") {
			t.Errorf("%s: %v", row.address, err)
		}
	}
}

// The second answer on a connection waits for its request, however late that is.
func TestKeepAlive(t *testing.T) {
	quiet(t)
	d := dialer(t, os.Getenv("KEEP_ALIVE"), "[]")
	client := http.Client{Transport: d.Transport()}
	for _, name := range []string{"a", "b"} {
		answer, err := client.Get("http://shop.test/" + name)
		if err != nil {
			t.Fatal(err)
		}
		body, err := io.ReadAll(answer.Body)
		if answer.Body.Close(); err != nil || string(body) != name {
			t.Errorf("%q, %v", body, err)
		}
		time.Sleep(200 * time.Millisecond)
	}
	if count := len(d.Conns()); count != 1 {
		t.Errorf("%d connections", count)
	}
	client.CloseIdleConnections()
}

// A server that speaks first, a client that closes its side to ask, and one that reads on although the recorded one closed before the end.
func TestOtherSessions(t *testing.T) {
	sessions := os.Getenv("SESSIONS")
	c := textproto.NewConn(dial(t, sessions, "[]", 3))
	soon(t, func() {
		hello := make([]byte, 5)
		if _, err := io.ReadFull(c.R, hello); err != nil || string(hello) != "hello" {
			t.Errorf("%q, %v", hello, err)
		}
		fmt.Fprint(c.W, "bye")
		c.W.Flush()
		if _, err := c.R.ReadByte(); err != io.EOF {
			t.Error(err)
		}
	})
	half := dial(t, sessions, "[]", 2)
	fmt.Fprint(half, "sum")
	time.AfterFunc(10*time.Millisecond, func() { half.CloseWrite() })
	soon(t, func() {
		if answer, err := io.ReadAll(half); err != nil || string(answer) != "6" {
			t.Errorf("%q, %v", answer, err)
		}
	})
	whole := dial(t, sessions, "[]", 0)
	fmt.Fprint(whole, "*1\r\n$4\r\nPING\r\n")
	soon(t, func() {
		if line, err := bufio.NewReader(whole).ReadString('\n'); err != nil || line != "+PONG\r\n" {
			t.Errorf("%q, %v", line, err)
		}
		for _, expected := range []error{toxicap.ErrStillOpen, nil} {
			if rest, err := io.ReadAll(whole); err != expected || len(rest) > 0 {
				t.Errorf("%q, %v", rest, err)
			}
			whole.CloseWrite()
		}
	})
}

// All methods may be called at the same time, which the race detector looks at.
func TestManyAtOnce(t *testing.T) {
	c := dial(t, sample("http-get"), web(toxic("slicer", `"average_size":1,"delay":100`)), 0)
	var all sync.WaitGroup
	for _, call := range []func(){func() { c.Read(make([]byte, 1)) }, func() { c.Write([]byte("x")) }, func() { c.Now() }, func() { c.Written() },
		func() { c.SetDeadline(time.Now().Add(time.Hour)) }} {
		for worker := 0; worker < 2; worker++ {
			call := call
			all.Add(1)
			go func() {
				defer all.Done()
				for round := 0; round < 200; round++ {
					call()
				}
			}()
		}
	}
	time.AfterFunc(200*time.Millisecond, func() { c.Close() })
	soon(t, all.Wait)
}
