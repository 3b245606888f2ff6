package toxicap

import (
	"context"
	"net/http"
	"net/http/httptrace"
	"sync/atomic"
	"time"
)

// Transport gives what has an http.Client dial here. The deadline of each request, such as that of http.Client.Timeout, is one on the clock of its
// connection. An http.Transport of the client's own tells DialContext at most that of the request that dials.
func (d *Dialer) Transport() http.RoundTripper {
	return transport{&http.Transport{DialContext: d.DialContext}}
}

type transport struct{ *http.Transport }

// RoundTrip sets the deadline of a request when it has got its connection, and takes it back when that is idle.
func (t transport) RoundTrip(request *http.Request) (*http.Response, error) {
	at, isLimited := request.Context().Deadline()
	if !isLimited {
		return t.Transport.RoundTrip(request)
	}
	ctx, cancel := context.WithCancel(request.Context()) // which ends with that of the request, if not here
	late, conn := &lateContext{Context: ctx}, (*Conn)(nil)
	traced := httptrace.WithClientTrace(late, &httptrace.ClientTrace{
		GotConn: func(got httptrace.GotConnInfo) {
			if conn, _ = got.Conn.(*Conn); conn != nil {
				conn.setDeadlines(at, func() { atomic.StoreInt32(&late.is, 1); cancel() }, &conn.read, &conn.write)
			}
		},
		PutIdleConn: func(error) {
			if conn != nil {
				conn.SetDeadline(time.Time{})
			}
		},
	})
	answer, err := t.Transport.RoundTrip(request.WithContext(traced))
	if err != nil {
		cancel()
	}
	return answer, err
}

// A lateContext is that of a request whose deadline comes on the clock of its connection. It is done then, else net/http would try again.
type lateContext struct {
	context.Context
	is int32
}

// Err is context.DeadlineExceeded then.
func (l *lateContext) Err() error {
	if atomic.LoadInt32(&l.is) == 1 {
		return context.DeadlineExceeded
	}
	return l.Context.Err()
}
