//go:build windows || js

package toxicap

import (
	"io"
	"net"
)

// hold gives a port of 127.0.0.1 at which nobody listens. Here it is not kept from others.
func hold() (port int, held io.Closer, err error) {
	listener, err := net.Listen("tcp4", "127.0.0.1:0")
	if err != nil {
		return 0, nil, err
	}
	return listener.Addr().(*net.TCPAddr).Port, listener, listener.Close()
}
