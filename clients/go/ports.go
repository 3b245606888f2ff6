//go:build !windows && !js

package toxicap

import (
	"io"
	"os"
	"syscall"
)

// hold takes a port of 127.0.0.1 at which nobody listens, until what it gives is closed.
func hold() (port int, held io.Closer, err error) {
	syscall.ForkLock.RLock() // no program that is started in between gets the socket
	socket, err := syscall.Socket(syscall.AF_INET, syscall.SOCK_STREAM, 0)
	if err == nil {
		syscall.CloseOnExec(socket)
	}
	syscall.ForkLock.RUnlock()
	if err != nil {
		return 0, nil, os.NewSyscallError("socket", err)
	}
	held = os.NewFile(uintptr(socket), "a port that is held") // closes it once
	if err = syscall.Bind(socket, &syscall.SockaddrInet4{Addr: [4]byte{127, 0, 0, 1}}); err == nil {
		var name syscall.Sockaddr
		if name, err = syscall.Getsockname(socket); err == nil {
			return name.(*syscall.SockaddrInet4).Port, held, nil
		}
	}
	held.Close()
	return 0, nil, os.NewSyscallError("bind", err)
}
