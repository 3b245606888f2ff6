// Command rehearse rehearses a capture under scenarios in this process, and stores what `toxicap --out .` does:
//
//	rehearse CAPTURE SCENARIO..
//
// HOSTS of the environment has lines NAME=ADDR. To build it, CGO_CFLAGS says -I and the folder of toxicap.h, CGO_LDFLAGS -L and that of libtoxicap.a.
package main

import (
	"errors"
	"fmt"
	"os"

	"example.org/toxicap"
)

func main() {
	if len(os.Args) < 3 {
		stopOn(errors.New("usage: rehearse CAPTURE SCENARIO.."), 2)
	}
	texts := make([][]byte, len(os.Args)-1)
	for i, path := range os.Args[1:] {
		text, err := os.ReadFile(path)
		stopOn(err, 2)
		texts[i] = text
	}
	outputs, err := toxicap.Rehearse(texts[0], texts[1:], []byte(os.Getenv("HOSTS")), 0)
	if refusal := (*toxicap.Refusal)(nil); errors.As(err, &refusal) {
		err = errors.New(refusal.Line())
	}
	stopOn(err, 1)
	for i, output := range outputs {
		stopOn(os.WriteFile(fmt.Sprintf("%04d.pcap", i), output.Capture, 0o666), 2)
		stopOn(os.WriteFile(fmt.Sprintf("%04d.txt", i), output.Report, 0o666), 2)
	}
}

// stopOn tells an error and ends the command with this status, where there is one.
func stopOn(err error, status int) {
	if err != nil {
		fmt.Fprintln(os.Stderr, err)
		os.Exit(status)
	}
}
