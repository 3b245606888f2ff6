// Prints the events of output captures: dump CAPTURE.. See dump.py.
package main

import (
	"fmt"
	"os"
	"strings"

	"example.org/toxicap"
)

func dump(capture []byte) error {
	connections, err := toxicap.Events(capture)
	if err != nil {
		return err
	}
	for number, events := range connections {
		for _, event := range events {
			fmt.Printf("%d %d %s %x%s\n", number, event.Time, event.Direction, event.Bytes, event.End)
		}
	}
	delivered, err := toxicap.Delivered(capture)
	for number, of := range delivered {
		for way, line := range []toxicap.Line{of.Up, of.Down} {
			end, chunks := "open", []string{}
			if line.End != nil {
				end = fmt.Sprintf("%s+%d", line.End.End, line.End.Time)
			}
			for _, chunk := range line.Chunks {
				chunks = append(chunks, fmt.Sprintf("%d:%d", chunk.Time, len(chunk.Bytes)))
			}
			fmt.Printf("%d delivered %s %s %s\n", number, []string{"up", "down"}[way], end, strings.Join(chunks, " "))
		}
	}
	return err
}

func main() {
	for _, path := range os.Args[1:] {
		fmt.Println("==", path)
		capture, err := os.ReadFile(path)
		if err == nil {
			err = dump(capture)
		}
		if err != nil {
			fmt.Println(err)
		}
	}
}
