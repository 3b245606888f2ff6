package toxicap

import (
	"bytes"
	"errors"
	"fmt"
	"math"
	"sort"
	"time"
)

// The errors of two outputs that are no pair. No toxic makes a byte come earlier, or adds one.
var (
	ErrOutputs = errors.New("the outputs are not of one capture")
	ErrSwapped = errors.New("more or earlier bytes in the first output: the output under the scenario has to come first, the untouched one second")
)

// ErrNoConnection is the error for a number or an address of no connection.
var ErrNoConnection = errors.New("there is no connection")

// A Step is what a player does, and what it waits for.
type Step struct {
	Need   int           // how many bytes the recorded client had sent before it
	Closed bool          // whether that client had closed before it
	Pause  time.Duration // from the last of these to the recorded server's answer
	Delay  time.Duration // what the toxics added
	Bytes  []byte        // a chunk; nil at the end
	End    string        // "fin", "reset", "refused", or "" for a chunk
}

// Steps gives what a player does, in order. A chunk stands for the recorded one that has its last byte, an end for the first byte that no longer
// comes or for the recorded end. An end that a toxic made earlier than that stands for what was recorded last before it, of either side.
func Steps(output, untouched []byte, connection int) ([]Step, error) {
	here, there, err := both(output, untouched)
	if err != nil {
		return nil, err
	}
	if connection < 0 || connection >= len(here) {
		return nil, noConnection(connection, here)
	}
	return stepsOf(here[connection].Down, there[connection]), nil
}

// both gives the lines of each connection of two outputs, of which the second is the untouched one.
func both(output, untouched []byte) (here, there []Delivery, err error) {
	if here, err = Delivered(output); err != nil {
		return nil, nil, fmt.Errorf("the first output: %w (the program or Rehearse makes one of a recording)", err)
	}
	if there, err = Delivered(untouched); err != nil {
		return nil, nil, fmt.Errorf("the untouched output: %w (rehearse the recording under [], too)", err)
	}
	if len(here) != len(there) {
		return nil, nil, fmt.Errorf("%w (connections: %d and %d)", ErrOutputs, len(here), len(there))
	}
	for number := range here {
		err := inOrder(here[number].Up, there[number].Up)
		if err == nil {
			err = inOrder(here[number].Down, there[number].Down)
		}
		if err == ErrSwapped {
			err = fmt.Errorf("connection %d has %w", number, err)
		}
		if err != nil {
			return nil, nil, err
		}
	}
	return here, there, nil
}

// stepsOf gives the steps of a connection, of which the server's line and the recorded lines are known.
func stepsOf(down Line, there Delivery) []Step {
	r, steps, place := recordingOf(there), []Step{}, 0
	for _, chunk := range down.Chunks {
		place += len(chunk.Bytes)
		steps = append(steps, r.step(r.answeredAt(place-1), chunk))
	}
	if down.End != nil {
		recordedAt := r.answeredAt(place)
		if recordedAt > down.End.Time {
			recordedAt = r.lastBefore(down.End.Time)
		}
		steps = append(steps, r.step(recordedAt, *down.End))
	}
	return steps
}

// inOrder gives an error if a line has a byte earlier than the recorded one, or more, or others.
func inOrder(line, recorded Line) error {
	sent, all := whole(line), whole(recorded)
	if !bytes.HasPrefix(all, sent) && !bytes.HasPrefix(sent, all) {
		return ErrOutputs
	}
	if len(sent) > len(all) {
		return ErrSwapped
	}
	place, known, next := 0, 0, 0
	for _, chunk := range line.Chunks {
		place += len(chunk.Bytes)
		for ; known < place; next++ {
			known += len(recorded.Chunks[next].Bytes)
		}
		if chunk.Time < recorded.Chunks[next-1].Time {
			return ErrSwapped
		}
	}
	return nil
}

// noConnection is the error for a number, which names the connections that there are.
func noConnection(number int, all []Delivery) error {
	return fmt.Errorf("%w %d: there are %s", ErrNoConnection, number, servers(all))
}

// whole gives the bytes of a line.
func whole(line Line) (all []byte) {
	for _, chunk := range line.Chunks {
		all = append(all, chunk.Bytes...)
	}
	return all
}

// A recording is a connection's recorded lines, and how many bytes each has up to the end of each chunk.
type recording struct {
	lines [2]Line
	ends  [2][]int
}

func recordingOf(there Delivery) recording {
	r := recording{lines: [2]Line{there.Up, there.Down}}
	for side, line := range r.lines {
		end := 0
		for _, chunk := range line.Chunks {
			end += len(chunk.Bytes)
			r.ends[side] = append(r.ends[side], end)
		}
	}
	return r
}

// answeredAt is when the server's byte at a place was recorded, or the end after its last byte.
func (r recording) answeredAt(place int) time.Duration {
	down := r.lines[1]
	if number := sort.SearchInts(r.ends[1], place+1); number < len(down.Chunks) {
		return down.Chunks[number].Time
	}
	if down.End != nil {
		return down.End.Time
	}
	return math.MaxInt64
}

// until is how many chunks of a side were recorded up to an instant.
func (r recording) until(side int, instant time.Duration) int {
	chunks := r.lines[side].Chunks
	return sort.Search(len(chunks), func(number int) bool { return chunks[number].Time > instant })
}

// lastBefore is when the last chunk was recorded that is not later than an instant, or the opening.
func (r recording) lastBefore(instant time.Duration) (last time.Duration) {
	for side, line := range r.lines {
		if count := r.until(side, instant); count > 0 && line.Chunks[count-1].Time > last {
			last = line.Chunks[count-1].Time
		}
	}
	return last
}

// step is the step of an event that stands for what was recorded at an instant.
func (r recording) step(recordedAt time.Duration, event Event) Step {
	step, last, up := Step{Bytes: event.Bytes, End: event.End, Delay: event.Time - recordedAt}, time.Duration(0), r.lines[0]
	if count := r.until(0, recordedAt); count > 0 {
		step.Need, last = r.ends[0][count-1], up.Chunks[count-1].Time
	}
	if up.End != nil && up.End.End == "fin" && up.End.Time < recordedAt {
		step.Closed, last = true, up.End.Time
	}
	step.Pause = recordedAt - last
	return step
}
