package toxicap

import (
	"encoding/binary"
	"errors"
	"fmt"
	"net/netip"
	"time"
)

// ErrNotOutput is the error for a capture that toxicap did not write, such as a recording.
var ErrNotOutput = errors.New("no output capture of toxicap")

// An Event is what comes at an instant in one direction of a connection.
type Event struct {
	Time      time.Duration // since the opening, in nanoseconds, also where the capture counts microseconds
	Direction string        // "up" for what the client sent, "down" for what the server sent
	Bytes     []byte        // a chunk; nil where the direction ends
	End       string        // "fin" (a FIN or a close in the report), "reset", "refused" in both directions, or "" for a chunk
}

// A Line is what one direction of a connection delivered: its chunks, and its end, nil without one.
type Line struct {
	Chunks []Event
	End    *Event
}

// A Delivery is what a connection delivered: up what the client sent, down what the server sent.
type Delivery struct {
	Client, Server string // such as "10.77.0.1:43022"
	Up, Down       Line
}

const (
	fin, syn, rst, psh, ack = 1, 2, 4, 8, 16
	longestPiece            = 1460
	fileHeader              = "\x02\x00\x04\x00\x00\x00\x00\x00\x00\x00\x00\x00\xff\xff\x00\x00\x01\x00\x00\x00" // after the magic number
)

type record struct {
	time     time.Duration
	pair     [3]string // VLAN, sender, receiver
	seq, ack uint32
	flags    byte
	payload  []byte
}

// A connection while it is read; arrays have the client's before the server's.
type connection struct {
	opened time.Duration
	pairs  [2][3]string
	next   [2]uint32
	last   time.Duration // when its last record came
	before [2]uint32     // what was next before that instant
	ended  [2]bool
	begun  [2][]byte
	events []Event
}

// What the next record of a side has.
type awaited struct {
	pair [3]string
	seq  uint32
}

// A side of a connection: 0 is the client's.
type side struct {
	of     *connection
	number int
}

// The sides that have not ended.
type waiting map[awaited][]side

// Events gives the events of each connection of an output capture, in order of time, connections in the order of the report's lines. An output
// capture has its segments in order, without repeats and gaps, so nothing is reassembled. A capture that toxicap did not write (a recording, pcapng,
// an output that was cut or put in another order) is refused: the error tells why, and the number of the record, from 0. Checksums are not looked
// at. Connections of the same ports, of which one begins before another ends, may be taken for one another if all their numbers are equal.
func Events(capture []byte) ([][]Event, error) {
	connections, err := connectionsOf(capture)
	events := make([][]Event, len(connections))
	for number, c := range connections {
		events[number] = c.events
	}
	return events, err
}

// connectionsOf reads the connections of an output capture.
func connectionsOf(capture []byte) (connections []*connection, err error) {
	found, err := records(capture)
	sides := waiting{}
	for number := 0; err == nil && number < len(found); {
		r, length := found[number], 1
		if r.flags == syn && len(r.payload) == 0 {
			var begun *connection
			if begun, length = opening(found[number:]); begun == nil {
				return nil, notOutput(number, "no opening follows its SYN")
			}
			connections = append(connections, begun)
			sides.add(side{begun, 0})
			sides.add(side{begun, 1})
		} else {
			err = sides.goOn(number, r)
		}
		number += length
	}
	for _, c := range connections {
		if err == nil && len(c.begun[0])+len(c.begun[1]) > 0 {
			err = notOutput(len(found), "the end is missing")
		}
	}
	if err != nil {
		return nil, err
	}
	return connections, nil
}

// Delivered gives the same by direction.
func Delivered(capture []byte) ([]Delivery, error) {
	connections, err := connectionsOf(capture)
	deliveries := make([]Delivery, len(connections))
	for number, c := range connections {
		d := &deliveries[number]
		d.Client, d.Server = addressOf(c.pairs[0][1]), addressOf(c.pairs[0][2])
		for place, event := range c.events {
			line := &d.Up
			if event.Direction == "down" {
				line = &d.Down
			}
			if event.End == "" {
				line.Chunks = append(line.Chunks, event)
			} else {
				line.End = &c.events[place]
			}
		}
	}
	return deliveries, err
}

// addressOf gives the text of four bytes of an address and two of a port.
func addressOf(bytes string) string {
	addr := netip.AddrFrom4([4]byte{bytes[0], bytes[1], bytes[2], bytes[3]})
	return netip.AddrPortFrom(addr, uint16(bytes[4])<<8|uint16(bytes[5])).String()
}

func notOutput(number int, why string) error {
	return fmt.Errorf("%w: record %d: %s", ErrNotOutput, number, why)
}

// records gives the records of an output capture, each checked alone.
func records(capture []byte) ([]record, error) {
	tick := map[string]uint64{"\xd4\xc3\xb2\xa1": 1000, "\x4d\x3c\xb2\xa1": 1}
	if len(capture) < 24 || tick[string(capture[:4])] == 0 || string(capture[4:24]) != fileHeader {
		return nil, fmt.Errorf("%w: it has another file header", ErrNotOutput)
	}
	found, little, one := []record{}, binary.LittleEndian, tick[string(capture[:4])]
	for place := 24; place < len(capture); {
		var frame []byte
		if place+16 <= len(capture) {
			held := little.Uint32(capture[place+8:])
			if held == little.Uint32(capture[place+12:]) && uint64(held) <= uint64(len(capture)-place-16) {
				frame = capture[place+16 : place+16+int(held)]
			}
		}
		r, why := read(frame)
		if why == "" {
			parts := uint64(little.Uint32(capture[place+4:])) * one
			r.time = time.Duration(uint64(little.Uint32(capture[place:]))*1e9 + parts)
			if parts >= 1e9 || len(found) > 0 && r.time < found[len(found)-1].time {
				why = "its time is none, or falls back"
			}
		}
		if why != "" {
			return nil, notOutput(len(found), why)
		}
		found, place = append(found, r), place+16+len(frame)
	}
	return found, nil
}

// read reads a frame; its second answer tells why there is none that toxicap wrote.
func read(frame []byte) (r record, why string) {
	link, big := 14, binary.BigEndian
	if len(frame) >= 14 && frame[12] == 0x81 && frame[13] == 0 {
		link = 18
	}
	if len(frame) < link+40 {
		return r, "it is cut, or no TCP segment"
	}
	ip, tcp := frame[link:], frame[link+20:]
	fixed := [8]uint16{big.Uint16(frame[link-2:]), big.Uint16(ip), big.Uint16(ip[4:]), big.Uint16(ip[6:]), big.Uint16(ip[8:]), uint16(tcp[12]),
		big.Uint16(tcp[14:]), big.Uint16(tcp[18:])}
	if fixed != [8]uint16{0x0800, 0x4500, 0, 0x4000, 0x4006, 0x50, 0xffff, 0} || int(big.Uint16(ip[2:])) != len(ip) {
		return r, "its headers are another's"
	}
	sender, receiver := string(ip[12:16])+string(tcp[:2]), string(ip[16:20])+string(tcp[2:4])
	r.pair = [3]string{string(frame[12 : link-2]), sender, receiver}
	r.seq, r.ack, r.flags, r.payload = big.Uint32(tcp[4:]), big.Uint32(tcp[8:]), tcp[13], tcp[20:]
	return r, ""
}

// opening gives the connection that the first record begins, by a SYN, and how many records its opening has; nil where toxicap writes none such.
func opening(found []record) (*connection, int) {
	begin := found[0]
	is := func(place int, pair [3]string, seq, acked uint32, flags byte) bool {
		if place >= len(found) {
			return false
		}
		r := found[place]
		return r.time == begin.time && r.pair == pair && r.seq == seq && r.ack == acked && r.flags == flags && len(r.payload) == 0
	}
	back := [3]string{begin.pair[0], begin.pair[2], begin.pair[1]}
	pairs := [2][3]string{begin.pair, back}
	if is(1, back, 0, begin.seq+1, rst|ack) {
		return &connection{pairs: pairs, ended: [2]bool{true, true}, events: []Event{{0, "up", nil, "refused"}, {0, "down", nil, "refused"}}}, 2
	}
	if len(found) < 3 || !is(1, back, found[1].seq, begin.seq+1, syn|ack) || !is(2, begin.pair, begin.seq+1, found[1].seq+1, ack) {
		return nil, 0
	}
	next := [2]uint32{begin.seq + 1, found[1].seq + 1}
	return &connection{opened: begin.time, pairs: pairs, next: next, last: begin.time, before: next}, 3
}

// add adds a side, unless it has ended.
func (sides waiting) add(s side) {
	if !s.of.ended[s.number] {
		what := awaited{s.of.pairs[s.number], s.of.next[s.number]}
		sides[what] = append(sides[what], s)
	}
}

// goOn takes a record to the side that awaits it as it is. Where several do, connections of the same ports have the same numbers and have got equally
// far, and nothing tells which it is: then the one that got there last.
func (sides waiting) goOn(number int, r record) error {
	what := awaited{r.pair, r.seq}
	all := sides[what]
	place := len(all) - 1
	for place >= 0 && all[place].of.heard(1-all[place].number, r.time) != r.ack {
		place--
	}
	if place < 0 {
		return notOutput(number, "0 connections go on with it")
	}
	found := all[place]
	if sides[what] = append(all[:place], all[place+1:]...); len(all) == 1 {
		delete(sides, what)
	}
	if !found.of.take(found.number, r) {
		return notOutput(number, "toxicap writes no such segment")
	}
	sides.add(found)
	return nil
}

// heard gives the number that is acknowledged of a side at an instant: the next one after what came before it.
func (c *connection) heard(side int, now time.Duration) uint32 {
	if c.last < now {
		return c.next[side]
	}
	return c.before[side]
}

// take takes a record of this connection; false where toxicap writes none such. The pieces of a chunk are joined up to its PSH.
func (c *connection) take(side int, r record) bool {
	length := uint32(len(r.payload))
	event := Event{Time: r.time - c.opened, Direction: []string{"up", "down"}[side]}
	ends := map[byte]string{fin | ack: "fin", rst | ack: "reset"}
	switch {
	case ends[r.flags] != "" && length == 0 && c.begun[side] == nil:
		event.End, c.ended[side], length = ends[r.flags], true, 1
		c.events = append(c.events, event)
	case r.flags == psh|ack && length > 0 && length <= longestPiece || r.flags == ack && length == longestPiece:
		c.begun[side] = append(c.begun[side], r.payload...)
		if r.flags == psh|ack {
			event.Bytes, c.begun[side] = c.begun[side], nil
			c.events = append(c.events, event)
		}
	default:
		return false
	}
	if c.last < r.time {
		c.last, c.before = r.time, c.next
	}
	c.next[side] += length
	return true
}
