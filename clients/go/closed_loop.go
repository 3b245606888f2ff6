package toxicap

import (
	"context"
	"errors"
	"regexp"
	"sort"
	"strconv"
	"time"
)

// A Loop is what ClosedLoop gives.
type Loop struct {
	Recording         []byte // the capture that would have been recorded, in the form of the one that came in
	Output, Untouched Output // its rehearsal under the scenario, and under []: together what a player takes
	Rounds            int    // how many rounds it took
}

// MostRounds is how many rounds ClosedLoop may take.
const MostRounds = 10000

// ErrUnsettled is the error if a packet still moves after MostRounds rounds.
var ErrUnsettled = errors.New("the closed loop: a packet still moves after " + strconv.Itoa(MostRounds) + " rounds")

const (
	flagSyn   = 2
	flagReset = 4
)

var endsOf = regexp.MustCompile(`(?m) up \S+ ([a-z]+)\+?(\d*) max \d+ down \S+ ([a-z]+)\+?(\d*) max \d+$`) // in a connection's line of a report

// A pausing is a packet of a connection and what it waits for: packets by the numbers of their records. If there is none such, the opening stands
// for it.
type pausing struct {
	number int
	side   int    // 0: the client's
	own    int    // the packet before it of its side
	apart  uint64 // 0 if that one has the same recorded time, else 1: how many ticks it is later at least
	reset  int    // the connection's first reset before it
	count  int    // how many bytes of the other side had come
	source int    // what brought the last of them
	pause  uint64 // ticks from the last of these to it
}

// What one direction brought: how many bytes up to each chunk's end, with a FIN as one more, and when, in ticks since the opening.
type brought struct {
	counts []int
	times  []uint64
}

// timeOf gives when this number of bytes had come.
func (b brought) timeOf(count int) uint64 {
	if place := sort.SearchInts(b.counts, count); place < len(b.times) {
		return b.times[place]
	}
	return notSent
}

// A loopSession is a connection of a recording, its packets in the order of the file.
type loopSession struct {
	of      *loopRecording
	begin   int
	client  string
	before  *loopSession // the one before it on the same ports
	sources [2]brought
	last    [2]int
	reset   int
	packets []pausing
	heard   [2]brought // what the last rehearsal brought
	late    [2]uint64  // how long the last byte of each direction took
	cut     uint64     // when a close, a reset or a refusal came, in ticks since the opening
}

// add adds its next packet of the file.
func (s *loopSession) add(number, side int, flags byte) {
	p := pausing{number: number, side: side, own: s.last[side], reset: s.begin, source: s.begin}
	if s.reset < number {
		p.reset = s.reset
	} else if flags&flagReset != 0 {
		s.reset = number
	}
	peer, times := s.sources[1-side], s.of.times
	if times[number] > times[p.own] {
		p.apart = 1
	}
	came := sort.Search(len(peer.times), func(place int) bool { return peer.times[place] >= uint64(number) })
	if came > 0 && (p.apart == 1 || p.own == s.begin) {
		p.count, p.source = peer.counts[came-1], int(peer.times[came-1])
	}
	p.pause = times[number] - later(times[p.own], later(times[p.reset], times[p.source]))
	s.packets, s.last[side] = append(s.packets, p), number
}

// hear takes what a rehearsal with these times brought.
func (s *loopSession) hear(found loopOutcome, times []uint64) {
	s.heard, s.cut = found.lines, found.cut
	for side, line := range found.lines {
		if last := len(line.times) - 1; last >= 0 {
			sent := s.sources[side]
			place := sort.SearchInts(sent.counts, line.counts[last])
			if place < len(sent.times) { // else bytes past a FIN that was not sent
				s.late[side] = times[s.begin] + line.times[last] - times[sent.times[place]]
			}
		}
	}
}

// opening gives when it opens.
func (s *loopSession) opening(times []uint64) uint64 {
	begin := s.of.times[s.begin]
	if s.before == nil {
		return begin
	}
	last, ended := times[s.before.begin], s.before.last[0]
	if s.before.last[1] > ended {
		ended = s.before.last[1]
	}
	for _, packet := range s.before.packets {
		if time := times[packet.number]; time != notSent {
			last = later(last, time)
		}
	}
	return later(begin, last+begin-s.of.times[ended])
}

// move gives its packets new times, by what the rehearsal with the old ones delivered; whether one has changed.
func (s *loopSession) move(times []uint64, opening uint64) bool {
	moved := times[s.begin] != opening
	after := map[int]uint64{s.begin: opening}
	for _, p := range s.packets {
		after[p.number] = s.timeOf(p, times, after)
		moved = moved || after[p.number] != times[p.number]
	}
	for number, time := range after {
		times[number] = time
	}
	return moved
}

// timeOf gives when a packet is sent. A byte comes as much later than in the rehearsal as what brings it is sent later; if the rehearsal did not have
// that, the byte takes as long as the last one that came.
func (s *loopSession) timeOf(p pausing, times []uint64, after map[int]uint64) uint64 {
	opening, peer, came, latest := after[s.begin], 1-p.side, uint64(0), s.of.latest
	if p.count > 0 && times[p.source] == notSent {
		came = after[p.source] + s.late[peer]
	} else if p.count > 0 {
		if came = s.heard[peer].timeOf(p.count); came != notSent {
			came += times[s.begin] + after[p.source] - times[p.source]
		}
	}
	time := later(later(after[p.own], later(after[p.reset], came))+p.pause, after[p.own]+p.apart)
	if isAnswer := p.side == 1 && p.own == s.begin; p.number <= s.reset && !isAnswer { // an answer to the opening comes at any rate
		latest = earlier(latest, opening+s.cut)
	}
	if time > latest {
		return notSent
	}
	return time
}

// What a connection of an output brought in both directions, and when a close, a reset or a refusal came.
type loopOutcome struct {
	lines [2]brought
	cut   uint64
}

func outcomes(output Output, tick uint64) ([]loopOutcome, error) {
	lines, err := Delivered(output.Capture)
	ends := endsOf.FindAllSubmatch(output.Report, -1)
	found := make([]loopOutcome, len(lines))
	for number := range lines {
		found[number].cut = notSent
		for side, line := range []Line{lines[number].Up, lines[number].Down} {
			b, count := &found[number].lines[side], 0
			for _, chunk := range line.Chunks {
				count += len(chunk.Bytes)
				b.counts, b.times = append(b.counts, count), append(b.times, uint64(chunk.Time/time.Nanosecond)/tick)
			}
			at, _ := strconv.ParseUint(string(ends[number][2+2*side]), 10, 64)
			switch string(ends[number][1+2*side]) {
			case "fin":
				b.counts, b.times = append(b.counts, count+1), append(b.times, at)
			case "close", "reset", "refused":
				found[number].cut = earlier(found[number].cut, at)
			}
		}
	}
	return found, err
}

// sessions gives the connections of a recording, as toxicap numbers them. It rehearses the records with their numbers for times: so each connection
// opens at the number of its first record, and a byte comes at the number of the record that brings it.
func (r *loopRecording) sessions() ([]*loopSession, error) {
	numbers := make([]uint64, len(r.records))
	for number := range numbers {
		numbers[number] = uint64(number)
	}
	numbered, err := Rehearse(r.at(numbers), [][]byte{[]byte("[]")}, nil, 0)
	if err != nil {
		return nil, err
	}
	begun, err := outcomes(numbered[0], r.tick)
	if err != nil {
		return nil, err
	}
	written, begins := readLoopRecording(numbered[0].Capture), map[int]loopOutcome{}
	for number, record := range written.records {
		if _, _, flags, _ := segmentOf(record[16:]); flags == flagSyn {
			begins[int(written.times[number])] = begun[len(begins)]
		}
	}
	found, last := []*loopSession{}, map[[3]string]*loopSession{}
	for number, record := range r.records {
		pair, sender, flags, is := segmentOf(record[16:])
		if first, begins := begins[number]; begins {
			last[pair] = r.newSession(number, sender, last[pair], first.lines)
			found = append(found, last[pair])
		} else if s := last[pair]; is && s != nil {
			side := 0
			if sender != s.client {
				side = 1
			}
			s.add(number, side, flags)
		}
	}
	return found, nil
}

func (r *loopRecording) newSession(begin int, client string, before *loopSession, lines [2]brought) *loopSession {
	s := &loopSession{of: r, begin: begin, client: client, before: before, last: [2]int{begin, begin}, reset: len(r.records), cut: notSent}
	for side, line := range lines {
		s.sources[side].counts = line.counts
		for _, at := range line.times {
			s.sources[side].times = append(s.sources[side].times, uint64(begin)+at)
		}
	}
	return s
}

// ClosedLoop gives what a client and a server who wait for one another would have done under a scenario; its page is docs/use/closed-loop.md. Capture,
// scenario, hosts, seed and errors are those of Rehearse; ErrUnsettled is one more, and the end of the context another. Equal arguments give equal
// bytes, those of the function in Python.
func ClosedLoop(ctx context.Context, capture, scenario, hosts []byte, seed uint64) (Loop, error) {
	outputs, err := Rehearse(capture, [][]byte{scenario}, hosts, seed)
	if err != nil {
		return Loop{}, err
	}
	r := readLoopRecording(capture)
	sessions, err := r.sessions()
	times, moved := append([]uint64{}, r.times...), map[*loopSession]bool{}
	for _, s := range sessions {
		moved[s] = true
	}
	for round := 1; round <= MostRounds && err == nil; round++ {
		if err = ctx.Err(); err != nil {
			break
		}
		if moved, err = moveAll(sessions, moved, times, outputs[0]); err != nil {
			break
		}
		if len(moved) == 0 {
			whole := r.at(times)
			if outputs, err = Rehearse(whole, [][]byte{scenario, []byte("[]")}, hosts, seed); err == nil {
				return Loop{whole, outputs[0], outputs[1], round}, nil
			}
			break
		}
		outputs, err = Rehearse(r.at(kept(sessions, moved, times)), [][]byte{scenario}, hosts, seed)
	}
	if err == nil {
		err = ErrUnsettled
	}
	return Loop{}, err
}

// moveAll moves the packets of the connections that an output has, and of those that open at another time for it; it gives those that moved.
func moveAll(sessions []*loopSession, rehearsed map[*loopSession]bool, times []uint64, output Output) (map[*loopSession]bool, error) {
	moved, opening := map[*loopSession]bool{}, uint64(0)
	if len(sessions) == 0 {
		return moved, nil
	}
	heard, err := outcomes(output, sessions[0].of.tick)
	for number, s := range sessions {
		if rehearsed[s] && number < len(heard) {
			s.hear(heard[number], times)
		}
		opening = earlier(later(opening, s.opening(times)), s.of.latest)
		if (rehearsed[s] || times[s.begin] != opening) && s.move(times, opening) {
			moved[s] = true
		}
	}
	return moved, err
}

// kept gives the times of the connections that moved, and of the openings of all others, so that all keep their numbers.
func kept(sessions []*loopSession, moved map[*loopSession]bool, times []uint64) []uint64 {
	found := make([]uint64, len(times))
	for number := range found {
		found[number] = notSent
	}
	for _, s := range sessions {
		found[s.begin] = times[s.begin]
		for _, p := range s.packets {
			if moved[s] || p.own == s.begin {
				found[p.number] = times[p.number]
			}
		}
	}
	return found
}
