package toxicap

import (
	"encoding/binary"
	"encoding/hex"
	"sort"
	"strconv"
	"strings"
)

const notSent = 1 << 63 // later than all times of a capture

// A loopRecording is the records of a capture that toxicap takes. A record's time is the greatest stamp from the first record to it.
type loopRecording struct {
	order                binary.ByteOrder
	second, tick, latest uint64
	head, rest           []byte
	records              [][]byte
	stamps, times        []uint64
}

func readLoopRecording(capture []byte) *loopRecording {
	if strings.IndexByte("0123456789abcdefABCDEF", capture[0]) >= 0 { // a dump
		digits := strings.NewReplacer(" ", "", "\t", "", "\r", "", "\n", "").Replace(string(capture))
		capture, _ = hex.DecodeString(digits)
	}
	r := &loopRecording{order: binary.LittleEndian, second: 1e6, head: capture[:24]}
	if capture[0]>>4 == 0xa {
		r.order = binary.BigEndian
	}
	if r.order.Uint32(capture) == 0xa1b23c4d {
		r.second = 1e9
	}
	r.tick, r.latest = 1e9/r.second, r.second<<32
	place, reached := 24, uint64(0)
	for place+16 <= len(capture) {
		end := place + 16 + int(r.order.Uint32(capture[place+8:]))
		if end > len(capture) {
			break
		}
		stamp := earlier(uint64(r.order.Uint32(capture[place:]))*r.second+uint64(r.order.Uint32(capture[place+4:])), r.latest)
		reached = later(reached, stamp)
		r.records, r.stamps, r.times = append(r.records, capture[place:end]), append(r.stamps, stamp), append(r.times, reached)
		place = end
	}
	r.rest = capture[place:]
	return r
}

// at gives the capture with other times, in order of time. A record that keeps its time keeps its stamp, unless another time would follow from it.
func (r *loopRecording) at(times []uint64) []byte {
	order := []int{}
	for number, time := range times {
		if time != notSent {
			order = append(order, number)
		}
	}
	sort.SliceStable(order, func(i, j int) bool { return times[order[i]] < times[order[j]] })
	text, reached := append([]byte{}, r.head...), uint64(0)
	for _, number := range order {
		start := len(text)
		text = append(text, r.records[number]...)
		time := times[number]
		if time != r.times[number] || time != later(r.stamps[number], reached) {
			seconds := earlier(time/r.second, 1<<32-1)
			r.order.PutUint32(text[start:], uint32(seconds))
			r.order.PutUint32(text[start+4:], uint32(time-seconds*r.second))
		}
		reached = time
	}
	return append(text, r.rest...)
}

func earlier(a, b uint64) uint64 {
	if a < b {
		return a
	}
	return b
}

func later(a, b uint64) uint64 { return a + b - earlier(a, b) }

// segmentOf gives pair, sender and flags of a frame, if toxicap takes it as a segment.
func segmentOf(frame []byte) (pair [3]string, sender string, flags byte, is bool) {
	link, big, vlan := 14, binary.BigEndian, ""
	if len(frame) >= 18 && frame[12] == 0x81 && frame[13] == 0 {
		link = 18
		if number := big.Uint16(frame[14:]) & 0xfff; number > 0 {
			vlan = strconv.Itoa(int(number))
		}
	}
	if len(frame) < link+20 || big.Uint16(frame[link-2:]) != 0x0800 {
		return
	}
	ip := frame[link:]
	start, total := int(ip[0]&15)*4, int(big.Uint16(ip[2:]))
	if ip[0]>>4 != 4 || start < 20 || total < start+20 || total > len(ip) || big.Uint16(ip[6:])&0x3fff != 0 || ip[9] != 6 {
		return
	}
	tcp := ip[start:total]
	sender, receiver := string(ip[12:16])+string(tcp[:2]), string(ip[16:20])+string(tcp[2:4])
	if offset := int(tcp[12]>>4) * 4; offset < 20 || offset > len(tcp) || sender == receiver {
		return
	}
	if pair = [3]string{sender, receiver, vlan}; receiver < sender {
		pair = [3]string{receiver, sender, vlan}
	}
	return pair, sender, tcp[13], true
}
