//go:build cgo && linux && amd64

package toxicap

/*
#include <toxicap.h>

static uint8_t lines(ToxicapInputs inputs, uint8_t *bytes, size_t bytes_room, ToxicapChunk *chunks, size_t chunks_room,
	ToxicapConnection *connections, size_t connections_room, ToxicapLinesSizes *sizes) {
	return toxicap_lines(&inputs, bytes, bytes_room, chunks, chunks_room, connections, connections_room, sizes);
}
*/
import "C"

import "time"

// Lines gives of each scenario what each connection delivered: what Delivered reads of the capture of Rehearse, without making one.
func Lines(capture []byte, scenarios [][]byte, hosts []byte, seed uint64) ([][]Delivery, error) {
	inputs, _, _ := inputsOf(capture, scenarios, hosts, seed)
	var text []byte
	var chunks []C.ToxicapChunk
	var connections []C.ToxicapConnection
	size := C.size_t(len(scenarios) * len(capture))
	// a first guess: a record takes 70 bytes of the capture, and a connection mostly four records
	sizes := C.ToxicapLinesSizes{bytes: size + 1024, chunks: size / 70, connections: size / 280}
	status := C.uint8_t(C.TOXICAP_NO_ROOM)
	for status == C.TOXICAP_NO_ROOM {
		text, chunks = make([]byte, sizes.bytes), make([]C.ToxicapChunk, sizes.chunks)
		connections = make([]C.ToxicapConnection, sizes.connections)
		status = C.lines(inputs, (*C.uint8_t)(ptr(text)), C.size_t(len(text)), ptr(chunks), C.size_t(len(chunks)), ptr(connections),
			C.size_t(len(connections)), &sizes)
	}
	if err := errorOf(status, text[:sizes.bytes]); err != nil {
		return nil, err
	}
	ends := []string{"", "fin", "fin", "reset", "refused"}
	line := func(way C.ToxicapDirection, direction string) (found Line) {
		from := C.uint64_t(0)
		for _, chunk := range chunks[:way.chunks] {
			found.Chunks = append(found.Chunks, Event{time.Duration(chunk.time), direction, text[from:chunk.end:chunk.end], ""})
			from = chunk.end
		}
		if way.end != C.TOXICAP_OPEN {
			found.End = &Event{time.Duration(way.end_time), direction, nil, ends[way.end]}
		}
		text, chunks = text[way.bytes:], chunks[way.chunks:]
		return found
	}
	peer := func(address C.uint32_t, port C.uint16_t) string {
		return addressOf(string([]byte{byte(address >> 24), byte(address >> 16), byte(address >> 8), byte(address), byte(port >> 8), byte(port)}))
	}
	found := make([][]Delivery, len(scenarios))
	for number := range found {
		count := int(sizes.connections) / len(scenarios)
		for _, of := range connections[number*count : (number+1)*count] {
			d := Delivery{Client: peer(of.client_address, of.client_port), Server: peer(of.server_address, of.server_port)}
			d.Up = line(of.up, "up")
			d.Down = line(of.down, "down")
			found[number] = append(found[number], d)
		}
	}
	return found, nil
}
