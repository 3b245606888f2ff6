//go:build cgo && linux && amd64

package toxicap

/*
#cgo CFLAGS: -I${SRCDIR}
#cgo LDFLAGS: -L${SRCDIR} -l:libtoxicap.a
#include <toxicap.h>

// Inputs come by value: a struct in Go's memory that holds addresses of more of it must not be lent to C.
static uint8_t rehearse(ToxicapInputs inputs, uint8_t *captures, size_t captures_room, uint8_t *reports, size_t reports_room,
	size_t *lens, size_t lens_room, ToxicapSizes *sizes) {
	return toxicap_rehearse(&inputs, captures, captures_room, reports, reports_room, lens, lens_room, sizes);
}

static uint8_t only_reports(ToxicapInputs inputs, uint8_t *reports, size_t reports_room, ToxicapSizes *sizes) {
	return toxicap_reports(&inputs, reports, reports_room, sizes);
}
*/
import "C"

import (
	"bytes"
)

// errorOf gives the error of a call with this text, nil if it was answered.
func errorOf(status C.uint8_t, text []byte) error {
	switch status {
	case C.TOXICAP_ANSWERED:
		return nil
	case C.TOXICAP_REFUSED:
		return refusalOf(string(text))
	}
	return refusalOf("refused 40 Memory")
}

// ptr gives the address of the first value, or nil where there is none.
func ptr[T any](values []T) *T {
	if len(values) == 0 {
		return nil
	}
	return &values[0]
}

// inputsOf gives the inputs of a call, which hold the scenarios one after another, and the length of each.
func inputsOf(capture []byte, scenarios [][]byte, hosts []byte, seed uint64) (inputs C.ToxicapInputs, text []byte, lens []C.size_t) {
	text, lens = bytes.Join(scenarios, nil), make([]C.size_t, len(scenarios))
	for i, scenario := range scenarios {
		lens[i] = C.size_t(len(scenario))
	}
	return C.ToxicapInputs{
		capture: (*C.uint8_t)(ptr(capture)), capture_len: C.size_t(len(capture)),
		scenarios: (*C.uint8_t)(ptr(text)), scenarios_len: C.size_t(len(text)), scenario_lens: ptr(lens), scenario_count: C.size_t(len(lens)),
		hosts: (*C.uint8_t)(ptr(hosts)), hosts_len: C.size_t(len(hosts)), seed: C.uint64_t(seed),
	}, text, lens
}

// firstRoom is the most room in bytes that a call gets before it has said how much it takes.
const firstRoom = 4 << 20

// room gives a first guess for count outputs of some bytes each: more than most take, and within firstRoom.
func room(count, each int) C.size_t {
	if count*each > firstRoom {
		return firstRoom
	}
	return C.size_t(count * each)
}

// fitted gives the first bytes of a room, in one of their own if much would be left over.
func fitted(room []byte, used C.size_t) []byte {
	if len(room) == firstRoom && int(used) < firstRoom/6*5 {
		return append([]byte(nil), room[:used]...)
	}
	return room[:used]
}

// Rehearse gives the output of each scenario, made in this process: the bytes that `toxicap --out` stores. The capture is a classic pcap or a dump of
// one in hexadecimal, scenarios are JSON in Toxiproxy's populate form, hosts are lines NAME=ADDR, and all drawing depends on the seed. Any goroutine
// may call. A refusal is an error of the type *Refusal. Outputs above 4 MiB are made twice, so that they take no more memory than their bytes.
func Rehearse(capture []byte, scenarios [][]byte, hosts []byte, seed uint64) ([]Output, error) {
	inputs, text, scenarioLens := inputsOf(capture, scenarios, hosts, seed)
	var captures, reports []byte
	var lens []C.size_t
	count := len(scenarios)
	sizes := C.ToxicapSizes{
		captures: room(count, len(capture)+len(capture)/4+4096), reports: room(count, len(capture)/8+1024), lens: C.size_t(2 * count)}
	status := C.uint8_t(C.TOXICAP_NO_ROOM)
	for status == C.TOXICAP_NO_ROOM {
		captures, reports, lens = make([]byte, sizes.captures), make([]byte, sizes.reports), make([]C.size_t, sizes.lens)
		status = C.rehearse(inputs, (*C.uint8_t)(ptr(captures)), C.size_t(len(captures)), (*C.uint8_t)(ptr(reports)), C.size_t(len(reports)),
			ptr(lens), C.size_t(len(lens)), &sizes)
	}
	if err := errorOf(status, reports[:sizes.reports]); err != nil {
		return nil, err
	}
	captures, reports = fitted(captures, sizes.captures), fitted(reports, sizes.reports)
	outputs := make([]Output, count)
	for i := range outputs {
		capture, report, scenario := lens[2*i], lens[2*i+1], scenarioLens[i]
		// without room at their ends, so that what is appended to one does not go over the next
		outputs[i] = Output{captures[:capture:capture], reports[:report:report], text[:scenario:scenario], hosts}
		captures, reports, text = captures[capture:], reports[report:], text[scenario:]
	}
	return outputs, nil
}

// Reports gives the reports alone, one after another, the same bytes as of Rehearse, in less time and memory.
func Reports(capture []byte, scenarios [][]byte, hosts []byte, seed uint64) ([]byte, error) {
	inputs, _, _ := inputsOf(capture, scenarios, hosts, seed)
	var reports []byte
	sizes := C.ToxicapSizes{reports: room(len(scenarios), len(capture)/8+1024)}
	status := C.uint8_t(C.TOXICAP_NO_ROOM)
	for status == C.TOXICAP_NO_ROOM {
		reports = make([]byte, sizes.reports)
		status = C.only_reports(inputs, (*C.uint8_t)(ptr(reports)), C.size_t(len(reports)), &sizes)
	}
	if err := errorOf(status, reports[:sizes.reports]); err != nil {
		return nil, err
	}
	return fitted(reports, sizes.reports), nil
}
