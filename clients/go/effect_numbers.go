//go:build cgo && linux && amd64

package toxicap

/*
#include <toxicap.h>

static uint8_t effects(ToxicapInputs inputs, uint64_t *counts, size_t counts_room, uint8_t *text, size_t text_room, ToxicapEffectSizes *sizes) {
	return toxicap_effects(&inputs, counts, counts_room, text, text_room, sizes);
}
*/
import "C"

import "bytes"

// effectNumbers gives the numbers as the library puts them. Each proxy has one, and each toxic two; each begins with a brace.
func effectNumbers(capture []byte, scenarios [][]byte, hosts []byte, seed uint64) (numbers []uint64, err error) {
	inputs, text, _ := inputsOf(capture, scenarios, hosts, seed)
	var told []byte
	var counts []C.uint64_t
	sizes := C.ToxicapEffectSizes{text: 4096, counts: C.size_t(2 * bytes.Count(text, []byte("{")))}
	status := C.uint8_t(C.TOXICAP_NO_ROOM)
	for status == C.TOXICAP_NO_ROOM {
		told, counts = make([]byte, sizes.text), make([]C.uint64_t, sizes.counts)
		status = C.effects(inputs, ptr(counts), C.size_t(len(counts)), (*C.uint8_t)(ptr(told)), C.size_t(len(told)), &sizes)
	}
	for _, count := range counts[:sizes.counts] {
		numbers = append(numbers, uint64(count))
	}
	return numbers, errorOf(status, told[:sizes.text])
}
