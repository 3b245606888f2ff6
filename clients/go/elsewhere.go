//go:build !(cgo && linux && amd64)

package toxicap

// Rehearse gives ErrNoLibrary here: it needs the library, which is one for Linux on x86-64, and cgo.
func Rehearse(capture []byte, scenarios [][]byte, hosts []byte, seed uint64) ([]Output, error) {
	return nil, ErrNoLibrary
}

// Reports gives ErrNoLibrary here, as Rehearse.
func Reports(capture []byte, scenarios [][]byte, hosts []byte, seed uint64) ([]byte, error) {
	return nil, ErrNoLibrary
}

func effectNumbers(capture []byte, scenarios [][]byte, hosts []byte, seed uint64) ([]uint64, error) {
	return nil, ErrNoLibrary
}
