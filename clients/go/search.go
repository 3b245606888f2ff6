package toxicap

import (
	"context"
	"errors"
	"fmt"
	"math"
	"runtime"
	"runtime/debug"
	"strings"
	"sync"
)

// Seeds says which seeds a search tries, and how. The zero Seeds are the first 32, one after another.
type Seeds struct {
	From, Below   uint64             // the first one, and that after the last; Below 0 stands for From+32
	Workers       int                // how many goroutines call the function, which may be called at the same time if there is more than 1
	RuntimeErrors bool               // whether a panic by a runtime error, such as an index out of range, counts as true; else it ends the search
	Loose         bool               // whether scenarios may have unknown fields, and proxies that no connection meets; else that is ErrDoesNothing
	Progress      func(tried uint64) // is called before each try, with how many were before it; by one goroutine at a time
}

// The errors of a search that can find nothing.
var (
	ErrNoSeeds     = errors.New("there is no seed to try: Below is not above From")
	ErrDoesNothing = errors.New("what is searched does nothing (Loose takes it)")
)

// Found is what a search found.
type Found struct {
	Seed     uint64
	Scenario []byte      // of Shrink
	Panic    *PanicError // the function's panic, if it gave no answer
}

// String tells the seed, the scenario, and the panic.
func (f *Found) String() string {
	if f == nil {
		return "nothing found"
	}
	told := fmt.Sprintf("seed %d", f.Seed)
	if f.Scenario != nil {
		told += " of " + string(f.Scenario)
	}
	if f.Panic != nil {
		told += ": " + f.Panic.Error()
	}
	return told
}

// A PanicError is a panic of a function that was called. Value is nil if it ended its goroutine, as t.Fatal does.
type PanicError struct {
	Value any
	Stack []byte
}

// Error gives the value, and in further lines the stack.
func (e *PanicError) Error() string {
	if e.Value == nil {
		return "the function ended its goroutine, as t.Fatal does: have it give true"
	}
	return fmt.Sprintf("panic: %v\n%s", e.Value, e.Stack)
}

// Unwrap gives the value, if it is an error.
func (e *PanicError) Unwrap() error {
	err, _ := e.Value.(error)
	return err
}

// LeastSeed gives the least of the seeds under which holds(outputs) is true, nil if there is none; the outputs are those of Rehearse. A panic of holds
// counts as true, and is in what is found; a runtime error, and the end of a goroutine, end the search with a *PanicError. A refusal is an error too,
// and so is the end of the context, unless a seed is found by then.
func LeastSeed(ctx context.Context, capture []byte, scenarios [][]byte, hosts []byte, holds func([]Output) bool, seeds Seeds) (*Found, error) {
	if seeds.Below == 0 {
		seeds.Below = math.MaxUint64
		if seeds.From < math.MaxUint64-someSeeds {
			seeds.Below = seeds.From + someSeeds
		}
	}
	if seeds.Below <= seeds.From {
		return nil, ErrNoSeeds
	}
	if err := seeds.check(capture, scenarios, hosts); err != nil {
		return nil, err
	}
	s := &seedSearch{Seeds: seeds, next: seeds.From, try: func(seed uint64) (*Found, error) {
		outputs, err := Rehearse(capture, scenarios, hosts, seed)
		if err != nil {
			return nil, err
		}
		found, err := tried(holds, outputs, seeds.RuntimeErrors)
		if found != nil {
			found.Seed = seed
		}
		return found, err
	}}
	var all sync.WaitGroup
	for worker := 0; worker < seeds.Workers || worker == 0; worker++ {
		all.Add(1)
		go func() {
			defer all.Done()
			s.work(ctx)
		}()
	}
	all.Wait()
	if s.err == nil && s.isCut {
		s.err = ctx.Err()
	}
	return s.found, s.err
}

// check gives an error if scenarios have unknown fields or proxies that no connection meets, or the capture has no connection.
func (s Seeds) check(capture []byte, scenarios [][]byte, hosts []byte) error {
	if s.Loose {
		return nil
	}
	outputs, err := Rehearse(capture, scenarios, hosts, s.From)
	warnings := []string{}
	for _, output := range outputs {
		warnings = append(warnings, output.Warnings()...)
	}
	if err == nil && len(warnings) > 0 {
		err = fmt.Errorf("%w: %s", ErrDoesNothing, strings.Join(warnings, "; "))
	}
	return err
}

// someSeeds is how many seeds there are if Seeds does not say it.
const someSeeds = 32

// A seedSearch is what workers share that look for the least seed at which something comes: what is found, or an error.
type seedSearch struct {
	Seeds
	try func(seed uint64) (*Found, error)

	mutex sync.Mutex
	next  uint64
	found *Found
	err   error
	isCut bool // whether the context ended before all was tried
}

// work tries seeds up to the first at which something has come: all before it are tried then.
func (s *seedSearch) work(ctx context.Context) {
	for seed, is := s.claim(ctx); is; seed, is = s.claim(ctx) {
		found, err := s.try(seed)
		s.mutex.Lock()
		if (found != nil || err != nil) && seed < s.Below {
			s.Below, s.found, s.err = seed, found, err
		}
		s.mutex.Unlock()
	}
}

// claim gives the next seed, if one is left.
func (s *seedSearch) claim(ctx context.Context) (seed uint64, is bool) {
	s.mutex.Lock()
	defer s.mutex.Unlock()
	if s.next >= s.Below {
		return 0, false
	}
	if s.isCut = ctx.Err() != nil; s.isCut {
		return 0, false
	}
	if s.Progress != nil {
		s.Progress(s.next - s.From)
	}
	s.next++
	return s.next - 1, true
}

// tried gives what is found if a function is true for outputs, or panics, and an error if it may not panic so.
func tried(holds func([]Output) bool, outputs []Output, mayFail bool) (found *Found, err error) {
	done := make(chan struct{}) // by a goroutine of its own, so that one which ends is seen
	go func() {
		defer close(done)
		isAnswered := false
		defer func() {
			if isAnswered {
				return
			}
			fault := &PanicError{recover(), debug.Stack()}
			if _, is := fault.Value.(runtime.Error); fault.Value == nil || is && !mayFail {
				err = fault
			} else {
				found = &Found{Panic: fault}
			}
		}()
		if holds(outputs) {
			found = &Found{}
		}
		isAnswered = true
	}()
	<-done
	return found, err
}
