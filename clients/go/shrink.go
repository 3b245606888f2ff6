package toxicap

import (
	"bytes"
	"context"
	"encoding/json"
	"errors"
	"strconv"
)

// The errors of Shrink if there is nothing to shrink.
var (
	ErrPasses         = errors.New("the scenario does not fail under these seeds: there is nothing to shrink")
	ErrFailsUntouched = errors.New("the scenario [], without toxics, fails too: there is nothing to shrink; make fails false for what was recorded")
)

// Shrink gives a scenario that fails with fewer toxics and smaller numbers, and its seed. A scenario fails if fails(outputs) is true under one of the
// seeds, the least of which is its seed; panics count as in LeastSeed. Toxics and proxies without effect are left out first. No proxy and no toxic of
// the smallest can be left out, no attribute be one less and no toxicity be 1 so that it fails still. ErrPasses and ErrFailsUntouched are errors; so is
// a refusal. At the end of the context the smallest scenario by then is given, if it has failed, with the context's error.
func Shrink(ctx context.Context, capture, scenario, hosts []byte, fails func([]Output) bool, seeds Seeds) (*Found, error) {
	s := &shrinking{ctx: ctx, capture: capture, hosts: hosts, fails: fails, seeds: seeds}
	if seeds.Progress != nil {
		s.seeds.Progress = func(uint64) {
			seeds.Progress(s.tries)
			s.tries++
		}
	}
	if s.found, s.err = s.least(scenario, s.seeds); s.err != nil {
		return nil, s.err
	} else if s.found == nil {
		return nil, ErrPasses
	}
	s.seeds.Loose = true // it was checked
	s.shrink()
	if s.err != nil && ctx.Err() == nil {
		return nil, s.err
	}
	return s.found, s.err
}

// shrinking is a scenario that is made smaller in place, what was found of it last, and the first error of a call.
type shrinking struct {
	ctx            context.Context
	capture, hosts []byte
	fails          func([]Output) bool
	seeds          Seeds
	tries          uint64
	proxies        []any
	found          *Found
	err            error
}

// least gives the least seed under which a scenario fails.
func (s *shrinking) least(scenario []byte, seeds Seeds) (*Found, error) {
	found, err := LeastSeed(s.ctx, s.capture, [][]byte{scenario}, s.hosts, s.fails, seeds)
	if found != nil {
		found.Scenario = scenario
	}
	return found, err
}

// again gives the same of the one seed under which the last one failed.
func (s *shrinking) again(scenario []byte) (*Found, error) {
	one := s.seeds
	one.From, one.Below = s.found.Seed, s.found.Seed+1
	return s.least(scenario, one)
}

// shrink makes the scenario that was found smaller, until nothing more can be left out.
func (s *shrinking) shrink() {
	s.proxies, _ = parsed(s.found.Scenario).([]any)
	untouched, err := s.again([]byte("[]"))
	if s.err = err; untouched != nil {
		s.err = ErrFailsUntouched
	}
	if s.err == nil {
		s.leaveOutIdle()
	}
	for before := []byte(nil); s.err == nil && !bytes.Equal(s.found.Scenario, before); {
		before = s.found.Scenario
		s.round()
	}
	if s.err != nil {
		return
	}
	found, err := s.least(s.found.Scenario, s.seeds)
	if s.err = err; found != nil {
		s.found = found
	}
}

// stillFails tells whether the scenario fails, first under the seed of the last one that did. One with an attribute that is too small, such as a rate
// of 0, does not.
func (s *shrinking) stillFails() bool {
	if s.err != nil {
		return false
	}
	text := marshalled(s.proxies)
	found, err := s.again(text)
	if found == nil && err == nil {
		found, err = s.least(text, s.seeds)
	}
	if err != nil && !errors.Is(err, ErrAttributeRange) {
		s.err = err
	}
	if found == nil || err != nil {
		return false
	}
	s.found = found
	return true
}

// leaveOutIdle leaves out proxies and toxics without which the output is the same under the seed.
func (s *shrinking) leaveOutIdle() {
	output := func() Output {
		outputs, err := Rehearse(s.capture, [][]byte{marshalled(s.proxies)}, s.hosts, s.found.Seed)
		if err != nil {
			s.err = err
			return Output{}
		}
		return outputs[0]
	}
	before := output()
	s.leaveOutAll(func() bool {
		after := output()
		return s.err == nil && bytes.Equal(after.Capture, before.Capture) && bytes.Equal(after.Report, before.Report)
	})
	if s.err == nil {
		s.found.Scenario = marshalled(s.proxies)
	}
}

// leaveOutAll takes out each proxy and each toxic without which isGood, and gives the toxics that are left.
func (s *shrinking) leaveOutAll(isGood func() bool) (toxics []map[string]any) {
	leaveOut(s.proxies, func(proxies []any) { s.proxies = proxies }, isGood)
	for _, proxy := range s.proxies {
		proxy := proxy.(map[string]any)
		its, _ := proxy["toxics"].([]any)
		for _, toxic := range leaveOut(its, func(toxics []any) { proxy["toxics"] = toxics }, isGood) {
			toxics = append(toxics, toxic.(map[string]any))
		}
	}
	return toxics
}

// round makes the scenario smaller in each way once.
func (s *shrinking) round() {
	toxics := s.leaveOutAll(s.stillFails)
	for _, toxic := range toxics {
		if attributes, has := toxic["attributes"].(map[string]any); has {
			s.makeSmaller(attributes)
		}
	}
	for _, toxic := range toxics {
		s.applyAlways(toxic)
	}
}

// leaveOut takes out each item without which isGood, the last one first: so the toxics before it keep their numbers, and what they draw. put has the
// scenario hold other items; what is left is given.
func leaveOut(items []any, put func([]any), isGood func() bool) []any {
	for place := len(items) - 1; place >= 0; place-- {
		fewer := append(append([]any{}, items[:place]...), items[place+1:]...)
		put(fewer)
		if isGood() {
			items = fewer
		} else {
			put(items)
		}
	}
	return items
}

// makeSmaller makes each attribute smaller while it fails still: tries 0, 1, 3, 7 and on, and then halves what is left.
func (s *shrinking) makeSmaller(attributes map[string]any) {
	for _, name := range sortedNames(attributes) {
		number, _ := attributes[name].(json.Number)
		failing, err := strconv.ParseInt(number.String(), 10, 64)
		if err != nil {
			continue // not a whole number, so it is not looked at
		}
		for passes := int64(-1); failing-passes > 1; {
			least, middle := 2*passes+1, passes+(failing-passes)/2
			if least < 0 {
				least = 0
			}
			if least < middle {
				middle = least
			}
			attributes[name] = middle
			if s.stillFails() {
				failing = middle
			} else {
				passes = middle
			}
		}
		attributes[name] = json.Number(strconv.FormatInt(failing, 10))
	}
}

// applyAlways takes out a toxicity where it fails still, so that the toxic applies to all connections.
func (s *shrinking) applyAlways(toxic map[string]any) {
	for _, name := range []string{"toxicity_ppm", "toxicity"} {
		if toxicity, has := toxic[name]; has {
			delete(toxic, name)
			if !s.stillFails() {
				toxic[name] = toxicity
			}
		}
	}
}
