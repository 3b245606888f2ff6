package toxicap

import (
	"encoding/json"
	"fmt"
	"math"
	"sort"
	"strconv"
	"strings"
	"time"
)

// A Toxic is one fault of a proxy. Of the numbers those of its type count, and 0 leaves one out. Times are whole milliseconds, but a slicer's Delay whole
// microseconds: Rehearse refuses others. As JSON it is an object of a proxy's toxics.
type Toxic struct {
	Type     string  // latency, bandwidth, slow_close, timeout, reset_peer, slicer or limit_data
	Stream   string  // "upstream" or "downstream"; if it is "", downstream
	Name     string  // if it is "", TYPE_STREAM, with a number if another toxic has that name
	Toxicity float64 // the part of all connections to which it applies, such as 0.25; 0 stands for 1, all of them
	Disabled bool    // it applies to no connection

	Latency, Jitter            time.Duration // of latency
	Rate                       int64         // of bandwidth: KB (1000 bytes) a second
	Timeout                    time.Duration // of timeout and reset_peer
	AverageSize, SizeVariation int64         // of slicer: bytes
	Delay                      time.Duration // of slow_close and slicer
	Bytes                      int64         // of limit_data
}

// A Proxy stands before a server, and has toxics. As JSON it is an object of a scenario.
type Proxy struct {
	Upstream string // the server, such as "10.77.0.2:80"; for a host by name Hosts has its address
	Name     string // if it is "", the upstream, with a number if another proxy has that name
	Listen   string // for Toxiproxy; it is not used here
	Disabled bool   // it refuses each connection
	Toxics   []Toxic
}

// Scenario gives proxies as JSON in Toxiproxy's populate form, for Rehearse. It checks nothing: Rehearse refuses what is wrong.
func Scenario(proxies ...Proxy) []byte {
	proxies = append([]Proxy{}, proxies...)
	names := make([]*string, len(proxies))
	for i := range proxies {
		names[i] = &proxies[i].Name
	}
	nameAll(names, func(i int) string { return proxies[i].Upstream })
	objects := make([]map[string]any, len(proxies))
	for i, proxy := range proxies {
		objects[i] = proxy.object()
	}
	return marshalled(objects)
}

// ParseScenario gives the proxies of a scenario, from which Scenario makes one with the same outputs. Fields that toxicap ignores are left out. Of what
// Rehearse refuses, texts that a Proxy cannot hold are errors.
func ParseScenario(text []byte) (proxies []Proxy, err error) {
	if err := json.Unmarshal(text, &proxies); err != nil {
		return nil, fmt.Errorf("no scenario: %w", err)
	}
	return proxies, nil
}

// Hosts gives the addresses of names as lines NAME=ADDR, in order of the names, for Rehearse.
func Hosts(addrs map[string]string) []byte {
	var lines []string
	for name, addr := range addrs {
		lines = append(lines, name+"="+addr+"\n")
	}
	sort.Strings(lines)
	return []byte(strings.Join(lines, ""))
}

// MarshalJSON gives the proxy as an object of a scenario.
func (p Proxy) MarshalJSON() ([]byte, error) { return json.Marshal(p.object()) }

// UnmarshalJSON takes an object of a scenario.
func (p *Proxy) UnmarshalJSON(text []byte) error {
	object, isEnabled := parsed(text), true
	*p = Proxy{}
	for _, err := range []error{take(object, "name", &p.Name), take(object, "listen", &p.Listen), take(object, "upstream", &p.Upstream),
		take(object, "enabled", &isEnabled)} {
		if err != nil {
			return err
		}
	}
	p.Disabled = !isEnabled
	return json.Unmarshal(marshalled(field(object, "toxics")), &p.Toxics)
}

// MarshalJSON gives the toxic as an object of a proxy's toxics.
func (t Toxic) MarshalJSON() ([]byte, error) { return json.Marshal(t.object()) }

// UnmarshalJSON takes an object of a proxy's toxics.
func (t *Toxic) UnmarshalJSON(text []byte) error {
	object, toxicity := parsed(text), json.Number("")
	*t = Toxic{}
	err := take(object, "toxicity", &toxicity)
	for _, each := range []error{err, take(object, "name", &t.Name), take(object, "type", &t.Type), take(object, "stream", &t.Stream)} {
		if each != nil {
			return each
		}
	}
	if toxicity != "" {
		t.Toxicity, err = toxicity.Float64()
	}
	if ppm := int64(-1); err == nil {
		if err = takeNumber(object, "toxicity_ppm", &ppm, 1); ppm >= 0 {
			t.Toxicity, toxicity = float64(ppm)/1e6, "of a million"
		}
	}
	t.Disabled = toxicity != "" && t.Toxicity == 0
	for _, each := range t.attributes() {
		if err == nil {
			err = takeNumber(field(object, "attributes"), each.name, each.value, each.unit)
		}
	}
	return err
}

// take puts a field into its place, if an object has it.
func take[T any](object any, name string, into *T) error {
	if _, is := object.(map[string]any); !is && object != nil {
		return fmt.Errorf("%v is no object", object)
	}
	value := field(object, name)
	found, is := value.(T)
	if is {
		*into = found
	} else if value != nil {
		return fmt.Errorf("the field %s is %v", name, value)
	}
	return nil
}

// takeNumber puts a whole number of units into its place, if an object has it.
func takeNumber(object any, name string, into *int64, unit int64) error {
	text := json.Number("")
	err := take(object, name, &text)
	if err != nil || text == "" {
		return err
	}
	number, err := strconv.ParseInt(string(text), 10, 64)
	if err == nil && (number < 0 || number > math.MaxInt64/unit) {
		err = fmt.Errorf("the field %s is %d", name, number)
	}
	*into = number * unit
	return err
}

// An attribute is a number of a toxic, in nanoseconds or a count, and what its unit in JSON is.
type attribute struct {
	name  string
	value *int64
	unit  int64
}

func (t *Toxic) attributes() []attribute {
	unit := int64(time.Millisecond)
	unitOfDelay := map[bool]int64{false: unit, true: int64(time.Microsecond)}[t.Type == "slicer"]
	return []attribute{{"latency", (*int64)(&t.Latency), unit}, {"jitter", (*int64)(&t.Jitter), unit}, {"rate", &t.Rate, 1},
		{"timeout", (*int64)(&t.Timeout), unit}, {"average_size", &t.AverageSize, 1}, {"size_variation", &t.SizeVariation, 1},
		{"delay", (*int64)(&t.Delay), unitOfDelay}, {"bytes", &t.Bytes, 1}}
}

func (p Proxy) object() map[string]any {
	toxics := append([]Toxic{}, p.Toxics...)
	names := make([]*string, len(toxics))
	for i := range toxics {
		names[i] = &toxics[i].Name
	}
	nameAll(names, func(i int) string { return toxics[i].Type + "_" + streamOf(toxics[i].Stream) })
	object := map[string]any{"upstream": p.Upstream, "name": p.Name}
	if p.Name == "" {
		object["name"] = p.Upstream
	}
	if p.Listen != "" {
		object["listen"] = p.Listen
	}
	if p.Disabled {
		object["enabled"] = false
	}
	objects := make([]map[string]any, len(toxics))
	for i, toxic := range toxics {
		objects[i] = toxic.object()
	}
	if len(objects) > 0 {
		object["toxics"] = objects
	}
	return object
}

func (t Toxic) object() map[string]any {
	attributes := map[string]any{}
	for _, each := range t.attributes() {
		if whole := *each.value / each.unit; whole*each.unit != *each.value {
			attributes[each.name] = float64(*each.value) / float64(each.unit)
		} else if whole != 0 {
			attributes[each.name] = whole
		}
	}
	object := map[string]any{"type": t.Type, "attributes": attributes}
	for name, text := range map[string]string{"name": t.Name, "stream": t.Stream} {
		if text != "" {
			object[name] = text
		}
	}
	if t.Disabled {
		object["toxicity"] = 0
	} else if t.Toxicity != 0 {
		object["toxicity_ppm"] = int64(math.Round(t.Toxicity * 1e6))
	}
	return object
}

// nameAll names each that has no name, if the one that it would have is another's.
func nameAll(names []*string, expected func(i int) string) {
	taken := map[string]bool{}
	for _, name := range names {
		taken[*name] = true
	}
	for i, name := range names {
		if *name != "" {
			continue
		}
		free := expected(i)
		for number := 2; taken[free]; number++ {
			free = fmt.Sprintf("%s_%d", expected(i), number)
		}
		if taken[free] = true; free != expected(i) {
			*name = free
		}
	}
}

// marshalled gives objects of texts and numbers as JSON, which never fails.
func marshalled(value any) []byte {
	text, _ := json.Marshal(value)
	return text
}
