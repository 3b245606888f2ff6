package toxicap

import "time"

// FuzzScenario makes a scenario of any bytes, such as those of a fuzz test, that Rehearse takes: a proxy before each of these servers (HOST:PORT, at
// most 64), with up to four toxics. Equal bytes give equal scenarios, and no bytes proxies without toxics. Delays go up to two seconds, timeouts to
// 65, rates from 1 to 2,000 KB a second, slices to 4,096 bytes, limits to 65,535 bytes; small numbers come as often as large ones.
func FuzzScenario(data []byte, upstreams ...string) []byte {
	source := fuzzBytes(data)
	proxies := make([]Proxy, len(upstreams))
	for i, upstream := range upstreams {
		proxies[i] = Proxy{Upstream: upstream, Toxics: make([]Toxic, source.next()%5)}
		for j := range proxies[i].Toxics {
			proxies[i].Toxics[j] = source.toxic()
		}
		proxies[i].Disabled = source.next() >= 240
	}
	return Scenario(proxies...)
}

// fuzzBytes are bytes that are still to be used.
type fuzzBytes []byte

// next gives the next byte, 0 after the last one.
func (source *fuzzBytes) next() (value int64) {
	if len(*source) > 0 {
		value, *source = int64((*source)[0]), (*source)[1:]
	}
	return value
}

// number gives a number up to a most one, which is below 65536, of three bytes; small ones come as often as large ones.
func (source *fuzzBytes) number(most int64) int64 {
	bits := source.next() % 17
	return (source.next()<<8 | source.next()) >> (16 - bits) % (most + 1)
}

func (source *fuzzBytes) toxic() Toxic {
	toxic := Toxic{Type: []string{"latency", "bandwidth", "slow_close", "timeout", "reset_peer", "slicer", "limit_data"}[source.next()%7]}
	if source.next()%2 == 1 {
		toxic.Stream = "upstream"
	}
	if part := source.next(); part >= 192 {
		toxic.Toxicity = float64(part-191) / 65
	}
	switch toxic.Type {
	case "latency":
		latency := source.number(2000)
		toxic.Latency, toxic.Jitter = time.Duration(latency)*time.Millisecond, time.Duration(source.number(latency))*time.Millisecond
	case "bandwidth":
		toxic.Rate = 1 + source.number(1999)
	case "slow_close":
		toxic.Delay = time.Duration(source.number(2000)) * time.Millisecond
	case "slicer":
		toxic.AverageSize = 1 + source.number(4095)
		toxic.SizeVariation = source.number(toxic.AverageSize - 1)
		toxic.Delay = time.Duration(source.number(20000)) * time.Microsecond
	case "limit_data":
		toxic.Bytes = source.number(65535)
	default:
		toxic.Timeout = time.Duration(source.number(65535)) * time.Millisecond
	}
	return toxic
}
