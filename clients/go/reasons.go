package toxicap

import (
	"fmt"
	"strings"
)

const million = 1000000

// idleToxics gives a line for each toxic of a scenario that has no effect on the connections that meet its proxy, if some do; if there is no
// connection, for each that has none on any.
func idleToxics(scenario []byte, effects []ProxyEffects, report Report) (lines []string) {
	proxies, _ := parsed(scenario).([]any)
	for p, proxy := range proxies {
		met := []Connection{}
		for _, connection := range report.Connections {
			if connection.Proxy == p {
				met = append(met, connection)
			}
		}
		for t, toxic := range toxicsOf(proxy) {
			always, text := idleByItself(proxy, toxic), ""
			if len(met) > 0 {
				text = effectText(toxic, effects[p].Toxics[t], always, met)
			} else if always != "" && len(report.Connections) == 0 {
				text = "no effect: " + always
			}
			if text != "" && effects[p].Toxics[t].Changed == 0 {
				lines = append(lines, fmt.Sprintf("scenario %d proxy %d toxic %d %s: %s", report.Scenario, p, t, quoted(toxicName(toxic)), text))
			}
		}
	}
	return lines
}

// effectText tells on how many of the connections that meet its proxy a toxic has an effect, and why it has none on the others.
func effectText(toxic any, effect ToxicEffect, always string, met []Connection) string {
	told := []string{fmt.Sprintf("effect on %d of %d connection%s", effect.Changed, len(met), map[bool]string{false: "s"}[len(met) == 1])}
	add := func(count int, why string) {
		if count > 0 {
			told = append(told, fmt.Sprintf("on %d: %s", count, why))
		}
	}
	if always != "" {
		add(len(met), always)
	} else {
		add(len(met)-effect.Drawn, fmt.Sprintf("it is not drawn (toxicity_ppm %d)", ppmOf(toxic)))
		add(effect.Drawn-effect.Changed, idleReason(toxic, met))
	}
	return strings.Join(told, "; ")
}

// idleByItself tells why a toxic has no effect on any capture; nothing if it may have one.
func idleByItself(proxy, toxic any) string {
	switch kind := textAt(toxic, "type"); {
	case field(proxy, "enabled") == false:
		return "its proxy is disabled, and refuses each connection"
	case ppmOf(toxic) == 0:
		return "its toxicity is 0"
	case kind == "latency" && attributeOf(toxic, "latency") == 0 && attributeOf(toxic, "jitter") == 0:
		return "its latency and jitter are 0"
	case kind == "slow_close" && attributeOf(toxic, "delay") == 0:
		return "its delay is 0"
	}
	return ""
}

// idleReason tells why it has no effect on connections that draw it, as far as the lines tell that were recorded of all that meet its proxy.
func idleReason(toxic any, met []Connection) string {
	var most, other int64
	stream, way, limit := streamOf(textAt(toxic, "stream")), "upstream", attributeOf(toxic, "bytes")
	for _, connection := range met {
		if recorded := connection.Down.Recorded; recorded > most {
			most = recorded
		}
		if recorded := connection.Up.Recorded; recorded > other {
			other = recorded
		}
	}
	if stream == "upstream" {
		most, other, way = other, most, "downstream"
	}
	switch kind := textAt(toxic, "type"); {
	case most == 0 && contains([]string{"latency", "bandwidth", "slicer", "limit_data"}, kind):
		return fmt.Sprintf("no bytes flow %s (%s up to %d bytes)", stream, way, other)
	case kind == "limit_data" && most <= limit:
		return fmt.Sprintf("its limit of %d bytes is not passed (at most %d came, %s up to %d)", limit, most, way, other)
	}
	return "all is the same without it, on this capture and beside the other toxics"
}

func attributeOf(toxic any, name string) int64 {
	number, _ := wholeNumber(field(field(toxic, "attributes"), name))
	return int64(number)
}

func toxicName(toxic any) string {
	if name := textAt(toxic, "name"); name != "" {
		return name
	}
	return textAt(toxic, "type") + "_" + streamOf(textAt(toxic, "stream"))
}

// ppmOf gives to how many of a million connections a toxic applies.
func ppmOf(toxic any) int {
	if ppm, is := wholeNumber(field(toxic, "toxicity_ppm")); is {
		return int(ppm)
	}
	if toxicity, is := wholeNumber(field(toxic, "toxicity")); is {
		return int(toxicity) * million
	}
	return million
}
