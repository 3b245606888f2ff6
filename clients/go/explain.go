package toxicap

import (
	"fmt"
	"sort"
	"strconv"
	"strings"
)

// Explain gives what keeps scenarios from having an effect on a capture: unknown fields, proxies that no connection meets, toxics without effect on
// those that do, with the reasons, and why a capture has no connection. Each line begins with its place. If nothing is wrong there is none. Arguments
// and errors are those of Rehearse.
func Explain(capture []byte, scenarios [][]byte, hosts []byte, seed uint64) (lines []string, err error) {
	effects, err := Effects(capture, scenarios, hosts, seed)
	if err != nil {
		return nil, err
	}
	text, err := Reports(capture, scenarios, hosts, seed)
	if err != nil {
		return nil, err
	}
	reports, err := ParseReports(text)
	for number, report := range reports {
		if number == 0 {
			lines = withoutConnection(report)
		}
		lines = append(append(lines, warnings(scenarios[number], hosts, report)...), idleToxics(scenarios[number], effects[number], report)...)
	}
	return lines, err
}

// Warnings gives the lines of Explain of one output, except those of toxics. Of an output that was made by hand it only tells why there is no
// connection.
func (o Output) Warnings() []string {
	report, err := ParseReport(o.Report)
	if err != nil {
		return []string{err.Error()}
	}
	return append(withoutConnection(report), warnings(o.scenario, o.hosts, report)...)
}

// passedOver says of each class of records that are not rehearsed, and of unopened segments, why they are not, and what to do.
var passedOver = map[string]string{
	"notipv4":  "IPv6 (localhost may be ::1), ARP, or two VLAN tags; only IPv4 is rehearsed: connect to an IPv4 address, such as 127.0.0.1",
	"nottcp":   "UDP, ICMP or another protocol; only TCP is rehearsed: record TCP sessions",
	"cut":      "recorded without their ends, their bytes are missing; record whole packets (tcpdump -s 0)",
	"short":    "they have no whole Ethernet header; record whole packets (tcpdump -s 0)",
	"fragment": "parts of larger packets, which are not put together; record at the client or at the server",
	"badipv4":  "their IPv4 header is broken; record again",
	"badtcp":   "their TCP header is broken; record again",
	"sameends": "source and destination are one; record a client and a server with ports of their own",
	"unopened": "the opening of their sessions is not in the capture; start recording before the client connects",
}

// withoutConnection tells why a capture has no connection, the most frequent cause first; nothing if it has one.
func withoutConnection(report Report) (lines []string) {
	if len(report.Connections) > 0 {
		return nil
	}
	if report.Records == 0 {
		return []string{"capture: it has no connection and no record: the filter of the recording matched nothing, or it was stopped too early"}
	}
	counts := map[string]int{"unopened": report.Unopened}
	for class, count := range report.Classes {
		counts[class] = count
	}
	for _, class := range byCount(counts) {
		whole := fmt.Sprintf("%d records", report.Records)
		if class == "unopened" {
			whole = fmt.Sprintf("%d segments", report.Classes["segment"])
		}
		if why := passedOver[class]; why != "" && counts[class] > 0 {
			lines = append(lines, fmt.Sprintf("capture: it has no connection; %d of %s are %s: %s", counts[class], whole, class, why))
		}
	}
	return lines
}

// byCount gives the names of counts, the greatest first.
func byCount(counts map[string]int) []string {
	names := make([]string, 0, len(counts))
	for name := range counts {
		names = append(names, name)
	}
	sort.Slice(names, func(i, j int) bool {
		first, second := counts[names[i]], counts[names[j]]
		return first > second || first == second && names[i] < names[j]
	})
	return names
}

// warnings tells of unknown fields of a scenario, and of proxies that no connection meets.
func warnings(scenario, hosts []byte, report Report) (lines []string) {
	place := fmt.Sprintf("scenario %d proxy ", report.Scenario)
	proxies, _ := parsed(scenario).([]any)
	for number, proxy := range proxies {
		lines = append(lines, unknownFields(place+strconv.Itoa(number), proxy)...)
	}
	met, servers := map[int]bool{}, map[string]int{}
	for _, connection := range report.Connections {
		met[connection.Proxy] = true
		servers[connection.Server]++
	}
	for number, proxy := range proxies {
		if why := unmet(proxies[:number], proxy, hosts, servers); why != "" && !met[number] {
			lines = append(lines, fmt.Sprintf("%s%d %s (%s): no connection meets it; %s", place, number, quoted(textAt(proxy, "name")),
				textAt(proxy, "upstream"), why))
		}
	}
	return lines
}

// unmet tells why a proxy is not met: an earlier one is in its place, or nobody connects to its server. Without a connection only the first counts.
func unmet(earlier []any, proxy any, hosts []byte, servers map[string]int) string {
	for number, other := range earlier {
		if serverOf(other, hosts) == serverOf(proxy, hosts) {
			return fmt.Sprintf("proxy %d stands before the same server, and is met first", number)
		}
	}
	told := byCount(servers)
	if len(told) == 0 {
		return ""
	}
	if len(told) > 5 {
		told = append(told[:5], "..")
	}
	return "servers of the capture: " + strings.Join(told, ", ")
}

// serverOf gives address and port of the server that a proxy stands before.
func serverOf(proxy any, hosts []byte) string {
	host, digits, _ := strings.Cut(textAt(proxy, "upstream"), ":")
	for _, line := range strings.Split(string(hosts), "\n") {
		if name, addr, _ := strings.Cut(line, "="); name == host {
			host = addr
			break
		}
	}
	port, _ := strconv.Atoi(digits)
	return host + ":" + strconv.Itoa(port)
}

// The fields that are known: of a proxy, of a toxic, and of the attributes of a type.
var knownOfProxy, knownOfToxic = []string{"name", "listen", "upstream", "enabled", "toxics"},
	[]string{"name", "type", "stream", "toxicity", "toxicity_ppm", "attributes"}

func knownAttributes(of string) (names []string) {
	for _, each := range attributes {
		if each.of == of || of == "" {
			names = append(names, each.name)
		}
	}
	return names
}

// unknownFields tells of the fields of a proxy that toxicap does not know, with their places.
func unknownFields(place string, proxy any) (lines []string) {
	add := func(place string, value any, known []string) {
		object, _ := value.(map[string]any)
		for _, name := range sortedNames(object) {
			if !contains(known, name) {
				lines = append(lines, fmt.Sprintf("%s: unknown field %s (%s)", place, shown(name, 60), fieldHint(name, known)))
			}
		}
	}
	add(place, proxy, knownOfProxy)
	toxics, _ := field(proxy, "toxics").([]any)
	for number, toxic := range toxics {
		place := fmt.Sprintf("%s toxic %d", place, number)
		add(place, toxic, knownOfToxic)
		add(place+" attributes", field(toxic, "attributes"), knownAttributes(textAt(toxic, "type")))
	}
	return lines
}

// fieldHint tells where an unknown field may belong, or what it may be called.
func fieldHint(name string, known []string) string {
	isOfToxic := contains(known, "stream")
	near := nearest(name, known)
	switch {
	case name == "enabled":
		return `only a proxy can be disabled; for a toxic write "toxicity": 0`
	case isOfToxic && contains(knownAttributes(""), name):
		return `it belongs in "attributes"`
	case !isOfToxic && contains(knownOfToxic, name):
		return "it belongs in the toxic"
	case !contains(known, "toxics") && contains(knownOfProxy, name):
		return "it belongs in the proxy"
	case near != "":
		return "is it " + near + "?"
	}
	return "known are " + strings.Join(known, ", ")
}

// nearest gives the known name that differs in a third of its letters at most, "" without one.
func nearest(name string, known []string) (near string) {
	least := -1
	for _, each := range known {
		if changes := distance(strings.ToLower(name), each); 3*changes <= len(each) && (least < 0 || changes < least) {
			near, least = each, changes
		}
	}
	return near
}

// distance is how many letters are to be put in, left out or changed to make one word of the other.
func distance(one, other string) int {
	row := make([]int, len(other)+1)
	for i := range row {
		row[i] = i
	}
	for i := range one {
		before := row[0]
		row[0] = i + 1
		for j := range other {
			changed := before
			if one[i] != other[j] {
				changed++
			}
			before = row[j+1]
			row[j+1] = least(changed, row[j]+1, row[j+1]+1)
		}
	}
	return row[len(other)]
}

func least(numbers ...int) int {
	sort.Ints(numbers)
	return numbers[0]
}

func contains(names []string, name string) bool {
	for _, each := range names {
		if each == name {
			return true
		}
	}
	return false
}
