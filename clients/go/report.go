package toxicap

import (
	"errors"
	"fmt"
	"regexp"
	"strconv"
	"strings"
)

// ErrNotReport is the error for a text that is no report, or a torn one.
var ErrNotReport = errors.New("no report of toxicap")

// A Report is what a report says, in numbers.
type Report struct {
	Scenario int            // its number, from 0 on
	Records  int            // of the capture
	Rest     int            // bytes of a torn last record
	Classes  map[string]int // of each class of records how many there are, such as "segment", "notipv4" or "cut"
	Unopened int            // segments of sessions whose opening is not in the capture

	Connections []Connection
}

// A Connection is a line of a report.
type Connection struct {
	Client, Server string // such as "10.77.0.1:43022"
	VLAN           int    // 0 without one
	Proxy          int    // the number of the proxy that it meets, -1 if it meets none
	Up, Down       Direction
}

// A Direction is what one side of a connection received. Times are in the capture's unit, microseconds or nanoseconds.
type Direction struct {
	Delivered, Recorded, Lost int64  // bytes
	End                       string // "fin", "close", "reset", "refused", or "open" without an end
	At                        int64  // when it ended, since the opening; -1 if it is open or refused
	Max                       int64  // for how long a delivered byte was held back at most
}

var connectionLine = regexp.MustCompile(
	`^[0-9]+ (\S+) > (\S+)(?: vlan ([0-9]+))? proxy ([0-9]+|-) up (\S+) (\S+) max ([0-9]+) down (\S+) (\S+) max ([0-9]+)$`)

// ParseReport gives what a report says. An error names the line that is none of a report, or what a torn report lacks.
func ParseReport(text []byte) (Report, error) {
	report := Report{Classes: map[string]int{}}
	lines := strings.Split(strings.TrimSuffix(string(text), "\n"), "\n")
	for number, line := range lines {
		if !report.take(number, line) {
			return Report{}, fmt.Errorf("%w: line %d is %q", ErrNotReport, number+1, line)
		}
	}
	if len(lines) < 2 {
		return Report{}, fmt.Errorf("%w: it has %d lines, and has at least 2", ErrNotReport, len(lines))
	}
	if found, expected := len(report.Connections), strings.Fields(lines[1])[1]; expected != strconv.Itoa(found) {
		return Report{}, fmt.Errorf("%w: it is torn, with %d of %s connections", ErrNotReport, found, expected)
	}
	if !strings.HasSuffix(string(text), "\n") {
		return Report{}, fmt.Errorf("%w: it is torn, its last line has no line feed", ErrNotReport)
	}
	return report, nil
}

// ParseReports gives the same of the reports one after another that Reports gives.
func ParseReports(text []byte) (reports []Report, err error) {
	for _, part := range strings.SplitAfter("\n"+string(text), "\nscenario ")[1:] {
		report, err := ParseReport([]byte("scenario " + strings.TrimSuffix(part, "scenario ")))
		if err != nil {
			return nil, err
		}
		reports = append(reports, report)
	}
	return reports, nil
}

// take takes a line; false if it is none of a report.
func (r *Report) take(number int, line string) bool {
	if number > 1 {
		found := connectionLine.FindStringSubmatch(line)
		if found == nil {
			return false
		}
		connection := Connection{Client: found[1], Server: found[2], Proxy: -1}
		connection.VLAN, _ = strconv.Atoi(found[3])
		if found[4] != "-" {
			connection.Proxy, _ = strconv.Atoi(found[4])
		}
		isTaken := connection.Up.take(found[5:8]) && connection.Down.take(found[8:11])
		r.Connections = append(r.Connections, connection)
		return isTaken
	}
	words := strings.Fields(line)
	if len(words)%2 != 0 || len(words) == 0 || words[0] != []string{"scenario", "connections"}[number] {
		return false
	}
	for ; len(words) > 0; words = words[2:] {
		count, err := strconv.Atoi(words[1])
		if err != nil {
			return false
		}
		switch words[0] {
		case "scenario":
			r.Scenario = count
		case "records":
			r.Records = count
		case "rest":
			r.Rest = count
		case "unopened":
			r.Unopened = count
		case "connections":
		default:
			r.Classes[words[0]] = count
		}
	}
	return true
}

// take takes counts, end and greatest delay, such as "216/216/0", "fin+3686" and "0"; false if they are others.
func (d *Direction) take(words []string) bool {
	_, err := fmt.Sscanf(words[0]+" "+words[2], "%d/%d/%d %d", &d.Delivered, &d.Recorded, &d.Lost, &d.Max)
	end, at, hasTime := strings.Cut(words[1], "+")
	if d.End, d.At = end, -1; hasTime && err == nil {
		d.At, err = strconv.ParseInt(at, 10, 64)
	}
	return err == nil
}
