package toxicap

import (
	"errors"
	"strconv"
	"strings"
)

// ErrNoLibrary is the error of calls that rehearse where there is no library, so that a test can be skipped there.
var ErrNoLibrary = errors.New("toxicap: Rehearse and Reports need Linux on x86-64 and a build with cgo (CGO_ENABLED=1, and a C compiler): " +
	"elsewhere read outputs that were stored there")

// An Output is what one scenario gives.
type Output struct {
	Capture, Report []byte

	scenario, hosts []byte // what Warnings looks at; nil if the output was made by hand
}

// A Kind is what was refused, by its number. errors.Is(err, ErrUnknownHost) tells whether an error is such a refusal.
type Kind int

// Error gives number and name, such as "refused 15 UnknownHost".
func (k Kind) Error() string { return "refused " + strconv.Itoa(int(k)) + " " + kindNames[k] }

// A Refusal is what toxicap refuses: its number (the guide has a table of them), its name, and its place, such as "scenario 0 proxy 1", or "" if it
// has none; numbers there count from 0. Hint says what is wrong there, what is allowed and what to do. Out of memory is the number 40, without a hint.
// In a chain of errors errors.As finds a *Refusal, and errors.Is one of a Kind.
type Refusal struct {
	Number            int
	Name, Place, Hint string
}

// Line gives the program's line, such as "refused 15 UnknownHost scenario 0 proxy 1".
func (r *Refusal) Line() string {
	return strings.TrimSuffix("refused "+strconv.Itoa(r.Number)+" "+r.Name+" "+r.Place, " ")
}

// Error gives the program's line, and after a colon the hint.
func (r *Refusal) Error() string { return strings.TrimSuffix(r.Line()+": "+r.Hint, ": ") }

// Is tells whether the refusal is of a Kind, for errors.Is.
func (r *Refusal) Is(target error) bool {
	kind, ok := target.(Kind)
	return ok && int(kind) == r.Number
}

// refusalOf gives the refusal that a text tells: the program's line, and after a line feed the hint.
func refusalOf(text string) *Refusal {
	line, hint, _ := strings.Cut(text, "\n")
	words := append(strings.SplitN(line, " ", 4), "")
	number, _ := strconv.Atoi(words[1])
	return &Refusal{number, words[2], words[3], hint}
}
