package toxicap

import (
	"bytes"
	"encoding/json"
	"fmt"
	"sort"
	"strconv"
	"strings"
	"unicode"
)

// parsed gives what a text of JSON holds, with numbers as they are written; nil if it is none.
func parsed(text []byte) (tree any) {
	decoder := json.NewDecoder(bytes.NewReader(text))
	decoder.UseNumber()
	if decoder.Decode(&tree) != nil {
		return nil
	}
	return tree
}

// field gives a field of an object, nil if it has none, or null.
func field(object any, name string) any {
	fields, _ := object.(map[string]any)
	return fields[name]
}

func textAt(object any, name string) string {
	text, _ := field(object, name).(string)
	return text
}

// wholeNumber gives a whole number from 0 on, and whether a value is one.
func wholeNumber(value any) (uint64, bool) {
	number, _ := value.(json.Number)
	found, err := strconv.ParseUint(string(number), 10, 64)
	return found, err == nil
}

// sortedNames gives the names of an object's fields, in order.
func sortedNames(object map[string]any) []string {
	names := make([]string, 0, len(object))
	for name := range object {
		names = append(names, name)
	}
	sort.Strings(names)
	return names
}

// streamOf gives a toxic's stream, which is downstream if it names none.
func streamOf(stream string) string {
	if stream == "" {
		return "downstream"
	}
	return stream
}

func quoted(text string) string { return "\"" + shown(text, 60) + "\"" }

// shown gives the first characters of a text, escaped if they do not print, and two dots if it is longer.
func shown(text string, most int) string {
	var told strings.Builder
	for _, c := range text {
		if most--; most < 0 {
			return told.String() + ".."
		}
		switch {
		case strings.ContainsRune("\t\r\n", c):
			told.WriteString(strings.Trim(strconv.QuoteRune(c), "'"))
		case c == 0:
			told.WriteString("\\0")
		case !unicode.IsPrint(c) || unicode.In(c, unicode.Mn, unicode.Me):
			fmt.Fprintf(&told, "\\u{%x}", c)
		default:
			told.WriteRune(c)
		}
	}
	return told.String()
}
