package golden

import (
	"bytes"
	"fmt"
	"strings"

	"example.org/toxicap"
)

// textDifference gives the first line in which two texts differ, of both.
func textDifference(expected, found []byte) string {
	texts := [2][]string{strings.SplitAfter(string(expected), "\n"), strings.SplitAfter(string(found), "\n")}
	line := 0
	for line < len(texts[0])-1 && line < len(texts[1])-1 && texts[0][line] == texts[1][line] {
		line++
	}
	return fmt.Sprintf("in line %d:\nexpected: %s\nfound:    %s", line+1, strings.TrimSuffix(texts[0][line], "\n"), strings.TrimSuffix(texts[1][line], "\n"))
}

// captureDifference gives the first chunk or end in which two output captures differ; if all are the same, or one is no output, the first byte.
func captureDifference(expected, found []byte) string {
	first, err := toxicap.Delivered(expected)
	second, other := toxicap.Delivered(found)
	if err == nil && other == nil {
		for number := 0; number < len(first) && number < len(second); number++ {
			if told := lineDifference(first[number].Up, second[number].Up); told != "" {
				return fmt.Sprintf("in connection %d up, %s", number, told)
			} else if told := lineDifference(first[number].Down, second[number].Down); told != "" {
				return fmt.Sprintf("in connection %d down, %s", number, told)
			}
		}
		if len(first) != len(second) {
			return fmt.Sprintf("in its connections: expected %d, found %d", len(first), len(second))
		}
	}
	place := 0
	for place < len(expected) && place < len(found) && expected[place] == found[place] {
		place++
	}
	return fmt.Sprintf("from byte %d on: it has %d bytes, and %d came", place, len(expected), len(found))
}

// lineDifference gives the first chunk or the end in which two lines differ, "" if they are the same.
func lineDifference(expected, found toxicap.Line) string {
	for number := 0; number < len(expected.Chunks) || number < len(found.Chunks); number++ {
		first, second := at(expected.Chunks, number), at(found.Chunks, number)
		if told, other := eventText(first), eventText(second); told != other {
			return fmt.Sprintf("chunk %d: expected %s, found %s", number, told, other)
		} else if !bytes.Equal(first.Bytes, second.Bytes) {
			return fmt.Sprintf("chunk %d (%s): expected %.40q, found %.40q", number, told, first.Bytes, second.Bytes)
		}
	}
	if told, other := eventText(expected.End), eventText(found.End); told != other {
		return fmt.Sprintf("its end: expected %s, found %s", told, other)
	}
	return ""
}

func at(chunks []toxicap.Event, number int) *toxicap.Event {
	if number < len(chunks) {
		return &chunks[number]
	}
	return nil
}

func eventText(event *toxicap.Event) string {
	switch {
	case event == nil:
		return "none"
	case event.End != "":
		return fmt.Sprintf("%s at %v", event.End, event.Time)
	}
	return fmt.Sprintf("%d bytes at %v", len(event.Bytes), event.Time)
}
