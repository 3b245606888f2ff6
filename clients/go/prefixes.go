package toxicap

import (
	"fmt"
	"reflect"
)

// Parser makes a new parser: a function that takes bytes, and gives the messages that are whole with them.
type Parser[M any] func() func(payload []byte) ([]M, error)

// Feed gives the messages that a new parser gives, fed these payloads one after another, up to its first error. A panic of the parser is an error.
func (parser Parser[M]) Feed(payloads ...[]byte) (messages []M, err error) {
	defer func() {
		if fault := recover(); fault != nil {
			err = fmt.Errorf("panic: %v", fault)
		}
	}()
	take := parser()
	for _, payload := range payloads {
		more, err := take(payload)
		messages = append(messages, more...)
		if err != nil {
			return messages, err
		}
	}
	return messages, nil
}

// FeedPrefixes feeds new parsers each prefix of a stream, from its first byte on, and then the rest. It gives the first prefix after which one has an
// error, or gives other messages than for the stream at once: its length in bytes, and those messages with that error. The length is 0 where there
// is no such prefix, and that of the stream where a parser has an error for the stream at once. It takes the time to parse the stream once for each
// of its bytes.
func FeedPrefixes[M any](parser Parser[M], stream []byte) (size int, messages []M, err error) {
	return FeedPrefixesBy(parser, stream, func(messages []M) []M { return messages })
}

// FeedPrefixesBy does what FeedPrefixes does; messages are the same if key gives the same of them. If a parser gives events such as the parts of a
// body, each as it comes, key joins these.
func FeedPrefixesBy[M, K any](parser Parser[M], stream []byte, key func([]M) K) (size int, messages []M, err error) {
	whole, err := parser.Feed(stream)
	if err != nil {
		return len(stream), whole, err
	}
	expected := key(whole)
	for size := 1; size < len(stream); size++ {
		messages, err := parser.Feed(stream[:size:size], stream[size:])
		if err != nil || !reflect.DeepEqual(key(messages), expected) {
			return size, messages, err
		}
	}
	return 0, nil, nil
}
