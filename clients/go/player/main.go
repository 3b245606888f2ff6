// Prints a port of 127.0.0.1, and serves clients there as an output capture has it: player [OPTION..] OUTPUT UNTOUCHED.
// Its status is 1, with a line on standard error, if it could not begin or ended with a fault: the limit ran out, or a client sent other requests.
package main

import (
	"context"
	"flag"
	"fmt"
	"os"
	"strconv"
	"strings"
	"time"

	"example.org/toxicap"
)

// numbersOf gives the numbers of connections that a text has, as 0,2; nil for all.
func numbersOf(text string) (numbers []int, err error) {
	if text == "all" {
		return nil, nil
	}
	for _, word := range strings.Split(text, ",") {
		number, err := strconv.Atoi(word)
		if err != nil {
			return nil, fmt.Errorf("-connection %s: numbers of the report are expected, such as 0,2, or all", text)
		}
		numbers = append(numbers, number)
	}
	return numbers, nil
}

func main() {
	connections := flag.String("connection", "0", "its number in the report, or several, as 0,2, or all")
	factor := flag.Float64("factor", 1, "times are this many times as long; 0 for at once")
	noPauses := flag.Bool("no-pauses", false, "only the delays that the toxics added")
	limit := flag.Duration("limit", 10*time.Second, "how long to wait for clients, in all")
	gap := flag.Duration("gap", 0, "from the end of a chunk to the next one, at the least")
	same := flag.Bool("same-requests", false, "end with a fault if a client sends other bytes than the recorded one")
	flag.Parse()
	player, err := load(flag.Args(), *connections)
	if err != nil {
		fmt.Fprintln(os.Stderr, "player:", err)
		os.Exit(1)
	}
	player.Factor, player.NoPauses, player.Limit, player.Gap, player.SameRequests = *factor, *noPauses, *limit, *gap, *same
	fmt.Println(player.Port)
	if err := player.Serve(context.Background()); err != nil {
		fmt.Fprintln(os.Stderr, err)
		os.Exit(1)
	}
}

// load makes a player of the captures of two files.
func load(paths []string, connections string) (*toxicap.Player, error) {
	if len(paths) != 2 {
		return nil, fmt.Errorf("two captures are to be named, OUTPUT and UNTOUCHED, and not %d", len(paths))
	}
	output, err := os.ReadFile(paths[0])
	if err != nil {
		return nil, err
	}
	untouched, err := os.ReadFile(paths[1])
	if err != nil {
		return nil, err
	}
	numbers, err := numbersOf(connections)
	if err != nil {
		return nil, err
	}
	return toxicap.NewPlayer(output, untouched, numbers...)
}
