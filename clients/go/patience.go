package toxicap

import (
	"context"
	"sync"
	"time"
)

// A patience is how long a player waits for its clients, in all. It does not run while a step waits for its time.
type patience struct {
	mutex sync.Mutex
	left  time.Duration
	since time.Time // when it began to run, or went on
	timed int       // how many steps wait for their time
	timer *time.Timer
	out   bool
}

// begin lets it run; ended is called when it has run out.
func (w *patience) begin(limit time.Duration, ended func()) {
	w.left, w.since = limit, time.Now()
	w.timer = time.AfterFunc(limit, func() {
		w.mutex.Lock()
		w.out = true
		w.mutex.Unlock()
		ended()
	})
}

// during waits for the time of a step; false if the player ended before.
func (w *patience) during(life context.Context, length time.Duration) bool {
	w.count(1)
	defer w.count(-1)
	return pause(life, length)
}

// count counts a step that begins to wait for its time, or no longer waits.
func (w *patience) count(more int) {
	w.mutex.Lock()
	defer w.mutex.Unlock()
	before := w.timed
	w.timed += more
	if before == 0 {
		w.timer.Stop()
		w.left -= time.Since(w.since)
	} else if w.timed == 0 {
		w.since = time.Now()
		w.timer.Reset(w.left)
	}
}

// end stops it, and tells whether it had run out.
func (w *patience) end() bool {
	w.mutex.Lock()
	defer w.mutex.Unlock()
	w.timer.Stop()
	return w.out
}

// pause waits that time; false if the player ended before.
func pause(life context.Context, length time.Duration) bool {
	timer := time.NewTimer(length)
	defer timer.Stop()
	select {
	case <-timer.C:
		return life.Err() == nil
	case <-life.Done():
		return false
	}
}
