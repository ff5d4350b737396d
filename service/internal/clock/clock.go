// Package clock gives times that never fall, in the units of a log.
package clock

import (
	"sync"
	"time"
)

// Clock counts units since 1970. Where the system's clock steps back it stands still until that has caught up.
type Clock struct {
	unit time.Duration
	now  func() time.Time

	mu   sync.Mutex
	last int64
	held time.Duration
}

// New gives a clock that counts units of now's time.
func New(unit time.Duration, now func() time.Time) *Clock {
	return &Clock{unit: unit, now: now}
}

// Raise makes the clock at least t, as at a restart the time of the last record.
func (c *Clock) Raise(t int64) {
	c.mu.Lock()
	defer c.mu.Unlock()
	if t > c.last {
		c.last = t
	}
}

// Now gives the time, at least that of any call before.
func (c *Clock) Now() int64 {
	// Round strips the monotonic reading: what counts is what the system's clock says.
	system := c.now().Round(0)
	t := system.UnixNano() / int64(c.unit)
	c.mu.Lock()
	defer c.mu.Unlock()
	if t >= c.last {
		c.last, c.held = t, 0
	} else {
		c.held = time.Duration(c.last)*c.unit - time.Duration(system.UnixNano())
	}
	return c.last
}

// Last gives the time of the last call, without a look at the system's clock.
func (c *Clock) Last() int64 {
	c.mu.Lock()
	defer c.mu.Unlock()
	return c.last
}

// Held says for how long the clock still has to stand still, as the last call of Now found it.
func (c *Clock) Held() time.Duration {
	c.mu.Lock()
	defer c.mu.Unlock()
	return c.held
}
