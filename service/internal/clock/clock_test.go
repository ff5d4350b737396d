package clock

import (
	"testing"
	"time"
)

func TestNeverFalls(t *testing.T) {
	var system time.Time
	c := New(time.Second, func() time.Time { return system })
	for _, test := range []struct {
		system int64 // milliseconds
		want   int64
		held   time.Duration
	}{
		{5000, 5, 0},
		{5999, 5, 0},
		{8000, 8, 0},
		{4500, 8, 3500 * time.Millisecond}, // set back
		{7999, 8, time.Millisecond},
		{8000, 8, 0},
		{9000, 9, 0},
	} {
		system = time.UnixMilli(test.system)
		if got := c.Now(); got != test.want || c.Held() != test.held || c.Last() != test.want {
			t.Errorf("at %d: %d, held %v", test.system, got, c.Held())
		}
	}
	c.Raise(20)
	c.Raise(10)
	if got := c.Now(); got != 20 || c.Held() != 11*time.Second {
		t.Errorf("raised: %d, held %v", got, c.Held())
	}
}
