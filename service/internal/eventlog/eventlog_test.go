package eventlog

import (
	"errors"
	"strings"
	"testing"
	"time"
)

func TestLines(t *testing.T) {
	var out strings.Builder
	l := New(&out)
	l.now = func() time.Time { return time.Unix(0, 0) }
	l.Info("it \"runs\"", "pid", 7, "took", 3*time.Millisecond)
	l.Warn("odd", "value", "a\nb", "left over")
	l.Error("broken", "error", errors.New("why"), "bad", func() {})
	want := `{"time":"1970-01-01T00:00:00Z","level":"INFO","msg":"it \"runs\"","pid":7,"took":"3ms"}
{"time":"1970-01-01T00:00:00Z","level":"WARN","msg":"odd","value":"a\nb"}
{"time":"1970-01-01T00:00:00Z","level":"ERROR","msg":"broken","error":"why","bad":"`
	if got := out.String(); !strings.HasPrefix(got, want) {
		t.Error(got)
	}
}
