// Package eventlog writes what happens as JSON lines with a time, a level, a message and pairs.
//
// It has the form of log/slog, which the Go of Debian 12 has not yet.
package eventlog

import (
	"encoding/json"
	"fmt"
	"io"
	"sync"
	"time"
)

// Logger writes lines to a writer; it may be used by many goroutines.
type Logger struct {
	mu  *sync.Mutex
	out io.Writer
	now func() time.Time
}

// New gives a logger that writes to out.
func New(out io.Writer) *Logger {
	return &Logger{mu: &sync.Mutex{}, out: out, now: time.Now}
}

// Info says what happened; pairs are keys and values in turn.
func (l *Logger) Info(message string, pairs ...any) { l.write("INFO", message, pairs) }

// Warn says what an operator should look at.
func (l *Logger) Warn(message string, pairs ...any) { l.write("WARN", message, pairs) }

// Error says what an operator must look at.
func (l *Logger) Error(message string, pairs ...any) { l.write("ERROR", message, pairs) }

func (l *Logger) write(level, message string, pairs []any) {
	line := []byte(`{"time":`)
	line = appendJSON(line, l.now().UTC().Format(time.RFC3339Nano))
	line = append(line, `,"level":"`+level+`","msg":`...)
	line = appendJSON(line, message)
	for i := 0; i+1 < len(pairs); i += 2 {
		line = append(line, ',')
		line = appendJSON(line, fmt.Sprint(pairs[i]))
		line = append(line, ':')
		line = appendJSON(line, pairs[i+1])
	}
	line = append(line, '}', '\n')
	l.mu.Lock()
	defer l.mu.Unlock()
	// A log that cannot be written is nowhere to be reported.
	_, _ = l.out.Write(line)
}

func appendJSON(line []byte, value any) []byte {
	switch v := value.(type) {
	case error:
		value = v.Error()
	case time.Duration:
		value = v.String()
	}
	text, err := json.Marshal(value)
	if err != nil {
		text, _ = json.Marshal(fmt.Sprint(value))
	}
	return append(line, text...)
}
