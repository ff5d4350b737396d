// Package quarantine keeps the requests that were not accepted, for somebody to look at.
package quarantine

import (
	"encoding/json"
	"errors"
	"fmt"
	"io/fs"
	"os"
	"sync"
	"time"
)

// maxBody is the greatest number of bytes of a request that is kept.
const maxBody = 4096

// Log appends to a file; many goroutines may use it. When the file has grown to its limit it takes the place of the one
// before, so that nobody fills the disk with refused requests.
type Log struct {
	path  string
	limit int64

	mu   sync.Mutex
	file *os.File
	size int64
}

// Open opens a log with a limit for its bytes.
func Open(path string, limit int64) (*Log, error) {
	file, err := os.OpenFile(path, os.O_WRONLY|os.O_CREATE|os.O_APPEND, 0o640)
	if err != nil {
		return nil, fmt.Errorf("open the quarantine: %w", err)
	}
	info, err := file.Stat()
	if err != nil {
		file.Close()
		return nil, fmt.Errorf("open the quarantine: %w", err)
	}
	return &Log{path: path, limit: limit, file: file, size: info.Size()}, nil
}

// entry is a line of the log.
type entry struct {
	Time   time.Time `json:"time"`
	From   string    `json:"from"`
	Reason string    `json:"reason"`
	Place  string    `json:"place,omitempty"`
	Body   string    `json:"body"`
	Cut    bool      `json:"cut,omitempty"`
}

// Put keeps a request that was refused, its first bytes where it is long.
func (l *Log) Put(from, reason, place string, body []byte) error {
	line := entry{Time: time.Now().UTC(), From: from, Reason: reason, Place: place}
	if len(body) > maxBody {
		body, line.Cut = body[:maxBody], true
	}
	line.Body = string(body)
	text, err := json.Marshal(line)
	if err != nil {
		return fmt.Errorf("quarantine: %w", err)
	}
	l.mu.Lock()
	defer l.mu.Unlock()
	if l.size > l.limit {
		if err := l.turn(); err != nil {
			return fmt.Errorf("quarantine: %w", err)
		}
	}
	n, err := l.file.Write(append(text, '\n'))
	l.size += int64(n)
	if err != nil {
		return fmt.Errorf("quarantine: %w", err)
	}
	return nil
}

// turn begins a new file; the old one stays beside it, in place of the one before.
func (l *Log) turn() error {
	// It is not there where it was moved before, and no new one could be made.
	if err := os.Rename(l.path, l.path+".1"); err != nil && !errors.Is(err, fs.ErrNotExist) {
		return err
	}
	file, err := os.OpenFile(l.path, os.O_WRONLY|os.O_CREATE|os.O_APPEND, 0o640)
	if err != nil {
		return err
	}
	l.file.Close()
	l.file, l.size = file, 0
	return nil
}

// Close closes the file.
func (l *Log) Close() error { return l.file.Close() }
