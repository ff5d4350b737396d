// Package changes keeps the decision log: what was added and taken out, for which rule, and since when it was owed.
package changes

import (
	"bytes"
	"encoding/json"
	"errors"
	"fmt"
	"io"
	"os"
	"path/filepath"
	"sync"

	"enfd/internal/disk"
	"enfd/internal/logtext"
)

// Origin is the step since which something was owed.
type Origin struct {
	Position uint64 `json:"position"`
	Time     *int64 `json:"time,omitempty"` // where it is known
	ID       string `json:"id,omitempty"`   // of the request, where it had one
}

// Change is an event that was added or taken out.
type Change struct {
	N        uint64            `json:"n,omitempty"`     // its line in the report, from 1
	Order    uint64            `json:"order,omitempty"` // of an added event the number of its order, from 1
	Kind     string            `json:"kind"`
	Event    logtext.Event     `json:"event"`
	Time     int64             `json:"time"`
	Position uint64            `json:"position"` // of its step in the enforced log
	Inserted bool              `json:"inserted"` // whether the step is one that a deadline made
	ID       string            `json:"id,omitempty"`
	Rule     string            `json:"rule"`
	Node     int               `json:"node"`
	Leaf     int               `json:"leaf"`
	Origin   Origin            `json:"origin"`
	Bindings []logtext.Binding `json:"bindings,omitempty"`
}

// Of makes the change of a line of the report; the number and the order are its reader's to give.
func Of(line logtext.Change, inserted bool, label string, origin Origin) (Change, error) {
	event, err := logtext.ParseEvent(line.Event)
	if err != nil {
		return Change{}, err
	}
	return Change{
		Kind: line.Kind, Event: event, Time: line.Time, Position: line.Position, Inserted: inserted, ID: label,
		Rule: line.Rule, Node: line.Node, Leaf: line.Leaf, Origin: origin, Bindings: line.Bindings,
	}, nil
}

// Log keeps the last changes, and writes all of them to a sink where there is one. Many goroutines may use it.
type Log struct {
	keep int

	mu     sync.Mutex
	last   []Change
	next   uint64        // the number of the next change
	grown  chan struct{} // closed when there is more
	sink   io.Writer
	sunk   uint64 // the number of the last change that the sink has
	unsunk []byte // lines for the sink
}

// New gives a log that keeps so many changes, of which the first will have the number next. sink may be nil; it has all
// changes up to the number sunk already.
func New(keep int, next uint64, sink io.Writer, sunk uint64) *Log {
	return &Log{keep: keep, next: next, grown: make(chan struct{}), sink: sink, sunk: sunk}
}

// Add adds the next change.
func (l *Log) Add(change Change) {
	l.mu.Lock()
	defer l.mu.Unlock()
	if len(l.last) >= 2*l.keep {
		l.last = append([]Change(nil), l.last[len(l.last)-l.keep:]...)
	}
	l.last, l.next = append(l.last, change), change.N+1
	if l.sink != nil && change.N > l.sunk {
		l.unsunk = append(l.unsunk, Lines([]Change{change})...)
		l.sunk = change.N
	}
}

// Flush gives the sink the changes that were added, and wakes those who wait for them. What the sink has not taken is
// given to it by the next call.
func (l *Log) Flush() error {
	l.mu.Lock()
	defer l.mu.Unlock()
	close(l.grown)
	l.grown = make(chan struct{})
	if len(l.unsunk) == 0 {
		return nil
	}
	n, err := l.sink.Write(l.unsunk)
	l.unsunk = l.unsunk[:copy(l.unsunk, l.unsunk[n:])]
	if err != nil {
		return fmt.Errorf("write the changes: %w", err)
	}
	return nil
}

// Follow gives a reader the changes of greater numbers than n as lines, until ended is closed and it has all. Where it is so
// slow that some are not kept any more, missed is told the numbers of the first and the last of them.
func (l *Log) Follow(to io.Writer, n uint64, ended <-chan struct{}, missed func(first, last uint64)) error {
	for isEnd := false; ; {
		list, least, more := l.After(n, followed)
		if n+1 < least {
			missed(n+1, least-1)
			n = least - 1
			continue
		}
		if len(list) > 0 {
			n = list[len(list)-1].N
			if _, err := to.Write(Lines(list)); err != nil {
				return fmt.Errorf("write the changes: %w", err)
			}
			continue
		}
		if isEnd {
			return nil
		}
		select {
		case <-more:
		case <-ended:
			isEnd = true
		}
	}
}

// followed is the number of changes that a follower is given at once.
const followed = 500

// Lines writes changes as JSON lines.
func Lines(list []Change) (text []byte) {
	for _, change := range list {
		if line, err := json.Marshal(change); err == nil {
			text = append(append(text, line...), '\n')
		}
	}
	return text
}

// After gives the changes that are kept and have greater numbers, at most limit of the first ones, the least number from
// which on all changes are kept, and a channel that is closed when there may be more.
func (l *Log) After(n uint64, limit int) (after []Change, least uint64, more <-chan struct{}) {
	l.mu.Lock()
	defer l.mu.Unlock()
	kept := l.last
	if len(kept) > l.keep {
		kept = kept[len(kept)-l.keep:]
	}
	least = l.next
	if len(kept) > 0 {
		least = kept[0].N
		if n+1 > least {
			skip := n + 1 - least
			if skip > uint64(len(kept)) {
				skip = uint64(len(kept))
			}
			kept = kept[skip:]
		}
	}
	if len(kept) > limit {
		kept = kept[:limit]
	}
	return append([]Change(nil), kept...), least, l.grown
}

// Latest gives the last changes, the newest first.
func (l *Log) Latest(limit int) []Change {
	l.mu.Lock()
	defer l.mu.Unlock()
	var latest []Change
	for i := len(l.last) - 1; i >= 0 && len(latest) < limit; i-- {
		latest = append(latest, l.last[i])
	}
	return latest
}

// OpenFile opens a file of changes to go on with it, and gives the number of its last one. Up to the number synced all are
// lasting; of those behind a crash may have left any part, so what stands behind the first that is missing is cut off.
func OpenFile(path string, synced uint64) (file *disk.File, last uint64, err error) {
	file, err = disk.OpenFile(path, os.O_RDWR|os.O_CREATE, 0o640)
	if err != nil {
		return nil, 0, fmt.Errorf("open the changes: %w", err)
	}
	var size int64
	if err = disk.SyncFolder(filepath.Dir(path)); err == nil {
		last, size, err = whole(file, synced)
	}
	if err == nil {
		err = file.Truncate(size)
	}
	if err == nil {
		_, err = file.Seek(size, io.SeekStart)
	}
	if err != nil {
		file.Close()
		return nil, 0, fmt.Errorf("open the changes: %w", err)
	}
	return file, last, nil
}

// whole gives the number of the last change up to which none is missing behind those that were synced, and the place behind
// it. It reads from the end of the file as far back as to the last one that was synced.
func whole(file *disk.File, synced uint64) (last uint64, size int64, err error) {
	info, err := file.Stat()
	if err != nil {
		return 0, 0, err
	}
	for window := int64(1 << 16); ; window *= 2 {
		start := info.Size() - window
		if start < 0 {
			start = 0
		}
		text := make([]byte, info.Size()-start)
		if _, err := file.ReadAt(text, start); err != nil && !errors.Is(err, io.EOF) {
			return 0, 0, err
		}
		at := int64(0)
		if start > 0 {
			// The first line may have begun before.
			at = int64(bytes.IndexByte(text, '\n') + 1)
		}
		found, goesOn := start == 0, start == 0
		for {
			line, _, isWhole := bytes.Cut(text[at:], []byte("\n"))
			if !isWhole {
				break
			}
			at += int64(len(line)) + 1
			var change struct{ N uint64 }
			isChange := json.Unmarshal(line, &change) == nil && change.N > 0
			switch {
			case isChange && change.N <= synced:
				found, goesOn = true, true
			case !goesOn || !isChange || change.N != max(last, synced)+1:
				goesOn = false
				continue
			}
			last, size = change.N, start+at
		}
		if found {
			return last, size, nil
		}
	}
}

func max(a, b uint64) uint64 {
	if a > b {
		return a
	}
	return b
}
