package enforcement

import (
	"bytes"
	"errors"
	"fmt"
	"io"
	"io/fs"
	"os"

	"enfd/internal/disk"
	"enfd/internal/journal"
)

// errOther says that a file had other bytes than those that were written.
var errOther = errors.New("the output of this run is not that of the run before")

// output writes the enforced log and the report of the segments, as their steps come.
//
// These files are made of the journal, and are not synced: after a crash they are made again. What is there already is
// held against what is written, so a restart goes on byte for byte, or says that it does not.
type output struct {
	dir      journal.Dir
	segments []*segmentOutput // those that are not written to their ends, and the last one
}

type segmentOutput struct {
	number           int
	enforced, report replayed
}

// write puts the lines of a step behind those of the steps before.
func (o *output) write(segment int, line, report string) {
	n := len(o.segments)
	if n == 0 || o.segments[n-1].number != segment {
		o.segments = append(o.segments, &segmentOutput{
			number:   segment,
			enforced: replayed{path: o.dir.File(segment, journal.Enforced)},
			report:   replayed{path: o.dir.File(segment, journal.Report)},
		})
		n++
	}
	last := o.segments[n-1]
	last.enforced.out = append(last.enforced.out, line...)
	last.report.out = append(last.report.out, report...)
}

// flush gives the files all that was written, in its order: where one does not take it, those behind it wait. A report goes
// before its enforced log, so who finds a step finds its changes. An error that wraps errOther is one of what was there.
func (o *output) flush() error {
	var other error
	for len(o.segments) > 0 {
		first := o.segments[0]
		for _, file := range []*replayed{&first.report, &first.enforced} {
			if err := file.flush(); errors.Is(err, errOther) {
				other = err
			} else if err != nil {
				return err
			}
		}
		if len(o.segments) == 1 {
			break
		}
		o.forget(first.number + 1)
	}
	return other
}

// forget leaves the segments below one as they are.
func (o *output) forget(below int) {
	for len(o.segments) > 0 && o.segments[0].number < below {
		o.segments[0].enforced.close()
		o.segments[0].report.close()
		o.segments = o.segments[1:]
	}
}

// replayed is a file that is written again from its beginning.
type replayed struct {
	path  string
	file  *disk.File // once something was written
	there []byte     // what stands in the file behind the bytes that were written
	at    int64      // of the bytes that are in the file
	out   []byte     // what is to be written there
}

// flush writes what is to be written; errOther says that other bytes stood there.
func (r *replayed) flush() (err error) {
	if len(r.out) == 0 {
		return nil
	}
	if r.file == nil {
		if r.file, err = disk.OpenFile(r.path, os.O_RDWR|os.O_CREATE, 0o640); err != nil {
			return fmt.Errorf("open an output: %w", err)
		}
		if r.there, err = io.ReadAll(r.file); err != nil {
			r.close()
			return fmt.Errorf("open an output: %w", err)
		}
	}
	same := len(r.there)
	if same > len(r.out) {
		same = len(r.out)
	}
	var other error
	if bytes.Equal(r.there[:same], r.out[:same]) {
		r.there = r.there[same:]
	} else {
		if err := r.file.Truncate(r.at); err != nil {
			return fmt.Errorf("mend an output: %w", err)
		}
		same, r.there, other = 0, nil, fmt.Errorf("%w: %s behind byte %d", errOther, r.path, r.at)
	}
	n, err := r.file.WriteAt(r.out[same:], r.at+int64(same))
	r.at += int64(same + n)
	r.out = r.out[:copy(r.out, r.out[same+n:])]
	if err != nil {
		return fmt.Errorf("write an output: %w", err)
	}
	return other
}

func (r *replayed) close() {
	if r.file != nil {
		r.file.Close()
		r.file = nil
	}
}

// sameFront says whether one of two files is a front of the other, and whether they are the same. A file that is not there
// is empty.
func sameFront(one, other string) (front, same bool, err error) {
	a, err := os.ReadFile(one)
	if err != nil && !errors.Is(err, fs.ErrNotExist) {
		return false, false, fmt.Errorf("compare outputs: %w", err)
	}
	b, err := os.ReadFile(other)
	if err != nil && !errors.Is(err, fs.ErrNotExist) {
		return false, false, fmt.Errorf("compare outputs: %w", err)
	}
	return bytes.HasPrefix(a, b) || bytes.HasPrefix(b, a), bytes.Equal(a, b), nil
}
