package journal

import (
	"encoding/json"
	"errors"
	"fmt"
	"io"
	"os"

	"enfd/internal/disk"
)

// ErrNotStored is wrapped where nothing of what was to be appended is in the journal, and more can be tried.
var ErrNotStored = errors.New("nothing was stored")

// ErrBroken is wrapped where it is not known what the files have; who goes on reads them anew.
var ErrBroken = errors.New("the journal is broken")

// MaxBatch is the greatest number of records that are appended at once.
const MaxBatch = 1024

// Entry is what is appended: a record's line and its label.
type Entry struct {
	Line  string
	Label string
}

// File is what a journal needs of its files. A test may give failing ones.
type File interface {
	io.WriterAt
	Sync() error
	Truncate(size int64) error
	Close() error
}

// Journal appends to the last segment. It is for one goroutine.
type Journal struct {
	dir     Dir
	create  func(path string) (File, error)
	segment int
	files   [2]File  // the log, the labels
	sizes   [2]int64 // of what is stored
	count   uint64   // records of the segment
	last    int64    // the time of the last record
	broken  bool
}

// Open opens the journal of a folder, and makes it where there is none. The tail of a record that was not stored whole,
// and so not answered, is cut off.
func Open(dir Dir) (*Journal, error) { return open(dir, openFile) }

func openFile(path string) (File, error) { return disk.OpenFile(path, os.O_RDWR|os.O_CREATE, 0o640) }

func open(dir Dir, create func(string) (File, error)) (*Journal, error) {
	if err := disk.MakeFolder(string(dir)); err != nil {
		return nil, fmt.Errorf("open the journal: %w", err)
	}
	segments, err := dir.Segments()
	if err != nil {
		return nil, err
	}
	j := &Journal{dir: dir, create: create}
	if len(segments) > 0 {
		j.segment = segments[len(segments)-1]
	}
	if err := j.openSegment(); err != nil {
		return nil, err
	}
	if err := j.recover(); err != nil {
		j.Close()
		return nil, err
	}
	return j, nil
}

func (j *Journal) openSegment() error {
	for i, kind := range []string{Log, Labels} {
		file, err := j.create(j.dir.File(j.segment, kind))
		if err != nil {
			return fmt.Errorf("open segment %d: %w", j.segment, err)
		}
		j.files[i] = file
	}
	return disk.SyncFolder(string(j.dir))
}

// recover finds what the last segment has, and cuts off the rest.
func (j *Journal) recover() error {
	reader, err := j.dir.Read(j.segment)
	if err != nil {
		return err
	}
	defer reader.Close()
	reader.isTail = true
	for {
		record, err := reader.Next()
		if err == io.EOF {
			break
		}
		if err != nil {
			return err
		}
		j.last = record.Step.Time
	}
	j.count, j.sizes = reader.read, [2]int64{reader.logSize, reader.labelsSize}
	return j.cut()
}

// cut makes the files as long as what is stored, so that no crash brings back what is behind it.
func (j *Journal) cut() error {
	for i, file := range j.files {
		if err := file.Truncate(j.sizes[i]); err != nil {
			return fmt.Errorf("cut segment %d: %w", j.segment, err)
		}
	}
	return j.sync()
}

// Segment gives the number of the last segment.
func (j *Journal) Segment() int { return j.segment }

// Count gives the number of records of the last segment.
func (j *Journal) Count() uint64 { return j.count }

// Sizes gives the bytes of the last segment that are stored, of the log and of the labels.
func (j *Journal) Sizes() (log, labels int64) { return j.sizes[0], j.sizes[1] }

// Last gives the time of the last record of the last segment, or 0.
func (j *Journal) Last() int64 { return j.last }

// Append stores entries, all of them or none, so that they outlast a crash of the machine; time is that of the last.
//
// An error wraps ErrNotStored, as when the disk is full, or ErrBroken.
func (j *Journal) Append(entries []Entry, time int64) error {
	if j.broken {
		return ErrBroken
	}
	if len(entries) > MaxBatch {
		return fmt.Errorf("%w: more than %d records at once", ErrNotStored, MaxBatch)
	}
	var log, labels []byte
	for i, entry := range entries {
		label := noLabel
		if entry.Label != "" {
			quoted, err := json.Marshal(entry.Label)
			if err != nil {
				return fmt.Errorf("%w: %v", ErrNotStored, err)
			}
			label = string(quoted)
		}
		log = append(log, entry.Line...)
		labels = appendLabel(labels, j.count+uint64(i), j.count, entry.Line, label)
	}
	for i, bytes := range [][]byte{log, labels} {
		if _, err := j.files[i].WriteAt(bytes, j.sizes[i]); err != nil {
			if cutErr := j.cut(); cutErr != nil {
				j.broken = true
				return fmt.Errorf("%w: %v, after %v", ErrBroken, cutErr, err)
			}
			return fmt.Errorf("%w: %v", ErrNotStored, err)
		}
	}
	// After a sync that failed nobody knows what a file has: it is not tried again.
	if err := j.sync(); err != nil {
		j.broken = true
		return fmt.Errorf("%w: %v", ErrBroken, err)
	}
	j.sizes[0] += int64(len(log))
	j.sizes[1] += int64(len(labels))
	j.count += uint64(len(entries))
	j.last = time
	return nil
}

// sync syncs both files at once.
func (j *Journal) sync() error {
	labels := make(chan error, 1)
	go func() { labels <- j.files[1].Sync() }()
	err := j.files[0].Sync()
	if labelsErr := <-labels; err == nil {
		err = labelsErr
	}
	return err
}

// Rotate closes the segment and begins the next one.
func (j *Journal) Rotate() error {
	if j.broken {
		return ErrBroken
	}
	old := j.files
	j.segment++
	if err := j.openSegment(); err != nil {
		for i, file := range j.files {
			if file != old[i] {
				file.Close()
			}
		}
		// A segment counts as closed where the next one is there.
		for _, kind := range []string{Log, Labels} {
			_ = disk.Remove(j.dir.File(j.segment, kind))
		}
		j.segment--
		j.files = old
		return fmt.Errorf("%w: %v", ErrNotStored, err)
	}
	for _, file := range old {
		file.Close()
	}
	j.sizes, j.count = [2]int64{}, 0
	return nil
}

// Close closes the files.
func (j *Journal) Close() {
	for _, file := range j.files {
		if file != nil {
			file.Close()
		}
	}
}
