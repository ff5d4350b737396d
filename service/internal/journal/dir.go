// Package journal keeps the records that were accepted, in segments that survive a kill and a crash.
//
// A segment is two files: NNNNNNNN.log, a plain log that enf reads as it stands, and NNNNNNNN.labels, with a line for each
// record: a checksum, the number of the first record of the batch, and the record's label. A record counts where both have
// it. A batch is stored at once, and is synced before the next one is written: so a crash leaves a part of the last batch
// alone, in any order, and where something of a later batch is there a record that does not fit has been changed.
package journal

import (
	"errors"
	"fmt"
	"io/fs"
	"os"
	"path/filepath"
	"sort"
	"strconv"
	"strings"

	"enfd/internal/disk"
)

// The files of a segment. Those of its beginning are the state and the mark, which say what was before it.
const (
	Log      = ".log"
	Labels   = ".labels"
	Enforced = ".enforced"
	Report   = ".report"
	State    = ".state"
	Mark     = ".json"
)

// archived is the folder of the segments that a checkpoint has closed.
const archived = "archive"

// Dir is the folder of a journal.
type Dir string

// File gives the path of a file of a segment that is not archived.
func (d Dir) File(segment int, kind string) string {
	return filepath.Join(string(d), fmt.Sprintf("%08d%s", segment, kind))
}

// Open opens a file of a segment to read it, archived or not. A segment goes from the folder to the archive and never back,
// so it is found also where it is moved meanwhile.
func (d Dir) Open(segment int, kind string) (*os.File, error) {
	file, err := os.Open(d.File(segment, kind))
	if errors.Is(err, fs.ErrNotExist) {
		file, err = os.Open(filepath.Join(string(d), archived, filepath.Base(d.File(segment, kind))))
	}
	if err != nil {
		return nil, fmt.Errorf("open segment %d: %w", segment, err)
	}
	return file, nil
}

// Segments lists the segments of which a log is there, archived or not, in their order. The folder is listed first: what is
// archived meanwhile is found in the archive then.
func (d Dir) Segments() ([]int, error) {
	kept, err := d.Kept(Log)
	if err != nil {
		return nil, err
	}
	old, err := d.list(archived, Log)
	if err != nil {
		return nil, err
	}
	all := append(old, kept...)
	sort.Ints(all)
	segments := all[:0]
	for i, segment := range all {
		// While it is archived a segment is in both.
		if i == 0 || segment != all[i-1] {
			segments = append(segments, segment)
		}
	}
	return segments, nil
}

// Kept lists the segments of which a kind of file is there and not archived.
func (d Dir) Kept(kind string) ([]int, error) { return d.list(".", kind) }

func (d Dir) list(folder, kind string) ([]int, error) {
	entries, err := os.ReadDir(filepath.Join(string(d), folder))
	if err != nil && !errors.Is(err, fs.ErrNotExist) {
		return nil, fmt.Errorf("list the journal: %w", err)
	}
	var segments []int
	for _, entry := range entries {
		name := strings.TrimSuffix(entry.Name(), kind)
		if number, err := strconv.Atoi(name); name != entry.Name() && err == nil {
			segments = append(segments, number)
		}
	}
	return segments, nil
}

// kinds are the files of a segment that is closed. The log comes last: as long as it is in the folder the segment is not
// archived.
var kinds = []string{Mark, Enforced, Report, Labels, Log}

// Archive puts the files of a segment that is closed into the archive. What is there already stays.
//
// A folder may become lasting at any time, as another goroutine syncs it: so each file has its name in the archive, and
// lasting, before it loses the one that it had.
func (d Dir) Archive(segment int) error {
	folder := filepath.Join(string(d), archived)
	if err := disk.MakeFolder(folder); err != nil {
		return fmt.Errorf("archive: %w", err)
	}
	for _, kind := range kinds {
		from := d.File(segment, kind)
		err := disk.Link(from, filepath.Join(folder, filepath.Base(from)))
		if err != nil && !errors.Is(err, fs.ErrNotExist) && !errors.Is(err, fs.ErrExist) {
			return fmt.Errorf("archive: %w", err)
		}
	}
	if err := disk.SyncFolder(folder); err != nil {
		return err
	}
	for _, kind := range kinds {
		if err := disk.Remove(d.File(segment, kind)); err != nil && !errors.Is(err, fs.ErrNotExist) {
			return fmt.Errorf("archive: %w", err)
		}
	}
	return disk.SyncFolder(string(d))
}
