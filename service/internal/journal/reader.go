package journal

import (
	"bufio"
	"encoding/json"
	"errors"
	"fmt"
	"hash/crc32"
	"io"
	"os"
	"strconv"
	"strings"

	"enfd/internal/logtext"
)

// ErrCorrupt is wrapped where a record does not fit its checksum though it was stored: it is not of the last batch.
var ErrCorrupt = errors.New("the journal is corrupt")

var castagnoli = crc32.MakeTable(crc32.Castagnoli)

// Record is a record of the journal.
type Record struct {
	Segment int
	Label   string // of a step, or empty
	Line    string // with its line feed
	Step    logtext.Step
}

// Reader reads the records of a segment, one after the other.
type Reader struct {
	segment     int
	log, labels *bufio.Reader
	files       [2]*os.File
	isTail      bool // whether its end may be one that was not stored whole
	read        uint64
	logSize     int64 // of the records read so far
	labelsSize  int64
}

// Read opens a segment of which all is stored. With limits no more than so many bytes of the two files are read.
func (d Dir) Read(segment int, limits ...int64) (*Reader, error) {
	r := &Reader{segment: segment}
	inputs := [2]io.Reader{}
	for i, kind := range []string{Log, Labels} {
		file, err := d.Open(segment, kind)
		if err != nil {
			r.Close()
			return nil, err
		}
		r.files[i], inputs[i] = file, file
		if i < len(limits) {
			inputs[i] = io.LimitReader(file, limits[i])
		}
	}
	r.log, r.labels = bufio.NewReaderSize(inputs[0], 1<<16), bufio.NewReaderSize(inputs[1], 1<<14)
	return r, nil
}

// Close closes the files.
func (r *Reader) Close() {
	for _, file := range r.files {
		if file != nil {
			file.Close()
		}
	}
}

// Next gives the next record, or io.EOF at the end.
func (r *Reader) Next() (Record, error) {
	line, label, err := r.lines()
	if err != nil {
		return Record{}, err
	}
	if line == "" && label == "" {
		return Record{}, io.EOF
	}
	record, fits := r.record(line, label)
	if fits {
		r.read++
		r.logSize += int64(len(line))
		r.labelsSize += int64(len(label))
		return record, nil
	}
	if r.isTail {
		isTorn, err := r.isTornTail(line, label)
		if err == nil && isTorn {
			err = io.EOF
		}
		if err != nil {
			return Record{}, err
		}
	}
	return Record{}, fmt.Errorf("segment %d, record %d: %w", r.segment, r.read+1, ErrCorrupt)
}

// lines gives the next line of both files, without a line feed or empty at their ends.
func (r *Reader) lines() (line, label string, err error) {
	line, err = r.log.ReadString('\n')
	if err == nil || err == io.EOF {
		label, err = r.labels.ReadString('\n')
	}
	if err != nil && err != io.EOF {
		return "", "", fmt.Errorf("read segment %d: %w", r.segment, err)
	}
	return line, label, nil
}

// record makes the next record of its two lines, where they are whole and fit each other and its number.
func (r *Reader) record(line, label string) (record Record, fits bool) {
	record = Record{Segment: r.segment, Line: line}
	sum, first, name, ok := cutLabel(label)
	if !ok || !strings.HasSuffix(label, "\n") || !strings.HasSuffix(line, "\n") || sum != checksum(r.read, first, line, name) {
		return Record{}, false
	}
	if name != noLabel && json.Unmarshal([]byte(name), &record.Label) != nil {
		return Record{}, false
	}
	var err error
	record.Step, err = logtext.ParseStep(strings.TrimSuffix(line, "\n"))
	return record, err == nil
}

// isTornTail says whether what follows a record that is not whole, from its two lines on, can be of the batch that was about
// to be stored: at most a batch, and nothing of a later one, before which this one was synced.
func (r *Reader) isTornTail(line, label string) (isTorn bool, err error) {
	for lines := 0; line != "" || label != ""; lines++ {
		if _, first, _, ok := cutLabel(label); ok && first > r.read || lines == MaxBatch {
			return false, nil
		}
		if line, label, err = r.lines(); err != nil {
			return false, err
		}
	}
	return true, nil
}

// noLabel stands in place of the label of a record that has none.
const noLabel = "-"

// appendLabel appends the line of the labels for a record: its checksum, the number of the first record of its batch, and
// its label. Numbers count the records of a segment from 0.
func appendLabel(out []byte, number, first uint64, line, label string) []byte {
	return append(out, fmt.Sprintf("%s %d %s\n", checksum(number, first, line, label), first, label)...)
}

// cutLabel reads a line of the labels. What is no such line, as one that was stored in part, is not ok.
func cutLabel(text string) (sum string, first uint64, label string, ok bool) {
	parts := strings.SplitN(strings.TrimSuffix(text, "\n"), " ", 3)
	if len(parts) < 3 || len(parts[0]) != 8 {
		return "", 0, "", false
	}
	first, err := strconv.ParseUint(parts[1], 10, 64)
	return parts[0], first, parts[2], err == nil
}

// checksum takes the number too, so that no record stands for another one that has the same lines.
func checksum(number, first uint64, line, label string) string {
	sum := crc32.Checksum([]byte(fmt.Sprintf("%d %d ", number, first)), castagnoli)
	sum = crc32.Update(sum, castagnoli, []byte(line))
	return fmt.Sprintf("%08x", crc32.Update(sum, castagnoli, []byte(label)))
}
