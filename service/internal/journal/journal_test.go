package journal

import (
	"bytes"
	"errors"
	"fmt"
	"io"
	"math/rand"
	"os"
	"path/filepath"
	"testing"
)

// contents reads a segment as "time/label" words.
func contents(t *testing.T, dir Dir, segment int) string {
	t.Helper()
	reader, err := dir.Read(segment)
	if err != nil {
		t.Fatal(err)
	}
	defer reader.Close()
	var words []byte
	for {
		record, err := reader.Next()
		if err == io.EOF {
			return string(words)
		}
		if err != nil {
			t.Fatal(err)
		}
		words = append(words, fmt.Sprintf("%d/%s ", record.Step.Time, record.Label)...)
	}
}

func fill(t *testing.T, dir Dir) {
	t.Helper()
	j, err := Open(dir)
	if err != nil {
		t.Fatal(err)
	}
	defer j.Close()
	for _, batch := range [][]Entry{
		{{"@1 a();\n", "x"}, {"@2;\n", ""}},
		{{">3;\n", ""}},
		{{"@4 b(\"\u2028\");\n", "y \"\n"}},
	} {
		if err := j.Append(batch, 4); err != nil {
			t.Fatal(err)
		}
	}
}

func TestGoesOn(t *testing.T) {
	dir := Dir(t.TempDir())
	fill(t, dir)
	j, err := Open(dir)
	if err != nil {
		t.Fatal(err)
	}
	if j.Count() != 4 || j.Last() != 4 || j.Segment() != 0 {
		t.Errorf("count %d, last %d, segment %d", j.Count(), j.Last(), j.Segment())
	}
	if err := j.Rotate(); err != nil {
		t.Fatal(err)
	}
	if err := j.Append([]Entry{{"@9;\n", "z"}}, 9); err != nil {
		t.Fatal(err)
	}
	j.Close()
	if err := dir.Archive(0); err != nil {
		t.Fatal(err)
	}
	for segment, want := range []string{"1/x 2/ 3/ 4/y \"\n ", "9/z "} {
		if got := contents(t, dir, segment); got != want {
			t.Errorf("segment %d: %q in place of %q", segment, got, want)
		}
	}
	if segments, err := dir.Segments(); err != nil || fmt.Sprint(segments) != "[0 1]" {
		t.Errorf("%v, %v", segments, err)
	}
}

// TestTornTails cuts the files within a batch in many places, as a crash may, and adds garbage to them.
func TestTornTails(t *testing.T) {
	whole := Dir(t.TempDir())
	j, err := Open(whole)
	if err != nil {
		t.Fatal(err)
	}
	batch := []Entry{{"@1 a();\n", "x"}, {"@2;\n", ""}, {">3;\n", ""}, {"@4 b(\"\u2028\");\n", "y \"\n"}}
	if err := j.Append(batch, 4); err != nil {
		t.Fatal(err)
	}
	j.Close()
	log, labels := read(t, whole, Log), read(t, whole, Labels)
	wants := []string{"", "1/x ", "1/x 2/ ", "1/x 2/ 3/ ", "1/x 2/ 3/ 4/y \"\n "}
	for logSize := 0; logSize <= len(log); logSize += 2 {
		for labelsSize := 0; labelsSize <= len(labels); labelsSize += 9 {
			for _, garbage := range []string{"", "\x00\x00\x00", "@77;\n"} {
				dir := Dir(t.TempDir())
				write(t, dir, Log, append(append([]byte{}, log[:logSize]...), garbage...))
				write(t, dir, Labels, append(append([]byte{}, labels[:labelsSize]...), garbage...))
				j, err := Open(dir)
				if err != nil {
					t.Fatalf("%d, %d, %q: %v", logSize, labelsSize, garbage, err)
				}
				whole := bytes.Count(log[:logSize], []byte("\n"))
				if labelled := bytes.Count(labels[:labelsSize], []byte("\n")); labelled < whole {
					whole = labelled
				}
				if got := contents(t, dir, 0); got != wants[whole] {
					t.Fatalf("%d, %d, %q: %q in place of %q", logSize, labelsSize, garbage, got, wants[whole])
				}
				if err := j.Append([]Entry{{"@8;\n", "after"}}, 8); err != nil {
					t.Fatal(err)
				}
				j.Close()
				if got := contents(t, dir, 0); got != wants[whole]+"8/after " {
					t.Fatalf("%d, %d, %q: then %q", logSize, labelsSize, garbage, got)
				}
			}
		}
	}
}

// TestTornBatch loses sectors of the last batch, some of whole records and some out of the middle of one, and keeps those
// behind them. All records are equal, so what stands at one place would fit at another one.
func TestTornBatch(t *testing.T) {
	const sector, before = 512, 5
	for _, size := range []int{1, 40, 600, 3000} {
		whole := Dir(t.TempDir())
		j, err := Open(whole)
		if err != nil {
			t.Fatal(err)
		}
		entry := Entry{Line: fmt.Sprintf("@7 a(%q);\n", bytes.Repeat([]byte("x"), size))}
		var stored [2]int64
		for _, count := range []int{before, 60} {
			stored[0], stored[1] = j.Sizes()
			if err := j.Append(repeated(entry, count), 7); err != nil {
				t.Fatal(err)
			}
		}
		j.Close()
		random := rand.New(rand.NewSource(int64(size)))
		for round := 0; round < 40; round++ {
			dir := Dir(t.TempDir())
			for i, kind := range []string{Log, Labels} {
				content := read(t, whole, kind)
				for at := int64(0); at < int64(len(content)); at++ {
					if at%sector == 0 || at == stored[i] {
						if lost := random.Intn(1+round%8) == 0; !lost {
							at += sector - at%sector - 1
							continue
						}
					}
					if at >= stored[i] {
						content[at] = 0
					}
				}
				write(t, dir, kind, content)
			}
			if left, err := recovered(t, dir); err != nil || left < before {
				t.Fatalf("size %d, round %d: %d records are left, %v", size, round, left, err)
			}
		}
	}
}

// recovered counts the records that Open would find, without the syncs of that.
func recovered(t *testing.T, dir Dir) (uint64, error) {
	t.Helper()
	reader, err := dir.Read(0)
	if err != nil {
		t.Fatal(err)
	}
	defer reader.Close()
	reader.isTail = true
	for err == nil {
		_, err = reader.Next()
	}
	if err == io.EOF {
		err = nil
	}
	return reader.read, err
}

func repeated(entry Entry, count int) []Entry {
	batch := make([]Entry, count)
	for i := range batch {
		batch[i] = entry
	}
	return batch
}

// TestCorrupt changes what was stored, a byte or a whole record among equal ones: nothing of that is taken for a torn tail.
func TestCorrupt(t *testing.T) {
	whole := Dir(t.TempDir())
	j, err := Open(whole)
	if err != nil {
		t.Fatal(err)
	}
	for i := 0; i < 3; i++ {
		if err := j.Append(repeated(Entry{Line: "@1 a();\n"}, 4), 1); err != nil {
			t.Fatal(err)
		}
	}
	j.Close()
	content := [2][]byte{read(t, whole, Log), read(t, whole, Labels)}
	see := func(what string, log, labels []byte) {
		t.Helper()
		dir := Dir(t.TempDir())
		write(t, dir, Log, log)
		write(t, dir, Labels, labels)
		if _, err := recovered(t, dir); !errors.Is(err, ErrCorrupt) {
			t.Errorf("%s: %v in place of %v", what, err, ErrCorrupt)
		}
	}
	for i := range content {
		for at := 0; at < 2*len(content[i])/3; at++ {
			changed := content
			changed[i] = append([]byte{}, content[i]...)
			changed[i][at] ^= 3
			see(fmt.Sprintf("byte %d of file %d", at, i), changed[0], changed[1])
		}
	}
	for _, lost := range []int{0, 1, 3, 5} {
		see(fmt.Sprintf("without record %d", lost), withoutLine(content[0], lost), withoutLine(content[1], lost))
		see(fmt.Sprintf("without line %d of the labels", lost), content[0], withoutLine(content[1], lost))
	}
	see("without the log", nil, content[1])
}

func withoutLine(text []byte, line int) []byte {
	lines := bytes.SplitAfter(text, []byte("\n"))
	return bytes.Join(append(append([][]byte{}, lines[:line]...), lines[line+1:]...), nil)
}

// failing is a file that fails when it is told to.
type failing struct {
	File
	write, sync, truncate *bool
}

var errDisk = errors.New("the disk")

func (f failing) WriteAt(p []byte, at int64) (int, error) {
	if *f.write {
		n, _ := f.File.WriteAt(p[:len(p)/2], at)
		return n, errDisk
	}
	return f.File.WriteAt(p, at)
}

func (f failing) Sync() error {
	if *f.sync {
		return errDisk
	}
	return f.File.Sync()
}

func (f failing) Truncate(size int64) error {
	if *f.truncate {
		return errDisk
	}
	return f.File.Truncate(size)
}

func TestFailingDisk(t *testing.T) {
	for _, test := range []struct {
		name                  string
		kind                  string
		write, sync, truncate bool
		want                  error
	}{
		{name: "full at the log", kind: Log, write: true, want: ErrNotStored},
		{name: "full at the labels", kind: Labels, write: true, want: ErrNotStored},
		{name: "not to be cut", kind: Labels, write: true, truncate: true, want: ErrBroken},
		{name: "not known to be cut", kind: Log, write: true, sync: true, want: ErrBroken},
		{name: "no sync", kind: Log, sync: true, want: ErrBroken},
		{name: "no sync of the labels", kind: Labels, sync: true, want: ErrBroken},
	} {
		t.Run(test.name, func(t *testing.T) {
			dir := Dir(t.TempDir())
			var write, sync, truncate bool
			j, err := open(dir, func(path string) (File, error) {
				file, err := openFile(path)
				if err != nil || filepath.Ext(path) != test.kind {
					return file, err
				}
				return failing{file, &write, &sync, &truncate}, nil
			})
			if err != nil {
				t.Fatal(err)
			}
			defer j.Close()
			first := []Entry{{"@1;\n", "first"}}
			if err := j.Append(first, 1); err != nil {
				t.Fatal(err)
			}
			write, sync, truncate = test.write, test.sync, test.truncate
			if err := j.Append([]Entry{{"@2;\n", "second"}}, 2); !errors.Is(err, test.want) {
				t.Errorf("%v in place of %v", err, test.want)
			}
			write, sync, truncate = false, false, false
			err = j.Append([]Entry{{"@3;\n", "third"}}, 3)
			if test.want == ErrBroken {
				if !errors.Is(err, ErrBroken) {
					t.Errorf("it goes on: %v", err)
				}
				return
			}
			if got := contents(t, dir, 0); err != nil || got != "1/first 3/third " {
				t.Errorf("%q, %v", got, err)
			}
		})
	}
}

func read(t *testing.T, dir Dir, kind string) []byte {
	t.Helper()
	text, err := os.ReadFile(dir.File(0, kind))
	if err != nil {
		t.Fatal(err)
	}
	return text
}

func write(t *testing.T, dir Dir, kind string, content []byte) {
	t.Helper()
	if err := os.WriteFile(dir.File(0, kind), content, 0o600); err != nil {
		t.Fatal(err)
	}
}

// TestNotRotated sees that a segment that cannot be closed leaves no file open, and that the journal goes on.
func TestNotRotated(t *testing.T) {
	dir := Dir(t.TempDir())
	refuse, opened := false, 0
	j, err := open(dir, func(path string) (File, error) {
		if refuse && filepath.Ext(path) == Labels {
			return nil, errors.New("no space")
		}
		file, err := openFile(path)
		opened++
		return counted{file, &opened}, err
	})
	if err != nil {
		t.Fatal(err)
	}
	refuse = true
	for i := 0; i < 3; i++ {
		if err := j.Rotate(); !errors.Is(err, ErrNotStored) || opened != 2 {
			t.Errorf("%v, and %d files are open", err, opened)
		}
	}
	refuse = false
	if err := j.Append([]Entry{{"@1;\n", "first"}}, 1); err != nil {
		t.Error(err)
	}
	if err := j.Rotate(); err != nil || opened != 2 || j.Segment() != 1 || contents(t, dir, 0) != "1/first " {
		t.Errorf("%v, and %d files are open", err, opened)
	}
	j.Close()
}

type counted struct {
	File
	opened *int
}

func (c counted) Close() error {
	*c.opened--
	return c.File.Close()
}

// TestLostFromOneFile sees that a batch that stands in one file alone is cut, and that what was stored before is never cut.
func TestLostFromOneFile(t *testing.T) {
	for _, kind := range []string{Log, Labels} {
		for extra, want := range map[int]error{MaxBatch: nil, MaxBatch + 1: ErrCorrupt} {
			dir := Dir(t.TempDir())
			fill(t, dir)
			content, line := read(t, dir, kind), []byte("@9;\n")
			write(t, dir, kind, append(content, bytes.Repeat(line, extra)...))
			j, err := Open(dir)
			if !errors.Is(err, want) {
				t.Errorf("%d more lines in %s: %v", extra, kind, err)
			}
			if err == nil {
				j.Close()
			}
		}
	}
}
