package changes

import (
	"errors"
	"fmt"
	"os"
	"path/filepath"
	"strings"
	"testing"

	"enfd/internal/logtext"
)

func ns(list []Change) string {
	var numbers []uint64
	for _, change := range list {
		numbers = append(numbers, change.N)
	}
	return fmt.Sprint(numbers)
}

func TestAfter(t *testing.T) {
	l := New(4, 1, nil, 0)
	if _, least, _ := New(4, 8, nil, 0).After(3, 10); least != 8 {
		t.Errorf("of a log without changes the least is %d", least)
	}
	for n := uint64(1); n <= 9; n++ {
		l.Add(Change{N: n})
	}
	for _, test := range []struct {
		after uint64
		limit int
		want  string
	}{{0, 10, "[6 7 8 9]"}, {6, 10, "[7 8 9]"}, {6, 2, "[7 8]"}, {9, 10, "[]"}, {30, 10, "[]"}} {
		list, least, _ := l.After(test.after, test.limit)
		if ns(list) != test.want || least != 6 {
			t.Errorf("after %d: %s, least %d", test.after, ns(list), least)
		}
	}
	if got := ns(l.Latest(2)); got != "[9 8]" {
		t.Error(got)
	}
	_, _, more := l.After(9, 1)
	if err := l.Flush(); err != nil {
		t.Fatal(err)
	}
	<-more
}

func TestOf(t *testing.T) {
	line, err := logtext.ParseChange(`cause a("x") at 3 step 7 rule r node 1 leaf 2 origin 5 u="x"`)
	if err != nil {
		t.Fatal(err)
	}
	change, err := Of(line, true, "", Origin{Position: 5, ID: "req"})
	if err != nil || change.Event.String() != `a("x")` || change.Origin.ID != "req" || !change.Inserted {
		t.Errorf("%+v, %v", change, err)
	}
	line.Event = "a("
	if _, err := Of(line, true, "", Origin{}); !errors.Is(err, logtext.ErrForm) {
		t.Error(err)
	}
}

// TestFile sees that a file that is opened again has each change once, whatever a crash has cut off.
func TestFile(t *testing.T) {
	path := filepath.Join(t.TempDir(), "changes")
	for run, cut := range []int64{0, 1, 5, 60, 0} {
		if info, err := os.Stat(path); err == nil {
			if err := os.Truncate(path, info.Size()-cut); err != nil {
				t.Fatal(err)
			}
		}
		file, last, err := OpenFile(path, 0)
		if err != nil {
			t.Fatal(err)
		}
		l := New(10, 1, file, last)
		for n := uint64(1); n <= uint64(3+run); n++ {
			l.Add(Change{N: n, Kind: logtext.Cause, Event: logtext.Event{Args: []logtext.Value{}}})
		}
		if err := l.Flush(); err != nil {
			t.Fatal(err)
		}
		file.Close()
	}
	text, err := os.ReadFile(path)
	if err != nil {
		t.Fatal(err)
	}
	lines := strings.Split(strings.TrimSuffix(string(text), "\n"), "\n")
	for i, line := range lines {
		if !strings.HasPrefix(line, fmt.Sprintf(`{"n":%d,`, i+1)) {
			t.Errorf("line %d is %s", i+1, line)
		}
	}
	if len(lines) != 7 {
		t.Errorf("%d lines", len(lines))
	}
}

// TestTornFile opens files of which a crash has left a part, and sees what is cut off.
func TestTornFile(t *testing.T) {
	line := func(n int) string {
		return fmt.Sprintf("{\"n\":%d,\"kind\":\"%s\"}\n", n, strings.Repeat("x", n%7*9000))
	}
	lines := func(from, to int) (text string) {
		for n := from; n <= to; n++ {
			text += line(n)
		}
		return text
	}
	hole := strings.Repeat("\x00", 1000)
	for _, test := range []struct {
		text   string
		synced uint64
		last   uint64
		rest   string // what is cut off
	}{
		{"", 0, 0, ""},
		{lines(1, 9), 0, 9, ""},
		{lines(1, 30), 4, 30, ""},
		{lines(1, 30), 30, 30, ""},
		{lines(1, 3) + `{"n":4`, 0, 3, `{"n":4`},
		{lines(1, 3) + hole + lines(5, 6), 2, 3, hole + lines(5, 6)},
		{lines(1, 3) + lines(5, 30), 3, 3, lines(5, 30)},
		{hole + "\n" + lines(5, 6), 0, 0, hole + "\n" + lines(5, 6)},
		{lines(7, 9), 6, 9, ""},
		{lines(7, 9) + lines(12, 14), 11, 14, ""}, // a migration has left out what became orders
		{"something else\n" + lines(1, 30), 20, 30, ""},
	} {
		path := filepath.Join(t.TempDir(), "changes")
		if err := os.WriteFile(path, []byte(test.text), 0o600); err != nil {
			t.Fatal(err)
		}
		file, last, err := OpenFile(path, test.synced)
		if err != nil {
			t.Fatal(err)
		}
		file.Close()
		left, err := os.ReadFile(path)
		if err != nil || last != test.last || string(left)+test.rest != test.text {
			t.Errorf("%.60q, synced up to %d: %d is the last, and %d bytes are left of %d, %v",
				test.text, test.synced, last, len(left), len(test.text), err)
		}
	}
}

// full is a sink on which there is room for so many bytes.
type full struct {
	room int
	text strings.Builder
}

func (f *full) Write(text []byte) (int, error) {
	if len(text) > f.room {
		n, _ := f.text.Write(text[:f.room])
		f.room = 0
		return n, errors.New("no space")
	}
	f.room -= len(text)
	return f.text.Write(text)
}

// TestFullSink sees that a sink that had no room gets the rest later, and each change once.
func TestFullSink(t *testing.T) {
	sink := &full{room: 200}
	l := New(10, 1, sink, 0)
	failed := 0
	for n := uint64(1); n <= 6; n++ {
		l.Add(Change{N: n, Kind: logtext.Cause, Event: logtext.Event{Args: []logtext.Value{}}})
		if l.Flush() != nil {
			failed++
		}
		if failed == 2 {
			sink.room = 1 << 20
		}
	}
	lines := strings.Split(strings.TrimSuffix(sink.text.String(), "\n"), "\n")
	if failed != 2 || len(lines) != 6 {
		t.Errorf("%d faults, %d lines", failed, len(lines))
	}
	for i, line := range lines {
		if !strings.HasPrefix(line, fmt.Sprintf(`{"n":%d,`, i+1)) {
			t.Errorf("line %d is %s", i+1, line)
		}
	}
}
