package quarantine

import (
	"encoding/json"
	"os"
	"path/filepath"
	"strings"
	"testing"
)

func TestPut(t *testing.T) {
	path := filepath.Join(t.TempDir(), "aside")
	l, err := Open(path, 10000)
	if err != nil {
		t.Fatal(err)
	}
	for i, body := range []string{"{}", "\x00\xff\n", strings.Repeat("x", 5000), "after the first file"} {
		if err := l.Put("127.0.0.1:1", "form", "byte 1", []byte(body)); err != nil {
			t.Fatal(i, err)
		}
	}
	// The file is not full before, so three are in it.
	for i := 0; i < 3; i++ {
		if err := l.Put("127.0.0.1:1", "sort", "", []byte(strings.Repeat("y", 4000))); err != nil {
			t.Fatal(err)
		}
	}
	if err := l.Close(); err != nil {
		t.Fatal(err)
	}
	var all []entry
	for _, file := range []string{path + ".1", path} {
		text, err := os.ReadFile(file)
		if err != nil {
			t.Fatal(err)
		}
		for _, line := range strings.Split(strings.TrimSpace(string(text)), "\n") {
			var e entry
			if err := json.Unmarshal([]byte(line), &e); err != nil {
				t.Fatalf("%v: %s", err, line)
			}
			all = append(all, e)
		}
	}
	if len(all) != 7 || !all[2].Cut || len(all[2].Body) != maxBody || all[3].Body != "after the first file" || all[0].Place != "byte 1" {
		t.Errorf("%d lines: %.300v", len(all), all)
	}
}

// TestMoved sees that the log goes on where its file was moved and no new one could be made.
func TestMoved(t *testing.T) {
	path := filepath.Join(t.TempDir(), "quarantine")
	l, err := Open(path, 10)
	if err != nil {
		t.Fatal(err)
	}
	defer l.Close()
	if err := l.Put("peer", "first", "", nil); err != nil {
		t.Fatal(err)
	}
	if err := os.Rename(path, path+".1"); err != nil {
		t.Fatal(err)
	}
	if err := l.Put("peer", "second", "", nil); err != nil {
		t.Fatal(err)
	}
	if text, err := os.ReadFile(path); err != nil || !strings.Contains(string(text), "second") {
		t.Errorf("%q, %v", text, err)
	}
}
