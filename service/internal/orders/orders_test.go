package orders

import (
	"errors"
	"fmt"
	"os"
	"path/filepath"
	"sync"
	"testing"
	"time"

	"enfd/internal/changes"
	"enfd/internal/disk"
)

func numbers(b *Book, after uint64) string {
	open, _ := b.After(after, 1000)
	var text []uint64
	for _, order := range open {
		text = append(text, order.Order)
	}
	return fmt.Sprint(text)
}

func open(t *testing.T, path string, next uint64, orders ...changes.Change) *Book {
	t.Helper()
	b, err := Open(path, next, orders)
	if err != nil {
		t.Fatal(err)
	}
	t.Cleanup(func() { b.Close() })
	return b
}

func done(t *testing.T, b *Book, numbers ...uint64) {
	t.Helper()
	for _, number := range numbers {
		if err := b.Done(number); err != nil {
			t.Fatal(err)
		}
	}
}

func TestBook(t *testing.T) {
	path := filepath.Join(t.TempDir(), "done")
	b := open(t, path, 1)
	for i := 1; i <= 5; i++ {
		if got := b.Add(changes.Change{Time: int64(i)}); got != uint64(i) {
			t.Errorf("order %d has the number %d", i, got)
		}
	}
	done(t, b, 2, 4, 2)
	for _, unknown := range []uint64{0, 6} {
		if err := b.Done(unknown); !errors.Is(err, ErrUnknown) {
			t.Errorf("order %d: %v", unknown, err)
		}
	}
	if got := numbers(b, 0) + numbers(b, 3); got != "[1 3 5][5]" {
		t.Error(got)
	}
	// A restart from the beginning, with half a line behind the whole ones.
	file, err := os.OpenFile(path, os.O_APPEND|os.O_WRONLY, 0)
	if err != nil {
		t.Fatal(err)
	}
	fmt.Fprint(file, "1")
	file.Close()
	again := open(t, path, 1)
	for i := 1; i <= 5; i++ {
		again.Add(changes.Change{})
	}
	done(t, again, 1)
	if got := numbers(again, 0); got != "[3 5]" {
		t.Error(got)
	}
}

// TestTorn opens a file of which a crash has left a part: what is no number was not answered.
func TestTorn(t *testing.T) {
	path := filepath.Join(t.TempDir(), "done")
	if err := os.WriteFile(path, []byte("1\n\x00\x00\x00\n\x003\n4\n\x00\x00"), 0o600); err != nil {
		t.Fatal(err)
	}
	b := open(t, path, 1)
	for i := 1; i <= 5; i++ {
		b.Add(changes.Change{})
	}
	if got := numbers(b, 0); got != "[2 3 5]" {
		t.Error(got)
	}
}

func TestForget(t *testing.T) {
	path := filepath.Join(t.TempDir(), "done")
	b := open(t, path, 1)
	for i := 1; i <= 6; i++ {
		b.Add(changes.Change{})
	}
	done(t, b, 1, 3, 6)
	kept := []changes.Change{{Order: 2}, {Order: 4}}
	if err := b.Forget(5, kept); err != nil {
		t.Fatal(err)
	}
	done(t, b, 4)
	text, err := os.ReadFile(path)
	if err != nil || string(text) != "6\n4\n" {
		t.Errorf("%q, %v", text, err)
	}
	again := open(t, path, 5, kept...)
	again.Add(changes.Change{})
	again.Add(changes.Change{})
	if got := numbers(again, 0); got != "[2 5]" {
		t.Error(got)
	}
}

func TestManyAtOnce(t *testing.T) {
	path := filepath.Join(t.TempDir(), "done")
	b := open(t, path, 1)
	const count = 400
	for i := 0; i < count; i++ {
		b.Add(changes.Change{})
	}
	var wait sync.WaitGroup
	for worker := 0; worker < 8; worker++ {
		wait.Add(1)
		go func(worker int) {
			defer wait.Done()
			for number := uint64(worker + 1); number <= count; number += 8 {
				if err := b.Done(number); err != nil {
					t.Error(err)
				}
			}
		}(worker)
	}
	forgotten := make(chan struct{})
	go func() {
		defer close(forgotten)
		for i := 0; i < 5; i++ {
			if err := b.Forget(1, nil); err != nil {
				t.Error(err)
			}
			time.Sleep(time.Millisecond)
		}
	}()
	wait.Wait()
	<-forgotten
	again := open(t, path, 1)
	for i := 0; i < count; i++ {
		again.Add(changes.Change{})
	}
	if got := numbers(again, 0); got != "[]" {
		t.Errorf("open after all were done: %s", got)
	}
}

func TestWaits(t *testing.T) {
	b := open(t, filepath.Join(t.TempDir(), "done"), 1)
	_, more := b.After(0, 10)
	b.Add(changes.Change{})
	b.Wake()
	select {
	case <-more:
	case <-time.After(5 * time.Second):
		t.Error("nobody was woken")
	}
}

// TestInDoubt sees that no acknowledgement is lost behind a sync that failed, or a new file that did not come to be.
func TestInDoubt(t *testing.T) {
	path := filepath.Join(t.TempDir(), "done")
	b := open(t, path, 1)
	for i := 1; i <= 4; i++ {
		b.Add(changes.Change{})
	}
	done(t, b, 1)
	// This takes what is written, and cannot be synced.
	null, err := os.OpenFile(os.DevNull, os.O_WRONLY, 0)
	if err != nil {
		t.Fatal(err)
	}
	b.file.Close()
	b.file = &disk.File{File: null}
	if err := b.Done(2); err == nil {
		t.Fatal("it was synced")
	}
	if got := numbers(b, 0); got != "[2 3 4]" {
		t.Error(got)
	}
	done(t, b, 2)
	b.path = filepath.Join(path, "is no folder")
	if err := b.Forget(1, nil); err == nil {
		t.Fatal("there is a new file")
	}
	if err := b.Done(3); err == nil {
		t.Error("it was kept in a file of which nobody knows whether it is the one")
	}
	b.path = path
	done(t, b, 3)
	again := open(t, path, 1)
	for i := 1; i <= 4; i++ {
		again.Add(changes.Change{})
	}
	if got := numbers(again, 0); got != "[4]" {
		t.Error(got)
	}
}
