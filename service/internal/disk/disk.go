// Package disk has all that changes the files of data, in one place, so that a test can watch each change and cut the power
// between two of them.
package disk

import (
	"fmt"
	"io"
	"io/fs"
	"os"
	"path/filepath"
)

// Kind is what a change does.
type Kind string

// The kinds of changes. What is not synced may be lost when the power fails, or be there in part.
const (
	Opened       Kind = "open" // a file, made where there is none
	Written      Kind = "write"
	Truncated    Kind = "truncate"
	Synced       Kind = "sync"
	Renamed      Kind = "rename"
	Linked       Kind = "link"
	Removed      Kind = "remove"
	FolderMade   Kind = "make folder"
	FolderSynced Kind = "sync folder" // what was made, renamed, linked and removed in it
)

// Change is a change.
type Change struct {
	Kind  Kind
	Path  string
	To    string // of a renaming or a link
	File  *File  // that is opened, written, truncated or synced
	At    int64  // where it is written, or the size to which it is truncated
	Bytes []byte
}

// watch is called before each change where a test has set it, and what it gives behind one that went well.
var watch func(Change) (made func())

// Watch has each change shown to a test, until it is called with nil.
func Watch(see func(Change) (made func())) { watch = see }

func (c Change) make(change func() error) error {
	if watch == nil {
		return change()
	}
	made := watch(c)
	err := change()
	if err == nil {
		made()
	}
	return err
}

// File is an open file.
type File struct{ *os.File }

// OpenFile opens a file.
func OpenFile(path string, flag int, mode fs.FileMode) (*File, error) {
	file := &File{}
	err := Change{Kind: Opened, Path: path, File: file}.make(func() (err error) {
		file.File, err = os.OpenFile(path, flag, mode)
		return err
	})
	if err != nil {
		return nil, err
	}
	return file, nil
}

// Write writes behind what was written.
func (f *File) Write(p []byte) (n int, err error) {
	at, err := f.Seek(0, io.SeekCurrent)
	if err != nil {
		return 0, err
	}
	err = Change{Kind: Written, Path: f.Name(), File: f, At: at, Bytes: p}.make(func() (err error) {
		n, err = f.File.Write(p)
		return err
	})
	return n, err
}

// WriteAt writes at a place.
func (f *File) WriteAt(p []byte, at int64) (n int, err error) {
	err = Change{Kind: Written, Path: f.Name(), File: f, At: at, Bytes: p}.make(func() (err error) {
		n, err = f.File.WriteAt(p, at)
		return err
	})
	return n, err
}

// Truncate gives the file a size.
func (f *File) Truncate(size int64) error {
	return Change{Kind: Truncated, Path: f.Name(), File: f, At: size}.make(func() error { return f.File.Truncate(size) })
}

// Sync makes lasting what the file has.
func (f *File) Sync() error {
	return Change{Kind: Synced, Path: f.Name(), File: f}.make(f.File.Sync)
}

// SyncFile makes lasting what a file has that another process wrote.
func SyncFile(path string) error {
	file, err := OpenFile(path, os.O_RDWR, 0)
	if err != nil {
		return fmt.Errorf("sync a file: %w", err)
	}
	defer file.Close()
	if err := file.Sync(); err != nil {
		return fmt.Errorf("sync a file: %w", err)
	}
	return nil
}

// Rename gives a file another path.
func Rename(from, to string) error {
	return Change{Kind: Renamed, Path: from, To: to}.make(func() error { return os.Rename(from, to) })
}

// Link gives a file another path beside the one that it has.
func Link(from, to string) error {
	return Change{Kind: Linked, Path: from, To: to}.make(func() error { return os.Link(from, to) })
}

// Remove removes a file.
func Remove(path string) error {
	return Change{Kind: Removed, Path: path}.make(func() error { return os.Remove(path) })
}

// MakeFolder makes a folder, lasting, with those above it; one that is there stays.
func MakeFolder(path string) error {
	if info, err := os.Stat(path); err == nil && info.IsDir() {
		return nil
	}
	above := filepath.Dir(path)
	if err := MakeFolder(above); err != nil {
		return err
	}
	if err := (Change{Kind: FolderMade, Path: path}).make(func() error { return os.Mkdir(path, 0o750) }); err != nil {
		return fmt.Errorf("make a folder: %w", err)
	}
	return SyncFolder(above)
}

// SyncFolder makes lasting what was made, renamed, linked and removed in a folder.
func SyncFolder(path string) error {
	folder, err := os.Open(path)
	if err != nil {
		return fmt.Errorf("sync a folder: %w", err)
	}
	defer folder.Close()
	if err := (Change{Kind: FolderSynced, Path: path}).make(folder.Sync); err != nil {
		return fmt.Errorf("sync a folder: %w", err)
	}
	return nil
}

// WriteFile puts a file in place whole or not at all, and lasting.
func WriteFile(path string, content []byte, mode fs.FileMode) error {
	temporary := path + ".new"
	err := writeFile(temporary, content, mode)
	if err == nil {
		err = Rename(temporary, path)
	}
	if err != nil {
		_ = Remove(temporary)
		return fmt.Errorf("write %s: %w", path, err)
	}
	return SyncFolder(filepath.Dir(path))
}

func writeFile(path string, content []byte, mode fs.FileMode) error {
	file, err := OpenFile(path, os.O_RDWR|os.O_CREATE|os.O_TRUNC, mode)
	if err != nil {
		return err
	}
	defer file.Close()
	if _, err := file.Write(content); err != nil {
		return err
	}
	if err := file.Chmod(mode); err != nil {
		return err
	}
	return file.Sync()
}
