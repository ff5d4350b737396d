// Package enftest gives tests the program and examples.
package enftest

import (
	"os"
	"path/filepath"
	"runtime"
	"testing"
)

// root gives the folder of the repository.
func root() string {
	_, file, _, _ := runtime.Caller(0)
	// Where this folder stands in a GOPATH by a link, examples/ does not stand beside the link.
	if real, err := filepath.EvalSymlinks(file); err == nil {
		file = real
	}
	return filepath.Join(filepath.Dir(file), "..", "..", "..")
}

// Program gives the path of enf: what the variable ENF names, or the repository's proved one. Where there is none the
// test is skipped.
func Program(t testing.TB) string {
	t.Helper()
	path := os.Getenv("ENF")
	if path == "" {
		path = filepath.Join(root(), "bin", "enf")
	}
	if _, err := os.Stat(path); err != nil {
		t.Skipf("the program enf is not there (make build, or ENF=FILE): %v", err)
	}
	absolute, err := filepath.Abs(path)
	if err != nil {
		t.Fatal(err)
	}
	return absolute
}

// File gives the path of a file of the repository.
func File(name string) string { return filepath.Join(root(), filepath.FromSlash(name)) }

// Example gives the path of a file of examples/.
func Example(name string) string { return File("examples/" + name) }

// Write puts a file into a folder of the test and gives its path.
func Write(t testing.TB, folder, name, content string) string {
	t.Helper()
	path := filepath.Join(folder, name)
	if err := os.WriteFile(path, []byte(content), 0o600); err != nil {
		t.Fatal(err)
	}
	return path
}
