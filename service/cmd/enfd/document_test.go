package main

import (
	"context"
	"fmt"
	"net"
	"os"
	"os/exec"
	"path/filepath"
	"regexp"
	"strings"
	"testing"
	"time"

	"enfd/internal/enftest"
)

// recipe is a block of a document, and what it writes.
type recipe struct {
	script string
	wants  string
}

// recipes gives the blocks of `sh` of a document, each with the block of `text` that stands after it.
func recipes(text string) []recipe {
	var found []recipe
	for _, block := range regexp.MustCompile("(?ms)^```(\\w*)[^\\n]*\\n(.*?)^```$").FindAllStringSubmatch(text, -1) {
		switch block[1] {
		case "sh":
			found = append(found, recipe{script: block[2]})
		case "text":
			found[len(found)-1].wants = block[2]
		}
	}
	return found
}

// freeAddress gives an address where nobody listens.
func freeAddress(t *testing.T) string {
	t.Helper()
	listener, err := net.Listen("tcp", "127.0.0.1:0")
	if err != nil {
		t.Fatal(err)
	}
	defer listener.Close()
	return listener.Addr().String()
}

// TestDocument runs what docs/SERVICE.md shows, in one shell.
func TestDocument(t *testing.T) {
	for _, tool := range []string{"bash", "curl"} {
		if _, err := exec.LookPath(tool); err != nil {
			t.Skipf("%s is not here", tool)
		}
	}
	program, folder, paths := enftest.Program(t), t.TempDir(), t.TempDir()
	for _, kind := range []string{"data", "access", "safety"} {
		files, err := filepath.Glob(enftest.Example(kind + "/*"))
		if err != nil {
			t.Fatal(err)
		}
		for _, file := range files {
			text, err := os.ReadFile(file)
			if err != nil {
				t.Fatal(err)
			}
			enftest.Write(t, folder, filepath.Base(file), string(text))
		}
	}
	if err := os.Symlink(program, filepath.Join(paths, "enf")); err != nil {
		t.Fatal(err)
	}
	address := freeAddress(t)
	own := enftest.Write(t, paths, "enfd", fmt.Sprintf(`#!/bin/sh
case $1 in
-config) set -- -listen %s "$@" ;;
esac
%s=1 exec %q "$@"
`, address, asService, os.Args[0]))
	if err := os.Chmod(own, 0o700); err != nil {
		t.Fatal(err)
	}
	document, err := os.ReadFile(enftest.Example("../docs/SERVICE.md"))
	if err != nil {
		t.Fatal(err)
	}
	const mark = "== the next block"
	blocks := recipes(string(document))
	var script strings.Builder
	// Where a line fails, what runs beside ends too.
	script.WriteString("trap 'kill $(jobs -p) 2> /dev/null || true' EXIT\n")
	for _, block := range blocks {
		script.WriteString(strings.ReplaceAll(block.script, "127.0.0.1:8787", address) + "echo '" + mark + "'\n")
	}
	ctx, cancel := context.WithTimeout(context.Background(), 2*time.Minute)
	defer cancel()
	command := exec.CommandContext(ctx, "bash", "-euo", "pipefail", "-c", script.String())
	command.Dir = folder
	command.Env = append(os.Environ(), "PATH="+paths+":"+os.Getenv("PATH"), "LC_ALL=C.UTF-8")
	var errOut strings.Builder
	command.Stderr = &errOut
	out, err := command.Output()
	if err != nil {
		t.Fatalf("%v\n%s\n%s", err, out, tail(errOut.String(), 10))
	}
	for i, got := range strings.SplitN(string(out), mark+"\n", len(blocks)+1) {
		if i < len(blocks) && got != blocks[i].wants {
			t.Errorf("block %d\n%swrites\n%sin place of\n%s", i+1, blocks[i].script, got, blocks[i].wants)
		}
	}
}
