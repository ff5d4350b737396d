//go:build cluster

package cluster

import (
	"bytes"
	"context"
	"errors"
	"fmt"
	"os"
	"os/exec"
	"path/filepath"
	"strconv"
	"strings"
)

// ErrReport says that the report does not have the form of an action's line.
var ErrReport = errors.New("no line of an action")

// Program is enf with what it enforces.
type Program struct {
	Path      string
	Signature string
	Policy    string
	// Folder is where states are put while it runs.
	Folder string
}

// step is a step that came out: its line, and the lines of its actions.
type step struct {
	position uint64
	line     string
	report   string
}

// enforce feeds a batch to enf, from a state on or from none, and gives what came out, from a position on, and the state
// after it. The last batch saves no state: all that is owed comes out.
func (p Program) enforce(ctx context.Context, state []byte, batch []byte, position uint64, last bool) ([]step, []byte, error) {
	folder, err := os.MkdirTemp(p.Folder, "batch-")
	if err != nil {
		return nil, nil, fmt.Errorf("enforce a batch: %w", err)
	}
	defer os.RemoveAll(folder)
	before, after := filepath.Join(folder, "before"), filepath.Join(folder, "after")
	words := []string{"enforce", p.Signature, p.Policy}
	if state != nil {
		if err := os.WriteFile(before, state, 0o600); err != nil {
			return nil, nil, fmt.Errorf("enforce a batch: %w", err)
		}
		words = append(words, "--resume", before)
	}
	if !last {
		words = append(words, "--save", after)
	}
	var output, report bytes.Buffer
	command := exec.CommandContext(ctx, p.Path, words...)
	command.Stdin, command.Stdout, command.Stderr = bytes.NewReader(batch), &output, &report
	if err := command.Run(); err != nil {
		return nil, nil, fmt.Errorf("enforce a batch: %w: %s", err, lastLine(report.String()))
	}
	steps, err := stepsOf(output.String(), report.String(), position)
	if err != nil {
		return nil, nil, fmt.Errorf("enforce a batch: %w", err)
	}
	if last {
		return steps, nil, nil
	}
	saved, err := os.ReadFile(after)
	if err != nil {
		return nil, nil, fmt.Errorf("enforce a batch: %w", err)
	}
	return steps, saved, nil
}

// stepsOf gives the steps of an output that begins at a position, each with its lines of the report.
func stepsOf(output, report string, position uint64) ([]step, error) {
	var steps []step
	for _, line := range strings.SplitAfter(output, "\n") {
		if line != "" {
			steps = append(steps, step{position: position + uint64(len(steps)), line: line})
		}
	}
	for _, line := range strings.SplitAfter(report, "\n") {
		if line == "" {
			continue
		}
		at, err := positionOf(line)
		if err != nil {
			return nil, err
		}
		if at < position || at >= position+uint64(len(steps)) {
			return nil, fmt.Errorf("%q: %w", line, ErrReport)
		}
		steps[at-position].report += line
	}
	return steps, nil
}

// positionOf gives the position of the step to which an action's line belongs: `KIND EVENT at TIME step POSITION rule ..`,
// where the event may have any text within quotes.
func positionOf(line string) (uint64, error) {
	quoted := false
	for at := 0; at < len(line); at++ {
		switch {
		case quoted && line[at] == '\\':
			at++
		case line[at] == '"':
			quoted = !quoted
		case !quoted && strings.HasPrefix(line[at:], " step "):
			number, _, _ := strings.Cut(line[at+len(" step "):], " ")
			position, err := strconv.ParseUint(number, 10, 63)
			if err != nil {
				return 0, fmt.Errorf("%q: %w", line, ErrReport)
			}
			return position, nil
		}
	}
	return 0, fmt.Errorf("%q: %w", line, ErrReport)
}

func lastLine(text string) string {
	lines := strings.Split(strings.TrimSpace(text), "\n")
	return lines[len(lines)-1]
}
