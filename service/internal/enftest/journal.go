package enftest

import (
	"bytes"
	"errors"
	"fmt"
	"io"
	"io/fs"
	"os/exec"
	"path/filepath"
	"strings"

	"enfd/internal/journal"
)

// Journal is all that a journal has, its segments one after the other.
type Journal struct {
	Log, Enforced, Report string
	Labels                []string // of the steps
}

// ReadJournal reads a journal.
func ReadJournal(dir journal.Dir) (Journal, error) {
	segments, err := dir.Segments()
	if err != nil {
		return Journal{}, err
	}
	var all Journal
	for _, segment := range segments {
		for kind, into := range map[string]*string{
			journal.Log: &all.Log, journal.Enforced: &all.Enforced, journal.Report: &all.Report,
		} {
			file, err := dir.Open(segment, kind)
			if errors.Is(err, fs.ErrNotExist) {
				continue
			}
			if err != nil {
				return Journal{}, err
			}
			text, err := io.ReadAll(file)
			file.Close()
			if err != nil {
				return Journal{}, err
			}
			*into += string(text)
		}
		if err := all.readLabels(dir, segment); err != nil {
			return Journal{}, err
		}
	}
	return all, nil
}

func (j *Journal) readLabels(dir journal.Dir, segment int) error {
	reader, err := dir.Read(segment)
	if err != nil {
		return err
	}
	defer reader.Close()
	for {
		record, err := reader.Next()
		if err == io.EOF {
			return nil
		}
		if err != nil {
			return err
		}
		if !record.Step.Tick {
			j.Labels = append(j.Labels, record.Label)
		}
	}
}

// Hold holds the enforced log and the report against one run of the program over the log, which begins with a state where
// one is given. The run saves its own state in a folder, so that nothing is let out early.
func (j Journal) Hold(program, signature, policy, state, folder string) error {
	args := []string{"enforce", signature, policy}
	if state != "" {
		args = append(args, "--resume", state)
	}
	command := exec.Command(program, append(args, "--save", filepath.Join(folder, "held-against.state"))...)
	var enforced, report bytes.Buffer
	command.Stdin, command.Stdout, command.Stderr = strings.NewReader(j.Log), &enforced, &report
	if err := command.Run(); err != nil {
		return fmt.Errorf("enforce the log: %w: %s", err, report.String())
	}
	if where := Difference(j.Enforced, enforced.String()); where != "" {
		return fmt.Errorf("the enforced log is not that of one run: %s", where)
	}
	if where := Difference(j.Report, report.String()); where != "" {
		return fmt.Errorf("the report is not that of one run: %s", where)
	}
	return nil
}

// Difference says where two texts differ first, or nothing.
func Difference(got, want string) string {
	if got == want {
		return ""
	}
	a, b := strings.Split(got, "\n"), strings.Split(want, "\n")
	for i := 0; i < len(a) && i < len(b); i++ {
		if a[i] != b[i] {
			return fmt.Sprintf("line %d is %q in place of %q", i+1, a[i], b[i])
		}
	}
	return fmt.Sprintf("%d lines in place of %d", len(a), len(b))
}

// Numbered sees that the lines of a file of changes have the numbers from 1 to so many, each once.
func Numbered(text string, count int) error {
	lines := strings.SplitAfter(text, "\n")
	if lines[len(lines)-1] != "" {
		return fmt.Errorf("the last change is no whole line: %q", lines[len(lines)-1])
	}
	lines = lines[:len(lines)-1]
	for i, line := range lines {
		if !strings.HasPrefix(line, fmt.Sprintf(`{"n":%d,`, i+1)) {
			return fmt.Errorf("line %d of the changes is %q", i+1, line)
		}
	}
	if len(lines) != count {
		return fmt.Errorf("%d changes in place of %d", len(lines), count)
	}
	return nil
}
