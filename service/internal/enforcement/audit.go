package enforcement

import (
	"bytes"
	"context"
	"errors"
	"fmt"
	"io"
	"io/fs"
	"os"
	"os/exec"
	"strings"

	"enfd/internal/journal"
)

// Verdict is what an audit says.
type Verdict struct {
	Holds bool
	Line  string
	Steps uint64 // that were emitted
	Clock int64
}

// Audit holds against a policy what the epoch has emitted up to its last checkpoint, with what was owed then behind it:
// without that each deadline that is open would count as missed.
func (e Epoch) Audit(ctx context.Context, program, signature, policy string) (Verdict, error) {
	mark, err := LastMark(e.Dir)
	if err != nil {
		return Verdict{}, err
	}
	owed, err := e.owed(ctx, program, mark)
	if err != nil {
		return Verdict{}, err
	}
	verdict := Verdict{Steps: mark.Position, Clock: mark.Clock}
	emitted, closeAll, err := e.openAll(journal.Enforced, mark.Segment)
	if err != nil {
		return Verdict{}, err
	}
	defer closeAll()
	past, closePast, err := e.openPast()
	if err != nil {
		return Verdict{}, err
	}
	defer closePast()
	verdict.Line, verdict.Holds, err = auditOf(ctx, program, signature, policy,
		io.MultiReader(past, emitted, bytes.NewReader(owed)))
	return verdict, err
}

// openPast opens what stands before the first step of the epoch: nothing, or where the policy was changed what would have
// been emitted under it since the beginning.
func (e Epoch) openPast() (io.Reader, func(), error) {
	file, err := os.Open(e.past())
	if errors.Is(err, fs.ErrNotExist) {
		return strings.NewReader(""), func() {}, nil
	}
	if err != nil {
		return nil, nil, fmt.Errorf("open the past: %w", err)
	}
	return file, func() { file.Close() }, nil
}

// owed gives the steps that would be let out if the log ended at a mark.
func (e Epoch) owed(ctx context.Context, program string, mark Mark) ([]byte, error) {
	options := e.run(program, mark, "")
	if options.Resume == "" {
		return nil, nil
	}
	out, err := options.Command(ctx).Output()
	if err != nil {
		return nil, fmt.Errorf("see what is owed: %w", err)
	}
	return out, nil
}

// openAll opens a kind of file of the segments below one, as one text.
func (e Epoch) openAll(kind string, below int) (text io.Reader, closeAll func(), err error) {
	var (
		readers []io.Reader
		closers []io.Closer
	)
	closeAll = func() {
		for _, closer := range closers {
			closer.Close()
		}
	}
	segments, err := e.Dir.Segments()
	if err != nil {
		return nil, nil, err
	}
	for _, segment := range segments {
		if segment >= below {
			break
		}
		file, err := e.Dir.Open(segment, kind)
		if err != nil {
			closeAll()
			return nil, nil, err
		}
		readers, closers = append(readers, file), append(closers, file)
	}
	return io.MultiReader(readers...), closeAll, nil
}

// auditOf has enf audit a log.
func auditOf(ctx context.Context, program, signature, policy string, log io.Reader) (line string, holds bool, err error) {
	command := exec.CommandContext(ctx, program, "audit", signature, policy)
	command.Stdin = log
	out, err := command.Output()
	line = strings.TrimSpace(string(out))
	var ended *exec.ExitError
	switch {
	case err == nil:
		return line, true, nil
	case errors.As(err, &ended) && ended.ExitCode() == violated:
		return line, false, nil
	case errors.As(err, &ended):
		return "", false, fmt.Errorf("audit: %s", strings.TrimSpace(string(ended.Stderr)))
	}
	return "", false, fmt.Errorf("audit: %w", err)
}

// violated is the status of an audit whose log breaks the policy.
const violated = 7
