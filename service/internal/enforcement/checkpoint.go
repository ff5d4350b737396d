package enforcement

import (
	"bytes"
	"context"
	"errors"
	"fmt"
	"io"
	"io/fs"
	"math"
	"os"
	"path/filepath"
	"strings"
	"time"

	"enfd/internal/changes"
	"enfd/internal/disk"
	"enfd/internal/engine"
	"enfd/internal/journal"
	"enfd/internal/logtext"
	"enfd/internal/state"
)

// ErrMismatch says that two runs of enf over one log gave different outputs.
var ErrMismatch = errors.New("the checkpoint's output is not that of the running program")

func (e *Enforcer) lastMark() Mark {
	e.mu.Lock()
	defer e.mu.Unlock()
	return e.mark
}

// makeCheckpoints makes the checkpoint of each segment that is closed, until ctx ends.
func (e *Enforcer) makeCheckpoints(ctx context.Context) {
	retry := time.NewTicker(time.Minute)
	defer retry.Stop()
	for {
		if err := e.checkpointAll(ctx); err != nil && ctx.Err() == nil {
			e.log.Error("a checkpoint was not made", "error", err)
		}
		select {
		case <-ctx.Done():
			return
		case <-e.closed:
		case <-retry.C:
		}
	}
}

// checkpointAll makes the checkpoints of the segments that are closed.
func (e *Enforcer) checkpointAll(ctx context.Context) error {
	for {
		mark := e.lastMark()
		e.mu.Lock()
		last := e.stored.segment
		e.mu.Unlock()
		if mark.Segment >= last {
			return nil
		}
		start := time.Now()
		if err := e.checkpoint(ctx, mark); err != nil {
			if ctx.Err() == nil {
				e.metrics.Checkpoints.WithLabelValues("failed").Inc()
			}
			return err
		}
		e.metrics.Checkpoints.WithLabelValues("made").Inc()
		e.log.Info("a checkpoint is made", "segment", mark.Segment, "took", time.Since(start))
	}
}

// checkpoint enforces the segment behind a mark by a second process, holds its output against the running program's, and
// makes the state that it saves the next mark's.
func (e *Enforcer) checkpoint(ctx context.Context, mark Mark) error {
	folder, err := os.MkdirTemp(e.epoch.temporary(), "checkpoint-")
	if err != nil {
		return fmt.Errorf("make a checkpoint: %w", err)
	}
	defer os.RemoveAll(folder)
	made, err := e.secondRun(ctx, mark, folder)
	if err != nil {
		return err
	}
	next, err := e.nextMark(mark, made)
	if err != nil {
		return err
	}
	if err := e.holdAgainst(ctx, mark, next, made); err != nil {
		return err
	}
	next.Open = e.openBefore(next.Orders + 1)
	if err := e.fillOrigins(&next, made.state); err != nil {
		return err
	}
	if err := e.install(mark, next, made); err != nil {
		return err
	}
	if err := e.orders.Forget(next.Orders+1, next.Open); err != nil {
		return err
	}
	return e.archiveBefore(next.Segment)
}

// made has the paths of what a second run has left.
type made struct{ state, enforced, report string }

// secondRun enforces a segment from its state.
func (e *Enforcer) secondRun(ctx context.Context, mark Mark, folder string) (made, error) {
	m := made{
		state:    filepath.Join(folder, "state"),
		enforced: filepath.Join(folder, "enforced"),
		report:   filepath.Join(folder, "report"),
	}
	log, err := e.epoch.Dir.Open(mark.Segment, journal.Log)
	if err != nil {
		return m, err
	}
	defer log.Close()
	return m, RunOver(ctx, e.epoch.run(e.options.Program, mark, m.state), log, m.enforced, m.report)
}

// RunOver enforces a log by a process of its own and leaves its output and report in files that last.
func RunOver(ctx context.Context, options engine.Options, log io.Reader, enforced, report string) error {
	command := options.Command(ctx)
	command.Stdin = log
	var files []*disk.File
	for _, path := range []string{enforced, report} {
		file, err := disk.OpenFile(path, os.O_RDWR|os.O_CREATE|os.O_TRUNC, 0o640)
		if err != nil {
			return fmt.Errorf("enforce a log: %w", err)
		}
		defer file.Close()
		files = append(files, file)
	}
	command.Stdout, command.Stderr = files[0].File, files[1].File
	if err := command.Run(); err != nil {
		return fmt.Errorf("enforce a log: %w: %s", err, lastLine(report))
	}
	for _, file := range files {
		if err := file.Sync(); err != nil {
			return fmt.Errorf("enforce a log: %w", err)
		}
	}
	return nil
}

// lastLine gives the last line of a report, which says why a run ended.
func lastLine(path string) string {
	text, err := os.ReadFile(path)
	if err != nil {
		return ""
	}
	text = bytes.TrimSuffix(text, []byte("\n"))
	return string(text[bytes.LastIndexByte(text, '\n')+1:])
}

// nextMark counts what a second run gave.
func (e *Enforcer) nextMark(mark Mark, m made) (Mark, error) {
	next := mark
	next.Segment++
	log, err := e.epoch.Dir.Open(mark.Segment, journal.Log)
	if err != nil {
		return Mark{}, err
	}
	defer log.Close()
	records, err := io.ReadAll(log)
	if err != nil {
		return Mark{}, fmt.Errorf("count the records: %w", err)
	}
	enforced, err := os.ReadFile(m.enforced)
	if err != nil {
		return Mark{}, fmt.Errorf("count the steps: %w", err)
	}
	report, err := os.ReadFile(m.report)
	if err != nil {
		return Mark{}, fmt.Errorf("count the changes: %w", err)
	}
	next.Records += uint64(bytes.Count(records, []byte("\n")))
	next.Position += uint64(bytes.Count(enforced, []byte("\n")))
	next.Changes += uint64(bytes.Count(report, []byte("\n")))
	for _, line := range strings.Split(string(report), "\n") {
		if strings.HasPrefix(line, logtext.Cause+" ") {
			next.Orders++
		}
	}
	return next, nil
}

// holdAgainst waits until the running program has given what the second run gave, and compares both.
func (e *Enforcer) holdAgainst(ctx context.Context, mark, next Mark, m made) error {
	poll := time.NewTicker(5 * time.Millisecond)
	defer poll.Stop()
	for !e.isApplied(next.Position) {
		select {
		case <-ctx.Done():
			return fmt.Errorf("make a checkpoint: %w", ctx.Err())
		case <-poll.C:
		}
	}
	for _, pair := range [][2]string{
		{m.enforced, e.epoch.Dir.File(mark.Segment, journal.Enforced)},
		{m.report, e.epoch.Dir.File(mark.Segment, journal.Report)},
	} {
		front, same, err := sameFront(pair[0], pair[1])
		if err != nil {
			return err
		}
		if !front {
			e.mismatch("the second run's output is another one", "file", pair[1])
			return ErrMismatch
		}
		if !same {
			e.log.Warn("an output was not written to its end; the checkpoint has all of it", "file", pair[1])
		}
	}
	return nil
}

// openBefore gives the open orders below a number.
func (e *Enforcer) openBefore(number uint64) []changes.Change {
	open, _ := e.orders.After(0, math.MaxInt)
	for i, order := range open {
		if order.Order >= number {
			return open[:i]
		}
	}
	return open
}

// fillOrigins gives a mark what is known of the steps since which something is pending in its state.
func (e *Enforcer) fillOrigins(next *Mark, path string) error {
	file, err := os.Open(path)
	if err != nil {
		return fmt.Errorf("read the state: %w", err)
	}
	defer file.Close()
	saved, err := state.Read(file)
	if err != nil {
		return fmt.Errorf("read the state: %w", err)
	}
	next.Clock = saved.Clock
	next.Origins = map[uint64]changes.Origin{}
	e.mu.Lock()
	for _, due := range saved.Due {
		next.Origins[due.Origin] = e.origin(due.Origin)
	}
	e.mu.Unlock()
	e.showPending(saved)
	return nil
}

// install puts in place what a second run made. The mark comes last: with it the checkpoint counts.
func (e *Enforcer) install(mark, next Mark, m made) error {
	if err := e.changes.Flush(); err != nil {
		return fmt.Errorf("make a checkpoint: %w", err)
	}
	if e.sink != nil {
		if err := e.sink.Sync(); err != nil {
			return fmt.Errorf("make a checkpoint: %w", err)
		}
	}
	for from, to := range map[string]string{
		m.enforced: e.epoch.Dir.File(mark.Segment, journal.Enforced),
		m.report:   e.epoch.Dir.File(mark.Segment, journal.Report),
		m.state:    e.epoch.Dir.File(next.Segment, journal.State),
	} {
		if err := disk.Rename(from, to); err != nil {
			return fmt.Errorf("make a checkpoint: %w", err)
		}
	}
	if err := disk.SyncFile(e.epoch.Dir.File(next.Segment, journal.State)); err != nil {
		return err
	}
	if err := disk.SyncFolder(string(e.epoch.Dir)); err != nil {
		return err
	}
	if err := next.write(e.epoch.Dir); err != nil {
		return err
	}
	e.mu.Lock()
	defer e.mu.Unlock()
	e.output.forget(next.Segment)
	closed := next.Position - e.base
	e.before, e.beforeBase = e.steps[:closed:closed], e.base
	e.steps = append([]changes.Origin(nil), e.steps[closed:]...)
	e.mark, e.base, e.marked = next, next.Position, e.options.Now()
	return nil
}

// archiveBefore archives the segments before one, and drops the states before the last but one. The state with which an
// epoch begins stays, and so does that before the last, for who has just begun to read it.
func (e *Enforcer) archiveBefore(segment int) error {
	logs, err := e.epoch.Dir.Kept(journal.Log)
	if err != nil {
		return err
	}
	for _, old := range logs {
		if old >= segment {
			continue
		}
		if err := e.epoch.Dir.Archive(old); err != nil {
			return err
		}
	}
	states, err := e.epoch.Dir.Kept(journal.State)
	if err != nil {
		return err
	}
	for _, old := range states {
		if old == 0 || old >= segment-1 {
			continue
		}
		if err := disk.Remove(e.epoch.Dir.File(old, journal.State)); err != nil && !errors.Is(err, fs.ErrNotExist) {
			return fmt.Errorf("drop a state: %w", err)
		}
	}
	return nil
}
