package enforcement

import (
	"context"
	"errors"
	"fmt"
	"io"
	"os"
	"path/filepath"
	"time"

	"enfd/internal/engine"
	"enfd/internal/journal"
	"enfd/internal/logtext"
	"enfd/internal/metrics"
)

// feedBatch is the number of records that are fed at once at a replay.
const feedBatch = 512

// maxFed is the number of bytes after which the process is replaced, far below what enf takes of one log.
const maxFed = 1 << 38

// Run enforces until ctx ends; then it makes a checkpoint and gives nil. An error says why nothing more can be decided.
func (e *Enforcer) Run(ctx context.Context) error {
	defer e.closeFiles()
	// What runs beside ends with Run, whatever ends that.
	beside, cancel := context.WithCancel(context.Background())
	checkpoints := make(chan struct{})
	go func() {
		defer close(checkpoints)
		e.makeCheckpoints(beside)
	}()
	pending := make(chan struct{})
	go func() {
		defer close(pending)
		e.watchPending(beside)
	}()
	ended := make(chan struct{})
	defer close(ended)
	go e.killLate(ctx, ended)
	if e.options.ChangesFile == "-" {
		defer e.follow(os.Stdout)()
	}
	err := e.loop(ctx)
	close(e.stopped)
	cancel()
	<-checkpoints
	<-pending
	endErr := e.end(err == nil)
	if err == nil {
		err = endErr
	}
	return err
}

// follow gives a reader the changes, in a goroutine of its own: one that stops reading holds up nobody. The end that it gives
// waits until the reader has all, or for as long as the end of the service may take.
func (e *Enforcer) follow(to io.Writer) (end func()) {
	ended, done, from := make(chan struct{}), make(chan struct{}), e.lastMark().Changes
	go func() {
		defer close(done)
		err := e.changes.Follow(to, from, ended, func(first, last uint64) {
			e.metrics.OutputErrors.Inc()
			e.log.Error("standard output is read too slowly, and changes are left out", "first", first, "last", last)
		})
		if err != nil {
			e.outputFailed(err)
		}
	}()
	return func() {
		close(ended)
		late := time.NewTimer(e.options.EndTimeout.Duration)
		defer late.Stop()
		select {
		case <-done:
		case <-late.C:
		}
	}
}

// killLate kills the process where the end takes too long, as when it stands still.
func (e *Enforcer) killLate(ctx context.Context, ended <-chan struct{}) {
	select {
	case <-ctx.Done():
	case <-ended:
		return
	}
	late := time.NewTimer(e.options.EndTimeout.Duration)
	defer late.Stop()
	select {
	case <-late.C:
	case <-ended:
		return
	}
	e.mu.Lock()
	program := e.engine
	e.mu.Unlock()
	if program != nil {
		e.log.Error("the program does not end and is killed", "pid", program.PID())
		program.Kill()
	}
}

func (e *Enforcer) loop(ctx context.Context) error {
	if err := e.startProgram(ctx); err != nil {
		if ctx.Err() != nil {
			return nil
		}
		// At the first start a program that does not run is a fault of what it was given.
		return err
	}
	ticks, stop := e.ticks()
	defer stop()
	rotated := time.Now()
	for {
		var err error
		select {
		case <-ctx.Done():
			return nil
		case r := <-e.submitted:
			err = e.take(e.batch(r))
		case <-ticks:
			err = e.tick()
		case <-e.engine.Done():
			err = errRestart
		}
		if errors.Is(err, errRestart) {
			err = e.restart(ctx)
		}
		if err != nil {
			if ctx.Err() != nil {
				return nil
			}
			return err
		}
		// A few records, as the ticks of a quiet hour, are replayed in no time and are not worth a checkpoint.
		count, enough := e.journal.Count(), e.options.CheckpointRecords
		if count >= enough || count > enough/100 && time.Since(rotated) >= e.options.CheckpointEvery.Duration {
			rotated = time.Now()
			e.rotate()
		}
	}
}

// errRestart says that the process has to be started anew.
var errRestart = errors.New("the program is to be restarted")

func (e *Enforcer) ticks() (<-chan time.Time, func()) {
	if e.options.Tick.Duration <= 0 || e.options.CallerTime() {
		return nil, func() {}
	}
	ticker := time.NewTicker(e.options.Tick.Duration)
	return ticker.C, ticker.Stop
}

// batch gives a request and those that wait behind it.
func (e *Enforcer) batch(first *request) []*request {
	batch := []*request{first}
	for len(batch) < journal.MaxBatch {
		select {
		case r := <-e.submitted:
			batch = append(batch, r)
		default:
			return batch
		}
	}
	return batch
}

// tick feeds a tick where the clock has gone on since the last record.
func (e *Enforcer) tick() error {
	if now := e.clock.Now(); now > e.lastTime {
		return e.take([]*request{{isTick: true, time: &now, start: time.Now(), answer: make(chan outcome, 1)}})
	}
	return nil
}

// take stores requests in their order and feeds them.
func (e *Enforcer) take(batch []*request) error {
	var (
		taken   []*request
		records []engine.Record
		entries []journal.Entry
		last    = e.lastTime
	)
	for _, r := range batch {
		record, err := e.record(r, last)
		if err != nil {
			e.refuse(r, err)
			continue
		}
		record.Seq = e.records + uint64(len(records))
		last = record.Step.Time
		taken = append(taken, r)
		records = append(records, record)
		entries = append(entries, journal.Entry{Line: record.Line, Label: record.Label})
	}
	if len(records) == 0 {
		return nil
	}
	start := time.Now()
	if err := e.journal.Append(entries, last); err != nil {
		e.metrics.JournalErrors.Inc()
		e.log.Error("the journal cannot be written", "error", err, "records", len(records))
		if errors.Is(err, journal.ErrNotStored) {
			e.refuseAll(taken, ErrNotStored)
			return nil
		}
		e.refuseAll(taken, ErrInDoubt)
		return err
	}
	metrics.Since(e.metrics.Commit, start)
	e.expect(taken, records, last)
	return e.feed(records)
}

func (e *Enforcer) refuseAll(requests []*request, err error) {
	for _, r := range requests {
		e.refuse(r, err)
	}
}

// record makes the record of a request behind those before it.
func (e *Enforcer) record(r *request, last int64) (engine.Record, error) {
	now := last
	switch {
	case r.time != nil && (e.options.CallerTime() || r.isTick):
		now = *r.time
	case !e.options.CallerTime():
		if now = e.clock.Now(); now < last {
			now = last
		}
	}
	switch {
	case now < last:
		return engine.Record{}, ErrTimeFalls
	case now > logtext.MaxTime:
		return engine.Record{}, ErrTimeLarge
	}
	record := engine.Record{
		Segment: e.journal.Segment(), Label: r.id, Step: logtext.Step{Tick: r.isTick, Time: now, Events: r.events},
	}
	if r.isTick {
		record.Line = string(logtext.AppendTick(nil, now))
	} else {
		record.Line = string(logtext.AppendStep(nil, now, r.events))
	}
	if len(record.Line)-1 > logtext.MaxRecord {
		return engine.Record{}, ErrTooLong
	}
	return record, nil
}

// expect notes what was stored and who waits for it.
func (e *Enforcer) expect(taken []*request, records []engine.Record, last int64) {
	e.noteStored()
	e.mu.Lock()
	defer e.mu.Unlock()
	e.lastTime = last
	if len(e.waiting) == 0 {
		e.moved = time.Now()
	}
	for i, r := range taken {
		if r.isTick {
			e.metrics.Ticks.Inc()
			r.answer <- outcome{decided: Decision{Time: records[i].Step.Time}}
			continue
		}
		r.fed = time.Now()
		e.waiting[records[i].Seq] = r
	}
}

// noteStored tells the others what the journal has.
func (e *Enforcer) noteStored() {
	e.mu.Lock()
	defer e.mu.Unlock()
	log, labels := e.journal.Sizes()
	e.stored = place{segment: e.journal.Segment(), log: log, labels: labels}
}

func (e *Enforcer) feed(records []engine.Record) error {
	e.mu.Lock()
	e.records += uint64(len(records))
	for _, record := range records {
		e.fed += int64(len(record.Line))
	}
	tooMuch := e.fed > maxFed
	e.mu.Unlock()
	// Where the process has ended the records are fed from the journal to the next one.
	if err := e.engine.Feed(records); err != nil || tooMuch {
		return errRestart
	}
	return nil
}

// rotate closes the segment, of which a checkpoint is made then.
func (e *Enforcer) rotate() {
	if err := e.journal.Rotate(); err != nil {
		e.log.Warn("the journal's segment cannot be closed", "error", err)
		return
	}
	e.noteStored()
	select {
	case e.closed <- struct{}{}:
	default:
	}
}

// startProgram starts the process from the last checkpoint and feeds it what is stored since.
func (e *Enforcer) startProgram(ctx context.Context) error {
	mark := e.lastMark()
	scratch, err := os.MkdirTemp(e.epoch.temporary(), "run-")
	if err != nil {
		return fmt.Errorf("start the program: %w", err)
	}
	program, err := engine.Start(context.Background(), e.epoch.run(e.options.Program, mark, filepath.Join(scratch, "state")),
		&applier{enforcer: e, position: mark.Position, changes: mark.Changes})
	if err != nil {
		os.RemoveAll(scratch)
		return err
	}
	e.mu.Lock()
	e.engine, e.fed = program, 0
	old := e.scratch
	e.scratch = scratch
	upTo := e.stored
	e.mu.Unlock()
	if old != "" {
		os.RemoveAll(old)
	}
	records, last := mark.Records, logtext.Step{Time: mark.Clock}
	err = e.replay(mark, upTo, func(batch []engine.Record) error {
		records += uint64(len(batch))
		last = batch[len(batch)-1].Step
		return program.Feed(batch)
	})
	if err == nil {
		err = await(ctx, program, func() bool { return program.Lag() == 0 })
	}
	if err == nil && last.Tick && old == "" {
		err = e.awaitTicks(ctx, program)
	}
	if err != nil {
		program.Kill()
		if ended := program.Err(); ended != nil && errors.Is(err, engine.ErrEnded) {
			err = ended
		}
		return err
	}
	e.mu.Lock()
	e.records, e.ready = records, true
	if last.Time > e.lastTime {
		e.lastTime = last.Time
	}
	e.mu.Unlock()
	e.clock.Raise(last.Time)
	e.log.Info("the program runs", "pid", program.PID(), "segment", mark.Segment, "replayed", records-mark.Records)
	return nil
}

// await waits until something is so, as long as a process runs.
func await(ctx context.Context, program *engine.Engine, isSo func() bool) error {
	poll := time.NewTicker(2 * time.Millisecond)
	defer poll.Stop()
	for !isSo() {
		select {
		case <-poll.C:
		case <-program.Done():
			return engine.ErrEnded
		case <-ctx.Done():
			return fmt.Errorf("replay the journal: %w", ctx.Err())
		}
	}
	return nil
}

// awaitTicks waits for what ticks at the end of the journal let out, as orders that were acknowledged before. A tick has no
// answer, so a second process says how many steps there are.
func (e *Enforcer) awaitTicks(ctx context.Context, program *engine.Engine) error {
	saved, err := e.probe(ctx, nil, ignore{})
	if err != nil {
		e.log.Warn("some orders may come late", "error", err)
		return nil
	}
	return await(ctx, program, func() bool { return e.isApplied(saved.Position) })
}

// isApplied says whether the steps before a position are applied, and given on.
func (e *Enforcer) isApplied(position uint64) bool {
	e.mu.Lock()
	defer e.mu.Unlock()
	return e.applied >= position && !e.dirty
}

// restart starts the process anew, again and again with growing pauses, until it runs or ctx ends.
func (e *Enforcer) restart(ctx context.Context) error {
	e.mu.Lock()
	e.ready = false
	e.mu.Unlock()
	e.engine.Kill()
	e.log.Error("the program ended", "error", e.engine.Err())
	for pause := 10 * time.Millisecond; ; pause *= 2 {
		e.metrics.Restarts.Inc()
		err := e.startProgram(ctx)
		if err == nil || ctx.Err() != nil {
			return err
		}
		e.log.Error("the program does not start", "error", err)
		if pause > 30*time.Second {
			pause = 30 * time.Second
		}
		select {
		case <-time.After(pause):
		case <-ctx.Done():
			return ctx.Err()
		}
	}
}

// replay gives the records of the journal from a mark up to a place.
func (e *Enforcer) replay(mark Mark, upTo place, feed func([]engine.Record) error) error {
	seq := mark.Records
	for segment := mark.Segment; segment <= upTo.segment; segment++ {
		var limits []int64
		if segment == upTo.segment {
			limits = []int64{upTo.log, upTo.labels}
		}
		reader, err := e.epoch.Dir.Read(segment, limits...)
		if err != nil {
			return err
		}
		err = replaySegment(reader, &seq, feed)
		reader.Close()
		if err != nil {
			return err
		}
	}
	return nil
}

func replaySegment(reader *journal.Reader, seq *uint64, feed func([]engine.Record) error) error {
	var batch []engine.Record
	for {
		record, err := reader.Next()
		if err != nil && err != io.EOF {
			return err
		}
		if err == nil {
			batch = append(batch, engine.Record{
				Seq: *seq, Segment: record.Segment, Label: record.Label, Line: record.Line, Step: record.Step,
			})
			*seq++
		}
		if len(batch) == feedBatch || err == io.EOF && len(batch) > 0 {
			if err := feed(batch); err != nil {
				return err
			}
			batch = nil
		}
		if err == io.EOF {
			return nil
		}
	}
}

// end closes what runs, with a checkpoint where all went well.
func (e *Enforcer) end(well bool) error {
	e.mu.Lock()
	program, scratch := e.engine, e.scratch
	e.ready = false
	e.mu.Unlock()
	if program == nil {
		return nil
	}
	defer os.RemoveAll(scratch)
	if !well {
		program.Kill()
		return nil
	}
	if e.journal.Count() > 0 {
		e.rotate()
	}
	if err := program.Close(); err != nil {
		return err
	}
	ctx, cancel := context.WithTimeout(context.Background(), e.options.EndTimeout.Duration)
	defer cancel()
	if err := e.checkpointAll(ctx); err != nil {
		return fmt.Errorf("make the last checkpoint: %w", err)
	}
	return nil
}
