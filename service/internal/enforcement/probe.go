package enforcement

import (
	"context"
	"fmt"
	"os"
	"path/filepath"
	"sort"
	"time"

	"enfd/internal/changes"
	"enfd/internal/engine"
	"enfd/internal/logtext"
	"enfd/internal/state"
)

// Pending is something that is owed, or forbidden for a time.
type Pending struct {
	Rule     string            `json:"rule"`
	Text     string            `json:"text"` // the rule as enf prints it
	Node     int               `json:"node"`
	Origin   changes.Origin    `json:"origin"`
	From     int64             `json:"from"` // its window
	Due      int64             `json:"due"`
	Bindings []logtext.Binding `json:"bindings"`
}

// PendingList is what is pending at a time of the clock.
type PendingList struct {
	Clock    int64     `json:"clock"`
	Position uint64    `json:"position"`
	Pending  []Pending `json:"pending"`
}

// Pending says what is pending after all that is stored, as a second process finds it.
func (e *Enforcer) Pending(ctx context.Context) (PendingList, error) {
	saved, err := e.probe(ctx, nil, ignore{})
	if err != nil {
		return PendingList{}, err
	}
	e.showPending(saved)
	list := PendingList{Clock: saved.Clock, Position: saved.Position, Pending: make([]Pending, 0, len(saved.Due))}
	e.mu.Lock()
	defer e.mu.Unlock()
	for _, due := range saved.Due {
		if due.Rule >= len(e.rules) {
			return PendingList{}, fmt.Errorf("%w: it has a rule %d", state.ErrForm, due.Rule)
		}
		rule := e.rules[due.Rule]
		list.Pending = append(list.Pending, Pending{
			Rule: rule.Name, Text: rule.Text, Node: due.Node, Origin: e.origin(due.Origin), From: due.Low, Due: due.High,
			Bindings: rule.Bind(due.Values),
		})
	}
	sort.SliceStable(list.Pending, func(i, k int) bool { return list.Pending[i].Due < list.Pending[k].Due })
	return list, nil
}

// Try says what would become of a step now, without a trace of it. The steps that its time would let out come first.
func (e *Enforcer) Try(ctx context.Context, step Step) ([]Decision, error) {
	events, err := texts(step.Events)
	if err != nil {
		return nil, err
	}
	now := e.Time()
	if !e.options.CallerTime() {
		if now = e.clock.Now(); now < e.Time() {
			now = e.Time()
		}
	} else if step.Time != nil {
		now = *step.Time
	}
	switch {
	case now < e.Time():
		return nil, ErrTimeFalls
	case now > logtext.MaxTime:
		return nil, ErrTimeLarge
	}
	line := string(logtext.AppendStep(nil, now, events))
	if len(line)-1 > logtext.MaxRecord {
		return nil, ErrTooLong
	}
	tried := &tried{enforcer: e}
	record := engine.Record{Line: line, Label: step.ID, Step: logtext.Step{Time: now, Events: events}}
	if _, err := e.probe(ctx, &record, tried); err != nil {
		return nil, err
	}
	return tried.decisions, tried.err
}

// probe runs a second process over what is stored since the last checkpoint, and then over a record where there is one.
// One probe runs at a time.
func (e *Enforcer) probe(ctx context.Context, extra *engine.Record, handler engine.Handler) (*state.State, error) {
	select {
	case e.probing <- struct{}{}:
		defer func() { <-e.probing }()
	case <-ctx.Done():
		return nil, fmt.Errorf("look at the state: %w", ctx.Err())
	}
	folder, err := os.MkdirTemp(e.epoch.temporary(), "probe-")
	if err != nil {
		return nil, fmt.Errorf("look at the state: %w", err)
	}
	defer os.RemoveAll(folder)
	e.mu.Lock()
	mark, upTo := e.mark, e.stored
	e.mu.Unlock()
	path := filepath.Join(folder, "state")
	program, err := engine.Start(ctx, e.epoch.run(e.options.Program, mark, path), handler)
	if err != nil {
		return nil, err
	}
	err = e.replay(mark, upTo, program.Feed)
	if err == nil && extra != nil {
		record := *extra
		record.Seq, record.Segment = trySeq, upTo.segment
		err = program.Feed([]engine.Record{record})
	}
	if err != nil {
		program.Kill()
		return nil, err
	}
	if err := program.Close(); err != nil {
		return nil, err
	}
	file, err := os.Open(path)
	if err != nil {
		return nil, fmt.Errorf("look at the state: %w", err)
	}
	defer file.Close()
	return state.Read(file)
}

// trySeq is the number of a record that is only tried.
const trySeq = 1<<64 - 1

// ignore is a handler for who wants the state alone.
type ignore struct{}

func (ignore) Decided(engine.Decided) {}
func (ignore) Idle()                  {}

// tried keeps what a tried record lets out.
type tried struct {
	enforcer  *Enforcer
	decisions []Decision
	err       error
}

func (t *tried) Idle() {}

func (t *tried) Decided(decided engine.Decided) {
	if decided.Record.Seq != trySeq {
		return
	}
	decision := Decision{Time: decided.Step.Time, ID: decided.Record.Label, Events: decided.Step.Events}
	for _, line := range decided.Changes {
		decision.Position = line.Position
		t.enforcer.mu.Lock()
		origin := t.enforcer.origin(line.Origin)
		t.enforcer.mu.Unlock()
		if origin.Position == line.Position {
			origin.Time = &decided.Step.Time
		}
		change, err := changes.Of(line, decided.Step.Inserted, decided.Record.Label, origin)
		if err != nil {
			t.err = err
			return
		}
		decision.Changes = append(decision.Changes, change)
	}
	t.decisions = append(t.decisions, decision)
}

// showPending sets the metric of what is pending.
func (e *Enforcer) showPending(saved *state.State) {
	counts := make([]int, len(e.rules))
	for _, due := range saved.Due {
		if due.Rule < len(counts) {
			counts[due.Rule]++
		}
	}
	for i, rule := range e.rules {
		e.metrics.Pending.WithLabelValues(rule.Name).Set(float64(counts[i]))
	}
}

// watchPending looks at what is pending now and then, and takes at most a twentieth of the time for it.
func (e *Enforcer) watchPending(ctx context.Context) {
	if e.options.PendingEvery.Duration <= 0 {
		return
	}
	pause := e.options.PendingEvery.Duration
	seen := uint64(0)
	for {
		select {
		case <-ctx.Done():
			return
		case <-time.After(pause):
		}
		e.mu.Lock()
		records, ready := e.records, e.ready
		e.mu.Unlock()
		if !ready || records == seen {
			continue
		}
		start := time.Now()
		saved, err := e.probe(ctx, nil, ignore{})
		if err != nil {
			if ctx.Err() == nil {
				e.log.Warn("what is pending cannot be seen", "error", err)
			}
			continue
		}
		seen = records
		e.showPending(saved)
		if pause = 20 * time.Since(start); pause < e.options.PendingEvery.Duration {
			pause = e.options.PendingEvery.Duration
		}
	}
}
