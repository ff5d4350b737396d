package enforcement

import (
	"errors"
	"time"

	"enfd/internal/changes"
	"enfd/internal/engine"
	"enfd/internal/logtext"
	"enfd/internal/metrics"
)

// applier takes what one process decides. What a process before it has told already, up to the same position, is passed
// over.
type applier struct {
	enforcer *Enforcer
	position uint64 // of the next step
	changes  uint64 // before it
}

// Decided takes a step.
func (a *applier) Decided(decided engine.Decided) {
	e := a.enforcer
	e.mu.Lock()
	defer e.mu.Unlock()
	position, before := a.position, a.changes
	a.position++
	a.changes += uint64(len(decided.Changes))
	if position < e.applied {
		return
	}
	e.apply(position, before, decided)
}

// Idle gives on what was taken.
func (a *applier) Idle() {
	e := a.enforcer
	e.mu.Lock()
	dirty := e.dirty
	e.dirty = false
	var err error
	if dirty {
		err = e.output.flush()
	}
	e.mu.Unlock()
	if !dirty {
		return
	}
	if err != nil {
		e.outputFailed(err)
	}
	if err := e.changes.Flush(); err != nil {
		e.outputFailed(err)
	}
	e.orders.Wake()
}

// apply takes the step at a position, behind so many changes. mu is held.
func (e *Enforcer) apply(position, before uint64, decided engine.Decided) {
	e.output.write(decided.Record.Segment, decided.Line, decided.Report)
	label := ""
	if !decided.Step.Inserted {
		label = decided.Record.Label
	}
	at := decided.Step.Time
	e.steps = append(e.steps, changes.Origin{Position: position, Time: &at, ID: label})
	made := e.applyChanges(position, before, label, decided)
	e.applied, e.dirty = position+1, true
	if decided.Step.Inserted {
		e.metrics.Inserted.Inc()
		return
	}
	e.metrics.Steps.Inc()
	e.moved = time.Now()
	r, waits := e.waiting[decided.Record.Seq]
	if !waits {
		return
	}
	delete(e.waiting, decided.Record.Seq)
	e.noteLocked(r, -1)
	metrics.Since(e.metrics.Decision, r.start)
	metrics.Since(e.metrics.Program, r.fed)
	r.answer <- outcome{decided: Decision{
		Time: at, Position: position, ID: label, Events: decided.Step.Events, Changes: made,
	}}
}

func (e *Enforcer) applyChanges(position, before uint64, label string, decided engine.Decided) []changes.Change {
	var made []changes.Change
	for i, line := range decided.Changes {
		if line.Position != position {
			e.mismatch("a line of the report has another position", "position", position, "line", line.Position)
		}
		change, err := changes.Of(line, decided.Step.Inserted, label, e.origin(line.Origin))
		if err != nil {
			e.mismatch("a line of the report cannot be read", "error", err)
			continue
		}
		change.N = before + uint64(i) + 1
		if change.Kind == logtext.Cause {
			change.Order = e.orders.Add(change)
		}
		e.changes.Add(change)
		e.metrics.Changes.WithLabelValues(change.Rule, change.Kind).Inc()
		made = append(made, change)
	}
	return made
}

// origin tells of the step at a position what is known of it. mu is held.
func (e *Enforcer) origin(position uint64) changes.Origin {
	if position >= e.base && position-e.base < uint64(len(e.steps)) {
		return e.steps[position-e.base]
	}
	if origin, known := e.mark.Origins[position]; known {
		return origin
	}
	return changes.Origin{Position: position}
}

func (e *Enforcer) outputFailed(err error) {
	if errors.Is(err, errOther) {
		e.mismatch("an output is written anew", "error", err)
		return
	}
	e.metrics.OutputErrors.Inc()
	e.log.Error("an output cannot be written, and is tried again", "error", err)
}

func (e *Enforcer) mismatch(message string, pairs ...any) {
	e.metrics.Mismatches.Inc()
	e.log.Error(message, pairs...)
}
