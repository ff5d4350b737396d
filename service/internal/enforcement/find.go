package enforcement

import (
	"bufio"
	"errors"
	"fmt"
	"io"
	"io/fs"
	"strings"

	"enfd/internal/changes"
	"enfd/internal/journal"
	"enfd/internal/logtext"
)

// Reasons for which a step is not found by its id.
var (
	ErrNoStep    = errors.New("no step of this id since the last checkpoint but one")
	ErrUndecided = errors.New("the step is not decided yet")
)

// Find gives what became of the last step with an id, of those since the last checkpoint but one. Who got no answer asks
// it before asking for the same step again.
func (e *Enforcer) Find(id string) (Decision, error) {
	if id == "" {
		return Decision{}, ErrNoStep
	}
	e.mu.Lock()
	undecided := e.asked[id] > 0 || !e.ready
	from, base := e.mark.Segment, e.base
	step, known := lastOf(e.steps, id)
	if !known {
		from, base = from-1, e.beforeBase
		step, known = lastOf(e.before, id)
	}
	e.mu.Unlock()
	switch {
	case undecided:
		return Decision{}, ErrUndecided
	case !known:
		return Decision{}, ErrNoStep
	}
	return e.decisionAt(step, from, step.Position-base)
}

// lastOf gives the last step of an id.
func lastOf(steps []changes.Origin, id string) (changes.Origin, bool) {
	for i := len(steps) - 1; i >= 0; i-- {
		if steps[i].ID == id {
			return steps[i], true
		}
	}
	return changes.Origin{}, false
}

// decisionAt reads a decision from the enforced log and the report: that of a line, counted from the beginning of a segment.
func (e *Enforcer) decisionAt(step changes.Origin, from int, line uint64) (Decision, error) {
	decision := Decision{Position: step.Position, ID: step.ID}
	found := false
	err := e.eachLine(from, journal.Enforced, func(text string) (more bool, err error) {
		if line > 0 {
			line--
			return true, nil
		}
		emitted, err := logtext.ParseStep(text)
		decision.Time, decision.Events, found = emitted.Time, emitted.Events, true
		return false, err
	})
	if err != nil {
		return Decision{}, err
	}
	if !found {
		// It is decided, and not written yet.
		return Decision{}, ErrUndecided
	}
	err = e.eachLine(from, journal.Report, func(text string) (more bool, err error) {
		change, err := logtext.ParseChange(text)
		if err != nil || change.Position != step.Position {
			return err == nil && change.Position < step.Position, err
		}
		e.mu.Lock()
		origin := e.origin(change.Origin)
		e.mu.Unlock()
		made, err := changes.Of(change, false, step.ID, origin)
		decision.Changes = append(decision.Changes, made)
		return true, err
	})
	return decision, err
}

// eachLine gives the whole lines of a kind of file from a segment on, until more is false.
func (e *Enforcer) eachLine(from int, kind string, take func(string) (more bool, err error)) error {
	for segment := from; ; segment++ {
		file, err := e.epoch.Dir.Open(segment, kind)
		if errors.Is(err, fs.ErrNotExist) {
			return nil
		}
		if err != nil {
			return err
		}
		more, err := linesOf(file, take)
		file.Close()
		if err != nil || !more {
			return err
		}
	}
}

func linesOf(text io.Reader, take func(string) (more bool, err error)) (more bool, err error) {
	for in := bufio.NewReaderSize(text, 1<<16); ; {
		line, err := in.ReadString('\n')
		if err == io.EOF {
			return true, nil
		}
		if err != nil {
			return false, fmt.Errorf("read a segment: %w", err)
		}
		if more, err := take(strings.TrimSuffix(line, "\n")); err != nil || !more {
			return false, err
		}
	}
}

// readBefore reads the steps of the segment before the last checkpoint, which a running service has in memory.
func (e *Enforcer) readBefore() error {
	segment := e.mark.Segment - 1
	if segment < 0 {
		return nil
	}
	labels, err := labelsOf(e.epoch.Dir, segment)
	if err != nil {
		return err
	}
	file, err := e.epoch.Dir.Open(segment, journal.Enforced)
	if err != nil {
		return err
	}
	defer file.Close()
	err = eachStep(file, labels, func(step changes.Origin) { e.before = append(e.before, step) })
	e.beforeBase = e.mark.Position - uint64(len(e.before))
	for i := range e.before {
		e.before[i].Position += e.beforeBase
	}
	return err
}

// labelsOf gives the labels of the steps that came in in some segments.
func labelsOf(dir journal.Dir, segments ...int) (labels []string, err error) {
	for _, segment := range segments {
		reader, err := dir.Read(segment)
		if err != nil {
			return nil, err
		}
		for {
			record, err := reader.Next()
			if err == io.EOF {
				break
			}
			if err != nil {
				reader.Close()
				return nil, err
			}
			if !record.Step.Tick {
				labels = append(labels, record.Label)
			}
		}
		reader.Close()
	}
	return labels, nil
}

// eachStep gives the steps of an enforced log, with their positions in it and, of those that came in, the labels.
func eachStep(enforced io.Reader, labels []string, take func(changes.Origin)) error {
	position := uint64(0)
	_, err := linesOf(enforced, func(line string) (more bool, err error) {
		step, err := logtext.ParseStep(line)
		if err != nil {
			return false, err
		}
		origin := changes.Origin{Position: position, Time: &step.Time}
		if !step.Inserted && len(labels) > 0 {
			origin.ID, labels = labels[0], labels[1:]
		}
		take(origin)
		position++
		return true, nil
	})
	return err
}
