package logtext

import (
	"fmt"
	"strconv"
	"strings"
)

// Limits of a record.
const (
	MaxRecord = 65536
	MaxEvents = 2048
	MaxTime   = 1_000_000_000_000_000
)

// AppendStep appends the record of a step, with its line feed. The events are strings of events.
func AppendStep(out []byte, time int64, events []string) []byte {
	out = append(out, '@')
	out = strconv.AppendInt(out, time, 10)
	for _, event := range events {
		out = append(out, ' ')
		out = append(out, event...)
	}
	return append(out, ';', '\n')
}

// AppendTick appends the record of a tick, with its line feed.
func AppendTick(out []byte, time int64) []byte {
	out = append(out, '>')
	out = strconv.AppendInt(out, time, 10)
	return append(out, ';', '\n')
}

// Step is a line of the enforced log, or a record of a log.
type Step struct {
	Inserted bool
	Tick     bool
	Time     int64
	Events   []string
}

// IsStep says whether a line is one of the enforced log.
func IsStep(line string) bool { return line != "" && (line[0] == '@' || line[0] == '+') }

// ParseStep reads a line of the enforced log, or a record as this package writes it, without the line feed.
func ParseStep(line string) (Step, error) {
	fail := func() (Step, error) { return Step{}, fmt.Errorf("step %q: %w", short(line), ErrForm) }
	if len(line) < 3 || line[len(line)-1] != ';' || strings.IndexByte("@+>", line[0]) < 0 {
		return fail()
	}
	step := Step{Inserted: line[0] == '+', Tick: line[0] == '>'}
	time, events, _ := strings.Cut(line[1:len(line)-1], " ")
	number, err := strconv.ParseUint(time, 10, 63)
	if err != nil {
		return fail()
	}
	step.Time = int64(number)
	for events != "" {
		end := eventEnd(events)
		if end < 0 {
			return fail()
		}
		step.Events = append(step.Events, events[:end])
		events = strings.TrimPrefix(events[end:], " ")
	}
	return step, nil
}

// eventEnd gives the place behind the event at the front of a text, or -1 where it has no end.
func eventEnd(text string) int {
	for i := 0; i < len(text); i++ {
		switch text[i] {
		case '"':
			end := textEnd(text[i:])
			if end < 0 {
				return -1
			}
			i += end - 1
		case ')':
			return i + 1
		}
	}
	return -1
}

// Kinds of a change.
const (
	Cause    = "cause"
	Suppress = "suppress"
)

// Change is a line of the report: an event that was added or taken out, where, and for what.
type Change struct {
	Kind     string
	Event    string // as it stands in the enforced log
	Time     int64
	Position uint64
	Rule     string
	Node     int
	Leaf     int
	Origin   uint64
	Bindings []Binding
}

// Binding is the value of a variable of the rule.
type Binding struct {
	Name  string `json:"name"`
	Value Value  `json:"value"`
}

// ParseChange reads the line of a change, without the line feed.
func ParseChange(line string) (Change, error) {
	fail := func() (Change, error) { return Change{}, fmt.Errorf("change %q: %w", short(line), ErrForm) }
	kind, rest, _ := strings.Cut(line, " ")
	if kind != Cause && kind != Suppress {
		return fail()
	}
	end := eventEnd(rest)
	if end < 0 {
		return fail()
	}
	change := Change{Kind: kind, Event: rest[:end]}
	p := fieldReader{rest: rest[end:]}
	change.Time = int64(p.number("at"))
	change.Position = p.number("step")
	change.Rule = p.word("rule")
	change.Node = int(p.number("node"))
	change.Leaf = int(p.number("leaf"))
	change.Origin = p.number("origin")
	for p.rest != "" && !p.failed {
		change.Bindings = append(change.Bindings, p.binding())
	}
	if p.failed {
		return fail()
	}
	return change, nil
}

// fieldReader takes the fields of a line one after the other; a field that is not there fails all that follow.
type fieldReader struct {
	rest   string
	failed bool
}

func (p *fieldReader) word(key string) string {
	rest, ok := cutPrefix(p.rest, " "+key+" ")
	if !ok {
		p.failed = true
		return ""
	}
	end := strings.IndexByte(rest, ' ')
	if end < 0 {
		end = len(rest)
	}
	p.rest = rest[end:]
	return rest[:end]
}

func (p *fieldReader) number(key string) uint64 {
	number, err := strconv.ParseUint(p.word(key), 10, 63)
	if err != nil {
		p.failed = true
	}
	return number
}

func (p *fieldReader) binding() Binding {
	rest, ok := cutPrefix(p.rest, " ")
	name, value, found := strings.Cut(rest, "=")
	if !ok || !found {
		p.failed = true
		return Binding{}
	}
	read, behind, ok := CutValue(value)
	if !ok {
		p.failed = true
		return Binding{}
	}
	p.rest = behind
	return Binding{Name: name, Value: read}
}

func cutPrefix(text, prefix string) (string, bool) {
	if !strings.HasPrefix(text, prefix) {
		return text, false
	}
	return text[len(prefix):], true
}
