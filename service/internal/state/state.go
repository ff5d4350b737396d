// Package state reads what is pending from a state that enf has saved.
package state

import (
	"bufio"
	"bytes"
	"errors"
	"fmt"
	"io"
	"strconv"
	"strings"

	"enfd/internal/logtext"
)

// ErrForm is wrapped where a text is no state.
var ErrForm = errors.New("not a saved state")

// Due is an instance that is pending.
type Due struct {
	Rule   int // the number of its rule, from 0
	Node   int
	Origin uint64
	Low    int64 // its window
	High   int64
	Values []logtext.Value
}

// State is what a saved state tells of what is pending.
type State struct {
	Clock    int64
	Position uint64
	Due      []Due
}

// Read reads a saved state.
func Read(text io.Reader) (*State, error) {
	in := bufio.NewReaderSize(text, 1<<16)
	if line, err := readLine(in); err != nil || !strings.HasPrefix(line, "enfstate ") {
		return nil, fmt.Errorf("%w: its first line is %q", ErrForm, line)
	}
	for _, part := range []string{"signature", "policy"} {
		if err := skipPart(in, part); err != nil {
			return nil, err
		}
	}
	s := &State{}
	for number := 1; ; number++ {
		line, err := readLine(in)
		if err != nil {
			return nil, fmt.Errorf("%w: it has no end", ErrForm)
		}
		if line == "end" {
			return s, nil
		}
		if err := s.take(line); err != nil {
			return nil, fmt.Errorf("%w: line %d", err, number)
		}
	}
}

func (s *State) take(line string) error {
	key, rest, _ := strings.Cut(line, " ")
	switch key {
	case "clock":
		clock, err := strconv.ParseInt(rest, 10, 64)
		if err != nil {
			return ErrForm
		}
		s.Clock = clock
	case "position":
		position, err := strconv.ParseUint(rest, 10, 64)
		if err != nil {
			return ErrForm
		}
		s.Position = position
	case "due":
		due, err := parseDue(rest)
		if err != nil {
			return err
		}
		s.Due = append(s.Due, due)
	}
	return nil
}

func parseDue(text string) (Due, error) {
	numbers := [5]int64{}
	for i := range numbers {
		var field string
		field, text, _ = strings.Cut(text, " ")
		number, err := strconv.ParseInt(field, 10, 64)
		if err != nil {
			return Due{}, ErrForm
		}
		numbers[i] = number
	}
	due := Due{
		Rule: int(numbers[0]), Node: int(numbers[1]), Origin: uint64(numbers[2]), Low: numbers[3], High: numbers[4],
		Values: []logtext.Value{},
	}
	for text != "" {
		value, rest, ok := logtext.CutValue(text)
		if !ok {
			return Due{}, ErrForm
		}
		due.Values = append(due.Values, value)
		text = strings.TrimPrefix(rest, " ")
	}
	return due, nil
}

func readLine(in *bufio.Reader) (string, error) {
	line, err := in.ReadString('\n')
	return strings.TrimSuffix(line, "\n"), err
}

// skipPart passes over the bytes of a file within a state.
func skipPart(in *bufio.Reader, part string) error {
	line, err := readLine(in)
	size, found := strings.TrimPrefix(line, part+" "), strings.HasPrefix(line, part+" ")
	number, numberErr := strconv.Atoi(size)
	if err != nil || !found || numberErr != nil || number < 0 {
		return fmt.Errorf("%w: %q in place of its %s", ErrForm, line, part)
	}
	if _, err := in.Discard(number + 1); err != nil {
		return fmt.Errorf("%w: it ends within its %s", ErrForm, part)
	}
	return nil
}

// Rule is a rule of a policy as enf prints it.
type Rule struct {
	Name      string   `json:"name"`
	Text      string   `json:"text"`
	Variables []string `json:"-"` // those of the quantifier in front
}

// Rules reads the rules of what `enf check` writes.
func Rules(checked []byte) []Rule {
	var rules []Rule
	for lines := bufio.NewScanner(bytes.NewReader(checked)); lines.Scan(); {
		head, text, found := strings.Cut(lines.Text(), ": ")
		name := strings.TrimPrefix(head, "rule ")
		if !found || name == head {
			continue
		}
		rule := Rule{Name: name, Text: strings.TrimSuffix(text, ";")}
		if quantified := strings.TrimPrefix(text, "forall "); quantified != text {
			variables, _, _ := strings.Cut(quantified, ". ")
			rule.Variables = strings.Split(variables, ", ")
		}
		rules = append(rules, rule)
	}
	return rules
}

// Bind gives the values their variables' names where the quantifier in front of the rule tells them.
func (r Rule) Bind(values []logtext.Value) []logtext.Binding {
	bindings := make([]logtext.Binding, len(values))
	for i, value := range values {
		bindings[i].Value = value
		if len(values) == len(r.Variables) {
			bindings[i].Name = r.Variables[i]
		}
	}
	return bindings
}
