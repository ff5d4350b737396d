// Package signature reads a signature and judges events by it, so that what is fed to enf is never refused.
package signature

import (
	"errors"
	"fmt"
	"regexp"
	"strings"
	"unicode/utf8"

	"enfd/internal/logtext"
)

// Sort is what a column holds.
type Sort string

// The two sorts.
const (
	Int  Sort = "int"
	Text Sort = "text"
)

// Signature has the columns of each name.
type Signature map[string][]Sort

// ErrSignature is wrapped by the refusals of Parse.
var ErrSignature = errors.New("not a signature")

// Reasons for which an event is not accepted.
var (
	ErrUnknownName = errors.New("unknown name")
	ErrArity       = errors.New("wrong number of values")
	ErrSort        = errors.New("value of another sort")
	ErrTextTooLong = errors.New("text of more than 1024 bytes")
	ErrNotUTF8     = errors.New("text is not UTF-8")
)

// ArgError says which value of an event is at fault.
type ArgError struct {
	Arg int
	Err error
}

func (e *ArgError) Error() string { return fmt.Sprintf("value %d: %v", e.Arg, e.Err) }

// Unwrap gives the reason.
func (e *ArgError) Unwrap() error { return e.Err }

// Check gives nil where enf accepts the event, else the reason, in an *ArgError where it is a value's.
func (s Signature) Check(event logtext.Event) error {
	columns, known := s[event.Name]
	if !known {
		return ErrUnknownName
	}
	if len(columns) != len(event.Args) {
		return fmt.Errorf("%w: %d in place of %d", ErrArity, len(event.Args), len(columns))
	}
	for i, arg := range event.Args {
		switch {
		case arg.IsText != (columns[i] == Text):
			return &ArgError{i, fmt.Errorf("%w: %s is wanted", ErrSort, columns[i])}
		case len(arg.Text) > logtext.MaxText:
			return &ArgError{i, ErrTextTooLong}
		case !utf8.ValidString(arg.Text):
			return &ArgError{i, ErrNotUTF8}
		}
	}
	return nil
}

var (
	comment     = regexp.MustCompile(`#[^\n]*`)
	declaration = regexp.MustCompile(`^\s*([A-Za-z0-9_]+)\s*\(([^()]*)\)[\s+-]*;\s*`)
)

// Parse reads a signature that enf accepts. It is lenient where enf is strict: enf has the last word.
func Parse(text []byte) (Signature, error) {
	s := Signature{}
	for rest := strings.TrimSpace(comment.ReplaceAllString(string(text), "")); rest != ""; {
		found := declaration.FindStringSubmatch(rest)
		if found == nil {
			return nil, fmt.Errorf("%w: no declaration at %.40q", ErrSignature, rest)
		}
		name := found[1]
		if _, twice := s[name]; twice {
			return nil, fmt.Errorf("%w: %s is declared twice", ErrSignature, name)
		}
		s[name] = nil
		if columns := strings.TrimSpace(found[2]); columns != "" {
			for _, column := range strings.Split(columns, ",") {
				sort := Sort(strings.TrimSpace(column))
				if sort != Int && sort != Text {
					return nil, fmt.Errorf("%w: %q is neither int nor text", ErrSignature, sort)
				}
				s[name] = append(s[name], sort)
			}
		}
		rest = rest[len(found[0]):]
	}
	return s, nil
}
