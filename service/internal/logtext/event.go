// Package logtext writes the records that enf reads, and reads the lines that it writes.
//
// The forms are those of docs/FORMATS.md, "Log", "The enforced log" and "The line of an action".
package logtext

import (
	"encoding/json"
	"errors"
	"fmt"
	"strconv"
	"strings"
)

// MaxText is the greatest number of bytes of a text.
const MaxText = 1024

// ErrForm is wrapped by every error of a line that has not the form it was read as.
var ErrForm = errors.New("not of this form")

// Value is a number or a text.
type Value struct {
	IsText bool
	Text   string
	Number int64
}

// Number gives the value of a number.
func Number(n int64) Value { return Value{Number: n} }

// Text gives the value of a text.
func Text(s string) Value { return Value{IsText: true, Text: s} }

// MarshalJSON writes a number as a number and a text as a string.
func (v Value) MarshalJSON() ([]byte, error) {
	if v.IsText {
		return json.Marshal(v.Text)
	}
	return strconv.AppendInt(nil, v.Number, 10), nil
}

// UnmarshalJSON reads what MarshalJSON writes.
func (v *Value) UnmarshalJSON(text []byte) error {
	if len(text) > 0 && text[0] == '"' {
		*v = Value{IsText: true}
		return json.Unmarshal(text, &v.Text)
	}
	number, err := strconv.ParseInt(string(text), 10, 64)
	if err != nil {
		return fmt.Errorf("value %s: %w", text, ErrForm)
	}
	*v = Number(number)
	return nil
}

// Append appends the value as it stands in a log.
func (v Value) Append(out []byte) []byte {
	if v.IsText {
		return AppendText(out, v.Text)
	}
	return strconv.AppendInt(out, v.Number, 10)
}

// AppendText appends a text in quotes, with the five escapes that a log has.
func AppendText(out []byte, text string) []byte {
	out = append(out, '"')
	for i := 0; i < len(text); i++ {
		switch c := text[i]; c {
		case '"', '\\':
			out = append(out, '\\', c)
		case '\n':
			out = append(out, '\\', 'n')
		case '\r':
			out = append(out, '\\', 'r')
		case '\t':
			out = append(out, '\\', 't')
		default:
			out = append(out, c)
		}
	}
	return append(out, '"')
}

// Event is a name with its values.
type Event struct {
	Name string  `json:"name"`
	Args []Value `json:"args"`
}

// Append appends the event as enf writes it.
func (e Event) Append(out []byte) []byte {
	out = append(out, e.Name...)
	out = append(out, '(')
	for i, arg := range e.Args {
		if i > 0 {
			out = append(out, ',')
		}
		out = arg.Append(out)
	}
	return append(out, ')')
}

// String gives the event as enf writes it. Two events are the same where their strings are.
func (e Event) String() string { return string(e.Append(nil)) }

// ParseEvent reads an event as enf writes it.
func ParseEvent(text string) (Event, error) {
	event, rest, err := cutEvent(text)
	if err != nil {
		return Event{}, err
	}
	if rest != "" {
		return Event{}, fmt.Errorf("event %q: %w", text, ErrForm)
	}
	return event, nil
}

// cutEvent reads the event at the front of a text and gives what stands behind it.
func cutEvent(text string) (Event, string, error) {
	fail := func() (Event, string, error) {
		return Event{}, "", fmt.Errorf("event at %q: %w", short(text), ErrForm)
	}
	open := strings.IndexByte(text, '(')
	if open <= 0 {
		return fail()
	}
	event := Event{Name: text[:open], Args: []Value{}}
	rest := text[open+1:]
	if strings.HasPrefix(rest, ")") {
		return event, rest[1:], nil
	}
	for {
		value, behind, ok := CutValue(rest)
		if !ok || behind == "" {
			return fail()
		}
		event.Args = append(event.Args, value)
		rest = behind[1:]
		switch behind[0] {
		case ')':
			return event, rest, nil
		case ',':
		default:
			return fail()
		}
	}
}

// CutValue reads the value at the front of a text and gives what stands behind it.
func CutValue(text string) (Value, string, bool) {
	if strings.HasPrefix(text, `"`) {
		end := textEnd(text)
		if end < 0 {
			return Value{}, "", false
		}
		return Text(unescape(text[1 : end-1])), text[end:], true
	}
	end := 0
	for end < len(text) && (text[end] == '-' || '0' <= text[end] && text[end] <= '9') {
		end++
	}
	number, err := strconv.ParseInt(text[:end], 10, 64)
	if err != nil {
		return Value{}, "", false
	}
	return Number(number), text[end:], true
}

// textEnd gives the place behind the text that begins at the front, or -1 where it has no end.
func textEnd(text string) int {
	for i := 1; i < len(text); i++ {
		switch text[i] {
		case '\\':
			i++
		case '"':
			return i + 1
		}
	}
	return -1
}

// unescape gives the text that stands between the quotes.
func unescape(inner string) string {
	if strings.IndexByte(inner, '\\') < 0 {
		return inner
	}
	out := make([]byte, 0, len(inner))
	for i := 0; i < len(inner); i++ {
		c := inner[i]
		if c == '\\' && i+1 < len(inner) {
			i++
			switch inner[i] {
			case 'n':
				c = '\n'
			case 'r':
				c = '\r'
			case 't':
				c = '\t'
			default:
				c = inner[i]
			}
		}
		out = append(out, c)
	}
	return string(out)
}

func short(text string) string {
	if len(text) > 60 {
		return text[:60] + "..."
	}
	return text
}
