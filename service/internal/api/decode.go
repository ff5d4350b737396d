package api

import (
	"bytes"
	"encoding/json"
	"errors"
	"fmt"
	"io"
	"strconv"
	"strings"
	"unicode/utf8"

	"enfd/internal/logtext"
	"enfd/internal/signature"
)

// maxID is the greatest number of bytes of an id, as of a label in a log.
const maxID = 64

// refusal says why a request is not accepted, and where.
type refusal struct {
	status int
	reason string // one of few words, for the metric
	place  string
	detail string
}

func (r *refusal) Error() string {
	if r.place == "" {
		return r.detail
	}
	return r.place + ": " + r.detail
}

// The reasons of refusals.
const (
	reasonForm  = "form"
	reasonName  = "unknown name"
	reasonArity = "arity"
	reasonSort  = "sort"
	reasonLong  = "too long"
	reasonTime  = "time"
)

// asked is a request as it was understood.
type asked struct {
	events []logtext.Event // of the signature
	beside []logtext.Event // of other names
	id     string
	time   *int64
}

// decode reads the body of a request for a step.
func (s *Server) decode(body []byte) (asked, *refusal) {
	form := func(place, detail string) *refusal { return &refusal{400, reasonForm, place, detail} }
	if !utf8.Valid(body) {
		return asked{}, form("", "the body is not UTF-8")
	}
	var raw struct {
		Events []struct {
			Name *string           `json:"name"`
			Args []json.RawMessage `json:"args"`
		} `json:"events"`
		ID   json.RawMessage `json:"id"`
		Time json.RawMessage `json:"time"`
	}
	if err := decodeStrictly(body, &raw); err != nil {
		return asked{}, form(placeOf(err), err.Error())
	}
	var step asked
	if len(raw.ID) > 0 {
		id, ok := stringOf(raw.ID)
		if !ok {
			return asked{}, &refusal{422, reasonSort, "id", "it is no text"}
		}
		if len(id) > maxID {
			return asked{}, &refusal{422, reasonLong, "id", "it has more than 64 bytes"}
		}
		step.id = id
	}
	if len(raw.Time) > 0 {
		if !s.options.CallerTime() {
			return asked{}, &refusal{422, reasonTime, "time", "the time is the service's"}
		}
		time, err := strconv.ParseInt(string(raw.Time), 10, 64)
		if err != nil || time < 0 {
			return asked{}, &refusal{422, reasonTime, "time", "it is no time"}
		}
		step.time = &time
	}
	for i, each := range raw.Events {
		place := fmt.Sprintf("events[%d]", i)
		if each.Name == nil {
			return asked{}, form(place, "it has no name")
		}
		event := logtext.Event{Name: *each.Name, Args: make([]logtext.Value, len(each.Args))}
		for k, arg := range each.Args {
			value, why := valueOf(arg)
			if why != "" {
				return asked{}, &refusal{422, reasonSort, fmt.Sprintf("%s.args[%d]", place, k), why}
			}
			event.Args[k] = value
		}
		err := s.enforcer.Signature().Check(event)
		switch {
		case err == nil:
			step.events = append(step.events, event)
		case errors.Is(err, signature.ErrUnknownName) && s.options.Unknown == "pass":
			step.beside = append(step.beside, event)
		default:
			return asked{}, refusalOf(place, err)
		}
	}
	return step, nil
}

// refusalOf says where in an event a fault of it is.
func refusalOf(place string, err error) *refusal {
	var arg *signature.ArgError
	if errors.As(err, &arg) {
		place, err = fmt.Sprintf("%s.args[%d]", place, arg.Arg), arg.Err
	}
	r := &refusal{422, reasonSort, place, err.Error()}
	switch {
	case errors.Is(err, signature.ErrUnknownName):
		r.reason, r.place = reasonName, place+".name"
	case errors.Is(err, signature.ErrArity):
		r.reason, r.place = reasonArity, place+".args"
	case errors.Is(err, signature.ErrTextTooLong):
		r.reason = reasonLong
	}
	return r
}

// decodeStrictly reads one JSON value that has no field of another name.
func decodeStrictly(body []byte, into any) error {
	decoder := json.NewDecoder(bytes.NewReader(body))
	decoder.DisallowUnknownFields()
	if err := decoder.Decode(into); err != nil {
		return err
	}
	if _, err := decoder.Token(); err != io.EOF {
		return errors.New("something stands behind the object")
	}
	return nil
}

// placeOf gives the place of a fault of JSON.
func placeOf(err error) string {
	var syntax *json.SyntaxError
	var kind *json.UnmarshalTypeError
	switch {
	case errors.As(err, &syntax):
		return fmt.Sprintf("byte %d", syntax.Offset)
	case errors.As(err, &kind):
		return kind.Field
	}
	return ""
}

// valueOf reads an argument: a whole number or a text. why says what is in the way.
func valueOf(raw json.RawMessage) (value logtext.Value, why string) {
	if raw[0] == '"' {
		text, ok := stringOf(raw)
		if !ok {
			return logtext.Value{}, "half of a surrogate pair stands for no character"
		}
		return logtext.Text(text), ""
	}
	number, err := strconv.ParseInt(string(raw), 10, 64)
	if err != nil {
		return logtext.Value{}, "it is neither a text nor a whole number of 64 bits"
	}
	return logtext.Number(number), ""
}

// stringOf gives the text of a JSON string. It is not ok where something else stands there, or half of a surrogate pair,
// which encoding/json would change.
func stringOf(raw json.RawMessage) (text string, ok bool) {
	if raw[0] != '"' || json.Unmarshal(raw, &text) != nil {
		return "", false
	}
	if !strings.ContainsRune(text, utf8.RuneError) {
		return text, true
	}
	for i := 0; i < len(raw); i++ {
		if raw[i] != '\\' {
			continue
		}
		i++
		if raw[i] != 'u' {
			continue
		}
		unit := hex4(raw[i+1:])
		i += 4
		if unit < 0xd800 || unit > 0xdfff {
			continue
		}
		if unit > 0xdbff || i+6 >= len(raw) || raw[i+1] != '\\' || raw[i+2] != 'u' {
			return "", false
		}
		if low := hex4(raw[i+3:]); low < 0xdc00 || low > 0xdfff {
			return "", false
		}
		i += 6
	}
	return text, true
}

// hex4 gives the number of four hexadecimal digits, which a JSON string that was read has there.
func hex4(digits []byte) uint64 {
	number, _ := strconv.ParseUint(string(digits[:4]), 16, 32)
	return number
}
