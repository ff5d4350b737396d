package signature

import (
	"errors"
	"fmt"
	"os"
	"os/exec"
	"path/filepath"
	"strings"
	"testing"

	"enfd/internal/enftest"
	"enfd/internal/logtext"
)

const doors = "# doors\nenter ( text , int ) - ;alarm()+;note(text)+-; tick() ;"

func TestParse(t *testing.T) {
	s, err := Parse([]byte(doors))
	if err != nil {
		t.Fatal(err)
	}
	if got, want := fmt.Sprint(s), "map[alarm:[] enter:[text int] note:[text] tick:[]]"; got != want {
		t.Errorf("%s in place of %s", got, want)
	}
	for _, text := range []string{"a", "a(", "a()", "a(int;", "a(num);", "a() b;", "a();a();", "a()*;", "(int);", "a(int,);"} {
		if _, err := Parse([]byte(text)); !errors.Is(err, ErrSignature) {
			t.Errorf("%q: %v", text, err)
		}
	}
}

func TestCheck(t *testing.T) {
	s, err := Parse([]byte(doors))
	if err != nil {
		t.Fatal(err)
	}
	text, number := logtext.Text("x"), logtext.Number(1)
	for _, test := range []struct {
		name string
		args []logtext.Value
		want error
	}{
		{"enter", []logtext.Value{text, number}, nil},
		{"alarm", nil, nil},
		{"note", []logtext.Value{logtext.Text(strings.Repeat("ü", 512))}, nil},
		{"leave", nil, ErrUnknownName},
		{"Enter", []logtext.Value{text, number}, ErrUnknownName},
		{"enter", []logtext.Value{text}, ErrArity},
		{"alarm", []logtext.Value{text}, ErrArity},
		{"enter", []logtext.Value{number, number}, ErrSort},
		{"enter", []logtext.Value{text, text}, ErrSort},
		{"note", []logtext.Value{logtext.Text(strings.Repeat("ü", 512) + "x")}, ErrTextTooLong},
		{"note", []logtext.Value{logtext.Text("\xff")}, ErrNotUTF8},
	} {
		if err := s.Check(logtext.Event{Name: test.name, Args: test.args}); !errors.Is(err, test.want) {
			t.Errorf("%s%v: %v in place of %v", test.name, test.args, err, test.want)
		}
	}
}

// TestProgramAgrees sees that enf takes each event that is accepted here.
func TestProgramAgrees(t *testing.T) {
	program, folder := enftest.Program(t), t.TempDir()
	s, err := Parse([]byte(doors))
	if err != nil {
		t.Fatal(err)
	}
	sig := enftest.Write(t, folder, "sig", doors)
	policy := enftest.Write(t, folder, "policy", "")
	var log []byte
	for i, value := range []string{
		"", " ", "\"", "\\", "\n\r\t", ";", "@4;", "#", "\x00\x01\x7f", "é", "\u2028", "😀", "a,b)", strings.Repeat("x", 1024),
	} {
		for _, event := range []logtext.Event{
			{Name: "note", Args: []logtext.Value{logtext.Text(value)}},
			{Name: "enter", Args: []logtext.Value{logtext.Text(value), logtext.Number(-int64(i) << 50)}},
		} {
			if err := s.Check(event); err != nil {
				t.Fatal(err)
			}
			log = logtext.AppendStep(log, int64(i), []string{event.String()})
		}
	}
	command := exec.Command(program, "enforce", sig, policy, "--save", filepath.Join(folder, "state"))
	command.Stdin, command.Stderr = strings.NewReader(string(log)), os.Stderr
	out, err := command.Output()
	if err != nil || string(out) != string(log) {
		t.Errorf("%v; the log\n%q\nbecame\n%q", err, log, out)
	}
}
