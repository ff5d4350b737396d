package state

import (
	"errors"
	"os/exec"
	"path/filepath"
	"reflect"
	"strings"
	"testing"

	"enfd/internal/enftest"
	"enfd/internal/logtext"
)

func TestRead(t *testing.T) {
	text := "enfstate 1\nsignature 5\nend\n\n\npolicy 0\n\nclock 16\nlast 16\nposition 8\nrow 0 1 \"ann\"\n" +
		"due 1 1 2 5 35 \"a \\\"b\"\ndue 3 1 6 14 20\nend\n"
	got, err := Read(strings.NewReader(text))
	if err != nil {
		t.Fatal(err)
	}
	want := &State{Clock: 16, Position: 8, Due: []Due{
		{Rule: 1, Node: 1, Origin: 2, Low: 5, High: 35, Values: []logtext.Value{logtext.Text(`a "b`)}},
		{Rule: 3, Node: 1, Origin: 6, Low: 14, High: 20, Values: []logtext.Value{}},
	}}
	if !reflect.DeepEqual(got, want) {
		t.Errorf("%+v", got)
	}
	for _, bad := range []string{
		"", "enfstate", strings.TrimSuffix(text, "end\n"), strings.Replace(text, "signature 5", "signature x", 1),
		strings.Replace(text, "due 3 1", "due 3 x", 1), strings.Replace(text, "clock 16", "clock -", 1),
		strings.Replace(text, "policy 0", "policy 9999", 1),
	} {
		if _, err := Read(strings.NewReader(bad)); !errors.Is(err, ErrForm) {
			t.Errorf("%q: %v", bad, err)
		}
	}
}

func TestRules(t *testing.T) {
	program := enftest.Program(t)
	out, err := exec.Command(program, "check", enftest.Example("access/access.sig"), enftest.Example("access/access.policy")).Output()
	if err != nil {
		t.Fatal(err)
	}
	rules := Rules(out)
	var got []string
	for _, rule := range rules {
		got = append(got, rule.Name+" "+strings.Join(rule.Variables, ","))
	}
	if want := "session person,door; banned person,door; two person; idle person"; strings.Join(got, "; ") != want {
		t.Errorf("%v in place of %s", got, want)
	}
	if bound := rules[0].Bind([]logtext.Value{logtext.Text("a"), logtext.Text("b")}); bound[1].Name != "door" {
		t.Errorf("%v", bound)
	}
	if bound := rules[0].Bind([]logtext.Value{logtext.Text("a")}); bound[0].Name != "" {
		t.Errorf("%v", bound)
	}
}

// TestProgramsState reads what enf saves.
func TestProgramsState(t *testing.T) {
	program, path := enftest.Program(t), filepath.Join(t.TempDir(), "state")
	command := exec.Command(program, "enforce", enftest.Example("data/data.sig"), enftest.Example("data/data.policy"), "--save", path)
	command.Stdin = strings.NewReader(`@5 request("ann"); @6 breach("b\nc"); >7;`)
	if err := command.Run(); err != nil {
		t.Fatal(err)
	}
	text, err := exec.Command("cat", path).Output()
	if err != nil {
		t.Fatal(err)
	}
	got, err := Read(strings.NewReader(string(text)))
	if err != nil || got.Clock != 7 || len(got.Due) != 2 || got.Due[1].Values[0].Text != "b\nc" || got.Due[0].High != 35 {
		t.Errorf("%+v, %v", got, err)
	}
}
