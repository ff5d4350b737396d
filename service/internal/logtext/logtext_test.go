package logtext

import (
	"encoding/json"
	"errors"
	"reflect"
	"testing"
)

func TestEvents(t *testing.T) {
	for _, test := range []struct {
		event Event
		text  string
	}{
		{Event{Name: "alarm", Args: []Value{}}, `alarm()`},
		{Event{Name: "use", Args: []Value{Text("ann")}}, `use("ann")`},
		{Event{Name: "at", Args: []Value{Number(-3), Text("")}}, `at(-3,"")`},
		{Event{Name: "e", Args: []Value{Number(-9223372036854775808)}}, `e(-9223372036854775808)`},
		{Event{Name: "say", Args: []Value{Text("a \"b\\\n\r\t) ;\x00ü")}}, `say("a \"b\\\n\r\t) ;` + "\x00" + `ü")`},
	} {
		if got := test.event.String(); got != test.text {
			t.Errorf("%v is written %q in place of %q", test.event, got, test.text)
		}
		got, err := ParseEvent(test.text)
		if err != nil || !reflect.DeepEqual(got, test.event) {
			t.Errorf("%q is read %v, %v", test.text, got, err)
		}
		encoded, err := json.Marshal(test.event)
		if err != nil {
			t.Fatal(err)
		}
		var decoded Event
		if err := json.Unmarshal(encoded, &decoded); err != nil || !reflect.DeepEqual(decoded, test.event) {
			t.Errorf("%s is read %v, %v", encoded, decoded, err)
		}
	}
}

func TestNoEvents(t *testing.T) {
	for _, text := range []string{
		"", "use", "use(", `use("ann"`, `use("ann)`, `use("ann"))`, `use("a"b)`, "use(1,)", "use(-)", "(1)", "use(1;)",
		"use(9223372036854775808)",
	} {
		if event, err := ParseEvent(text); !errors.Is(err, ErrForm) {
			t.Errorf("%q is read %v, %v", text, event, err)
		}
	}
}

func TestSteps(t *testing.T) {
	for _, test := range []struct {
		line string
		step Step
	}{
		{"@0;", Step{Time: 0}},
		{"@4 a() b(\") ;\");", Step{Time: 4, Events: []string{"a()", "b(\") ;\")"}}},
		{"+34 delete(\"bob\");", Step{Inserted: true, Time: 34, Events: []string{"delete(\"bob\")"}}},
		{">7;", Step{Tick: true, Time: 7}},
	} {
		got, err := ParseStep(test.line)
		if err != nil || !reflect.DeepEqual(got, test.step) {
			t.Errorf("%q is read %v, %v", test.line, got, err)
		}
		if test.step.Inserted {
			continue
		}
		written := AppendStep(nil, test.step.Time, test.step.Events)
		if test.step.Tick {
			written = AppendTick(nil, test.step.Time)
		}
		if string(written) != test.line+"\n" {
			t.Errorf("%v is written %q", test.step, written)
		}
	}
	for _, line := range []string{"", "@", "@;", "@4", "4;", "@x;", "@-4;", "@4 a(;", "record 3: bad at 4"} {
		if step, err := ParseStep(line); !errors.Is(err, ErrForm) {
			t.Errorf("%q is read %v, %v", line, step, err)
		}
	}
}

func TestChanges(t *testing.T) {
	line := `cause tell("a) at 3","x") at 34 step 2 rule erase node 1 leaf 2 origin 7 u="b = \"c\"" n=-4`
	want := Change{
		Kind: Cause, Event: `tell("a) at 3","x")`, Time: 34, Position: 2, Rule: "erase", Node: 1, Leaf: 2, Origin: 7,
		Bindings: []Binding{{"u", Text(`b = "c"`)}, {"n", Number(-4)}},
	}
	got, err := ParseChange(line)
	if err != nil || !reflect.DeepEqual(got, want) {
		t.Errorf("%q is read %+v, %v", line, got, err)
	}
	for _, line := range []string{
		"", "cause", "caused a() at 3 step 1 rule r node 0 leaf 0 origin 0", "cause a() at 3",
		"suppress a() at 3 step 1 rule r node 0 leaf 0 origin", "suppress a() at 3 step x rule r node 0 leaf 0 origin 1",
		"suppress a() at 3 step 1 rule r node 0 leaf 0 origin 1 u", "cause a( at 3 step 1 rule r node 0 leaf 0 origin 1",
	} {
		if change, err := ParseChange(line); !errors.Is(err, ErrForm) {
			t.Errorf("%q is read %v, %v", line, change, err)
		}
	}
}

func FuzzStep(f *testing.F) {
	f.Add("@4 a(\"x\") b();")
	f.Fuzz(func(t *testing.T, line string) {
		step, err := ParseStep(line)
		if err != nil || step.Inserted || step.Tick {
			return
		}
		for _, text := range step.Events {
			if event, err := ParseEvent(text); err == nil {
				again, err := ParseEvent(event.String())
				if err != nil || !reflect.DeepEqual(again, event) {
					t.Errorf("%q is %v and then %v, %v", text, event, again, err)
				}
			}
		}
	})
}
