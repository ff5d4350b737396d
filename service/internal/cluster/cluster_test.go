//go:build cluster

package cluster

import (
	"errors"
	"testing"
)

func TestTagged(t *testing.T) {
	for _, test := range []struct {
		line      string
		partition int
		record    string
		wrong     bool
	}{
		{line: `3:@5 request("a:b");`, partition: 3, record: `@5 request("a:b");`},
		{line: `12:>7;`, partition: 12, record: `>7;`},
		{line: `@5;`, wrong: true},
		{line: `-1:@5;`, wrong: true},
		{line: `1:`, wrong: true},
		{line: ``, wrong: true},
	} {
		partition, record, err := Tagged(test.line)
		if test.wrong {
			if !errors.Is(err, ErrNotSplit) {
				t.Errorf("Tagged(%q) gives the error %v, want ErrNotSplit", test.line, err)
			}
			continue
		}
		if err != nil || partition != test.partition || record != test.record {
			t.Errorf("Tagged(%q) = %d, %q, %v; want %d, %q", test.line, partition, record, err, test.partition, test.record)
		}
	}
}

func TestStepsOf(t *testing.T) {
	output := "@5;\n+7 delete(\"a step 9 b\");\n@8;\n"
	report := "suppress use(\"x\") at 5 step 4 rule r node 0 leaf 1 origin 4\n" +
		"cause delete(\"a step 9 b\") at 7 step 5 rule e node 1 leaf 2 origin 1 u=\"a step 9 b\"\n"
	steps, err := stepsOf(output, report, 4)
	if err != nil {
		t.Fatal(err)
	}
	if len(steps) != 3 {
		t.Fatalf("there are %d steps, want 3", len(steps))
	}
	whole := ""
	for at, step := range steps {
		if step.position != uint64(4+at) {
			t.Errorf("step %d has the position %d, want %d", at, step.position, 4+at)
		}
		whole += step.line
	}
	if whole != output {
		t.Errorf("the lines are %q, want %q", whole, output)
	}
	if got := steps[0].report + "|" + steps[1].report + "|" + steps[2].report; got != report[:60]+"|"+report[60:]+"|" {
		t.Errorf("the reports are %q", got)
	}
}

func TestStepsOfOtherReports(t *testing.T) {
	for _, report := range []string{
		"no memory\n",
		"suppress use(\"x\") at 5 step 9 rule r node 0 leaf 1 origin 4\n",
		"suppress use(\"x\") at 5 step x rule r node 0 leaf 1 origin 4\n",
	} {
		if _, err := stepsOf("@5;\n", report, 0); !errors.Is(err, ErrReport) {
			t.Errorf("stepsOf with the report %q gives the error %v, want ErrReport", report, err)
		}
	}
}

func TestStepID(t *testing.T) {
	position, err := stepPosition(stepID(7, 123))
	if err != nil || position != 123 {
		t.Errorf("the position of %s is %d, %v; want 123", stepID(7, 123), position, err)
	}
}
