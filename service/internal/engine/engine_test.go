package engine

import (
	"bufio"
	"context"
	"errors"
	"fmt"
	"os"
	"path/filepath"
	"strings"
	"sync"
	"testing"
	"time"

	"enfd/internal/enftest"
	"enfd/internal/logtext"
)

// collected is a handler that keeps what is decided, as "SEQ LINE [CHANGES]".
type collected struct {
	mu    sync.Mutex
	lines []string
}

func (c *collected) Decided(d Decided) {
	c.mu.Lock()
	defer c.mu.Unlock()
	c.lines = append(c.lines, fmt.Sprintf("%d %s[%s]", d.Record.Seq, strings.TrimSpace(d.Line), d.Report))
}

func (c *collected) Idle() {}

func (c *collected) all() []string {
	c.mu.Lock()
	defer c.mu.Unlock()
	return append([]string(nil), c.lines...)
}

// records makes records of lines.
func records(t *testing.T, lines ...string) []Record {
	t.Helper()
	var made []Record
	for i, line := range lines {
		step, err := logtext.ParseStep(line)
		if err != nil {
			t.Fatal(err)
		}
		made = append(made, Record{Seq: uint64(i), Line: line + "\n", Step: step})
	}
	return made
}

func startData(t *testing.T, handler Handler) (*Engine, string) {
	t.Helper()
	save := filepath.Join(t.TempDir(), "state")
	e, err := Start(context.Background(), Options{
		Program: enftest.Program(t), Signature: enftest.Example("data/data.sig"), Policy: enftest.Example("data/data.policy"),
		Save: save,
	}, handler)
	if err != nil {
		t.Fatal(err)
	}
	return e, save
}

func await(t *testing.T, what func() bool) {
	t.Helper()
	for end := time.Now().Add(20 * time.Second); !what(); time.Sleep(time.Millisecond) {
		if time.Now().After(end) {
			t.Fatal("it does not come")
		}
	}
}

func TestAnswers(t *testing.T) {
	got := &collected{}
	e, save := startData(t, got)
	// Each answer is whole before the next record is there.
	for i, record := range records(t, `@1 consent("ann");`, `@3 use("ann") use("eve") use("dan");`, `@10 breach("bob") breach("cat");`) {
		if err := e.Feed([]Record{record}); err != nil {
			t.Fatal(err)
		}
		await(t, func() bool { return len(got.all()) == i+1 })
	}
	// What a tick lets out is the tick's, and what the step behind it lets out is the step's.
	if err := e.Feed(records(t, ">13;", ">14;", "@21;")); err != nil {
		t.Fatal(err)
	}
	await(t, func() bool { return e.Lag() == 0 })
	if err := e.Close(); err != nil {
		t.Fatal(err)
	}
	want := []string{
		`0 @1 consent("ann");[]`,
		`1 @3 use("ann");[suppress use("dan") at 3 step 1 rule consent node 0 leaf 1 origin 1` + "\n" +
			`suppress use("eve") at 3 step 1 rule consent node 0 leaf 1 origin 1` + "\n]",
		`2 @10 breach("bob") breach("cat");[]`,
		`1 +13 notice("bob") notice("cat");[cause notice("bob") at 13 step 3 rule tell node 1 leaf 2 origin 2 person="bob"` + "\n" +
			`cause notice("cat") at 13 step 3 rule tell node 1 leaf 2 origin 2 person="cat"` + "\n]",
		`2 +20 reminder("bob") reminder("cat");[cause reminder("bob") at 20 step 4 rule remind node 1 leaf 3 origin 3 person="bob"` + "\n" +
			`cause reminder("cat") at 20 step 4 rule remind node 1 leaf 3 origin 3 person="cat"` + "\n]",
		`2 @21;[]`,
	}
	for i, line := range got.all() {
		if i >= len(want) || line != want[i] {
			t.Errorf("%d: %s", i, line)
		}
	}
	if _, err := os.Stat(save); err != nil {
		t.Errorf("no state: %v", err)
	}
}

// idles counts the calls of Idle.
type idles struct {
	collected
	count int
}

func (i *idles) Idle() { i.count++ }

// TestIdle sees that what is decided is given on also where there is always more to be read.
func TestIdle(t *testing.T) {
	const lines = 10*idleLines + 1
	handler := &idles{}
	e := &Engine{handler: handler}
	for i := 0; i < lines; i++ {
		e.queue = append(e.queue, Record{Step: logtext.Step{Time: 1}})
	}
	in := bufio.NewReaderSize(strings.NewReader(strings.Repeat("@1;\n", lines)), 1<<20)
	if _, err := in.Peek(1); err != nil {
		t.Fatal(err)
	}
	if err := e.readSteps(in); err != nil || len(handler.all()) != lines || handler.count < 10 {
		t.Errorf("%d lines, %d times idle, %v", len(handler.all()), handler.count, err)
	}
}

// TestRefused sees that what the program lets out at its end, years early, is no answer.
func TestRefused(t *testing.T) {
	got := &collected{}
	e, _ := startData(t, got)
	if err := e.Feed(records(t, `@5 request("ann");`)); err != nil {
		t.Fatal(err)
	}
	await(t, func() bool { return e.Lag() == 0 })
	if err := e.Feed(records(t, "@4;")); err != nil {
		t.Fatal(err)
	}
	<-e.Done()
	if err := e.Err(); !errors.Is(err, ErrEnded) || !strings.Contains(err.Error(), "record 2: time 4 is below 5") {
		t.Errorf("%v", err)
	}
	if lines := got.all(); len(lines) != 1 {
		t.Errorf("%q", lines)
	}
}

func TestKilled(t *testing.T) {
	got := &collected{}
	e, _ := startData(t, got)
	if err := e.Feed(records(t, `@5 request("ann");`)); err != nil {
		t.Fatal(err)
	}
	await(t, func() bool { return e.Lag() == 0 })
	e.Kill()
	if err := e.Err(); !errors.Is(err, ErrEnded) {
		t.Errorf("%v", err)
	}
	if err := e.Feed(records(t, "@6;")); !errors.Is(err, ErrEnded) {
		t.Errorf("%v", err)
	}
}

func TestDoesNotStart(t *testing.T) {
	if _, err := Start(context.Background(), Options{Program: "/nowhere/enf"}, &collected{}); err == nil {
		t.Error("it starts")
	}
	e, err := Start(context.Background(), Options{
		Program: enftest.Program(t), Signature: enftest.Example("data/data.sig"), Policy: "/nowhere/policy",
	}, &collected{})
	if err != nil {
		t.Fatal(err)
	}
	<-e.Done()
	if err := e.Err(); !errors.Is(err, ErrEnded) || !strings.Contains(err.Error(), "read fault") {
		t.Errorf("%v", err)
	}
}

func TestMany(t *testing.T) {
	got := &collected{}
	e, _ := startData(t, got)
	var lines []string
	for i := 0; i < 20000; i++ {
		lines = append(lines, fmt.Sprintf(`@%d use("u%d") request("u%d");`, i/10, i%50, i%70))
	}
	if err := e.Feed(records(t, lines...)); err != nil {
		t.Fatal(err)
	}
	await(t, func() bool { return e.Lag() == 0 })
	if err := e.Close(); err != nil {
		t.Fatal(err)
	}
	steps := 0
	for _, line := range got.all() {
		if strings.Contains(line, " @") {
			steps++
		}
	}
	if steps != len(lines) {
		t.Errorf("%d answers to %d steps", steps, len(lines))
	}
}

func TestDifferences(t *testing.T) {
	many := make([]string, 100)
	for i := range many {
		many[i] = fmt.Sprint("e(", i, ")")
	}
	for _, test := range []struct {
		before, after []string
		want          int
	}{
		{nil, nil, 0},
		{[]string{"a"}, nil, 1},
		{nil, []string{"a", "b"}, 2},
		{[]string{"a", "b", "c"}, []string{"a", "c", "d"}, 2},
		{many, many[1:], 1},
		{many[:50], many[25:], 75},
	} {
		if got := Differences(test.before, test.after); got != test.want {
			t.Errorf("%d and %d events: %d in place of %d", len(test.before), len(test.after), got, test.want)
		}
	}
}
