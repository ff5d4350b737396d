package enforcement

import (
	"context"
	"errors"
	"fmt"
	"io"
	"os"
	"path/filepath"
	"runtime"
	"strings"
	"sync"
	"syscall"
	"testing"
	"time"

	"enfd/internal/config"
	"enfd/internal/enftest"
	"enfd/internal/eventlog"
	"enfd/internal/journal"
	"enfd/internal/logtext"
)

// systemClock is a clock that a test sets.
type systemClock struct {
	mu  sync.Mutex
	now time.Time
}

func (c *systemClock) set(seconds int64) {
	c.mu.Lock()
	defer c.mu.Unlock()
	c.now = time.Unix(seconds, 0)
}

func (c *systemClock) Now() time.Time {
	c.mu.Lock()
	defer c.mu.Unlock()
	return c.now
}

func optionsOf(t *testing.T, now func() time.Time) Options {
	t.Helper()
	c := config.Default()
	c.Program, c.Data = enftest.Program(t), t.TempDir()
	c.Signature, c.Policy = enftest.Example("data/data.sig"), enftest.Example("data/data.policy")
	c.Tick, c.PendingEvery, c.CheckpointEvery = config.Duration{}, config.Duration{}, config.Duration{Duration: time.Hour}
	c.CheckpointRecords, c.Waiting, c.ChangesKept = 1000, 100, 100
	return Options{Config: c, Now: now, Log: eventlog.New(io.Discard)}
}

// run opens and runs an enforcement. end ends it and fails where that goes wrong.
func run(t *testing.T, options Options) (e *Enforcer, end func()) {
	t.Helper()
	e, err := Open(options)
	if err != nil {
		t.Fatal(err)
	}
	ctx, cancel := context.WithCancel(context.Background())
	ended := make(chan error, 1)
	go func() { ended <- e.Run(ctx) }()
	var once sync.Once
	end = func() {
		once.Do(func() {
			cancel()
			if err := <-ended; err != nil {
				t.Error(err)
			}
		})
	}
	t.Cleanup(end)
	return e, end
}

func ask(t *testing.T, e *Enforcer, name string, args ...string) Decision {
	t.Helper()
	event := logtext.Event{Name: name}
	for _, arg := range args {
		event.Args = append(event.Args, logtext.Text(arg))
	}
	ctx, cancel := context.WithTimeout(context.Background(), 20*time.Second)
	defer cancel()
	decided, err := e.Decide(ctx, Step{Events: []logtext.Event{event}})
	if err != nil {
		t.Fatal(err)
	}
	return decided
}

// awaitReady waits until an enforcement is ready, or is not.
func awaitReady(t *testing.T, e *Enforcer, want bool) {
	t.Helper()
	for wait := time.Now().Add(20 * time.Second); e.Ready() != want; time.Sleep(time.Millisecond) {
		if time.Now().After(wait) {
			t.Fatalf("ready is %v", !want)
		}
	}
}

// TestClockNeverFalls sets the system's clock back while the service runs and while it does not.
func TestClockNeverFalls(t *testing.T) {
	system := &systemClock{}
	system.set(1000)
	options := optionsOf(t, system.Now)
	e, end := run(t, options)
	var times []int64
	note := func(seconds int64) {
		system.set(seconds)
		times = append(times, ask(t, e, "answer", "x").Time)
	}
	note(1000)
	note(1010)
	note(400)
	if held := e.clock.Held(); held != 610*time.Second {
		t.Errorf("held for %v", held)
	}
	end()
	system.set(500)
	e, end = run(t, options)
	note(600)
	note(1009)
	note(1012)
	end()
	if got := fmt.Sprint(times); got != "[1000 1010 1010 1010 1010 1012]" {
		t.Error(got)
	}
}

// TestClosedWithoutCheckpoint begins behind a segment that was closed and of which no checkpoint was made.
func TestClosedWithoutCheckpoint(t *testing.T) {
	system := &systemClock{}
	system.set(1000)
	options := optionsOf(t, system.Now)
	e, end := run(t, options)
	ask(t, e, "answer", "x")
	dir := e.epoch.Dir
	end()
	// As if the service had been killed right after it closed the second segment.
	log, err := journal.Open(dir)
	if err != nil {
		t.Fatal(err)
	}
	if err := log.Append([]journal.Entry{{Line: "@2000 consent(\"ann\");\n", Label: "late"}}, 2000); err != nil {
		t.Fatal(err)
	}
	if err := log.Rotate(); err != nil {
		t.Fatal(err)
	}
	log.Close()
	e, end = run(t, options)
	if got := ask(t, e, "use", "ann"); got.Time != 2000 || got.Position != 2 || len(got.Events) != 1 {
		t.Errorf("%+v", got)
	}
	end()
	mark, err := LastMark(dir)
	if err != nil || mark.Position != 3 || mark.Clock != 2000 {
		t.Errorf("%+v, %v", mark, err)
	}
	// Before the program runs nothing is since the checkpoint.
	if e, err = Open(options); err != nil {
		t.Fatal(err)
	}
	if since := e.sources().SinceMark(); since != 0 {
		t.Errorf("%v records since the checkpoint", since)
	}
	e.closeFiles()
}

// TestTicksAtTheEnd sees that orders that only ticks at the end of the journal make are known when the service is ready.
func TestTicksAtTheEnd(t *testing.T) {
	options := optionsOf(t, time.Now)
	options.Time = "caller"
	e, end := run(t, options)
	dir := e.epoch.Dir
	end()
	log, err := journal.Open(dir)
	if err != nil {
		t.Fatal(err)
	}
	var many []string
	for i := 0; i < 300; i++ {
		many = append(many, fmt.Sprintf(`breach("u%d")`, i))
	}
	if err := log.Append([]journal.Entry{
		{Line: string(logtext.AppendStep(nil, 10, many))}, {Line: ">14;\n"}, {Line: ">30;\n"},
	}, 30); err != nil {
		t.Fatal(err)
	}
	log.Close()
	e, end = run(t, options)
	awaitReady(t, e, true)
	if err := e.Done(600); err != nil {
		t.Error(err)
	}
	end()
}

// TestSlowOutput gives the changes to a standard output that nobody reads for a while.
func TestSlowOutput(t *testing.T) {
	in, out, err := os.Pipe()
	if err != nil {
		t.Fatal(err)
	}
	standard := os.Stdout
	os.Stdout = out
	defer func() { os.Stdout = standard }()
	var told strings.Builder
	options := optionsOf(t, time.Now)
	options.ChangesFile, options.ChangesKept, options.Log = "-", 10, eventlog.New(&told)
	e, end := run(t, options)
	const steps = 200
	for i := 0; i < steps; i++ {
		ask(t, e, "use", strings.Repeat("x", 1000))
	}
	read := make(chan string)
	go func() {
		text, _ := io.ReadAll(in)
		read <- string(text)
	}()
	end()
	out.Close()
	lines := strings.SplitAfter(<-read, "\n")
	lines = lines[:len(lines)-1]
	if len(lines) >= steps || !strings.Contains(told.String(), "read too slowly") {
		t.Errorf("%d lines of %d, and nothing is said: %s", len(lines), steps, told.String())
	}
	for i, first := range []int{1, steps - 9} {
		for k := 0; k < 10; k++ {
			line := lines[k]
			if i == 1 {
				line = lines[len(lines)-10+k]
			}
			if want := fmt.Sprintf(`{"n":%d,`, first+k); !strings.HasPrefix(line, want) {
				t.Errorf("%.40s in place of %s", line, want)
			}
		}
	}
}

// TestNothingIsLeft sees that no goroutine and no process outlives an enforcement, and that the folder is free.
func TestNothingIsLeft(t *testing.T) {
	options := optionsOf(t, time.Now)
	options.PendingEvery.Duration = time.Millisecond
	before := runtime.NumGoroutine()
	for i := 0; i < 3; i++ {
		e, end := run(t, options)
		ask(t, e, "answer", "x")
		if _, err := Open(options); !errors.Is(err, ErrInUse) {
			t.Errorf("it is opened twice: %v", err)
		}
		end()
		if _, err := e.Decide(context.Background(), Step{}); !errors.Is(err, ErrStopped) {
			t.Errorf("after the end: %v", err)
		}
	}
	for wait := time.Now().Add(5 * time.Second); runtime.NumGoroutine() > before && time.Now().Before(wait); {
		time.Sleep(10 * time.Millisecond)
	}
	if after := runtime.NumGoroutine(); after > before {
		t.Errorf("%d goroutines in place of %d", after, before)
	}
}

// TestRefusedByProgram sees what happens where enf refuses a record all the same: nothing is let out early.
func TestRefusedByProgram(t *testing.T) {
	options := optionsOf(t, time.Now)
	options.Time = "caller"
	var told strings.Builder
	options.Log = eventlog.New(&told)
	e, err := Open(options)
	if err != nil {
		t.Fatal(err)
	}
	running, stop := context.WithCancel(context.Background())
	ended := make(chan error, 1)
	go func() { ended <- e.Run(running) }()
	at := int64(5)
	request := logtext.Event{Name: "request", Args: []logtext.Value{logtext.Text("ann")}}
	if _, err := e.Decide(context.Background(), Step{Events: []logtext.Event{request}, Time: &at}); err != nil {
		t.Fatal(err)
	}
	ctx, cancel := context.WithTimeout(context.Background(), 200*time.Millisecond)
	defer cancel()
	// The API would not have let this pass.
	_, err = e.Decide(ctx, Step{Events: []logtext.Event{{Name: "nonsense"}}, Time: &at})
	if !errors.Is(err, context.DeadlineExceeded) {
		t.Errorf("%v", err)
	}
	if open, _ := e.Orders().After(0, 10); len(open) > 0 {
		t.Errorf("orders before their time: %v", open)
	}
	awaitReady(t, e, false)
	stop()
	if err := <-ended; err == nil {
		t.Error("it ends well")
	}
	if !strings.Contains(told.String(), "record 2: unknown name") {
		t.Errorf("the log does not say why: %s", told.String())
	}
}

// TestStandsStill stops the process without ending it.
func TestStandsStill(t *testing.T) {
	e, end := run(t, optionsOf(t, time.Now))
	e.mu.Lock()
	e.stall = 50 * time.Millisecond
	e.mu.Unlock()
	ask(t, e, "answer", "x")
	if !e.Ready() {
		t.Error("it is not ready")
	}
	process, err := os.FindProcess(e.engine.PID())
	if err != nil {
		t.Fatal(err)
	}
	if err := process.Signal(syscall.SIGSTOP); err != nil {
		t.Fatal(err)
	}
	answered := make(chan Decision, 1)
	go func() {
		decided, _ := e.Decide(context.Background(), Step{})
		answered <- decided
	}()
	awaitReady(t, e, false)
	if err := process.Kill(); err != nil {
		t.Fatal(err)
	}
	if decided := <-answered; decided.Position != 1 {
		t.Errorf("%+v", decided)
	}
	awaitReady(t, e, true)
	end()
}

func TestOtherPolicy(t *testing.T) {
	options := optionsOf(t, time.Now)
	_, end := run(t, options)
	end()
	text, err := os.ReadFile(options.Policy)
	if err != nil {
		t.Fatal(err)
	}
	options.Policy = enftest.Write(t, t.TempDir(), "policy", strings.Replace(string(text), "[0,30]", "[0,31]", 1))
	if _, err := Open(options); !errors.Is(err, ErrOtherPolicy) {
		t.Errorf("%v", err)
	}
}

func TestOtherTimes(t *testing.T) {
	options := optionsOf(t, time.Now)
	_, end := run(t, options)
	end()
	for _, change := range []func(*Options){
		func(o *Options) { o.Unit.Duration = time.Millisecond },
		func(o *Options) { o.Time = "caller" },
	} {
		other := options
		change(&other)
		if _, err := Open(other); !errors.Is(err, ErrOtherTimes) {
			t.Errorf("%v", err)
		}
	}
}

func TestReplayed(t *testing.T) {
	path := enftest.Write(t, t.TempDir(), "out", "one\ntwo\nthr")
	for _, test := range []struct {
		writes []string
		other  bool
		want   string
	}{
		{[]string{"one\n"}, false, "one\ntwo\nthr"},
		{[]string{"one\n", "two\n", "three\n"}, false, "one\ntwo\nthree\n"},
		{[]string{"one\n", "TWO\n"}, true, "one\nTWO\n"},
		{[]string{"one\n", "TWO\n", "three\n"}, false, "one\nTWO\nthree\n"},
	} {
		for _, each := range []bool{true, false} {
			r := &replayed{path: path}
			other := false
			for i, text := range test.writes {
				r.out = append(r.out, text...)
				if !each && i+1 < len(test.writes) {
					continue
				}
				if err := r.flush(); errors.Is(err, errOther) {
					other = true
				} else if err != nil {
					t.Fatal(err)
				}
			}
			r.close()
			got, err := os.ReadFile(path)
			if err != nil || string(got) != test.want || other != (test.other && each) {
				t.Errorf("%q: %q, %v, %v", test.writes, got, other, err)
			}
		}
	}
}

// TestOutputWaits sees that what cannot be written waits in its order, and that nothing is left out.
func TestOutputWaits(t *testing.T) {
	folder := t.TempDir()
	o := &output{dir: journal.Dir(filepath.Join(folder, "late"))}
	o.write(3, "@1 a();\n", "one\n")
	if err := o.flush(); err == nil {
		t.Error("there is no folder, and it is written")
	}
	o.write(3, "@2 b();\n", "")
	o.write(4, "@3 c();\n", "two\n")
	if err := o.flush(); err == nil {
		t.Error("there is no folder, and it is written")
	}
	if err := os.Mkdir(string(o.dir), 0o700); err != nil {
		t.Fatal(err)
	}
	o.write(4, "@4 d();\n", "three\n")
	if err := o.flush(); err != nil {
		t.Fatal(err)
	}
	for name, want := range map[string]string{
		o.dir.File(3, journal.Enforced): "@1 a();\n@2 b();\n", o.dir.File(3, journal.Report): "one\n",
		o.dir.File(4, journal.Enforced): "@3 c();\n@4 d();\n", o.dir.File(4, journal.Report): "two\nthree\n",
	} {
		if got, err := os.ReadFile(name); err != nil || string(got) != want {
			t.Errorf("%s: %q, %v", name, got, err)
		}
	}
}
