// Package engine runs enf as one process with pipes, and says for each record what came of it.
//
// The output and the report of the process go into one pipe. As enf writes the line of a step, then the lines of its
// actions, and then the next step, their order in the pipe is that order; and as each action adds or takes out one event,
// the events of a line say how many lines of the report belong to it. So the answer to a record is known to be whole
// without a look at what comes behind it.
package engine

import (
	"bufio"
	"context"
	"errors"
	"fmt"
	"io"
	"os"
	"os/exec"
	"strings"
	"sync"
	"syscall"

	"enfd/internal/logtext"
)

// ErrEnded is wrapped where the process has ended, though its input has not.
var ErrEnded = errors.New("the program ended")

// Record is what is fed.
type Record struct {
	Seq     uint64
	Segment int
	Label   string
	Line    string
	Step    logtext.Step
}

// Decided is a step that the program has put out, with what it did to it.
type Decided struct {
	Record  Record // the one that let it out: its own, or for an inserted step the one whose time passed it
	Line    string // with its line feed
	Step    logtext.Step
	Changes []logtext.Change
	Report  string // the lines of the changes
}

// Handler takes what is decided, in order, from one goroutine. It must not wait for the process.
type Handler interface {
	Decided(Decided)
	// Idle is called when nothing more is there to be read, and once in a while where there always is.
	Idle()
}

// Options say what is run.
type Options struct {
	Program   string
	Signature string
	Policy    string
	Resume    string // the state to begin with, or empty
	Save      string // where the state is saved at the end; so nothing is let out before its time
}

// Args gives the words of the run.
func (o Options) Args() []string {
	args := []string{"enforce", o.Signature, o.Policy}
	if o.Resume != "" {
		args = append(args, "--resume", o.Resume)
	}
	if o.Save != "" {
		args = append(args, "--save", o.Save)
	}
	return args
}

// Command gives the process that is to be run; it is killed when ctx ends. It has a group of its own, so that a signal that a
// terminal sends to all is left to who runs it.
func (o Options) Command(ctx context.Context) *exec.Cmd {
	command := exec.CommandContext(ctx, o.Program, o.Args()...)
	command.SysProcAttr = &syscall.SysProcAttr{Setpgid: true}
	return command
}

// Engine is a running process.
type Engine struct {
	command *exec.Cmd
	in      io.WriteCloser
	handler Handler
	done    chan struct{}

	mu     sync.Mutex
	queue  []Record // fed, and not known to be done
	steps  int      // of the queue
	closed bool

	// Of the reading goroutine, and for all once done is closed.
	words []string
	err   error
}

// Start starts the process. It is killed when ctx ends.
func Start(ctx context.Context, options Options, handler Handler) (*Engine, error) {
	command := options.Command(ctx)
	in, err := command.StdinPipe()
	if err != nil {
		return nil, fmt.Errorf("start the program: %w", err)
	}
	out, outWriter, err := os.Pipe()
	if err != nil {
		return nil, fmt.Errorf("start the program: %w", err)
	}
	command.Stdout, command.Stderr = outWriter, outWriter
	err = command.Start()
	outWriter.Close()
	if err != nil {
		out.Close()
		return nil, fmt.Errorf("start the program: %w", err)
	}
	e := &Engine{command: command, in: in, handler: handler, done: make(chan struct{})}
	go e.read(out)
	return e, nil
}

// Feed gives records to the process; it waits where the pipe is full. It is for one goroutine.
func (e *Engine) Feed(records []Record) error {
	var bytes []byte
	e.mu.Lock()
	for _, record := range records {
		if !record.Step.Tick {
			e.steps++
		}
		bytes = append(bytes, record.Line...)
	}
	e.queue = append(e.queue, records...)
	e.mu.Unlock()
	if _, err := e.in.Write(bytes); err != nil {
		return fmt.Errorf("%w: %v", ErrEnded, err)
	}
	return nil
}

// Lag gives the number of steps that were fed and are not decided.
func (e *Engine) Lag() int {
	e.mu.Lock()
	defer e.mu.Unlock()
	return e.steps
}

// PID gives the number of the process.
func (e *Engine) PID() int { return e.command.Process.Pid }

// Done is closed when the process has ended and all of its output was handled.
func (e *Engine) Done() <-chan struct{} { return e.done }

// Close ends the input and waits for the process; nil says that it took all, and saved the state where it was to.
func (e *Engine) Close() error {
	e.mu.Lock()
	e.closed = true
	e.mu.Unlock()
	if err := e.in.Close(); err != nil && !errors.Is(err, os.ErrClosed) {
		e.Kill()
	}
	<-e.done
	return e.err
}

// Kill ends the process at once and waits for it.
func (e *Engine) Kill() {
	// It fails where the process has ended already.
	_ = e.command.Process.Kill()
	<-e.done
}

// Err says why the process ended, once Done is closed.
func (e *Engine) Err() error { return e.err }

// read takes what the process writes until it ends.
func (e *Engine) read(out io.ReadCloser) {
	defer close(e.done)
	formErr := e.readSteps(bufio.NewReaderSize(out, 1<<16))
	out.Close()
	e.handler.Idle()
	if formErr != nil {
		_ = e.command.Process.Kill()
	}
	waitErr := e.command.Wait()
	e.mu.Lock()
	defer e.mu.Unlock()
	words := strings.Join(e.words, " / ")
	switch {
	case formErr != nil:
		e.err = fmt.Errorf("%w: %v", ErrEnded, formErr)
	case waitErr != nil:
		e.err = fmt.Errorf("%w: %v: %s", ErrEnded, waitErr, words)
	case !e.closed:
		e.err = fmt.Errorf("%w with status 0: %s", ErrEnded, words)
	case e.steps > 0:
		e.err = fmt.Errorf("%w: %d steps have no answer", ErrEnded, e.steps)
	}
}

// idleLines is the number of lines after which the handler gives on what it has, though more is there.
const idleLines = 1000

func (e *Engine) readSteps(in *bufio.Reader) error {
	for lines := 1; ; lines++ {
		if in.Buffered() == 0 || lines%idleLines == 0 {
			e.handler.Idle()
		}
		line, err := in.ReadString('\n')
		if err != nil {
			// What is no whole line was no answer.
			return nil
		}
		if !logtext.IsStep(line) {
			if len(e.words) < 10 {
				e.words = append(e.words, strings.TrimSuffix(line, "\n"))
			}
			continue
		}
		decided, ended, err := e.readStep(in, line)
		if err != nil {
			return err
		}
		if ended {
			continue
		}
		e.handler.Decided(decided)
	}
}

// readStep reads the lines of the report that belong to a step. ended says that the line is no answer: the process lets
// out what was to come in times that are not over, as it does when it refuses a record.
func (e *Engine) readStep(in *bufio.Reader, line string) (decided Decided, ended bool, err error) {
	step, err := logtext.ParseStep(strings.TrimSuffix(line, "\n"))
	if err != nil {
		return Decided{}, false, err
	}
	record, ended, err := e.owner(step)
	if err != nil {
		return Decided{}, false, err
	}
	decided = Decided{Record: record, Line: line, Step: step}
	var before []string
	if !step.Inserted {
		before = record.Step.Events
	}
	var report strings.Builder
	for i := Differences(before, step.Events); i > 0; i-- {
		text, err := in.ReadString('\n')
		if err != nil {
			// A step whose changes are not told was not decided as far as anybody knows.
			return Decided{}, true, nil
		}
		change, err := logtext.ParseChange(strings.TrimSuffix(text, "\n"))
		if err != nil {
			return Decided{}, false, err
		}
		decided.Changes = append(decided.Changes, change)
		report.WriteString(text)
	}
	decided.Report = report.String()
	return decided, ended, nil
}

// owner finds the record that let a step out, and takes what is done from the queue.
func (e *Engine) owner(step logtext.Step) (record Record, ended bool, err error) {
	e.mu.Lock()
	defer e.mu.Unlock()
	for len(e.queue) > 0 && e.queue[0].Step.Tick && (!step.Inserted || e.queue[0].Step.Time <= step.Time) {
		e.queue = e.queue[1:]
	}
	if step.Inserted {
		if len(e.queue) == 0 || e.queue[0].Step.Time <= step.Time {
			return Record{}, true, nil
		}
		return e.queue[0], false, nil
	}
	if len(e.queue) == 0 || e.queue[0].Step.Time != step.Time {
		return Record{}, false, fmt.Errorf("a step at %d answers no record", step.Time)
	}
	record = e.queue[0]
	e.queue = e.queue[1:]
	e.steps--
	return record, false, nil
}

// Differences counts the events that stand in one of two lists alone.
func Differences(before, after []string) int {
	if len(before) == 0 || len(after) == 0 {
		return len(before) + len(after)
	}
	kept := 0
	if len(before) <= 16 {
		for _, event := range after {
			for _, old := range before {
				if event == old {
					kept++
					break
				}
			}
		}
	} else {
		there := make(map[string]struct{}, len(before))
		for _, event := range before {
			there[event] = struct{}{}
		}
		for _, event := range after {
			if _, is := there[event]; is {
				kept++
			}
		}
	}
	return len(before) + len(after) - 2*kept
}
