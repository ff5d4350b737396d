// Package enforcement puts requests into one order, keeps them, has enf decide them, and outlives what can happen to enf,
// to the service and to the machine.
package enforcement

import (
	"context"
	"errors"
	"fmt"
	"os"
	"os/exec"
	"path/filepath"
	"strings"
	"sync"
	"time"

	"enfd/internal/changes"
	"enfd/internal/clock"
	"enfd/internal/config"
	"enfd/internal/disk"
	"enfd/internal/engine"
	"enfd/internal/eventlog"
	"enfd/internal/journal"
	"enfd/internal/logtext"
	"enfd/internal/metrics"
	"enfd/internal/orders"
	"enfd/internal/signature"
	"enfd/internal/state"
)

// Reasons for which a request is not decided.
var (
	ErrBusy      = errors.New("too many requests are waiting")
	ErrStopped   = errors.New("the service ends")
	ErrNotStored = errors.New("the journal cannot be written")
	ErrInDoubt   = errors.New("it is not known whether the step was kept")
	ErrTimeFalls = errors.New("the time is below the clock")
	ErrTimeLarge = errors.New("the time is above 10^15")
	ErrTooLong   = errors.New("the record would have more than 65536 bytes")
	ErrTooMany   = errors.New("the record would have more than 2048 events")
)

// Options are the configuration and what a test may give in place of the machine's.
type Options struct {
	config.Config
	Now func() time.Time
	Log *eventlog.Logger
}

// Enforcer is a running enforcement.
type Enforcer struct {
	options   Options
	log       *eventlog.Logger
	lock      *os.File
	epoch     Epoch
	signature signature.Signature
	rules     []state.Rule
	journal   *journal.Journal // of the goroutine of Run
	clock     *clock.Clock
	orders    *orders.Book
	changes   *changes.Log
	sink      *disk.File
	metrics   *metrics.Metrics

	submitted chan *request
	closed    chan struct{} // closed when a segment is
	stopped   chan struct{} // closed when no request is taken any more
	probing   chan struct{} // taken by the one that probes

	mu         sync.Mutex
	mark       Mark
	marked     time.Time
	stored     place
	records    uint64 // of the epoch that are stored
	applied    uint64 // the position of the next step whose outcome is not known yet
	steps      []changes.Origin
	base       uint64           // the position of the first of steps
	before     []changes.Origin // the steps of the segment before
	beforeBase uint64
	waiting    map[uint64]*request
	asked      map[string]int // the ids of the requests that have no answer yet, and how many
	engine     *engine.Engine
	scratch    string // the folder of the running process
	ready      bool
	moved      time.Time // when a step was decided last, or began to wait where none did
	stall      time.Duration
	lastTime   int64
	output     output
	dirty      bool // whether something was applied since the last flush
	fed        int64
}

// place is how much of the last segment is stored.
type place struct {
	segment     int
	log, labels int64
}

// request is a step or a tick on its way.
type request struct {
	events []string
	id     string
	time   *int64
	isTick bool
	start  time.Time
	fed    time.Time
	answer chan outcome // with room for one
}

type outcome struct {
	decided Decision
	err     error
}

// Decision is what became of a step.
type Decision struct {
	Time     int64
	Position uint64
	ID       string
	Events   []string // what may be done
	Changes  []changes.Change
}

// Open takes the folder of data and reads what is there.
func Open(options Options) (*Enforcer, error) {
	e := &Enforcer{
		options: options, log: options.Log,
		submitted: make(chan *request, options.Waiting),
		closed:    make(chan struct{}, 1), stopped: make(chan struct{}), probing: make(chan struct{}, 1),
		waiting: map[uint64]*request{}, asked: map[string]int{}, marked: options.Now(),
		clock: clock.New(options.Unit.Duration, options.Now), stall: stall,
	}
	if err := e.open(); err != nil {
		e.closeFiles()
		return nil, err
	}
	return e, nil
}

func (e *Enforcer) open() (err error) {
	if e.lock, err = Lock(e.options.Data); err != nil {
		return err
	}
	times := "service " + e.options.Unit.String()
	if e.options.CallerTime() {
		times = "caller"
	}
	if err := keepTimes(e.options.Data, times); err != nil {
		return err
	}
	signatureText, err := os.ReadFile(e.options.Signature)
	if err != nil {
		return fmt.Errorf("read the signature: %w", err)
	}
	policyText, err := os.ReadFile(e.options.Policy)
	if err != nil {
		return fmt.Errorf("read the policy: %w", err)
	}
	checked, err := Check(context.Background(), e.options.Program, e.options.Signature, e.options.Policy)
	if err != nil {
		return err
	}
	e.rules = state.Rules(checked)
	if e.signature, err = signature.Parse(signatureText); err != nil {
		return err
	}
	if e.epoch, err = openEpoch(e.options.Data, signatureText, policyText); err != nil {
		return err
	}
	if e.journal, err = journal.Open(e.epoch.Dir); err != nil {
		return err
	}
	if e.mark, err = LastMark(e.epoch.Dir); err != nil {
		return err
	}
	if err := e.archiveBefore(e.mark.Segment); err != nil {
		return err
	}
	if err := e.readBefore(); err != nil {
		return err
	}
	if err := e.openOrders(); err != nil {
		return err
	}
	e.output.dir = e.epoch.Dir
	e.applied, e.base, e.records = e.mark.Position, e.mark.Position, e.mark.Records
	e.lastTime = e.mark.Clock
	if last := e.journal.Last(); last > e.lastTime {
		e.lastTime = last
	}
	e.noteStored()
	e.metrics = metrics.New(e.sources())
	return nil
}

func (e *Enforcer) openOrders() (err error) {
	e.orders, err = orders.Open(filepath.Join(e.options.Data, "orders.done"), e.mark.Orders+1, e.mark.Open)
	if err != nil {
		return err
	}
	next := e.mark.Changes + 1
	switch path := e.options.ChangesFile; path {
	case "", "-":
		e.changes = changes.New(e.options.ChangesKept, next, nil, 0)
	default:
		file, last, err := changes.OpenFile(path, e.mark.Changes)
		if err != nil {
			return err
		}
		e.sink = file
		e.changes = changes.New(e.options.ChangesKept, next, file, last)
	}
	return nil
}

// Check has enf check a policy, and gives what it writes or its refusal.
func Check(ctx context.Context, program, signature, policy string) ([]byte, error) {
	command := exec.CommandContext(ctx, program, "check", signature, policy)
	out, err := command.Output()
	var ended *exec.ExitError
	if errors.As(err, &ended) {
		return nil, fmt.Errorf("check the policy: %s", strings.TrimSpace(string(ended.Stderr)))
	}
	if err != nil {
		return nil, fmt.Errorf("check the policy: %w", err)
	}
	return out, nil
}

func (e *Enforcer) sources() metrics.Sources {
	locked := func(value func() float64) func() float64 {
		return func() float64 {
			e.mu.Lock()
			defer e.mu.Unlock()
			return value()
		}
	}
	return metrics.Sources{
		Lag: func() float64 { return float64(e.Lag()) },
		SinceMark: locked(func() float64 {
			return float64(e.records - e.mark.Records)
		}),
		CheckpointAge: locked(func() float64 { return e.options.Now().Sub(e.marked).Seconds() }),
		ClockHeld:     func() float64 { return e.clock.Held().Seconds() },
		OrdersOpen:    func() float64 { open, _ := e.orders.Counts(); return float64(open) },
		Ready: func() float64 {
			if e.Ready() {
				return 1
			}
			return 0
		},
	}
}

// closeFiles closes what Open opened.
func (e *Enforcer) closeFiles() {
	if e.orders != nil {
		e.orders.Close()
	}
	if e.sink != nil {
		e.sink.Close()
	}
	if e.journal != nil {
		e.journal.Close()
	}
	if e.lock != nil {
		e.lock.Close()
	}
}

// Signature gives the signature of the events.
func (e *Enforcer) Signature() signature.Signature { return e.signature }

// Rules gives the rules of the policy.
func (e *Enforcer) Rules() []state.Rule { return e.rules }

// Orders gives the book of what is to be done.
func (e *Enforcer) Orders() *orders.Book { return e.orders }

// Changes gives the decision log.
func (e *Enforcer) Changes() *changes.Log { return e.changes }

// Metrics gives the counters.
func (e *Enforcer) Metrics() *metrics.Metrics { return e.metrics }

// stall is the time after which a process that decides nothing, though steps wait, counts as standing still.
const stall = 30 * time.Second

// Ready says whether requests are decided.
func (e *Enforcer) Ready() bool {
	e.mu.Lock()
	defer e.mu.Unlock()
	return e.ready && (len(e.waiting) == 0 || time.Since(e.moved) < e.stall)
}

// Lag gives the number of steps that are stored and not decided.
func (e *Enforcer) Lag() int {
	e.mu.Lock()
	program := e.engine
	e.mu.Unlock()
	if program == nil {
		return 0
	}
	return program.Lag()
}

// Time gives the time of the clock in the log's units.
func (e *Enforcer) Time() int64 {
	e.mu.Lock()
	last := e.lastTime
	e.mu.Unlock()
	if e.options.CallerTime() {
		return last
	}
	if now := e.clock.Last(); now > last {
		return now
	}
	return last
}

// Step is what is asked: whether these events may happen, as one step.
type Step struct {
	Events []logtext.Event // of the signature
	ID     string
	Time   *int64 // where the caller's time counts
}

// Decide has a step decided. Where ctx ends before, the step may be decided all the same.
func (e *Enforcer) Decide(ctx context.Context, step Step) (Decision, error) {
	events, err := texts(step.Events)
	if err != nil {
		return Decision{}, err
	}
	return e.send(ctx, &request{events: events, id: step.ID, time: step.Time})
}

// Tick says that all times below this one are over.
func (e *Enforcer) Tick(ctx context.Context, time int64) (int64, error) {
	decided, err := e.send(ctx, &request{isTick: true, time: &time})
	return decided.Time, err
}

func (e *Enforcer) send(ctx context.Context, r *request) (Decision, error) {
	r.start, r.answer = time.Now(), make(chan outcome, 1)
	select {
	case <-e.stopped:
		return Decision{}, ErrStopped
	default:
	}
	e.note(r, 1)
	select {
	case e.submitted <- r:
	default:
		e.note(r, -1)
		return Decision{}, ErrBusy
	}
	select {
	case got := <-r.answer:
		return got.decided, got.err
	case <-ctx.Done():
		return Decision{}, fmt.Errorf("wait for a decision: %w", ctx.Err())
	case <-e.stopped:
		// The last answers may have come with the end.
		select {
		case got := <-r.answer:
			return got.decided, got.err
		default:
			return Decision{}, ErrInDoubt
		}
	}
}

// note counts the requests of an id that have no answer yet.
func (e *Enforcer) note(r *request, change int) {
	e.mu.Lock()
	defer e.mu.Unlock()
	e.noteLocked(r, change)
}

func (e *Enforcer) noteLocked(r *request, change int) {
	if r.id == "" {
		return
	}
	if e.asked[r.id] += change; e.asked[r.id] == 0 {
		delete(e.asked, r.id)
	}
}

// refuse answers a request that is not decided.
func (e *Enforcer) refuse(r *request, err error) {
	e.note(r, -1)
	r.answer <- outcome{err: err}
}

// texts writes events as the record has them; of one that comes twice the first stays.
func texts(events []logtext.Event) ([]string, error) {
	written := make([]string, 0, len(events))
	seen := make(map[string]struct{}, len(events))
	for _, event := range events {
		text := event.String()
		if _, twice := seen[text]; twice {
			continue
		}
		seen[text] = struct{}{}
		written = append(written, text)
	}
	if len(written) > logtext.MaxEvents {
		return nil, ErrTooMany
	}
	return written, nil
}

// ErrUnknownOrder says that no order of a number was given.
var ErrUnknownOrder = orders.ErrUnknown

// Done notes that an order is done.
func (e *Enforcer) Done(number uint64) error {
	if err := e.orders.Done(number); err != nil {
		return err
	}
	e.metrics.OrdersDone.Inc()
	return nil
}

// Status is what somebody on call wants to see first.
type Status struct {
	Ready       bool         `json:"ready"`
	Clock       int64        `json:"clock"`
	ClockHeld   float64      `json:"clock_held_seconds"`
	Position    uint64       `json:"position"`
	Records     uint64       `json:"records"`
	Lag         int          `json:"lag"`
	OrdersOpen  int          `json:"orders_open"`
	OrdersGiven uint64       `json:"orders_given"`
	Checkpoint  time.Time    `json:"checkpoint"`
	Epoch       int          `json:"epoch"`
	Rules       []state.Rule `json:"rules"`
}

// Status tells how the enforcement stands.
func (e *Enforcer) Status() Status {
	open, given := e.orders.Counts()
	lag, clock, ready := e.Lag(), e.Time(), e.Ready()
	e.mu.Lock()
	defer e.mu.Unlock()
	return Status{
		Ready: ready, Clock: clock, ClockHeld: e.clock.Held().Seconds(), Position: e.applied, Records: e.records,
		Lag: lag, OrdersOpen: open, OrdersGiven: given, Checkpoint: e.marked, Epoch: e.epoch.Number, Rules: e.rules,
	}
}
