package enforcement

import (
	"context"
	"errors"
	"fmt"
	"hash/fnv"
	"io/fs"
	"math"
	"os"
	"path/filepath"
	"runtime"
	"sort"
	"strconv"
	"strings"
	"sync"
	"testing"
	"time"

	"enfd/internal/changes"
	"enfd/internal/disk"
	"enfd/internal/enftest"
	"enfd/internal/journal"
	"enfd/internal/logtext"
	"enfd/internal/state"
)

// powerLoss is a run of the service of which each change of files is known, with what its clients were told, and when: as the
// number of the changes before.
type powerLoss struct {
	options  Options
	policies [2]string // of the epochs
	recorder *recorder

	mu      sync.Mutex
	answers []toldAnswer
	given   map[uint64]toldOrder
	done    map[uint64]int
	asked   map[uint64]int // when it was about to be said that an order is done
}

type toldAnswer struct {
	at       int
	epoch    int
	id, line string
	position uint64
}

type toldOrder struct {
	at    int
	order changes.Change
}

// record runs the service twice, goes over to another policy and runs it once more.
func (p *powerLoss) record(t *testing.T) {
	t.Helper()
	recorder, end := record(t, filepath.Dir(p.options.Data))
	p.recorder = recorder
	time := int64(0)
	for _, rounds := range []int{14, 5} {
		p.run(t, &time, rounds)
	}
	options := p.options
	options.Policy = p.policies[1]
	tried, err := Migrate(context.Background(), options)
	if err != nil {
		t.Fatal(err)
	}
	err = tried.Swap()
	tried.Close()
	if err != nil {
		t.Fatal(err)
	}
	p.options.Policy = p.policies[1]
	p.run(t, &time, 6)
	end()
}

// run has three clients ask at the same time, again and again, and says of most orders that they are done.
func (p *powerLoss) run(t *testing.T, now *int64, rounds int) {
	t.Helper()
	e, end := run(t, p.options)
	for ; rounds > 0; rounds-- {
		*now++
		at := *now
		var clients sync.WaitGroup
		for client, name := range []string{"consent", "use", "request"} {
			clients.Add(1)
			go func(client int, name string) {
				defer clients.Done()
				p.ask(t, e, fmt.Sprintf("%d-%d", at, client), at, name, fmt.Sprint("u", (int(at)*7+client)%5))
			}(client, name)
		}
		clients.Wait()
		if at%4 == 0 {
			*now++
			if _, err := e.Tick(context.Background(), *now); err != nil {
				t.Fatal(err)
			}
		}
		p.obey(t, e)
	}
	end()
}

func (p *powerLoss) ask(t *testing.T, e *Enforcer, id string, at int64, name, who string) {
	event := logtext.Event{Name: name, Args: []logtext.Value{logtext.Text(who)}}
	decided, err := e.Decide(context.Background(), Step{Events: []logtext.Event{event}, ID: id, Time: &at})
	now := p.recorder.length()
	if err != nil {
		t.Error(err)
		return
	}
	p.mu.Lock()
	defer p.mu.Unlock()
	line := string(logtext.AppendStep(nil, decided.Time, decided.Events))
	p.answers = append(p.answers, toldAnswer{now, e.epoch.Number, id, strings.TrimSuffix(line, "\n"), decided.Position})
}

func (p *powerLoss) obey(t *testing.T, e *Enforcer) {
	t.Helper()
	open, _ := e.Orders().After(0, math.MaxInt)
	for _, order := range open {
		if _, known := p.given[order.Order]; !known {
			p.given[order.Order] = toldOrder{p.recorder.length(), order}
		}
		if order.Order%3 == 0 {
			// Nobody does this one.
			continue
		}
		p.asked[order.Order] = p.recorder.length()
		if err := e.Done(order.Order); err != nil {
			t.Fatal(err)
		}
		p.done[order.Order] = p.recorder.length()
	}
}

// check starts the service on what is left of the first changes, and says what its clients would miss.
func (p *powerLoss) check(folder string, length int) error {
	options := p.options
	options.Data, options.ChangesFile = filepath.Join(folder, "data"), filepath.Join(folder, "changes")
	epoch, err := CurrentEpoch(options.Data)
	if err != nil && !errors.Is(err, fs.ErrNotExist) {
		return err
	}
	options.Policy = p.policies[epoch.Number]
	e, err := Open(options)
	if err != nil {
		return err
	}
	ctx, cancel := context.WithCancel(context.Background())
	defer cancel()
	ended := make(chan error, 1)
	go func() { ended <- e.Run(ctx) }()
	for wait := time.Now().Add(time.Minute); !e.Ready(); time.Sleep(time.Millisecond) {
		select {
		case err := <-ended:
			return fmt.Errorf("it does not run: %w", err)
		default:
		}
		if time.Now().After(wait) {
			return errors.New("it is not ready")
		}
	}
	fault := p.checkOrders(e, length)
	at := e.Time()
	late, stop := context.WithTimeout(ctx, 20*time.Second)
	defer stop()
	if _, err := e.Decide(late, Step{ID: "after", Time: &at}); err != nil && fault == nil {
		fault = err
	}
	cancel()
	if err := <-ended; err != nil {
		return err
	}
	if fault != nil {
		return fault
	}
	return p.checkFiles(options, folder, length)
}

// checkOrders sees that what is open is what nobody has said to be done.
func (p *powerLoss) checkOrders(e *Enforcer, length int) error {
	list, _ := e.Orders().After(0, math.MaxInt)
	open := map[uint64]changes.Change{}
	for _, order := range list {
		open[order.Order] = order
	}
	for number, told := range p.given {
		order, is := open[number]
		at, done := p.done[number]
		asked, mayBeDone := p.asked[number]
		switch {
		case told.at > length:
		case done && at <= length && is:
			return fmt.Errorf("order %d is done, and is given again", number)
		case !is && !(mayBeDone && asked <= length):
			return fmt.Errorf("order %d is gone", number)
		case is && (order.Event.String() != told.order.Event.String() || order.Time != told.order.Time):
			return fmt.Errorf("order %d was %v, and is %v", number, told.order, order)
		}
	}
	return nil
}

// checkFiles sees that each answered request is kept once, and that all files are those of one run of enf.
func (p *powerLoss) checkFiles(options Options, folder string, length int) error {
	epoch, err := CurrentEpoch(options.Data)
	if err != nil {
		return err
	}
	seen := map[string]int{}
	lines := map[[2]uint64]string{} // of the enforced logs, by epoch and position
	reported := 0
	for number := 0; number <= epoch.Number; number++ {
		each := EpochOf(options.Data, number)
		all, err := enftest.ReadJournal(each.Dir)
		if err != nil {
			return err
		}
		for _, label := range all.Labels {
			seen[label]++
		}
		begin, position, err := beginOf(each)
		if err != nil {
			return err
		}
		if err := all.Hold(options.Program, each.Signature(), each.Policy(), begin, folder); err != nil {
			return err
		}
		for _, line := range strings.Split(strings.TrimSuffix(all.Enforced, "\n"), "\n") {
			lines[[2]uint64{uint64(number), position}] = line
			position++
		}
		reported += strings.Count(all.Report, "\n")
	}
	for label, times := range seen {
		if times != 1 {
			return fmt.Errorf("the request %s is kept %d times", label, times)
		}
	}
	for _, answer := range p.answers {
		switch {
		case answer.at > length:
		case seen[answer.id] != 1:
			return fmt.Errorf("the answered request %s is gone", answer.id)
		case lines[[2]uint64{uint64(answer.epoch), answer.position}] != answer.line:
			return fmt.Errorf("the answer to %s at %d is not %s", answer.id, answer.position, answer.line)
		}
	}
	if epoch.Number > 0 {
		return nil
	}
	told, err := os.ReadFile(options.ChangesFile)
	if err != nil {
		return err
	}
	return enftest.Numbered(string(told), reported)
}

// beginOf gives the state with which an epoch begins, where there is one, and its position.
func beginOf(e Epoch) (path string, position uint64, err error) {
	path = e.Dir.File(0, journal.State)
	file, err := os.Open(path)
	if errors.Is(err, fs.ErrNotExist) {
		return "", 0, nil
	}
	if err != nil {
		return "", 0, err
	}
	defer file.Close()
	saved, err := state.Read(file)
	if err != nil {
		return "", 0, err
	}
	return path, saved.Position, nil
}

// cut is a place at which the power fails, and what is left behind it.
type cut struct {
	length int
	luck   string
	image  map[string][]byte
}

// cuts gives a cut behind each change and for each luck, where something else is left than behind the change before, or more
// was told, until take wants no more.
func (p *powerLoss) cuts(events []event, each int, lucks []func(int) luck, take func(cut) (more bool)) {
	m := newMachine(p.recorder.root)
	last := make([]uint64, len(lucks))
	for length := 0; length <= len(events); length++ {
		if length > 0 {
			m.make(events[length-1])
		}
		if length%each != 0 {
			continue
		}
		for i, of := range lucks {
			l := of(length)
			image := m.image(l)
			sum := sumOf(image) + p.toldBefore(length)
			if sum != last[i] && !take(cut{length, l.name, image}) {
				return
			}
			last[i] = sum
		}
	}
}

// toldBefore counts what was told before a change.
func (p *powerLoss) toldBefore(length int) (count uint64) {
	for _, answer := range p.answers {
		if answer.at <= length {
			count++
		}
	}
	for _, at := range p.done {
		if at <= length {
			count++
		}
	}
	return count
}

func sumOf(image map[string][]byte) uint64 {
	paths := make([]string, 0, len(image))
	for path := range image {
		paths = append(paths, path)
	}
	sort.Strings(paths)
	sum := fnv.New64a()
	for _, path := range paths {
		fmt.Fprintf(sum, "%s %d ", path, len(image[path]))
		sum.Write(image[path])
	}
	return sum.Sum64()
}

// try checks cuts, a few at a time, until one fails where only the first failure is wanted.
func (p *powerLoss) try(t *testing.T, events []event, each int, first bool, lucks ...func(int) luck) (count int, faults []error) {
	t.Helper()
	var (
		mu   sync.Mutex
		wait sync.WaitGroup
		next = make(chan cut)
		top  = t.TempDir()
	)
	for worker := 0; worker < runtime.NumCPU(); worker++ {
		wait.Add(1)
		go func() {
			defer wait.Done()
			for each := range next {
				folder, err := os.MkdirTemp(top, "cut-")
				if err == nil {
					err = put(each.image, folder)
				}
				if err == nil {
					err = p.check(folder, each.length)
				}
				os.RemoveAll(folder)
				if err != nil {
					mu.Lock()
					faults = append(faults, fmt.Errorf("behind change %d, with %s: %w", each.length, each.luck, err))
					mu.Unlock()
				}
			}
		}()
	}
	p.cuts(events, each, lucks, func(c cut) bool {
		mu.Lock()
		enough := first && len(faults) > 0
		mu.Unlock()
		if !enough {
			next <- c
			count++
		}
		return !enough
	})
	close(next)
	wait.Wait()
	return count, faults
}

func recordPowerLoss(t *testing.T) *powerLoss {
	t.Helper()
	root := t.TempDir()
	options := optionsOf(t, time.Now)
	options.Data, options.ChangesFile = filepath.Join(root, "data"), filepath.Join(root, "changes")
	options.Time, options.CheckpointRecords = "caller", 12
	p := &powerLoss{given: map[uint64]toldOrder{}, done: map[uint64]int{}, asked: map[uint64]int{}}
	for i, limit := range []string{"3", "2"} {
		p.policies[i] = enftest.Write(t, t.TempDir(), "policy", `
			rule consent: forall who. use(who) -> (not revoke(who)) since[0,*] consent(who);
			rule soon: forall who. request(who) -> eventually[0,`+limit+`] delete(who);`)
	}
	options.Policy = p.policies[0]
	p.options = options
	p.record(t)
	return p
}

// every gives the number of changes from one cut to the next: 5, or what ENFD_POWER says.
func every(t *testing.T) int {
	t.Helper()
	text := os.Getenv("ENFD_POWER")
	if text == "" {
		return 5
	}
	number, err := strconv.Atoi(text)
	if err != nil {
		t.Fatal(err)
	}
	return number
}

// TestPowerLoss cuts the power behind changes of files that the service makes, loses what is not synced or leaves a part of
// it, and starts the service again.
func TestPowerLoss(t *testing.T) {
	p := recordPowerLoss(t)
	count, faults := p.try(t, p.recorder.events, every(t), false, noLuck, namesAlone, chance)
	for i, fault := range faults {
		if i == 20 {
			break
		}
		t.Error(fault)
	}
	t.Logf("%d changes of files, %d cuts, %d faults; %d answers, %d orders of which %d are done",
		len(p.recorder.events), count, len(faults), len(p.answers), len(p.given), len(p.done))
}

// TestPowerLossIsSeen takes out of the changes each kind of sync in its turn, and moves the state behind its mark: the test
// above must fail then, or it would not see where the service leaves one out.
func TestPowerLossIsSeen(t *testing.T) {
	p := recordPowerLoss(t)
	for _, test := range []struct {
		name    string
		without disk.Kind
		path    string // the end of it, or a part where it begins with a *
	}{
		{"records", disk.Synced, ".log"},
		{"labels", disk.Synced, ".labels"},
		{"acknowledgements", disk.Synced, "orders.done"},
		{"acknowledgements, written anew", disk.Synced, "orders.done.new"},
		{"states", disk.Synced, ".state"},
		{"enforced logs", disk.Synced, "/enforced"},
		{"reports", disk.Synced, "/report"},
		{"marks", disk.Synced, ".json.new"},
		{"the epoch", disk.Synced, "current.new"},
		{"changes", disk.Synced, "/changes"},
		{"the folder of the data", disk.FolderSynced, "/data"},
		{"the folder above", disk.FolderSynced, filepath.Base(p.recorder.root)},
		{"the folder of an epoch", disk.FolderSynced, "/0000"},
		{"the folder of the next epoch", disk.FolderSynced, "/0001"},
		{"the folder of the epochs", disk.FolderSynced, "/epochs"},
		{"the archive", disk.FolderSynced, "/archive"},
	} {
		t.Run(test.name, func(t *testing.T) {
			var events []event
			gone := 0
			for _, each := range p.recorder.events {
				if each.kind == test.without && strings.HasSuffix(each.path, test.path) {
					gone++
					each = event{}
				}
				events = append(events, each)
			}
			p.see(t, events, noLuck)
			if gone == 0 {
				t.Error("there is no such sync")
			}
		})
	}
	t.Run("the mark before the state", func(t *testing.T) { p.see(t, markFirst(p.recorder.events), namesAlone) })
}

// see fails where no cut of changes that are at fault fails.
func (p *powerLoss) see(t *testing.T, events []event, left func(int) luck) {
	t.Helper()
	_, faults := p.try(t, events, 1, true, left)
	if len(faults) == 0 {
		t.Error("nobody sees it")
	} else {
		t.Log(faults[0])
	}
}

// markFirst has each state put in place right behind its mark.
func markFirst(events []event) []event {
	events = append([]event(nil), events...)
	state := -1
	for i, each := range events {
		switch {
		case each.kind == disk.Renamed && strings.HasSuffix(each.to, ".state"):
			state = i
		case each.kind == disk.Renamed && strings.HasSuffix(each.to, ".json") && state >= 0:
			late := events[state]
			copy(events[state:i], events[state+1:i+1])
			events[i], state = late, -1
		}
	}
	return events
}
