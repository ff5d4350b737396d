package main

import (
	"bufio"
	"context"
	"encoding/json"
	"fmt"
	"math/rand"
	"net/http"
	"os"
	"path/filepath"
	"strconv"
	"strings"
	"sync"
	"sync/atomic"
	"testing"
	"time"

	"enfd/internal/changes"
	"enfd/internal/enforcement"
	"enfd/internal/enftest"
	"enfd/internal/logtext"
)

// told is what the test was told by the services that it killed.
type told struct {
	mu      sync.Mutex
	answers map[string]answered       // by id
	orders  map[uint64]changes.Change // that were streamed
	done    map[uint64]bool           // that were acknowledged
	again   []uint64                  // that were streamed though they had been acknowledged
	found   int                       // steps that were found by their ids
	reasked int
}

type answered struct {
	Time     int64           `json:"time"`
	Position uint64          `json:"position"`
	ID       string          `json:"id"`
	Allowed  []logtext.Event `json:"allowed"`
}

// TestKills kills the service, the program or both at random moments under load, and holds all that was told against one
// run of enf over the journal. ENFD_KILLS says how often.
func TestKills(t *testing.T) {
	kills := 12
	if text := os.Getenv("ENFD_KILLS"); text != "" {
		number, err := strconv.Atoi(text)
		if err != nil {
			t.Fatal(err)
		}
		kills = number
	}
	folder := t.TempDir()
	config := configure(t, map[string]any{
		"policy": enftest.Write(t, folder, "kill.policy", `
			rule consent: forall who. use(who) -> (not revoke(who)) since[0,*] consent(who);
			rule soon: forall who. request(who) -> eventually[0,3] delete(who);`),
		"unit": "20ms", "tick": "20ms", "checkpoint_records": killSegment, "changes_kept": 100,
		"changes_file": filepath.Join(folder, "changes.jsonl"), "pending_every": "200ms",
	})
	all := &told{answers: map[string]answered{}, orders: map[uint64]changes.Change{}, done: map[uint64]bool{}}
	var running atomic.Value
	running.Store(start(t, config))
	ctx, stop := context.WithCancel(context.Background())
	defer stop()
	var load sync.WaitGroup
	for worker := 0; worker < 8; worker++ {
		load.Add(1)
		go func(worker int) {
			defer load.Done()
			all.ask(ctx, &running, worker)
		}(worker)
	}
	for _, each := range []func(context.Context, *atomic.Value){all.obey, all.askOnce} {
		load.Add(1)
		go func(each func(context.Context, *atomic.Value)) {
			defer load.Done()
			each(ctx, &running)
		}(each)
	}
	random := rand.New(rand.NewSource(time.Now().UnixNano()))
	for kill := 0; kill < kills; kill++ {
		time.Sleep(time.Duration(random.Intn(250)) * time.Millisecond)
		s := running.Load().(*service)
		if random.Intn(4) == 0 {
			killProgram(s)
			time.Sleep(time.Duration(random.Intn(100)) * time.Millisecond)
		}
		s.kill()
		running.Store(start(t, config))
	}
	last := running.Load().(*service)
	last.awaitReady()
	time.Sleep(300 * time.Millisecond)
	stop()
	load.Wait()
	last.end()
	all.check(t, last.data, filepath.Join(folder, "changes.jsonl"))
}

// children gives the numbers of the processes that a service has started.
func children(s *service) []int {
	folders, err := filepath.Glob(fmt.Sprintf("/proc/%d/task/*/children", s.command.Process.Pid))
	if err != nil {
		return nil
	}
	var numbers []int
	for _, folder := range folders {
		text, err := os.ReadFile(folder)
		if err != nil {
			continue
		}
		for _, child := range strings.Fields(string(text)) {
			if number, err := strconv.Atoi(child); err == nil {
				numbers = append(numbers, number)
			}
		}
	}
	return numbers
}

// killProgram kills the enf of a service, and what else it has started.
func killProgram(s *service) {
	for _, child := range children(s) {
		if process, err := os.FindProcess(child); err == nil {
			_ = process.Kill()
		}
	}
}

// ask asks for steps, one after the other, and notes the answers.
func (a *told) ask(ctx context.Context, running *atomic.Value, worker int) {
	client := &http.Client{Transport: &http.Transport{}, Timeout: 5 * time.Second}
	defer client.CloseIdleConnections()
	names := []string{"consent", "use", "use", "revoke", "request", "answer"}
	for n := 0; ctx.Err() == nil; n++ {
		id := fmt.Sprintf("%d-%d", worker, n)
		body := fmt.Sprintf(`{"id":%q,"events":[{"name":%q,"args":["u%d"]},{"name":"use","args":["u%d"]}]}`,
			id, names[n%len(names)], (n*7+worker)%40, n%23)
		status, text, err := running.Load().(*service).send(client, http.MethodPost, "/v1/steps", body)
		if err != nil {
			time.Sleep(2 * time.Millisecond)
			continue
		}
		if status != http.StatusOK {
			continue
		}
		var answer answered
		if json.Unmarshal(text, &answer) == nil {
			a.mu.Lock()
			a.answers[id] = answer
			a.mu.Unlock()
		}
	}
}

// killSegment is the number of records after which TestKills has a checkpoint made.
const killSegment = 150

// askOnce asks for steps and finds out what became of those without an answer, so that none is made twice.
func (a *told) askOnce(ctx context.Context, running *atomic.Value) {
	client := &http.Client{Transport: &http.Transport{}, Timeout: 5 * time.Second}
	defer client.CloseIdleConnections()
	// send gives the status, or 0 where there is no answer.
	send := func(method, path, body string, into any) int {
		status, text, err := running.Load().(*service).send(client, method, path, body)
		if err != nil || status == http.StatusOK && json.Unmarshal(text, into) != nil {
			return 0
		}
		return status
	}
	for n := 0; ctx.Err() == nil; n++ {
		id := fmt.Sprint("once-", n)
		a.askedOnce(ctx, send, id, fmt.Sprintf(`{"id":%q,"events":[{"name":"consent","args":["once%d"]}]}`, id, n%9))
	}
}

func (a *told) askedOnce(ctx context.Context, send func(method, path, body string, into any) int, id, body string) {
	var answer answered
	var before, now struct{ Records uint64 }
	for send(http.MethodGet, "/v1/status", "", &before) != http.StatusOK && ctx.Err() == nil {
		time.Sleep(2 * time.Millisecond)
	}
	status := send(http.MethodPost, "/v1/steps", body, &answer)
	for status != http.StatusOK && ctx.Err() == nil {
		time.Sleep(2 * time.Millisecond)
		switch send(http.MethodGet, "/v1/steps?id="+id, "", &answer) {
		case http.StatusOK:
			status = http.StatusOK
			a.mu.Lock()
			a.found++
			a.mu.Unlock()
		case http.StatusNotFound:
			if send(http.MethodGet, "/v1/status", "", &now) != http.StatusOK {
				continue
			}
			if now.Records-before.Records >= killSegment {
				// It may be before the last checkpoint but one, so nobody knows.
				return
			}
			a.mu.Lock()
			a.reasked++
			a.mu.Unlock()
			status = send(http.MethodPost, "/v1/steps", body, &answer)
		}
	}
	if status == http.StatusOK {
		a.mu.Lock()
		a.answers[id] = answer
		a.mu.Unlock()
	}
}

// obey reads the orders and says that most of them are done.
func (a *told) obey(ctx context.Context, running *atomic.Value) {
	client := &http.Client{Transport: &http.Transport{}}
	defer client.CloseIdleConnections()
	for ctx.Err() == nil {
		a.obeyOne(ctx, client, running.Load().(*service))
		time.Sleep(2 * time.Millisecond)
	}
}

func (a *told) obeyOne(ctx context.Context, client *http.Client, s *service) {
	request, err := http.NewRequestWithContext(ctx, http.MethodGet, s.url+"/v1/orders", nil)
	if err != nil {
		return
	}
	a.mu.Lock()
	before := make(map[uint64]bool, len(a.done))
	for number := range a.done {
		before[number] = true
	}
	a.mu.Unlock()
	response, err := client.Do(request)
	if err != nil {
		return
	}
	defer response.Body.Close()
	for lines := bufio.NewScanner(response.Body); lines.Scan(); {
		data := strings.TrimPrefix(lines.Text(), "data: ")
		var order changes.Change
		if data == lines.Text() || json.Unmarshal([]byte(data), &order) != nil {
			continue
		}
		a.mu.Lock()
		if before[order.Order] {
			a.again = append(a.again, order.Order)
		}
		a.orders[order.Order] = order
		a.mu.Unlock()
		if order.Order%5 == 0 {
			// Nobody does this one.
			continue
		}
		status, _, err := s.send(client, http.MethodPost, fmt.Sprintf("/v1/orders/%d/done", order.Order), "")
		if err == nil && status == http.StatusOK {
			a.mu.Lock()
			a.done[order.Order] = true
			a.mu.Unlock()
		}
	}
}

// check holds what was told against what is on disk.
func (a *told) check(t *testing.T, data, changesFile string) {
	t.Helper()
	epoch, all := journalOf(t, data)
	lines := strings.Split(strings.TrimSuffix(all.Enforced, "\n"), "\n")
	seen := map[string]int{}
	for _, label := range all.Labels {
		seen[label]++
	}
	for id, times := range seen {
		if times != 1 && id != "" {
			t.Errorf("the request %s is %d times in the journal", id, times)
		}
	}
	for id, answer := range a.answers {
		if seen[id] != 1 {
			t.Errorf("the answered request %s is %d times in the journal", id, seen[id])
		}
		if answer.Position >= uint64(len(lines)) {
			t.Errorf("the answer to %s has the position %d of %d", id, answer.Position, len(lines))
			continue
		}
		if want, got := lines[answer.Position], asLine(answer); want != got {
			t.Errorf("the answer to %s was %s, and is %s", id, got, want)
		}
	}
	a.checkOrders(t, epoch, all.Report)
	checkChangesFile(t, changesFile, all.Report)
	t.Logf("%d answers, %d of them found by their ids and %d after asking again, %d steps, %d orders of which %d are done",
		len(a.answers), a.found, a.reasked, len(lines), len(a.orders), len(a.done))
}

// asLine writes an answer as the line of the enforced log.
func asLine(answer answered) string {
	var events []string
	for _, event := range answer.Allowed {
		events = append(events, event.String())
	}
	return strings.TrimSuffix(string(logtext.AppendStep(nil, answer.Time, events)), "\n")
}

// checkOrders sees that each order was given, or is still open, and that none came again after it was acknowledged.
func (a *told) checkOrders(t *testing.T, epoch enforcement.Epoch, report string) {
	t.Helper()
	if len(a.again) > 0 {
		t.Errorf("orders came again after they were acknowledged: %v", a.again)
	}
	mark, err := enforcement.LastMark(epoch.Dir)
	if err != nil {
		t.Fatal(err)
	}
	open := map[uint64]bool{}
	for _, order := range mark.Open {
		open[order.Order] = true
	}
	number := uint64(0)
	for _, line := range strings.Split(report, "\n") {
		if !strings.HasPrefix(line, logtext.Cause+" ") {
			continue
		}
		number++
		want, err := logtext.ParseChange(line)
		if err != nil {
			t.Fatal(err)
		}
		order, given := a.orders[number]
		switch {
		case given && (order.Event.String() != want.Event || order.Time != want.Time || order.Position != want.Position):
			t.Errorf("order %d was %v, and is %s", number, order, line)
		case !given && !open[number]:
			t.Errorf("order %d was never given and is not open: %s", number, line)
		case a.done[number] && open[number]:
			t.Errorf("order %d is done and open", number)
		case !a.done[number] && !open[number]:
			// It was acknowledged, and the answer was lost.
			if number%5 == 0 {
				t.Errorf("order %d was done by nobody and is not open", number)
			}
		}
	}
	if mark.Orders != number {
		t.Errorf("the mark counts %d orders of %d", mark.Orders, number)
	}
}

// journalOf reads the journal of the service's epoch, and holds what it has against one run of enf that nothing has stopped.
func journalOf(t *testing.T, data string) (enforcement.Epoch, enftest.Journal) {
	t.Helper()
	epoch, err := enforcement.CurrentEpoch(data)
	if err != nil {
		t.Fatal(err)
	}
	all, err := enftest.ReadJournal(epoch.Dir)
	if err != nil {
		t.Fatal(err)
	}
	if err := all.Hold(enftest.Program(t), epoch.Signature(), epoch.Policy(), "", t.TempDir()); err != nil {
		t.Error(err)
	}
	return epoch, all
}

// checkChangesFile sees that the file of changes has each line of the report once, in order.
func checkChangesFile(t *testing.T, path, report string) {
	t.Helper()
	text, err := os.ReadFile(path)
	if err == nil {
		err = enftest.Numbered(string(text), strings.Count(report, "\n"))
	}
	if err != nil {
		t.Error(err)
	}
}
