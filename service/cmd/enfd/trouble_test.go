package main

import (
	"fmt"
	"net/http"
	"os"
	"os/exec"
	"path/filepath"
	"regexp"
	"strings"
	"syscall"
	"testing"
	"time"

	"enfd/internal/changes"
	"enfd/internal/enforcement"
	"enfd/internal/enftest"
	"enfd/internal/logtext"
)

// metric gives the value of a metric, or nothing where it is not there.
func metric(t *testing.T, s *service, name string) string {
	t.Helper()
	_, text, err := s.send(http.DefaultClient, http.MethodGet, "/metrics", "")
	if err != nil {
		t.Fatal(err)
	}
	found := regexp.MustCompile(`(?m)^` + regexp.QuoteMeta(name) + ` (.*)$`).FindStringSubmatch(string(text))
	if found == nil {
		return ""
	}
	return found[1]
}

func awaitMetric(t *testing.T, s *service, name, want string) {
	t.Helper()
	got := ""
	for end := time.Now().Add(30 * time.Second); time.Now().Before(end); time.Sleep(20 * time.Millisecond) {
		if got = metric(t, s, name); got == want {
			return
		}
	}
	t.Fatalf("%s is %s and not %s", name, got, want)
}

// TestProgramDies sees that a program that is killed is started again, with the answers that were still to come.
func TestProgramDies(t *testing.T) {
	s := start(t, configure(t, map[string]any{"time": "caller"}))
	for i := 1; i <= 10; i++ {
		s.post("/v1/steps", fmt.Sprintf(`{"time":%d,"events":[{"name":"consent","args":["u%d"]}]}`, i, i), 200, nil)
		killProgram(s)
		var got answered
		s.post("/v1/steps", fmt.Sprintf(`{"time":%d,"events":[{"name":"use","args":["u%d"]}]}`, i, i), 200, &got)
		if want := fmt.Sprintf(`@%d use("u%d");`, i, i); asLine(got) != want || got.Position != uint64(2*i-1) {
			t.Errorf("%s at %d", asLine(got), got.Position)
		}
	}
	if got := metric(t, s, "enfd_mismatches_total"); got != "0" {
		t.Errorf("%s mismatches", got)
	}
	s.end()
}

// TestInterrupted ends the service as a terminal does, by a signal to all processes of its group.
func TestInterrupted(t *testing.T) {
	s := start(t, configure(t, map[string]any{"time": "caller"}))
	s.post("/v1/steps", `{"time":1,"events":[{"name":"consent","args":["ann"]}]}`, 200, nil)
	s.endBy(-s.command.Process.Pid, syscall.SIGINT)
	if !strings.Contains(s.log.String(), `"checkpoint":true`) {
		t.Error("there is no checkpoint")
	}
}

// TestFullDisk gives the service a disk that is full, and then one that is not.
func TestFullDisk(t *testing.T) {
	disk := t.TempDir()
	if err := syscall.Mount("tmpfs", disk, "tmpfs", 0, "size=2m"); err != nil {
		t.Skipf("no disk can be made here: %v", err)
	}
	t.Cleanup(func() { _ = syscall.Unmount(disk, syscall.MNT_DETACH) })
	changesFile := filepath.Join(disk, "changes")
	config := configure(t, map[string]any{
		"time": "caller", "data": filepath.Join(disk, "data"), "checkpoint_records": 7, "changes_file": changesFile,
	})
	if err := os.Symlink(filepath.Join(disk, "data"), filepath.Join(filepath.Dir(config), "data")); err != nil {
		t.Fatal(err)
	}
	s := start(t, config)
	s.post("/v1/steps", `{"time":1,"id":"before","events":[{"name":"consent","args":["ann"]}]}`, 200, nil)
	filler := filepath.Join(disk, "filler")
	full, err := os.Create(filler)
	if err != nil {
		t.Fatal(err)
	}
	for err == nil {
		_, err = full.Write(make([]byte, 512))
	}
	full.Close()
	text := strings.Repeat("x", 1000)
	for i, refused := 0, 0; refused < 3; i++ {
		status, answer, err := s.send(http.DefaultClient, http.MethodPost, "/v1/steps",
			fmt.Sprintf(`{"time":%d,"id":"full-%d","events":[{"name":"use","args":["%s"]}]}`, 2+i, i, text[:20+i*37%900]))
		switch {
		case err != nil:
			t.Fatal(err)
		case status == http.StatusServiceUnavailable && strings.Contains(string(answer), `"journal"`):
			refused++
		case status != http.StatusOK || i > 100:
			t.Fatalf("status %d: %s", status, answer)
		}
	}
	if err := os.Remove(filler); err != nil {
		t.Fatal(err)
	}
	var got answered
	s.post("/v1/steps", `{"time":1000,"id":"after","events":[{"name":"use","args":["ann"]}]}`, 200, &got)
	if asLine(got) != `@1000 use("ann");` {
		t.Error(asLine(got))
	}
	s.end()
	_, all := journalOf(t, s.data)
	if last := all.Labels[len(all.Labels)-1]; all.Labels[0] != "before" || last != "after" {
		t.Errorf("%q", all.Labels)
	}
	checkChangesFile(t, changesFile, all.Report)
	if strings.Contains(s.log.String(), "is another one") || strings.Contains(s.log.String(), "written anew") {
		t.Error("an output was another one")
	}
}

// TestDeadlinePasses sees that a deadline passes when nothing happens.
func TestDeadlinePasses(t *testing.T) {
	folder := t.TempDir()
	s := start(t, configure(t, map[string]any{
		"policy": enftest.Write(t, folder, "soon.policy", "rule soon: forall w. request(w) -> eventually[0,2] delete(w);"),
		"unit":   "100ms", "tick": "50ms",
	}))
	begun := time.Now()
	s.post("/v1/steps", `{"id":"r","events":[{"name":"request","args":["ann"]}]}`, 200, nil)
	if got := stream(t, s, "", "", 1); fmt.Sprint(got) != `[1 delete("ann") again=false for r]` {
		t.Errorf("%q", got)
	}
	if took := time.Since(begun); took < 200*time.Millisecond {
		t.Errorf("it came after %v", took)
	}
	s.end()
}

// TestPending sees what is pending across a checkpoint and a restart, and what would become of a step.
func TestPending(t *testing.T) {
	config := configure(t, map[string]any{"time": "caller"})
	s := start(t, config)
	s.post("/v1/steps", `{"time":5,"id":"ticket","events":[{"name":"request","args":["ann"]}]}`, 200, nil)
	s.end()
	s = start(t, config)
	s.post("/v1/steps", `{"time":8,"id":"leak","events":[{"name":"breach","args":["bob"]}]}`, 200, nil)
	see := func() string {
		var list enforcement.PendingList
		s.get("/v1/pending", &list)
		var words []string
		for _, each := range list.Pending {
			words = append(words, fmt.Sprintf("%s %s=%s since %d (%s) due %d", each.Rule, each.Bindings[0].Name,
				each.Bindings[0].Value.Append(nil), *each.Origin.Time, each.Origin.ID, each.Due))
		}
		return strings.Join(words, "; ")
	}
	want := `tell person="bob" since 8 (leak) due 11; erase person="ann" since 5 (ticket) due 35`
	if got := see(); got != want {
		t.Errorf("%s in place of %s", got, want)
	}
	var tried struct {
		Steps []struct {
			Time    int64
			Removed []changes.Change
			Added   []changes.Change
		}
	}
	s.post("/v1/try", `{"time":20,"events":[{"name":"use","args":["ann"]}]}`, 200, &tried)
	if len(tried.Steps) != 3 || tried.Steps[0].Added[0].Event.String() != `notice("bob")` ||
		tried.Steps[2].Removed[0].Event.String() != `use("ann")` {
		t.Errorf("%+v", tried)
	}
	s.post("/v1/try", `{"time":2,"events":[]}`, 422, nil)
	s.post("/v1/try", `{"time":20,"events":[{"name":"nothing","args":[]}]}`, 422, nil)
	if got := see(); got != want {
		t.Errorf("after the trial: %s", got)
	}
	awaitMetric(t, s, `enfd_pending{rule="erase"}`, "1")
	s.end()
}

// TestCheckpoints sees that segments are closed, archived and replayed from the last one.
func TestCheckpoints(t *testing.T) {
	config := configure(t, map[string]any{"time": "caller", "checkpoint_records": 10})
	s := start(t, config)
	for i := 0; i < 95; i++ {
		s.post("/v1/steps", fmt.Sprintf(`{"time":%d,"events":[{"name":"request","args":["u%d"]}]}`, i, i), 200, nil)
	}
	awaitMetric(t, s, `enfd_checkpoints_total{outcome="made"}`, "9")
	archived, err := filepath.Glob(filepath.Join(s.data, "epochs/0000/archive/*.log"))
	if err != nil || len(archived) != 9 {
		t.Errorf("%v, %v", archived, err)
	}
	s.kill()
	s = start(t, config)
	s.awaitReady()
	s.end()
	if !strings.Contains(s.log.String(), `"segment":9,"replayed":5`) {
		t.Errorf("not from the last checkpoint: %s", s.log)
	}
}

// TestFind finds what became of a step by its id: in the running segment, in the one before, and after a restart.
func TestFind(t *testing.T) {
	config := configure(t, map[string]any{"time": "caller", "checkpoint_records": 10})
	s := start(t, config)
	for i := 0; i < 35; i++ {
		s.post("/v1/steps", fmt.Sprintf(`{"time":%d,"id":"s%d","events":[{"name":"breach","args":["u%d"]},{"name":"use","args":["u%d"]}]}`,
			i, i, i, i), 200, nil)
	}
	awaitMetric(t, s, `enfd_checkpoints_total{outcome="made"}`, "3")
	s.post("/v1/steps", `{"time":40,"events":[]}`, 200, nil)
	see := func() {
		t.Helper()
		// Steps without an id are not those of an empty one.
		s.call(http.MethodGet, "/v1/steps?id=", "", http.StatusNotFound, nil)
		for i, want := range map[int]int{3: 404, 19: 404, 20: 200, 29: 200, 30: 200, 34: 200, 35: 404} {
			var got struct {
				Time    int64
				ID      string
				Allowed []logtext.Event
				Removed []changes.Change
			}
			s.call(http.MethodGet, fmt.Sprintf("/v1/steps?id=s%d", i), "", want, &got)
			if want == 200 && (got.Time != int64(i) || len(got.Allowed) != 1 || got.Allowed[0].String() != fmt.Sprintf(`breach("u%d")`, i) ||
				len(got.Removed) != 1 || got.Removed[0].Event.String() != fmt.Sprintf(`use("u%d")`, i)) {
				t.Errorf("s%d: %+v", i, got)
			}
		}
	}
	see()
	s.kill()
	s = start(t, config)
	s.awaitReady()
	see()
	s.end()
}

// enfd runs a command of the program and gives what it writes.
func enfd(t *testing.T, args ...string) (string, error) {
	t.Helper()
	command := exec.Command(os.Args[0], args...)
	command.Env = append(os.Environ(), asService+"=1")
	out, err := command.CombinedOutput()
	return string(out), err
}

// TestMigration goes over to a stricter policy.
func TestMigration(t *testing.T) {
	folder := t.TempDir()
	old, err := os.ReadFile(enftest.Example("data/data.policy"))
	if err != nil {
		t.Fatal(err)
	}
	config := configure(t, map[string]any{
		"time": "caller", "policy": enftest.Write(t, folder, "policy", string(old)),
	})
	stricter := strings.Replace(strings.Replace(string(old), "[0,30]", "[0,10]", 1), "[0,3]", "[0,1]", 1)
	next := enftest.Write(t, folder, "next", stricter)
	s := start(t, config)
	s.post("/v1/steps", `{"time":1,"id":"sign","events":[{"name":"consent","args":["ann"]},{"name":"consent","args":["bob"]}]}`, 200, nil)
	s.post("/v1/steps", `{"time":2,"id":"ticket","events":[{"name":"request","args":["ann"]}]}`, 200, nil)
	s.post("/v1/steps", `{"time":10,"id":"leak","events":[{"name":"breach","args":["bob"]}]}`, 200, nil)
	s.post("/v1/steps", `{"time":15,"id":"late","events":[{"name":"answer","args":["bob"]}]}`, 200, nil)
	if out, err := enfd(t, "migrate-policy", "-config", config, "-policy", next); err == nil {
		t.Errorf("it migrates while the service runs: %s", out)
	}
	s.end()
	out, err := enfd(t, "migrate-policy", "-config", config, "-policy", next)
	if err != nil {
		t.Fatalf("%v: %s", err, out)
	}
	for _, want := range []string{
		"transparent yes", "under the new policy: violated", `cause notice("bob") at 13`, `cause notice("bob") at 11`,
		"1 becomes an order", `delete("ann"), due at 12 by rule erase`, "nothing was changed",
	} {
		if !strings.Contains(out, want) {
			t.Errorf("%q is not in\n%s", want, out)
		}
	}
	bad := enftest.Write(t, folder, "bad", "rule r: forall u. use(u) -> eventually[0,3] consent(u);")
	if out, err := enfd(t, "migrate-policy", "-config", config, "-policy", bad); err == nil || !strings.Contains(out, "not enforceable") {
		t.Errorf("%v: %s", err, out)
	}
	// Nothing was changed so far.
	s = start(t, config)
	s.end()
	if out, err = enfd(t, "migrate-policy", "-config", config, "-policy", next, "-swap"); err != nil {
		t.Fatalf("%v: %s", err, out)
	}
	s = start(t, config)
	s.awaitReady()
	if got := stream(t, s, "", "", 2); fmt.Sprint(got) !=
		`[1 notice("bob") again=false for leak 2 delete("ann") again=false for ticket]` {
		t.Errorf("%q", got)
	}
	// The consent of before holds, and the new deadline counts.
	s.post("/v1/steps", `{"time":16,"id":"leak-2","events":[{"name":"use","args":["bob"]},{"name":"breach","args":["cat"]}]}`, 200, nil)
	s.post("/v1/ticks", `{"time":18}`, 200, nil)
	if got := stream(t, s, "", "", 3); got[2] != `3 notice("cat") again=false for leak-2` {
		t.Errorf("%q", got)
	}
	s.end()
	if out, err := enfd(t, "audit", "-config", config); err != nil || strings.Count(out, "holds") != 2 {
		t.Errorf("%v: %s", err, out)
	}
	// The policy is not changed behind the data's back.
	if err := os.WriteFile(filepath.Join(folder, "policy"), old, 0o600); err != nil {
		t.Fatal(err)
	}
	if out, err := enfd(t, "-config", config); err == nil || !strings.Contains(out, "migrate-policy") {
		t.Errorf("%v: %s", err, out)
	}
}

// TestWords sees what the words of a call do.
func TestWords(t *testing.T) {
	config := configure(t, map[string]any{"unit": "1us"})
	for _, test := range []struct {
		args   []string
		want   string
		status int
	}{
		{nil, "-config FILE is wanted", 2},
		{[]string{"dance"}, "there is no command dance", 2},
		{[]string{"-config", config, "more"}, "no further words", 2},
		{[]string{"-nothing"}, "flag provided but not defined", 2},
		{[]string{"migrate-policy", "-config", configure(t, nil)}, "-policy FILE is wanted", 2},
		{[]string{"-config", "/nowhere"}, "no such file", 1},
		{[]string{"-config", config}, "unit is at least 1ms", 1},
		{[]string{"-config", configure(t, map[string]any{"nonsense": 1})}, "unknown field", 1},
		{[]string{"-config", configure(t, map[string]any{"tick": 5})}, "a duration is a text", 1},
		{[]string{"-config", configure(t, map[string]any{"time": "mine"})}, "time is", 1},
		{[]string{"-config", configure(t, map[string]any{"policy": enftest.Example("data/reminder.policy")})}, "cyclic", 1},
		{[]string{"-config", configure(t, map[string]any{"program": "/nowhere/enf"})}, "no such file", 1},
		{[]string{"-config", configure(t, map[string]any{"listen": "nowhere:x"})}, "listen", 1},
	} {
		out, err := enfd(t, test.args...)
		status := 0
		if ended, is := err.(*exec.ExitError); is {
			status = ended.ExitCode()
		}
		if status != test.status || !strings.Contains(out, test.want) {
			t.Errorf("%v: status %d: %s", test.args, status, out)
		}
	}
}
