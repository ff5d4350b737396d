package main

import (
	"bufio"
	"context"
	"encoding/json"
	"fmt"
	"io"
	"net/http"
	"os"
	"path"
	"path/filepath"
	"strings"
	"testing"
	"time"

	"enfd/internal/changes"
	"enfd/internal/enftest"
	"enfd/internal/logtext"
)

// bodyOf makes a request of a record.
func bodyOf(t *testing.T, line string) string {
	t.Helper()
	step, err := logtext.ParseStep(line)
	if err != nil {
		t.Fatal(err)
	}
	request := struct {
		Time   int64           `json:"time"`
		ID     string          `json:"id"`
		Events []logtext.Event `json:"events"`
	}{Time: step.Time, ID: fmt.Sprint("at ", step.Time), Events: []logtext.Event{}}
	for _, text := range step.Events {
		event, err := logtext.ParseEvent(text)
		if err != nil {
			t.Fatal(err)
		}
		request.Events = append(request.Events, event)
	}
	body, err := json.Marshal(request)
	if err != nil {
		t.Fatal(err)
	}
	return string(body)
}

func linesOf(t *testing.T, path string) []string {
	t.Helper()
	text, err := os.ReadFile(path)
	if err != nil {
		t.Fatal(err)
	}
	return strings.Split(strings.TrimSuffix(string(text), "\n"), "\n")
}

// TestExamples has the service decide the examples, stopped after each third record, and compares all with what enf gives.
func TestExamples(t *testing.T) {
	for _, folder := range []string{
		"examples/data", "examples/access", "examples/safety", "examples/purposes", "tests/generated",
	} {
		t.Run(folder, func(t *testing.T) {
			example := func(kind string) string { return enftest.File(folder + "/" + path.Base(folder) + kind) }
			config := configure(t, map[string]any{
				"time": "caller", "signature": example(".sig"), "policy": example(".policy"),
			})
			s := start(t, config)
			for i, line := range linesOf(t, example(".log")) {
				if i%3 == 2 {
					if i%2 == 0 {
						s.end()
					} else {
						s.kill()
					}
					s = start(t, config)
				}
				if time := strings.Trim(line, ">;"); line[0] == '>' {
					s.post("/v1/ticks", `{"time": `+time+`}`, http.StatusOK, nil)
				} else {
					s.post("/v1/steps", bodyOf(t, line), http.StatusOK, nil)
				}
			}
			// All deadlines pass.
			s.post("/v1/ticks", `{"time": 1000000000000000}`, http.StatusOK, nil)
			s.end()
			_, all := journalOf(t, s.data)
			for kind, got := range map[string]string{".enforced": all.Enforced, ".report": all.Report} {
				want, err := os.ReadFile(example(kind))
				if err != nil {
					t.Fatal(err)
				}
				if where := enftest.Difference(got, string(want)); where != "" {
					t.Errorf("%s: %s", kind, where)
				}
			}
			if out, err := enfd(t, "audit", "-config", config); err != nil || !strings.Contains(out, ": holds\n") {
				t.Errorf("audit: %v: %s", err, out)
			}
		})
	}
}

// TestRefusals sees that what is not accepted is answered with its place, is kept, and leaves the enforcement as it was.
func TestRefusals(t *testing.T) {
	s := start(t, configure(t, map[string]any{"time": "caller", "max_body": 100000}))
	s.post("/v1/steps", `{"time":5,"events":[{"name":"consent","args":["ann"]}]}`, http.StatusOK, nil)
	long := strings.Repeat("x", 1025)
	var many []string
	for i := 0; i < 2049; i++ {
		many = append(many, fmt.Sprintf(`{"name":"use","args":["%d"]}`, i))
	}
	for _, test := range []struct {
		body   string
		status int
		reason string
		place  string
	}{
		{`{"time":6,"events":[{"name":"use","args":["ann"]},{"name":"buy","args":["ann"]}]}`, 422, "unknown name", "events[1].name"},
		{`{"time":6,"events":[{"name":"use","args":[]}]}`, 422, "arity", "events[0].args"},
		{`{"time":6,"events":[{"name":"use","args":["a","b"]}]}`, 422, "arity", "events[0].args"},
		{`{"time":6,"events":[{"name":"use","args":[1]}]}`, 422, "sort", "events[0].args[0]"},
		{`{"time":6,"events":[{"name":"use","args":[1.5]}]}`, 422, "sort", "events[0].args[0]"},
		{`{"time":6,"events":[{"name":"use","args":[null]}]}`, 422, "sort", "events[0].args[0]"},
		{`{"time":6,"events":[{"name":"use","args":[{"a":1}]}]}`, 422, "sort", "events[0].args[0]"},
		{`{"time":6,"events":[{"name":"use","args":["` + long + `"]}]}`, 422, "too long", "events[0].args[0]"},
		{`{"time":6,"events":[{"name":"use","args":["\ud800"]}]}`, 422, "sort", "events[0].args[0]"},
		{`{"time":6,"id":"` + long[:65] + `","events":[]}`, 422, "too long", "id"},
		{`{"time":6,"id":7,"events":[]}`, 422, "sort", "id"},
		{`{"time":4,"events":[]}`, 422, "time", "time"},
		{`{"time":1000000000000001,"events":[]}`, 422, "time", "time"},
		{`{"time":-1,"events":[]}`, 422, "time", "time"},
		{`{"time":"6","events":[]}`, 422, "time", "time"},
		{`{"events":[]}`, 422, "time", "time"},
		{`{"time":6,"events":[` + strings.Join(many, ",") + `]}`, 422, "too long", "events"},
		{`{"time":6,"events":[{"args":["ann"]}]}`, 400, "form", "events[0]"},
		{`{"time":6,"event":[]}`, 400, "form", ""},
		{`{"time":6`, 400, "form", ""},
		{`{"time":6} {}`, 400, "form", ""},
		{``, 400, "form", ""},
		{"{\"time\":6,\"id\":\"\xff\"}", 400, "form", ""},
		{`{"time":6,"id":"` + strings.Repeat("x", 100000) + `"}`, 413, "too long", ""},
	} {
		var got struct{ Error, Place string }
		s.post("/v1/steps", test.body, test.status, &got)
		if got.Error != test.reason || got.Place != test.place {
			t.Errorf("%.80s: %+v", test.body, got)
		}
	}
	var answer answered
	s.post("/v1/steps", `{"time":6,"events":[{"name":"use","args":["ann"]},{"name":"use","args":["\ud83d\ude00"]},{"name":"use","args":["ann"]}]}`,
		http.StatusOK, &answer)
	if got := asLine(answer); got != `@6 use("ann");` || answer.Position != 1 {
		t.Errorf("%s at %d", got, answer.Position)
	}
	s.end()
	if kept := linesOf(t, filepath.Join(s.data, "quarantine.jsonl")); len(kept) != 24 {
		t.Errorf("%d requests are in quarantine", len(kept))
	}
}

// TestUnknownNames sees that unknown names pass beside the rules where they are to.
func TestUnknownNames(t *testing.T) {
	s := start(t, configure(t, map[string]any{"time": "caller", "unknown": "pass"}))
	var got struct{ Allowed, Beside []logtext.Event }
	s.post("/v1/steps", `{"time":6,"events":[{"name":"use","args":["ann"]},{"name":"buy","args":["ann",3]},{"name":"answer","args":["x"]}]}`,
		http.StatusOK, &got)
	if len(got.Allowed) != 1 || len(got.Beside) != 1 || got.Beside[0].String() != `buy("ann",3)` {
		t.Errorf("%+v", got)
	}
	s.post("/v1/steps", `{"time":6,"events":[{"name":"use","args":[3]}]}`, 422, nil)
}

// TestTokens sees what is open to whom.
func TestTokens(t *testing.T) {
	folder := t.TempDir()
	config := configure(t, map[string]any{
		"read_token_file": enftest.Write(t, folder, "read", "reading-token-0123456789\n"),
	})
	s := start(t, config)
	s.awaitReady()
	for _, test := range []struct {
		token, method, path string
		want                int
	}{
		{"", "POST", "/v1/steps", 401},
		{"reading-token-0123456789", "POST", "/v1/steps", 401},
		{"wrong", "POST", "/v1/orders/1/done", 401},
		{s.token, "POST", "/v1/orders/1/done", 404},
		{"", "GET", "/v1/pending", 401},
		{"wrong", "GET", "/metrics", 401},
		{"reading-token-0123456789", "GET", "/metrics", 200},
		{"reading-token-0123456789", "GET", "/v1/changes", 200},
		{s.token, "GET", "/v1/status", 200},
		{"", "GET", "/", 200},
		{"", "GET", "/healthz", 200},
		{"", "GET", "/readyz", 200},
		{s.token, "PUT", "/v1/steps", 405},
		{"", "GET", "/v1/steps?id=x", 401},
		{s.token, "GET", "/v1/steps?id=x", 404},
		{"", "GET", "/nothing", 404},
		{"", "POST", "/v1/ticks", 401},
		{"reading-token-0123456789", "POST", "/v1/ticks", 401},
		{"reading-token-0123456789", "POST", "/v1/orders/1/done", 401},
		{"", "POST", "/v1/try", 401},
		{"", "GET", "/v1/orders", 401},
		{"", "GET", "/v1/changes", 401},
		{"", "GET", "/v1/status", 401},
		{"", "GET", "/metrics", 401},
		{s.token[:20], "POST", "/v1/steps", 401},
		{s.token + "0", "POST", "/v1/steps", 401},
	} {
		request, err := http.NewRequest(test.method, s.url+test.path, strings.NewReader("{}"))
		if err != nil {
			t.Fatal(err)
		}
		request.Header.Set("Authorization", "Bearer "+test.token)
		response, err := http.DefaultClient.Do(request)
		if err != nil {
			t.Fatal(err)
		}
		response.Body.Close()
		if response.StatusCode != test.want {
			t.Errorf("%s %s with %q: %d in place of %d", test.method, test.path, test.token, response.StatusCode, test.want)
		}
	}
	s.end()
	if strings.Contains(s.log.String(), s.token) || strings.Contains(s.log.String(), "reading-token") {
		t.Error("the log holds a token")
	}
}

// TestForeignHost sees that a page of another site cannot have a browser read from the service.
func TestForeignHost(t *testing.T) {
	s := start(t, configure(t, map[string]any{"hosts": []string{"enfd.example"}}))
	for host, want := range map[string]int{"evil.example": 403, "enfd.example": 200, "localhost:1": 200, "[::1]:8787": 200} {
		request, err := http.NewRequest(http.MethodGet, s.url+"/v1/status", nil)
		if err != nil {
			t.Fatal(err)
		}
		request.Host = host
		response, err := http.DefaultClient.Do(request)
		if err != nil {
			t.Fatal(err)
		}
		response.Body.Close()
		if response.StatusCode != want {
			t.Errorf("%s: %d in place of %d", host, response.StatusCode, want)
		}
	}
}

// TestLimits sees that rate and streams have limits.
func TestLimits(t *testing.T) {
	s := start(t, configure(t, map[string]any{"rate": 1, "streams": 1}))
	refused := 0
	for i := 0; i < 20; i++ {
		status, _, err := s.send(http.DefaultClient, http.MethodPost, "/v1/steps", `{"events":[]}`)
		if err != nil {
			t.Fatal(err)
		}
		if status == http.StatusTooManyRequests {
			refused++
		}
	}
	if refused == 0 || refused > 19 {
		t.Errorf("%d of 20 requests were too many", refused)
	}
	first, err := http.Get(s.url + "/v1/orders")
	if err != nil {
		t.Fatal(err)
	}
	second, err := http.Get(s.url + "/v1/orders")
	if err != nil {
		t.Fatal(err)
	}
	second.Body.Close()
	if first.StatusCode != 200 || second.StatusCode != 503 {
		t.Errorf("streams: %d, %d", first.StatusCode, second.StatusCode)
	}
	first.Body.Close()
	for wait := time.Now().Add(10 * time.Second); ; time.Sleep(10 * time.Millisecond) {
		third, err := http.Get(s.url + "/v1/orders")
		if err != nil {
			t.Fatal(err)
		}
		third.Body.Close()
		if third.StatusCode == http.StatusOK {
			break
		}
		if time.Now().After(wait) {
			t.Fatal("a stream that has ended keeps its place")
		}
	}
	s.end()
}

// stream reads orders until so many came.
func stream(t *testing.T, s *service, query, last string, count int) []string {
	t.Helper()
	ctx, cancel := context.WithTimeout(context.Background(), 20*time.Second)
	defer cancel()
	request, err := http.NewRequestWithContext(ctx, http.MethodGet, s.url+"/v1/orders"+query, nil)
	if err != nil {
		t.Fatal(err)
	}
	request.Header.Set("Last-Event-ID", last)
	response, err := http.DefaultClient.Do(request)
	if err != nil {
		t.Fatal(err)
	}
	defer response.Body.Close()
	var got []string
	for lines := bufio.NewScanner(response.Body); len(got) < count && lines.Scan(); {
		var order struct {
			changes.Change
			Again bool
		}
		if data := strings.TrimPrefix(lines.Text(), "data: "); data != lines.Text() {
			if err := json.Unmarshal([]byte(data), &order); err != nil {
				t.Fatal(err)
			}
			got = append(got, fmt.Sprintf("%d %s again=%v for %s", order.Order, order.Event, order.Again, order.Origin.ID))
		}
	}
	return got
}

// TestOrders sees that orders come when they are due, again until they are done, and after a kill too.
func TestOrders(t *testing.T) {
	config := configure(t, map[string]any{"time": "caller", "redeliver": "300ms"})
	s := start(t, config)
	s.post("/v1/steps", `{"time":10,"id":"leak","events":[{"name":"breach","args":["bob"]},{"name":"breach","args":["cat"]}]}`, 200, nil)
	s.post("/v1/ticks", `{"time":13}`, 200, nil)
	var list struct{ Orders []changes.Change }
	if _, text, err := s.send(&http.Client{Transport: accepting("application/json")}, http.MethodGet, "/v1/orders", ""); err != nil ||
		json.Unmarshal(text, &list) != nil || len(list.Orders) != 0 {
		t.Errorf("before the clock has passed the deadline: %s, %v", text, err)
	}
	s.post("/v1/ticks", `{"time":14}`, 200, nil)
	want := []string{`1 notice("bob") again=false for leak`, `2 notice("cat") again=false for leak`}
	if got := stream(t, s, "", "", 2); fmt.Sprint(got) != fmt.Sprint(want) {
		t.Errorf("%q", got)
	}
	// In one stream they come again, and after a kill.
	if got := stream(t, s, "", "1", 4); fmt.Sprint(got) != fmt.Sprint([]string{
		`1 notice("bob") again=true for leak`, `2 notice("cat") again=false for leak`,
		`1 notice("bob") again=true for leak`, `2 notice("cat") again=true for leak`,
	}) {
		t.Errorf("%q", got)
	}
	s.kill()
	s = start(t, config)
	s.awaitReady()
	s.post("/v1/orders/1/done", "", 200, nil)
	s.post("/v1/orders/1/done", "", 200, nil)
	s.post("/v1/orders/3/done", "", 404, nil)
	s.post("/v1/orders/x/done", "", 404, nil)
	if got := stream(t, s, "", "", 1); fmt.Sprint(got) != fmt.Sprint(want[1:]) {
		t.Errorf("%q", got)
	}
	s.post("/v1/ticks", `{"time":30}`, 200, nil)
	if got := stream(t, s, "?name=reminder", "", 1); !strings.HasPrefix(got[0], `3 reminder("bob")`) {
		t.Errorf("%q", got)
	}
	s.end()
	s = start(t, config)
	if got := stream(t, s, "", "", 3); !strings.HasPrefix(got[0], "2 ") || !strings.HasPrefix(got[2], "4 ") {
		t.Errorf("%q", got)
	}
}

// TestAddedAtOnce sees that what is added to a request's own step stands in the answer and is an order.
func TestAddedAtOnce(t *testing.T) {
	s := start(t, configure(t, map[string]any{
		"policy": enftest.Write(t, t.TempDir(), "now.policy", `
			rule now: forall w. request(w) -> delete(w) and notice(w);
			rule hold: forall w. use(w) -> not once[0,*] delete(w);`),
	}))
	var got struct {
		Allowed        []logtext.Event
		Added, Removed []changes.Change
	}
	s.post("/v1/steps", `{"id":"r","events":[{"name":"request","args":["ann"]},{"name":"use","args":["ann"]}]}`, 200, &got)
	var words []string
	for _, event := range got.Allowed {
		words = append(words, event.String())
	}
	if fmt.Sprint(words) != `[request("ann") delete("ann") notice("ann")]` || len(got.Added) != 2 || len(got.Removed) != 1 ||
		got.Added[1].Order != 2 || got.Added[1].ID != "r" {
		t.Errorf("%v, %+v", words, got)
	}
	if orders := stream(t, s, "", "", 2); fmt.Sprint(orders) != `[1 delete("ann") again=false for r 2 notice("ann") again=false for r]` {
		t.Errorf("%q", orders)
	}
	s.end()
}

// accepting is a transport whose requests want one kind of answer.
type accepting string

func (a accepting) RoundTrip(r *http.Request) (*http.Response, error) {
	r.Header.Set("Accept", string(a))
	return http.DefaultTransport.RoundTrip(r)
}

// TestChanges sees the decision log in all its forms.
func TestChanges(t *testing.T) {
	s := start(t, configure(t, map[string]any{"time": "caller", "changes_kept": 3}))
	following, err := http.Get(s.url + "/v1/changes?follow=1")
	if err != nil {
		t.Fatal(err)
	}
	defer following.Body.Close()
	for i := 1; i <= 6; i++ {
		s.post("/v1/steps", fmt.Sprintf(`{"time":%d,"events":[{"name":"use","args":["u%d"]}]}`, i, i), 200, nil)
	}
	lines := bufio.NewScanner(following.Body)
	for i := 1; i <= 6 && lines.Scan(); i++ {
		if want := fmt.Sprintf(`{"n":%d,"kind":"suppress"`, i); !strings.HasPrefix(lines.Text(), want) {
			t.Errorf("%s in place of %s", lines.Text(), want)
		}
	}
	for query, want := range map[string]string{
		"": "4 5 6", "?limit=2": "5 6", "?after=4": "5 6", "?after=4&limit=1": "5", "?after=6": "",
	} {
		_, text, err := s.send(http.DefaultClient, http.MethodGet, "/v1/changes"+query, "")
		if err != nil {
			t.Fatal(err)
		}
		var got []string
		for _, line := range strings.Split(strings.TrimSpace(string(text)), "\n") {
			if line != "" {
				got = append(got, strings.TrimPrefix(strings.Split(line, ",")[0], `{"n":`))
			}
		}
		if strings.Join(got, " ") != want {
			t.Errorf("%s: %v in place of %s", query, got, want)
		}
	}
	s.call(http.MethodGet, "/v1/changes?after=1", "", http.StatusGone, nil)
	s.call(http.MethodGet, "/v1/changes?after=x", "", http.StatusBadRequest, nil)
	s.end()
	if _, err := io.ReadAll(following.Body); err != nil {
		t.Errorf("the stream does not end well: %v", err)
	}
}
