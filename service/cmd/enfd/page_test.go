package main

import (
	"context"
	"net/url"
	"os"
	"os/exec"
	"path/filepath"
	"strings"
	"testing"
	"time"
)

// browser gives a headless Chromium; where there is none the test is skipped.
func browser(t *testing.T) string {
	t.Helper()
	for _, name := range []string{"chromium-headless-shell", "chromium", "chromium-browser", "google-chrome"} {
		if path, err := exec.LookPath(name); err == nil {
			return path
		}
	}
	t.Skip("no Chromium is here")
	return ""
}

// browse opens a page, lets it work for a while and gives what it shows then, or leaves a picture of it.
func browse(t *testing.T, url string, flags ...string) string {
	t.Helper()
	ctx, cancel := context.WithTimeout(context.Background(), 2*time.Minute)
	defer cancel()
	args := append([]string{
		"--headless", "--no-sandbox", "--disable-gpu", "--hide-scrollbars", "--window-size=1100,1180",
		"--user-data-dir=" + t.TempDir(), "--virtual-time-budget=6000",
	}, flags...)
	out, err := exec.CommandContext(ctx, browser(t), append(args, url)...).Output()
	if err != nil {
		t.Fatalf("the browser: %v", err)
	}
	return string(out)
}

// TestPage looks at the page in a real browser, with an event whose value is HTML. ENFD_SCREENSHOT names a file for a
// picture of it.
func TestPage(t *testing.T) {
	browser(t)
	s := start(t, configure(t, map[string]any{"time": "caller", "unit": "24h"}))
	for _, body := range []string{
		`{"time":20400,"id":"signup-1","events":[{"name":"consent","args":["ann"]},{"name":"consent","args":["bob"]}]}`,
		`{"time":20402,"id":"mail-77","events":[{"name":"use","args":["ann"]},{"name":"use","args":["eve"]}]}`,
		`{"time":20405,"id":"ticket-5","events":[{"name":"request","args":["ann"]}]}`,
		`{"time":20406,"id":"mail-78","events":[{"name":"use","args":["ann"]},{"name":"use","args":["bob"]}]}`,
		`{"time":20410,"id":"incident-2","events":[{"name":"breach","args":["bob"]},{"name":"breach","args":["cat"]}]}`,
		`{"time":20415,"id":"mail-79","events":[{"name":"use","args":["<img src=x onerror=\"document.title='broken'\">"]}]}`,
	} {
		s.post("/v1/steps", body, 200, nil)
	}
	try := url.PathEscape(`{"time":20421,"events":[{"name":"use","args":["ann"]},{"name":"consent","args":["<b>dan"]}]}`)
	shown := browse(t, s.url+"/#try="+try, "--dump-dom")
	for _, want := range []string{
		">ready<", "erase: person = \"ann\"", "remind: person = \"bob\"", "taken out", "notice(\"cat\")", "incident-2",
		"20 d left", "&lt;img src=x onerror=", "done       consent(\"&lt;b&gt;dan\")", "taken out  use(\"ann\") by rule erase",
		"added      reminder(\"bob\") by rule remind",
	} {
		if !strings.Contains(shown, want) {
			t.Errorf("the page does not show %q", want)
		}
	}
	if strings.Contains(shown, "<img") || strings.Contains(shown, "<b>") || strings.Contains(shown, "<title>broken") {
		t.Error("a value became a part of the page")
	}
	if t.Failed() {
		t.Log(shown)
	}
	if path := os.Getenv("ENFD_SCREENSHOT"); path != "" {
		absolute, err := filepath.Abs(path)
		if err != nil {
			t.Fatal(err)
		}
		browse(t, s.url+"/#try="+try, "--screenshot="+absolute)
	}
	s.end()
}
