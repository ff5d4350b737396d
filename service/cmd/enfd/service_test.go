package main

import (
	"bufio"
	"bytes"
	"encoding/json"
	"fmt"
	"io"
	"net/http"
	"os"
	"os/exec"
	"path/filepath"
	"runtime/pprof"
	"strings"
	"sync"
	"syscall"
	"testing"
	"time"

	"enfd/internal/enftest"
)

// asService is set where this test's binary is to be the service itself.
const asService = "ENFD_TEST_AS_SERVICE"

func TestMain(m *testing.M) {
	if os.Getenv(asService) != "" {
		if path := os.Getenv("ENFD_PROFILE"); path != "" {
			defer profile(path)()
		}
		main()
		return
	}
	os.Exit(m.Run())
}

// profile writes where the service's processor time goes, and gives what ends that.
func profile(path string) func() {
	file, err := os.Create(path)
	if err != nil {
		panic(err)
	}
	if err := pprof.StartCPUProfile(file); err != nil {
		panic(err)
	}
	return func() {
		pprof.StopCPUProfile()
		file.Close()
	}
}

// service is a running enfd.
type service struct {
	t       testing.TB
	command *exec.Cmd
	url     string
	token   string
	data    string
	log     *lockedBuffer
	ended   chan struct{}
	err     error
}

// lockedBuffer is a buffer for a writer and a reader.
type lockedBuffer struct {
	mu     sync.Mutex
	buffer bytes.Buffer
}

func (b *lockedBuffer) Write(p []byte) (int, error) {
	b.mu.Lock()
	defer b.mu.Unlock()
	return b.buffer.Write(p)
}

func (b *lockedBuffer) String() string {
	b.mu.Lock()
	defer b.mu.Unlock()
	return b.buffer.String()
}

// configure writes a configuration over the values that tests want, and gives its path.
func configure(t testing.TB, fields map[string]any) string {
	t.Helper()
	folder := t.TempDir()
	all := map[string]any{
		"program": enftest.Program(t), "data": "data", "listen": "127.0.0.1:0",
		"signature": enftest.Example("data/data.sig"), "policy": enftest.Example("data/data.policy"),
	}
	for name, value := range fields {
		all[name] = value
	}
	text, err := json.Marshal(all)
	if err != nil {
		t.Fatal(err)
	}
	return enftest.Write(t, folder, "enfd.json", string(text))
}

// start starts the service and waits until it listens.
func start(t testing.TB, config string) *service {
	t.Helper()
	s := &service{
		t: t, data: filepath.Join(filepath.Dir(config), "data"), log: &lockedBuffer{}, ended: make(chan struct{}),
	}
	s.command = exec.Command(os.Args[0], "-config", config)
	s.command.Env = append(os.Environ(), asService+"=1")
	s.command.SysProcAttr = &syscall.SysProcAttr{Setpgid: true}
	errOut, err := s.command.StderrPipe()
	if err != nil {
		t.Fatal(err)
	}
	if err := s.command.Start(); err != nil {
		t.Fatal(err)
	}
	listens := make(chan string, 1)
	go func() {
		defer close(s.ended)
		lines := bufio.NewScanner(errOut)
		lines.Buffer(nil, 1<<20)
		for lines.Scan() {
			fmt.Fprintln(s.log, lines.Text())
			var line struct{ Msg, Address string }
			if json.Unmarshal(lines.Bytes(), &line) == nil && line.Msg == "enfd listens" {
				listens <- line.Address
			}
		}
		s.err = s.command.Wait()
	}()
	t.Cleanup(func() {
		s.kill()
		if t.Failed() {
			t.Logf("the service's log:\n%s", tail(s.log.String(), 40))
		}
	})
	select {
	case address := <-listens:
		s.url = "http://" + address
	case <-s.ended:
		t.Fatalf("the service ended: %v\n%s", s.err, s.log)
	case <-time.After(30 * time.Second):
		t.Fatalf("the service does not listen\n%s", s.log)
	}
	token, err := os.ReadFile(filepath.Join(s.data, "token"))
	if err != nil {
		t.Fatal(err)
	}
	s.token = strings.TrimSpace(string(token))
	return s
}

func tail(text string, lines int) string {
	all := strings.Split(strings.TrimSpace(text), "\n")
	if len(all) > lines {
		all = all[len(all)-lines:]
	}
	return strings.Join(all, "\n")
}

// kill kills the service as kill -9 does.
func (s *service) kill() {
	_ = s.command.Process.Kill()
	<-s.ended
}

// end ends the service as systemd does, and fails where its status is not 0.
func (s *service) end() {
	s.t.Helper()
	s.endBy(s.command.Process.Pid, syscall.SIGTERM)
}

// endBy ends the service by a signal to a process, or to a group where the number is below 0.
func (s *service) endBy(pid int, signal syscall.Signal) {
	s.t.Helper()
	if err := syscall.Kill(pid, signal); err != nil {
		s.t.Fatal(err)
	}
	select {
	case <-s.ended:
	case <-time.After(60 * time.Second):
		s.t.Fatalf("the service does not end\n%s", s.log)
	}
	if s.err != nil {
		s.t.Fatalf("the service ended with %v\n%s", s.err, s.log)
	}
}

// send makes a request with the token of writes and gives the status and the body.
func (s *service) send(client *http.Client, method, path, body string) (int, []byte, error) {
	request, err := http.NewRequest(method, s.url+path, strings.NewReader(body))
	if err != nil {
		return 0, nil, err
	}
	request.Header.Set("Authorization", "Bearer "+s.token)
	response, err := client.Do(request)
	if err != nil {
		return 0, nil, err
	}
	defer response.Body.Close()
	text, err := io.ReadAll(response.Body)
	return response.StatusCode, text, err
}

// post makes a request and fails where its status is another one. The answer is read into a value where there is one.
func (s *service) post(path, body string, status int, into any) {
	s.t.Helper()
	s.call(http.MethodPost, path, body, status, into)
}

func (s *service) get(path string, into any) {
	s.t.Helper()
	s.call(http.MethodGet, path, "", http.StatusOK, into)
}

func (s *service) call(method, path, body string, status int, into any) {
	s.t.Helper()
	got, text, err := s.send(http.DefaultClient, method, path, body)
	if err != nil {
		s.t.Fatalf("%s %s: %v", method, path, err)
	}
	if got != status {
		s.t.Fatalf("%s %s %s: status %d in place of %d: %s", method, path, body, got, status, text)
	}
	if into != nil {
		if err := json.Unmarshal(text, into); err != nil {
			s.t.Fatalf("%s %s: %v: %s", method, path, err, text)
		}
	}
}

// awaitReady waits until requests are decided.
func (s *service) awaitReady() {
	s.t.Helper()
	for end := time.Now().Add(30 * time.Second); time.Now().Before(end); time.Sleep(5 * time.Millisecond) {
		if status, _, err := s.send(http.DefaultClient, http.MethodGet, "/readyz", ""); err == nil && status == 200 {
			return
		}
	}
	s.t.Fatal("the service is not ready")
}
