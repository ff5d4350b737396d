package api

import (
	"fmt"
	"io"
	"net"
	"net/http"
	"net/http/httptest"
	"strings"
	"testing"
	"time"

	"enfd/internal/config"
	"enfd/internal/enforcement"
	"enfd/internal/enftest"
	"enfd/internal/eventlog"
)

// server makes a server over an enforcement that does not run.
func server(t testing.TB, options Options) *Server {
	t.Helper()
	options.Config = config.Default()
	options.Program, options.Data = enftest.Program(t), t.TempDir()
	options.Signature, options.Policy = enftest.Example("access/access.sig"), enftest.Example("access/access.policy")
	options.Waiting, options.Streams, options.Timeout = 1, 1, config.Duration{Duration: 50 * time.Millisecond}
	e, err := enforcement.Open(enforcement.Options{
		Config: options.Config, Now: time.Now, Log: eventlog.New(&strings.Builder{}),
	})
	if err != nil {
		t.Fatal(err)
	}
	return New(e, options)
}

func TestStrings(t *testing.T) {
	for _, test := range []struct {
		raw  string
		want string
		ok   bool
	}{
		{`"ann"`, "ann", true},
		{`"\ud83d\ude00"`, "😀", true},
		{`"\ufffd"`, "\ufffd", true},
		{`"�"`, "\ufffd", true},
		{`"\\ud800 \ufffd"`, `\ud800 ` + "\ufffd", true},
		{`"\ud800"`, "", false},
		{`"\udc00"`, "", false},
		{`"\ud800\ud800"`, "", false},
		{`"\ud800x"`, "", false},
		{`"\ud83d\ude00\ud83d"`, "", false},
		{`3`, "", false},
		{`null`, "", false},
	} {
		if got, ok := stringOf([]byte(test.raw)); got != test.want || ok != test.ok {
			t.Errorf("%s: %q, %v", test.raw, got, ok)
		}
	}
}

func TestValues(t *testing.T) {
	for raw, want := range map[string]string{
		`0`: "0", `-0`: "0", `9223372036854775807`: "9223372036854775807", `-9223372036854775808`: "-9223372036854775808",
		`"1"`: `"1"`, `9223372036854775808`: "", `1.0`: "", `1e3`: "", `true`: "", `null`: "", `[]`: "", `{}`: "", `"\ud800"`: "",
	} {
		value, why := valueOf([]byte(raw))
		if (why == "") != (want != "") || why == "" && string(value.Append(nil)) != want {
			t.Errorf("%s: %s, %s", raw, value.Append(nil), why)
		}
	}
}

func TestBucket(t *testing.T) {
	now := time.Unix(1000, 0)
	b := newBucket(2)
	var got []bool
	for _, pause := range []time.Duration{0, 0, 0, 500 * time.Millisecond, 0, time.Hour, 0, 0} {
		now = now.Add(pause)
		got = append(got, b.take(now))
	}
	want := []bool{true, true, false, true, false, true, true, false}
	for i := range want {
		if got[i] != want[i] {
			t.Fatalf("%v in place of %v", got, want)
		}
	}
	if slow := newBucket(0.5); !slow.take(now) || slow.take(now.Add(time.Second)) || !slow.take(now.Add(2*time.Second)) {
		t.Error("a rate of one in two seconds is not that")
	}
	if unlimited := newBucket(0); !unlimited.take(now) || !unlimited.take(now) {
		t.Error("a rate of 0 is no limit")
	}
}

// TestNotRunning asks a service whose enforcement does not run: the first request waits, the next finds no room.
func TestNotRunning(t *testing.T) {
	s := server(t, Options{Tokens: Tokens{Write: "token-for-writes"}, Log: eventlog.New(&strings.Builder{})})
	for _, want := range []int{http.StatusGatewayTimeout, http.StatusServiceUnavailable} {
		request := httptest.NewRequest(http.MethodPost, "/v1/steps", strings.NewReader(`{"events":[]}`))
		request.Header.Set("Authorization", "Bearer token-for-writes")
		recorder := httptest.NewRecorder()
		s.ServeHTTP(recorder, request)
		if recorder.Code != want {
			t.Errorf("%d in place of %d: %s", recorder.Code, want, recorder.Body)
		}
	}
	recorder := httptest.NewRecorder()
	s.ServeHTTP(recorder, httptest.NewRequest(http.MethodGet, "/readyz", nil))
	if recorder.Code != http.StatusServiceUnavailable {
		t.Errorf("it is ready: %d", recorder.Code)
	}
}

// TestSlowPeers sees that who sends no body is cut off, also without a token, and that a stream is not.
func TestSlowPeers(t *testing.T) {
	s := server(t, Options{Tokens: Tokens{Write: "token-for-writes"}, Log: eventlog.New(&strings.Builder{})})
	web := httptest.NewUnstartedServer(s)
	web.Config.ConnContext = ConnContext
	web.Start()
	defer web.Close()
	defer s.End()
	for _, head := range []string{"POST /v1/steps HTTP/1.1\r\n", "GET /healthz HTTP/1.1\r\n"} {
		conn, err := net.Dial("tcp", web.Listener.Addr().String())
		if err != nil {
			t.Fatal(err)
		}
		fmt.Fprint(conn, head+"Host: localhost\r\nContent-Length: 100\r\n\r\n")
		_ = conn.SetReadDeadline(time.Now().Add(10 * time.Second))
		if _, err := io.ReadAll(conn); err != nil {
			t.Errorf("%q: it is not cut off: %v", head, err)
		}
		conn.Close()
	}
	stream, err := http.Get(web.URL + "/v1/orders")
	if err != nil {
		t.Fatal(err)
	}
	defer stream.Body.Close()
	time.AfterFunc(300*time.Millisecond, s.End)
	begun := time.Now()
	text, err := io.ReadAll(stream.Body)
	if err != nil || time.Since(begun) < 200*time.Millisecond {
		t.Errorf("the stream ended after %v with %q, %v", time.Since(begun), text, err)
	}
}

func BenchmarkDecode(b *testing.B) {
	s := server(b, Options{})
	body := []byte(`{"id":"req-77","events":[{"name":"enter","args":["ada","lab"]},{"name":"login","args":["bob"]}]}`)
	b.ReportAllocs()
	for i := 0; i < b.N; i++ {
		if _, why := s.decode(body); why != nil {
			b.Fatal(why)
		}
	}
}
