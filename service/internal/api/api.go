// Package api is the service's face: HTTP and JSON, server-sent events, and the page.
package api

import (
	"bytes"
	"context"
	"encoding/json"
	"errors"
	"net/http"
	"strconv"
	"strings"
	"sync"
	"time"

	"enfd/internal/changes"
	"enfd/internal/config"
	"enfd/internal/enforcement"
	"enfd/internal/eventlog"
	"enfd/internal/logtext"
	"enfd/internal/page"
	"enfd/internal/quarantine"

	"github.com/prometheus/client_golang/prometheus/promhttp"
)

// Options are the configuration, the words that open the service, and where it tells what happens.
type Options struct {
	config.Config
	Tokens     Tokens
	Log        *eventlog.Logger
	Quarantine *quarantine.Log
}

// Server answers requests.
type Server struct {
	options  Options
	enforcer *enforcement.Enforcer
	log      *eventlog.Logger
	rate     *bucket
	streams  chan struct{}
	looks    chan struct{} // taken by those who look at a state, each of which takes a process
	mux      *http.ServeMux

	ending   chan struct{}
	endsOnce sync.Once
}

// New makes a server for an enforcement.
func New(enforcer *enforcement.Enforcer, options Options) *Server {
	s := &Server{
		options: options, enforcer: enforcer, log: options.Log, rate: newBucket(options.Rate),
		streams: make(chan struct{}, options.Streams),
		looks:   make(chan struct{}, maxLooks), mux: http.NewServeMux(), ending: make(chan struct{}),
	}
	write, read := s.writes, s.reads
	ask, find := write(s.post(s.steps)), read(s.get(s.look(s.find)))
	s.mux.HandleFunc("/v1/steps", func(w http.ResponseWriter, r *http.Request) {
		if r.Method == http.MethodGet {
			find.ServeHTTP(w, r)
			return
		}
		ask.ServeHTTP(w, r)
	})
	s.mux.Handle("/v1/ticks", write(s.post(s.ticks)))
	s.mux.Handle("/v1/orders/", write(s.post(s.done)))
	s.mux.Handle("/v1/try", read(s.post(s.look(s.try))))
	s.mux.Handle("/v1/orders", read(s.get(s.orders)))
	s.mux.Handle("/v1/changes", read(s.get(s.changes)))
	s.mux.Handle("/v1/pending", read(s.get(s.look(s.pending))))
	s.mux.Handle("/v1/status", read(s.get(s.status)))
	s.mux.Handle("/metrics", read(promhttp.HandlerFor(enforcer.Metrics().Registry, promhttp.HandlerOpts{})))
	s.mux.Handle("/healthz", s.get(s.healthy))
	s.mux.Handle("/readyz", s.get(s.ready))
	s.mux.Handle("/", s.get(page.Handler().ServeHTTP))
	return s
}

// ServeHTTP answers a request.
func (s *Server) ServeHTTP(w http.ResponseWriter, r *http.Request) {
	w.Header().Set("X-Content-Type-Options", "nosniff")
	w.Header().Set("Cache-Control", "no-store")
	if conn := deadlines(r); conn != nil {
		// That of reading is for a body that nobody reads, as where a token is missing.
		_ = conn.SetDeadline(time.Now().Add(2 * s.options.Timeout.Duration))
	}
	s.mux.ServeHTTP(w, r)
}

// End ends the streams and says that the service is about to end.
func (s *Server) End() { s.endsOnce.Do(func() { close(s.ending) }) }

func (s *Server) isEnding() bool {
	select {
	case <-s.ending:
		return true
	default:
		return false
	}
}

func (s *Server) writes(next http.Handler) http.Handler {
	return http.HandlerFunc(func(w http.ResponseWriter, r *http.Request) {
		if !s.options.Tokens.mayWrite(r) {
			s.unauthorized(w)
			return
		}
		next.ServeHTTP(w, r)
	})
}

func (s *Server) reads(next http.Handler) http.Handler {
	return http.HandlerFunc(func(w http.ResponseWriter, r *http.Request) {
		if !s.options.Tokens.mayRead(r) {
			s.unauthorized(w)
			return
		}
		if s.options.Tokens.Read == "" && !s.isOwnHost(r) {
			s.fail(w, http.StatusForbidden, "host", "this service is not known by this name; add it to hosts")
			return
		}
		next.ServeHTTP(w, r)
	})
}

func (s *Server) unauthorized(w http.ResponseWriter) {
	w.Header().Set("WWW-Authenticate", "Bearer")
	s.fail(w, http.StatusUnauthorized, "token", "a token is wanted")
}

func (s *Server) post(next http.HandlerFunc) http.Handler { return method(http.MethodPost, next) }
func (s *Server) get(next http.HandlerFunc) http.Handler  { return method(http.MethodGet, next) }

// maxLooks is the number of requests that may wait for a look at a state.
const maxLooks = 16

func (s *Server) look(next http.HandlerFunc) http.HandlerFunc {
	return func(w http.ResponseWriter, r *http.Request) {
		select {
		case s.looks <- struct{}{}:
			defer func() { <-s.looks }()
			next(w, r)
		default:
			s.turnAway(w, http.StatusServiceUnavailable, "busy", "too many are looking at the state")
		}
	}
}

func method(name string, next http.HandlerFunc) http.Handler {
	return http.HandlerFunc(func(w http.ResponseWriter, r *http.Request) {
		if r.Method != name && !(name == http.MethodGet && r.Method == http.MethodHead) {
			w.Header().Set("Allow", name)
			http.Error(w, name+" is wanted", http.StatusMethodNotAllowed)
			return
		}
		next(w, r)
	})
}

// problem is the body of an answer that is none.
type problem struct {
	Error  string `json:"error"`
	Place  string `json:"place,omitempty"`
	Detail string `json:"detail"`
}

func (s *Server) fail(w http.ResponseWriter, status int, reason, detail string) {
	s.answer(w, status, problem{Error: reason, Detail: detail})
}

func (s *Server) answer(w http.ResponseWriter, status int, body any) {
	var text bytes.Buffer
	encoder := json.NewEncoder(&text)
	// The rules have arrows; what shows them as HTML escapes them itself.
	encoder.SetEscapeHTML(false)
	if err := encoder.Encode(body); err != nil {
		s.log.Error("an answer cannot be written", "error", err)
		http.Error(w, "internal fault", http.StatusInternalServerError)
		return
	}
	w.Header().Set("Content-Type", "application/json")
	w.WriteHeader(status)
	// Who has gone away gets no answer.
	_, _ = w.Write(text.Bytes())
}

// refuse answers a request that is not accepted, and puts it aside.
func (s *Server) refuse(w http.ResponseWriter, r *http.Request, why *refusal, body []byte) {
	s.enforcer.Metrics().Quarantined.WithLabelValues(why.reason).Inc()
	if err := s.options.Quarantine.Put(r.RemoteAddr, why.reason+": "+why.detail, why.place, body); err != nil {
		s.log.Error("a refused request cannot be kept", "error", err)
	}
	s.answer(w, why.status, problem{Error: why.reason, Place: why.place, Detail: why.detail})
}

// decision is the answer to a step.
type decision struct {
	Time     int64            `json:"time"`
	Position uint64           `json:"position"`
	ID       string           `json:"id,omitempty"`
	Allowed  []logtext.Event  `json:"allowed"`
	Removed  []changes.Change `json:"removed"`
	Added    []changes.Change `json:"added"`
	Beside   []logtext.Event  `json:"beside,omitempty"`
}

func decisionOf(d enforcement.Decision, beside []logtext.Event) (decision, error) {
	out := decision{
		Time: d.Time, Position: d.Position, ID: d.ID, Beside: beside,
		Allowed: []logtext.Event{}, Removed: []changes.Change{}, Added: []changes.Change{},
	}
	for _, text := range d.Events {
		event, err := logtext.ParseEvent(text)
		if err != nil {
			return decision{}, err
		}
		out.Allowed = append(out.Allowed, event)
	}
	for _, change := range d.Changes {
		if change.Kind == logtext.Suppress {
			out.Removed = append(out.Removed, change)
		} else {
			out.Added = append(out.Added, change)
		}
	}
	return out, nil
}

// ask reads what is asked, or answers that it is not accepted.
func (s *Server) ask(w http.ResponseWriter, r *http.Request) (asked, []byte, bool) {
	body, why := s.body(w, r)
	var step asked
	if why == nil {
		step, why = s.decode(body)
	}
	if why != nil {
		s.refuse(w, r, why, body)
		return asked{}, nil, false
	}
	return step, body, true
}

func (s *Server) steps(w http.ResponseWriter, r *http.Request) {
	if !s.rate.take(time.Now()) {
		s.turnAway(w, http.StatusTooManyRequests, "rate", "more steps than the rate permits")
		return
	}
	step, body, ok := s.ask(w, r)
	if !ok {
		return
	}
	if s.options.CallerTime() && step.time == nil {
		s.refuse(w, r, &refusal{422, reasonTime, "time", "the caller says the time here"}, body)
		return
	}
	ctx, cancel := context.WithTimeout(r.Context(), s.options.Timeout.Duration)
	defer cancel()
	decided, err := s.enforcer.Decide(ctx, enforcement.Step{Events: step.events, ID: step.id, Time: step.time})
	if err != nil {
		s.undecided(w, r, err, body)
		return
	}
	out, err := decisionOf(decided, step.beside)
	if err != nil {
		s.log.Error("a decision cannot be read", "error", err)
		s.fail(w, http.StatusInternalServerError, "internal", "the decision cannot be read")
		return
	}
	s.answer(w, http.StatusOK, out)
}

// find says what became of a step, for who got no answer.
func (s *Server) find(w http.ResponseWriter, r *http.Request) {
	decided, err := s.enforcer.Find(r.URL.Query().Get("id"))
	var out decision
	if err == nil {
		out, err = decisionOf(decided, nil)
	}
	switch {
	case errors.Is(err, enforcement.ErrNoStep):
		s.fail(w, http.StatusNotFound, "id", err.Error())
	case errors.Is(err, enforcement.ErrUndecided):
		s.turnAway(w, http.StatusServiceUnavailable, "undecided", err.Error())
	case err != nil:
		s.undecided(w, r, err, nil)
	default:
		s.answer(w, http.StatusOK, out)
	}
}

// undecided answers a request that was not decided.
func (s *Server) undecided(w http.ResponseWriter, r *http.Request, err error, body []byte) {
	switch {
	case errors.Is(err, enforcement.ErrTimeFalls), errors.Is(err, enforcement.ErrTimeLarge):
		s.refuse(w, r, &refusal{422, reasonTime, "time", err.Error()}, body)
	case errors.Is(err, enforcement.ErrTooLong), errors.Is(err, enforcement.ErrTooMany):
		s.refuse(w, r, &refusal{422, reasonLong, "events", err.Error()}, body)
	case errors.Is(err, enforcement.ErrBusy):
		s.turnAway(w, http.StatusServiceUnavailable, "busy", err.Error())
	case errors.Is(err, enforcement.ErrNotStored):
		s.turnAway(w, http.StatusServiceUnavailable, "journal", err.Error())
	case errors.Is(err, enforcement.ErrStopped):
		s.turnAway(w, http.StatusServiceUnavailable, "ending", err.Error())
	case errors.Is(err, context.DeadlineExceeded), errors.Is(err, context.Canceled), errors.Is(err, enforcement.ErrInDoubt):
		s.enforcer.Metrics().Rejected.WithLabelValues("timeout").Inc()
		s.fail(w, http.StatusGatewayTimeout, "timeout", "there is no answer; the step may have been kept, and then it is decided")
	default:
		s.log.Error("a request failed", "error", err)
		s.fail(w, http.StatusInternalServerError, "internal", "see the log of the service")
	}
}

// turnAway answers who is to come again.
func (s *Server) turnAway(w http.ResponseWriter, status int, reason, detail string) {
	s.enforcer.Metrics().Rejected.WithLabelValues(reason).Inc()
	w.Header().Set("Retry-After", "1")
	s.fail(w, status, reason, detail)
}

func (s *Server) ticks(w http.ResponseWriter, r *http.Request) {
	step, body, ok := s.ask(w, r)
	if !ok {
		return
	}
	if step.time == nil || len(step.events)+len(step.beside) > 0 {
		s.refuse(w, r, &refusal{422, reasonTime, "time", "a tick has a time and nothing else"}, body)
		return
	}
	ctx, cancel := context.WithTimeout(r.Context(), s.options.Timeout.Duration)
	defer cancel()
	time, err := s.enforcer.Tick(ctx, *step.time)
	if err != nil {
		s.undecided(w, r, err, body)
		return
	}
	s.answer(w, http.StatusOK, map[string]int64{"time": time})
}

func (s *Server) try(w http.ResponseWriter, r *http.Request) {
	body, why := s.body(w, r)
	var step asked
	if why == nil {
		step, why = s.decode(body)
	}
	if why != nil {
		// What is only tried needs nobody to look at.
		s.answer(w, why.status, problem{Error: why.reason, Place: why.place, Detail: why.detail})
		return
	}
	ctx, cancel := context.WithTimeout(r.Context(), s.options.Timeout.Duration)
	defer cancel()
	decisions, err := s.enforcer.Try(ctx, enforcement.Step{Events: step.events, ID: step.id, Time: step.time})
	if errors.Is(err, enforcement.ErrTimeFalls) || errors.Is(err, enforcement.ErrTimeLarge) {
		s.answer(w, 422, problem{Error: reasonTime, Place: "time", Detail: err.Error()})
		return
	}
	if err != nil {
		s.undecided(w, r, err, body)
		return
	}
	steps := make([]decision, 0, len(decisions))
	for i, each := range decisions {
		beside := step.beside
		if i+1 < len(decisions) {
			beside = nil
		}
		out, err := decisionOf(each, beside)
		if err != nil {
			s.undecided(w, r, err, body)
			return
		}
		steps = append(steps, out)
	}
	s.answer(w, http.StatusOK, map[string]any{"steps": steps})
}

func (s *Server) done(w http.ResponseWriter, r *http.Request) {
	id := strings.TrimSuffix(strings.TrimPrefix(r.URL.Path, "/v1/orders/"), "/done")
	number, err := strconv.ParseUint(id, 10, 64)
	if err != nil || !strings.HasSuffix(r.URL.Path, "/done") {
		s.fail(w, http.StatusNotFound, "path", "/v1/orders/NUMBER/done is wanted")
		return
	}
	if err := s.enforcer.Done(number); err != nil {
		if errors.Is(err, enforcement.ErrUnknownOrder) && !s.enforcer.Ready() {
			s.turnAway(w, http.StatusServiceUnavailable, "starting", "the orders are not all known yet")
			return
		}
		if errors.Is(err, enforcement.ErrUnknownOrder) {
			s.fail(w, http.StatusNotFound, "order", "there is no such order")
			return
		}
		s.log.Error("an acknowledgement cannot be kept", "error", err)
		s.turnAway(w, http.StatusServiceUnavailable, "journal", "the acknowledgement cannot be kept")
		return
	}
	s.answer(w, http.StatusOK, map[string]uint64{"done": number})
}

func (s *Server) pending(w http.ResponseWriter, r *http.Request) {
	ctx, cancel := context.WithTimeout(r.Context(), s.options.Timeout.Duration)
	defer cancel()
	list, err := s.enforcer.Pending(ctx)
	if err != nil {
		s.undecided(w, r, err, nil)
		return
	}
	s.answer(w, http.StatusOK, list)
}

func (s *Server) status(w http.ResponseWriter, _ *http.Request) {
	s.answer(w, http.StatusOK, struct {
		enforcement.Status
		Unit       string           `json:"unit"`
		CallerTime bool             `json:"caller_time"`
		Latest     []changes.Change `json:"latest"`
	}{
		s.enforcer.Status(), s.options.Unit.String(), s.options.CallerTime(), s.enforcer.Changes().Latest(20),
	})
}

func (s *Server) healthy(w http.ResponseWriter, _ *http.Request) {
	s.answer(w, http.StatusOK, map[string]bool{"alive": true})
}

func (s *Server) ready(w http.ResponseWriter, _ *http.Request) {
	if s.isEnding() || !s.enforcer.Ready() {
		s.answer(w, http.StatusServiceUnavailable, map[string]bool{"ready": false})
		return
	}
	s.answer(w, http.StatusOK, map[string]bool{"ready": true})
}
