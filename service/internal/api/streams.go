package api

import (
	"encoding/json"
	"fmt"
	"net/http"
	"strconv"
	"strings"
	"time"

	"enfd/internal/changes"
)

const (
	// streamBatch is the number of orders or changes that are written at once.
	streamBatch = 500
	// keepAlive is the pause after which a stream says that it lives.
	keepAlive = 15 * time.Second
)

// stream is an answer that goes on.
type stream struct {
	server  *Server
	w       http.ResponseWriter
	flusher http.Flusher
	r       *http.Request
}

// open begins a stream where one more is permitted. close must be called.
func (s *Server) open(w http.ResponseWriter, r *http.Request, kind string) (st *stream, ok bool) {
	flusher, can := w.(http.Flusher)
	if !can {
		s.fail(w, http.StatusInternalServerError, "internal", "no streams here")
		return nil, false
	}
	select {
	case s.streams <- struct{}{}:
	default:
		s.turnAway(w, http.StatusServiceUnavailable, "streams", "too many streams are open")
		return nil, false
	}
	s.enforcer.Metrics().Streams.Inc()
	if conn := deadlines(r); conn != nil {
		_ = conn.SetReadDeadline(time.Time{})
	}
	w.Header().Set("Content-Type", kind)
	w.WriteHeader(http.StatusOK)
	return &stream{server: s, w: w, flusher: flusher, r: r}, true
}

func (st *stream) close() {
	st.moveDeadline()
	<-st.server.streams
	st.server.enforcer.Metrics().Streams.Dec()
}

// moveDeadline gives the peer its time to take what is written next, the end of the stream too.
func (st *stream) moveDeadline() {
	if conn := deadlines(st.r); conn != nil {
		_ = conn.SetWriteDeadline(time.Now().Add(2 * st.server.options.Timeout.Duration))
	}
}

// write gives the peer some bytes, and says whether it is there still.
func (st *stream) write(text []byte) bool {
	st.moveDeadline()
	if _, err := st.w.Write(text); err != nil {
		return false
	}
	st.flusher.Flush()
	return true
}

// wait waits for more, and says what came: more, silence for a while, or the end.
func (st *stream) wait(more <-chan struct{}, pause time.Duration) (silent, end bool) {
	timer := time.NewTimer(pause)
	defer timer.Stop()
	select {
	case <-more:
		return false, false
	case <-timer.C:
		return true, false
	case <-st.r.Context().Done():
		return false, true
	case <-st.server.ending:
		return false, true
	}
}

// wanted says whether an order is among those that are asked for.
func wanted(names []string, order changes.Change) bool {
	if len(names) == 0 {
		return true
	}
	for _, name := range names {
		if order.Event.Name == name {
			return true
		}
	}
	return false
}

func (s *Server) orders(w http.ResponseWriter, r *http.Request) {
	names := r.URL.Query()["name"]
	if strings.Contains(r.Header.Get("Accept"), "application/json") {
		s.listOrders(w, names)
		return
	}
	st, ok := s.open(w, r, "text/event-stream")
	if !ok {
		return
	}
	defer st.close()
	if !st.write([]byte(": orders\n\n")) {
		return
	}
	// An order that was sent before counts as sent again; without this header all are new to the peer.
	before, _ := strconv.ParseUint(r.Header.Get("Last-Event-ID"), 10, 64)
	var sent uint64
	begun := time.Now()
	for {
		open, more := s.enforcer.Orders().After(sent, streamBatch)
		var text []byte
		for _, order := range open {
			sent = order.Order
			if wanted(names, order) {
				text = appendOrder(text, order, order.Order <= before)
				s.enforcer.Metrics().OrdersSent.Inc()
			}
		}
		if len(text) > 0 && !st.write(text) {
			return
		}
		if sent > before {
			before = sent
		}
		if len(open) == streamBatch {
			continue
		}
		pause := keepAlive
		if left := s.options.Redeliver.Duration - time.Since(begun); s.options.Redeliver.Duration > 0 && left < pause {
			pause = left
		}
		silent, end := st.wait(more, pause)
		if end || silent && !st.write([]byte(": alive\n\n")) {
			return
		}
		if s.options.Redeliver.Duration > 0 && time.Since(begun) >= s.options.Redeliver.Duration {
			// What is open still is sent again: the peer may have lost it.
			begun, sent = time.Now(), 0
		}
	}
}

// order is what a consumer of orders reads.
type order struct {
	changes.Change
	Again bool `json:"again"` // whether it was sent before, as far as this stream knows
}

func appendOrder(text []byte, change changes.Change, again bool) []byte {
	data, err := json.Marshal(order{change, again})
	if err != nil {
		return text
	}
	text = append(text, fmt.Sprintf("id: %d\nevent: order\ndata: ", change.Order)...)
	return append(append(text, data...), '\n', '\n')
}

func (s *Server) listOrders(w http.ResponseWriter, names []string) {
	list := []changes.Change{}
	for sent := uint64(0); ; {
		open, _ := s.enforcer.Orders().After(sent, streamBatch)
		for _, each := range open {
			sent = each.Order
			if wanted(names, each) {
				list = append(list, each)
			}
		}
		if len(open) < streamBatch {
			break
		}
	}
	s.answer(w, http.StatusOK, map[string]any{"orders": list})
}

func (s *Server) changes(w http.ResponseWriter, r *http.Request) {
	query := r.URL.Query()
	after, limit := uint64(0), 1000
	for key, set := range map[string]func(uint64){
		"after": func(n uint64) { after = n },
		"limit": func(n uint64) { limit = int(n) },
	} {
		if text := query.Get(key); text != "" {
			number, err := strconv.ParseUint(text, 10, 62)
			if err != nil {
				s.fail(w, http.StatusBadRequest, "query", key+" is no number")
				return
			}
			set(number)
		}
	}
	given := query.Get("after") != ""
	if latest := s.enforcer.Changes().Latest(limit); !given && len(latest) > 0 {
		after = latest[len(latest)-1].N - 1
	}
	list, least, _ := s.enforcer.Changes().After(after, limit)
	if after+1 < least {
		if given {
			s.fail(w, http.StatusGone, "gone", fmt.Sprintf("the changes before %d are in the reports of the archive", least))
			return
		}
		after = least - 1
	}
	if query.Get("follow") == "" {
		w.Header().Set("Content-Type", "application/x-ndjson")
		_, _ = w.Write(changes.Lines(list))
		return
	}
	st, ok := s.open(w, r, "application/x-ndjson")
	if !ok {
		return
	}
	defer st.close()
	for {
		list, least, more := s.enforcer.Changes().After(after, streamBatch)
		if after+1 < least {
			// Who reads so slowly that some are gone comes again, and is told so.
			return
		}
		if len(list) > 0 {
			after = list[len(list)-1].N
		}
		if !st.write(changes.Lines(list)) {
			return
		}
		if len(list) == streamBatch {
			continue
		}
		if _, end := st.wait(more, keepAlive); end {
			return
		}
	}
}
