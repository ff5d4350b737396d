package api

import (
	"context"
	"crypto/sha256"
	"crypto/subtle"
	"io"
	"math"
	"net"
	"net/http"
	"strings"
	"sync"
	"time"
)

// Tokens has the words that open the service; an empty one opens it for all.
type Tokens struct {
	Write string
	Read  string
}

// mayWrite says whether a request has the token of writes.
func (t Tokens) mayWrite(r *http.Request) bool { return t.Write != "" && has(r, t.Write) }

// mayRead says whether a request may see something: the token of writes opens this too.
func (t Tokens) mayRead(r *http.Request) bool { return t.Read == "" || has(r, t.Read) || t.mayWrite(r) }

// has compares in a time that tells nothing of the token.
func has(r *http.Request, token string) bool {
	given := strings.TrimPrefix(r.Header.Get("Authorization"), "Bearer ")
	a, b := sha256.Sum256([]byte(given)), sha256.Sum256([]byte(token))
	return subtle.ConstantTimeCompare(a[:], b[:]) == 1
}

// isOwnHost says whether a request was meant for this service. A page of another site that a browser was made to take for
// this one has that site's name there.
func (s *Server) isOwnHost(r *http.Request) bool {
	host := r.Host
	if name, _, err := net.SplitHostPort(host); err == nil {
		host = name
	}
	host = strings.Trim(host, "[]")
	if host == "localhost" || net.ParseIP(host) != nil {
		return true
	}
	for _, own := range s.options.Hosts {
		if strings.EqualFold(host, own) {
			return true
		}
	}
	return false
}

// bucket lets so many through in a second, and as many at once, but at least one.
type bucket struct {
	rate float64
	room float64

	mu   sync.Mutex
	full float64
	last time.Time
}

func newBucket(rate float64) *bucket {
	room := math.Max(rate, 1)
	return &bucket{rate: rate, room: room, full: room}
}

func (b *bucket) take(now time.Time) bool {
	if b.rate <= 0 {
		return true
	}
	b.mu.Lock()
	defer b.mu.Unlock()
	if !b.last.IsZero() {
		b.full += now.Sub(b.last).Seconds() * b.rate
	}
	b.last = now
	b.full = math.Min(b.full, b.room)
	if b.full < 1 {
		return false
	}
	b.full--
	return true
}

// connKey is the key of a request's connection in its context.
type connKey struct{}

// ConnContext is for http.Server: with it slow peers are cut off, and streams are not.
func ConnContext(ctx context.Context, conn net.Conn) context.Context {
	return context.WithValue(ctx, connKey{}, conn)
}

func deadlines(r *http.Request) net.Conn {
	conn, _ := r.Context().Value(connKey{}).(net.Conn)
	return conn
}

// body reads the body of a request, within a limit of bytes and of time.
func (s *Server) body(w http.ResponseWriter, r *http.Request) ([]byte, *refusal) {
	if conn := deadlines(r); conn != nil {
		_ = conn.SetReadDeadline(time.Now().Add(s.options.Timeout.Duration))
		defer func() { _ = conn.SetReadDeadline(time.Time{}) }()
	}
	body, err := io.ReadAll(http.MaxBytesReader(w, r.Body, s.options.MaxBody))
	if err != nil {
		if int64(len(body)) >= s.options.MaxBody {
			return body, &refusal{http.StatusRequestEntityTooLarge, reasonLong, "", "the body is too long"}
		}
		return body, &refusal{400, reasonForm, "", "the body cannot be read"}
	}
	return body, nil
}
