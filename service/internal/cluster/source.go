//go:build cluster

package cluster

import (
	"context"
	"fmt"
	"time"

	"github.com/nats-io/nats.go"
)

// source gives the records of a partition in order, from a sequence on. What was on its way where a server or a connection
// was lost is asked for again.
type source struct {
	js      nats.JetStreamContext
	subject string
	// next is the least sequence that the next record can have.
	next uint64

	records   *nats.Subscription
	delivered uint64
}

// batch is some records of a partition.
type batch struct {
	text     []byte
	count    int
	sequence uint64
}

// How long a record is waited for: the first of a batch, and a further one.
const (
	firstPatience = time.Second
	nextPatience  = 20 * time.Millisecond
	mostAsked     = 512
)

// batch gives the records that are there, up to so many, and whether the end was among them.
func (s *source) batch(ctx context.Context, most int) (batch, bool, error) {
	var got batch
	for got.count < most {
		patience := nextPatience
		if got.count == 0 {
			patience = firstPatience
		}
		asked := most - got.count
		if asked > mostAsked {
			asked = mostAsked
		}
		messages := s.fetch(asked, patience)
		if ctx.Err() != nil {
			return got, false, ctx.Err()
		}
		if len(messages) == 0 {
			return got, false, nil
		}
		for _, message := range messages {
			got.sequence = s.next - 1
			if info, err := message.Metadata(); err == nil {
				got.sequence = info.Sequence.Stream
			}
			if string(message.Data) == End {
				return got, true, nil
			}
			got.text = append(append(got.text, message.Data...), '\n')
			got.count++
		}
	}
	return got, false, nil
}

// fetch gives the next records without a gap, or none where none came in time.
func (s *source) fetch(most int, patience time.Duration) []*nats.Msg {
	if s.records == nil {
		if err := s.open(); err != nil {
			time.Sleep(patience)
			return nil
		}
	}
	messages, err := s.records.Fetch(most, nats.MaxWait(patience))
	for at, message := range messages {
		info, wrong := message.Metadata()
		if wrong != nil || info.Sequence.Consumer != s.delivered+1 {
			messages, err = messages[:at], fmt.Errorf("a record is missing")
			break
		}
		s.delivered++
		s.next = info.Sequence.Stream + 1
	}
	// Where nothing came the consumer may be lost with its server: a new one begins behind what was given.
	if err != nil && len(messages) == 0 {
		s.close()
	}
	return messages
}

func (s *source) open() error {
	records, err := s.js.PullSubscribe(s.subject, "", nats.BindStream(recordStream), nats.AckNone(),
		nats.StartSequence(s.next), nats.InactiveThreshold(time.Minute))
	if err != nil {
		return fmt.Errorf("read the records: %w", err)
	}
	s.records, s.delivered = records, 0
	return nil
}

func (s *source) close() {
	if s.records != nil {
		// A consumer that is left ends by itself.
		_ = s.records.Unsubscribe()
		s.records = nil
	}
}
