//go:build cluster

package cluster

import (
	"context"
	"errors"
	"fmt"
	"time"

	"github.com/nats-io/nats.go"
)

// How many steps are on their way at once, and how long one may be.
const (
	mostOnTheirWay  = 256
	publishPatience = 5 * time.Second
)

// output is the stream of the steps of a partition.
type output struct {
	js        nats.JetStreamContext
	partition int
	// stored is how many steps are there, as far as is known.
	stored uint64
}

// openOutput finds how many steps of a partition are there.
func openOutput(js nats.JetStreamContext, partition int) (*output, error) {
	out := &output{js: js, partition: partition}
	last, err := js.GetLastMsg(stepStream(partition), stepsOfPartition(partition))
	if errors.Is(err, nats.ErrMsgNotFound) {
		return out, nil
	}
	if err != nil {
		return nil, fmt.Errorf("look at the steps: %w", err)
	}
	position, err := stepPosition(last.Header.Get(nats.MsgIdHdr))
	if err != nil {
		return nil, fmt.Errorf("look at the steps: %w", err)
	}
	out.stored = position + 1
	return out, nil
}

// publish stores steps, each once and behind the one before it. Where a server is lost it tries again until ctx ends.
func (o *output) publish(ctx context.Context, steps []step) error {
	for len(steps) > 0 {
		if steps[0].position < o.stored {
			steps = steps[1:]
			continue
		}
		some := steps
		if len(some) > mostOnTheirWay {
			some = some[:mostOnTheirWay]
		}
		if err := o.try(some); err != nil {
			if ctx.Err() != nil {
				return fmt.Errorf("store a step: %w", err)
			}
			wait(ctx, 100*time.Millisecond)
		}
	}
	return nil
}

// try stores some steps, up to the first that is refused.
func (o *output) try(steps []step) error {
	var futures []nats.PubAckFuture
	for _, step := range steps {
		options := []nats.PubOpt{nats.MsgId(stepID(o.partition, step.position))}
		if step.position > 0 {
			options = append(options, nats.ExpectLastMsgId(stepID(o.partition, step.position-1)))
		}
		future, err := o.js.PublishAsync(stepsOfPartition(o.partition), []byte(step.line+step.report), options...)
		if err != nil {
			return err
		}
		futures = append(futures, future)
	}
	return eachStored(futures, func() { o.stored++ })
}

// eachStored waits until each is stored, in order, and stops at the first that is not.
func eachStored(futures []nats.PubAckFuture, stored func()) error {
	patience := time.After(publishPatience)
	for _, future := range futures {
		select {
		case <-future.Ok():
			stored()
		case err := <-future.Err():
			return err
		case <-patience:
			return nats.ErrTimeout
		}
	}
	return nil
}
