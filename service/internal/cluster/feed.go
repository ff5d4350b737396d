//go:build cluster

package cluster

import (
	"bufio"
	"context"
	"fmt"
	"io"
	"sync"
	"time"

	"github.com/nats-io/nats.go"
)

// Feed stores the tagged records of `enf-slice split`, and then the end of each partition, in order. Each has an id made of
// its partition and its number there, so that a feeder that begins again stores nothing twice.
func Feed(ctx context.Context, js nats.JetStreamContext, split io.Reader, partitions int) (int, error) {
	ctx, cancel := context.WithCancel(ctx)
	defer cancel()
	var (
		running sync.WaitGroup
		failed  error
		once    sync.Once
	)
	queues := make([]chan string, partitions)
	for partition := range queues {
		queues[partition] = make(chan string, 64)
		running.Add(1)
		go func(partition int) {
			defer running.Done()
			if err := feedPartition(ctx, js, partition, queues[partition]); err != nil {
				once.Do(func() { failed = err; cancel() })
			}
		}(partition)
	}
	count, err := deal(ctx, split, queues)
	for _, queue := range queues {
		close(queue)
	}
	if err != nil {
		cancel()
	}
	running.Wait()
	if err == nil {
		err = failed
	}
	return count, err
}

// deal gives each tagged record to the queue of its partition, and the end to each.
func deal(ctx context.Context, split io.Reader, queues []chan string) (int, error) {
	lines := bufio.NewScanner(split)
	lines.Buffer(nil, 1<<20)
	give := func(partition int, record string) error {
		select {
		case queues[partition] <- record:
			return nil
		case <-ctx.Done():
			return ctx.Err()
		}
	}
	count := 0
	for lines.Scan() {
		partition, record, err := Tagged(lines.Text())
		if err == nil && partition >= len(queues) {
			err = fmt.Errorf("partition %d: %w", partition, ErrNotSplit)
		}
		if err != nil {
			return count, err
		}
		if err := give(partition, record); err != nil {
			return count, err
		}
		count++
	}
	if err := lines.Err(); err != nil {
		return count, fmt.Errorf("read the split log: %w", err)
	}
	for partition := range queues {
		if err := give(partition, End); err != nil {
			return count, err
		}
	}
	return count, nil
}

// feedPartition stores records one after another; where a server is lost it tries again until ctx ends.
func feedPartition(ctx context.Context, js nats.JetStreamContext, partition int, records <-chan string) error {
	number := 0
	for record := range records {
		id := nats.MsgId(fmt.Sprintf("%d-%d", partition, number))
		for {
			_, err := js.Publish(recordsOfPartition(partition), []byte(record), id)
			if err == nil {
				break
			}
			if ctx.Err() != nil {
				return fmt.Errorf("store a record: %w", err)
			}
			wait(ctx, 100*time.Millisecond)
		}
		number++
	}
	return nil
}

// Collect gives the steps of a partition in order, each with its lines of the report. Where a server was lost, another takes
// its place meanwhile, so it tries some times.
func Collect(js nats.JetStreamContext, partition int) ([][]byte, error) {
	const tries = 20
	for try := 1; ; try++ {
		steps, err := collect(js, partition)
		if err == nil || try == tries {
			return steps, err
		}
		time.Sleep(time.Second)
	}
}

func collect(js nats.JetStreamContext, partition int) ([][]byte, error) {
	info, err := js.StreamInfo(stepStream(partition))
	if err != nil {
		return nil, fmt.Errorf("look at the steps: %w", err)
	}
	if info.State.Msgs == 0 {
		return nil, nil
	}
	stored, err := js.SubscribeSync(stepsOfPartition(partition), nats.OrderedConsumer())
	if err != nil {
		return nil, fmt.Errorf("read the steps: %w", err)
	}
	defer stored.Unsubscribe()
	var steps [][]byte
	for uint64(len(steps)) < info.State.Msgs {
		message, err := stored.NextMsg(10 * time.Second)
		if err != nil {
			return nil, fmt.Errorf("read the steps: %w", err)
		}
		if id := message.Header.Get(nats.MsgIdHdr); id != stepID(partition, uint64(len(steps))) {
			return nil, fmt.Errorf("step %d of partition %d has the id %s", len(steps), partition, id)
		}
		steps = append(steps, message.Data)
	}
	return steps, nil
}
