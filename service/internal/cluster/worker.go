//go:build cluster

package cluster

import (
	"context"
	"errors"
	"fmt"
	"log"
	"sync"
	"time"

	"github.com/nats-io/nats.go"
)

// Worker enforces partitions.
type Worker struct {
	Name       string
	Program    Program
	Partitions int
	// Share is how many partitions it takes at once; more it takes only where they stay free.
	Share int
	// Batch is how many records are fed at most before the state is saved.
	Batch int
	Lease time.Duration

	js     nats.JetStreamContext
	leases nats.KeyValue
	marks  nats.KeyValue
	states nats.ObjectStore

	mutex sync.Mutex
	held  map[int]bool
	free  map[int]time.Time
}

// Run takes partitions and enforces them until all are done or ctx ends.
func (w *Worker) Run(ctx context.Context, js nats.JetStreamContext) error {
	w.js = js
	w.held, w.free = map[int]bool{}, map[int]time.Time{}
	var err error
	if w.leases, err = js.KeyValue(leaseBucket); err != nil {
		return fmt.Errorf("find the leases: %w", err)
	}
	if w.marks, err = js.KeyValue(markBucket); err != nil {
		return fmt.Errorf("find the checkpoints: %w", err)
	}
	if w.states, err = js.ObjectStore(stateBucket); err != nil {
		return fmt.Errorf("find the states: %w", err)
	}
	var running sync.WaitGroup
	defer running.Wait()
	for ctx.Err() == nil {
		done := 0
		for partition := 0; partition < w.Partitions; partition++ {
			finished, err := w.look(ctx, partition, &running)
			if err != nil {
				log.Printf("%s: %v", w.Name, err)
			}
			if finished {
				done++
			}
		}
		if done == w.Partitions {
			return nil
		}
		wait(ctx, w.Lease/8)
	}
	return nil
}

// look takes a partition where that is for this worker to do, and says whether it is done.
func (w *Worker) look(ctx context.Context, partition int, running *sync.WaitGroup) (bool, error) {
	w.mutex.Lock()
	has, count := w.held[partition], len(w.held)
	w.mutex.Unlock()
	if has {
		return false, nil
	}
	if mark, err := w.mark(partition); err != nil || mark.Done {
		return err == nil, err
	}
	free, err := isFree(w.leases, partition)
	if err != nil || !free {
		delete(w.free, partition)
		return false, err
	}
	since, known := w.free[partition]
	if !known {
		since = time.Now()
		w.free[partition] = since
	}
	if count >= w.Share && time.Since(since) < w.Lease/2 {
		return false, nil
	}
	lease, err := take(w.leases, partition, w.Name)
	if err != nil || lease == nil {
		return false, err
	}
	delete(w.free, partition)
	w.mutex.Lock()
	w.held[partition] = true
	w.mutex.Unlock()
	running.Add(1)
	go func() {
		defer running.Done()
		w.hold(ctx, lease)
		w.mutex.Lock()
		delete(w.held, partition)
		w.mutex.Unlock()
	}()
	return false, nil
}

// mark gives the checkpoint of a partition.
func (w *Worker) mark(partition int) (Checkpoint, error) {
	marks := marks{partition: partition, store: w.marks, states: w.states}
	return marks.read()
}

// hold enforces a partition while the lease is kept.
func (w *Worker) hold(ctx context.Context, lease *lease) {
	ctx, cancel := context.WithCancel(ctx)
	defer cancel()
	stop := make(chan struct{})
	go lease.keep(stop, w.Lease/4, w.Lease, cancel)
	err := w.enforce(ctx, lease.partition)
	close(stop)
	if err != nil && !errors.Is(err, context.Canceled) {
		log.Printf("%s: partition %d: %v", w.Name, lease.partition, err)
	}
	lease.give()
}

// enforce goes on from the checkpoint of a partition until all of it is done.
func (w *Worker) enforce(ctx context.Context, partition int) error {
	marks := &marks{partition: partition, store: w.marks, states: w.states}
	mark, err := marks.read()
	if err != nil {
		return err
	}
	state, err := marks.state(mark)
	if err != nil {
		return err
	}
	log.Printf("%s: partition %d from sequence %d, position %d", w.Name, partition, mark.Sequence, mark.Position)
	out, err := openOutput(w.js, partition)
	if err != nil {
		return err
	}
	records := &source{js: w.js, subject: recordsOfPartition(partition), next: mark.Sequence + 1}
	defer records.close()
	for !mark.Done {
		batch, last, err := records.batch(ctx, w.Batch)
		if err != nil {
			return err
		}
		if batch.count == 0 && !last {
			continue
		}
		steps, after, err := w.Program.enforce(ctx, state, batch.text, mark.Position, last)
		if err != nil {
			return err
		}
		if err := out.publish(ctx, steps); err != nil {
			return err
		}
		before := mark.State
		mark = Checkpoint{Sequence: batch.sequence, Position: mark.Position + uint64(len(steps)), Done: last}
		if err := marks.write(mark, after); err != nil {
			return err
		}
		if after != nil {
			mark.State = fmt.Sprintf("%d-%d", partition, mark.Sequence)
		}
		marks.forget(before)
		state = after
	}
	return nil
}

func wait(ctx context.Context, long time.Duration) {
	select {
	case <-ctx.Done():
	case <-time.After(long):
	}
}
