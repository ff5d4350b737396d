//go:build cluster

package cluster

import (
	"errors"
	"fmt"
	"strconv"
	"time"

	"github.com/nats-io/nats.go"
)

// lease is the right to a partition, while it is renewed. It keeps two workers from doing the same work; should they still,
// both publish the same steps under the same ids, and one checkpoint alone is taken.
type lease struct {
	partition int
	store     nats.KeyValue
	worker    string
	revision  uint64
}

// take takes the lease of a partition where nobody has it.
func take(store nats.KeyValue, partition int, worker string) (*lease, error) {
	revision, err := store.Create(strconv.Itoa(partition), []byte(worker))
	if errors.Is(err, nats.ErrKeyExists) {
		return nil, nil
	}
	if err != nil {
		return nil, fmt.Errorf("take partition %d: %w", partition, err)
	}
	return &lease{partition: partition, store: store, worker: worker, revision: revision}, nil
}

// isFree says whether nobody has the lease of a partition.
func isFree(store nats.KeyValue, partition int) (bool, error) {
	_, err := store.Get(strconv.Itoa(partition))
	if errors.Is(err, nats.ErrKeyNotFound) {
		return true, nil
	}
	if err != nil {
		return false, fmt.Errorf("look at partition %d: %w", partition, err)
	}
	return false, nil
}

// renew says that the worker is alive. An error says that the lease may be another's by now.
func (l *lease) renew() error {
	revision, err := l.store.Update(strconv.Itoa(l.partition), []byte(l.worker), l.revision)
	if err != nil {
		return fmt.Errorf("renew partition %d: %w", l.partition, err)
	}
	l.revision = revision
	return nil
}

// give gives the lease back.
func (l *lease) give() {
	// Where it fails the lease ends by itself.
	_ = l.store.Delete(strconv.Itoa(l.partition), nats.LastRevision(l.revision))
}

// keep renews the lease until the channel is closed or a renewal fails for as long as the lease lasts; then lost is called.
func (l *lease) keep(stop <-chan struct{}, every time.Duration, lasts time.Duration, lost func()) {
	ticker := time.NewTicker(every)
	defer ticker.Stop()
	spoken := time.Now()
	for {
		select {
		case <-stop:
			return
		case <-ticker.C:
			if err := l.renew(); err == nil {
				spoken = time.Now()
			} else if time.Since(spoken) >= lasts {
				lost()
				return
			}
		}
	}
}
