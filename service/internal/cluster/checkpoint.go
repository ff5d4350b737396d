//go:build cluster

package cluster

import (
	"encoding/json"
	"errors"
	"fmt"
	"strconv"

	"github.com/nats-io/nats.go"
)

// Checkpoint is how far a partition is enforced.
type Checkpoint struct {
	// Sequence is that of the last record in the stream of records that was enforced.
	Sequence uint64 `json:"sequence"`
	// Position is how many steps came out.
	Position uint64 `json:"position"`
	// State names the saved state, and is empty before the first.
	State string `json:"state"`
	// Done says that all that was owed came out.
	Done bool `json:"done"`
}

// marks are the checkpoints of one partition.
type marks struct {
	partition int
	store     nats.KeyValue
	states    nats.ObjectStore
	revision  uint64
}

// read gives the last checkpoint.
func (m *marks) read() (Checkpoint, error) {
	var mark Checkpoint
	entry, err := m.store.Get(strconv.Itoa(m.partition))
	if errors.Is(err, nats.ErrKeyNotFound) {
		m.revision = 0
		return mark, nil
	}
	if err != nil {
		return mark, fmt.Errorf("read the checkpoint: %w", err)
	}
	m.revision = entry.Revision()
	if err := json.Unmarshal(entry.Value(), &mark); err != nil {
		return mark, fmt.Errorf("read the checkpoint: %w", err)
	}
	return mark, nil
}

// state gives the state of a checkpoint, or none before the first.
func (m *marks) state(mark Checkpoint) ([]byte, error) {
	if mark.State == "" {
		return nil, nil
	}
	state, err := m.states.GetBytes(mark.State)
	if err != nil {
		return nil, fmt.Errorf("read the state %s: %w", mark.State, err)
	}
	return state, nil
}

// write makes this the checkpoint, unless another worker has written one since the last that was read or written here.
func (m *marks) write(mark Checkpoint, state []byte) error {
	if state != nil {
		mark.State = fmt.Sprintf("%d-%d", m.partition, mark.Sequence)
		if _, err := m.states.PutBytes(mark.State, state); err != nil {
			return fmt.Errorf("write the state %s: %w", mark.State, err)
		}
	}
	value, err := json.Marshal(mark)
	if err != nil {
		return fmt.Errorf("write the checkpoint: %w", err)
	}
	m.revision, err = m.store.Update(strconv.Itoa(m.partition), value, m.revision)
	if err != nil {
		return fmt.Errorf("write the checkpoint: %w", err)
	}
	return nil
}

// forget lets the state of an earlier checkpoint go.
func (m *marks) forget(state string) {
	if state != "" {
		// It takes room alone: nothing names it any more.
		_ = m.states.Delete(state)
	}
}
