//go:build cluster

// Package cluster enforces the slices of a log on several machines, over NATS JetStream.
//
// A stream has the records of all partitions, one subject for each. A worker that holds the lease of a partition feeds its
// records to enf in batches: each batch resumes the state of the one before it and saves its own. What comes of a batch goes
// to the partition's stream of steps, each with an id made of the partition and its position, and only behind the one before
// it; then the state and the sequence of the last record become the checkpoint. A worker that takes a partition over begins at the checkpoint. What it feeds again comes out
// in the same bytes, since a run that goes on from a saved state gives what one run would give, so it has the ids of what is
// there, and is stored once.
package cluster

import (
	"errors"
	"fmt"
	"strconv"
	"strings"
	"time"

	"github.com/nats-io/nats.go"
)

// Names of what the engine keeps.
const (
	recordStream = "ENF_RECORDS"
	stepStreams  = "ENF_STEPS_"
	leaseBucket  = "enf-leases"
	markBucket   = "enf-checkpoints"
	stateBucket  = "enf-states"

	recordSubject = "enf.record."
	stepSubject   = "enf.step."
)

// End is the message behind the last record of a partition: all that is owed comes out.
const End = "end"

// ErrNotSplit says that a line is no tagged record.
var ErrNotSplit = errors.New("no tagged record")

// Setup says how the engine keeps things.
type Setup struct {
	Partitions int
	Replicas   int
	// Lease is how long a worker that does not speak keeps its partitions.
	Lease time.Duration
}

// Make makes the streams and the stores where they are not there yet.
func Make(js nats.JetStreamContext, setup Setup) error {
	streams := []nats.StreamConfig{{Name: recordStream, Subjects: []string{recordSubject + "*"}}}
	for partition := 0; partition < setup.Partitions; partition++ {
		streams = append(streams, nats.StreamConfig{Name: stepStream(partition), Subjects: []string{stepsOfPartition(partition)}})
	}
	for _, stream := range streams {
		stream.Storage = nats.FileStorage
		stream.Replicas = setup.Replicas
		stream.Duplicates = time.Hour
		if _, err := js.AddStream(&stream); err != nil {
			return fmt.Errorf("make the stream %s: %w", stream.Name, err)
		}
	}
	for _, bucket := range []nats.KeyValueConfig{
		{Bucket: leaseBucket, TTL: setup.Lease},
		{Bucket: markBucket},
	} {
		bucket.Storage = nats.FileStorage
		bucket.Replicas = setup.Replicas
		if _, err := js.CreateKeyValue(&bucket); err != nil {
			return fmt.Errorf("make the store %s: %w", bucket.Bucket, err)
		}
	}
	_, err := js.CreateObjectStore(&nats.ObjectStoreConfig{
		Bucket: stateBucket, Storage: nats.FileStorage, Replicas: setup.Replicas,
	})
	if err != nil {
		return fmt.Errorf("make the store %s: %w", stateBucket, err)
	}
	return nil
}

// Tagged takes a line of `enf-slice split` apart: the number of the stream, and the record.
func Tagged(line string) (int, string, error) {
	tag, record, found := strings.Cut(line, ":")
	partition, err := strconv.Atoi(tag)
	if !found || err != nil || partition < 0 || record == "" {
		return 0, "", fmt.Errorf("%q: %w", line, ErrNotSplit)
	}
	return partition, record, nil
}

func recordsOfPartition(partition int) string { return recordSubject + strconv.Itoa(partition) }

func stepsOfPartition(partition int) string { return stepSubject + strconv.Itoa(partition) }

func stepStream(partition int) string { return stepStreams + strconv.Itoa(partition) }

// stepID is the id of a step: what is published twice is stored once.
func stepID(partition int, position uint64) string {
	return fmt.Sprintf("%d-%d", partition, position)
}

// stepPosition gives the position that an id of a step has.
func stepPosition(id string) (uint64, error) {
	_, position, _ := strings.Cut(id, "-")
	return strconv.ParseUint(position, 10, 63)
}
