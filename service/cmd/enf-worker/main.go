//go:build cluster

// Command enf-worker enforces the slices of a log on several machines, over NATS JetStream.
//
//	enf-worker make                     makes the streams and the stores
//	enf-worker feed                     stores the tagged records of `enf-slice split` from its input, and the ends
//	enf-worker work NAME                takes partitions and enforces them until all are done
//	enf-worker collect FOLDER           writes what came out of each partition to FOLDER/PARTITION.log and .report
package main

import (
	"bytes"
	"context"
	"flag"
	"fmt"
	"log"
	"os"
	"os/signal"
	"path/filepath"
	"strconv"
	"syscall"
	"time"

	"github.com/nats-io/nats.go"

	"enfd/internal/cluster"
)

func main() {
	servers := flag.String("servers", nats.DefaultURL, "the nats-servers, with commas between them")
	partitions := flag.Int("partitions", 8, "how many partitions there are")
	replicas := flag.Int("replicas", 3, "how many servers keep each message")
	lease := flag.Duration("lease", 3*time.Second, "how long a worker that does not speak keeps its partitions")
	share := flag.Int("share", 2, "how many partitions a worker takes at once")
	batch := flag.Int("batch", 2000, "how many records are fed before the state is saved")
	program := flag.String("enf", "enf", "the program enf")
	signature := flag.String("signature", "", "the file of the signature")
	policy := flag.String("policy", "", "the file of the policy")
	flag.Parse()
	log.SetFlags(log.LstdFlags | log.Lmicroseconds)
	if err := run(flag.Args(), *servers, cluster.Setup{Partitions: *partitions, Replicas: *replicas, Lease: *lease}, &cluster.Worker{
		Partitions: *partitions, Share: *share, Batch: *batch, Lease: *lease,
		Program: cluster.Program{Path: *program, Signature: *signature, Policy: *policy},
	}); err != nil {
		log.Fatal(err)
	}
}

func run(words []string, servers string, setup cluster.Setup, worker *cluster.Worker) error {
	connection, err := nats.Connect(servers, nats.MaxReconnects(-1), nats.ReconnectWait(200*time.Millisecond),
		nats.RetryOnFailedConnect(true))
	if err != nil {
		return fmt.Errorf("reach the servers: %w", err)
	}
	defer connection.Close()
	js, err := connection.JetStream(nats.PublishAsyncMaxPending(1024), nats.MaxWait(3*time.Second))
	if err != nil {
		return fmt.Errorf("reach JetStream: %w", err)
	}
	ctx, stop := signal.NotifyContext(context.Background(), os.Interrupt, syscall.SIGTERM)
	defer stop()
	switch {
	case len(words) == 1 && words[0] == "make":
		return cluster.Make(js, setup)
	case len(words) == 1 && words[0] == "feed":
		count, err := cluster.Feed(ctx, js, os.Stdin, worker.Partitions)
		fmt.Printf("stored %d records\n", count)
		return err
	case len(words) == 2 && words[0] == "work":
		worker.Name = words[1]
		return worker.Run(ctx, js)
	case len(words) == 2 && words[0] == "collect":
		return collect(js, worker.Partitions, words[1])
	}
	return fmt.Errorf("usage: enf-worker [FLAGS] make | feed | work NAME | collect FOLDER")
}

// collect writes what came out of each partition: a step's line to one file, and the lines of its actions to another.
func collect(js nats.JetStreamContext, partitions int, folder string) error {
	for partition := 0; partition < partitions; partition++ {
		steps, err := cluster.Collect(js, partition)
		if err != nil {
			return err
		}
		var output, report bytes.Buffer
		for _, step := range steps {
			end := bytes.IndexByte(step, '\n') + 1
			output.Write(step[:end])
			report.Write(step[end:])
		}
		name := filepath.Join(folder, strconv.Itoa(partition))
		if err := os.WriteFile(name+".log", output.Bytes(), 0o644); err != nil {
			return err
		}
		if err := os.WriteFile(name+".report", report.Bytes(), 0o644); err != nil {
			return err
		}
		fmt.Printf("partition %d: %d steps\n", partition, len(steps))
	}
	return nil
}
