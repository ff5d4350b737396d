// Package metrics has what /metrics shows.
package metrics

import (
	"time"

	"github.com/prometheus/client_golang/prometheus"
)

// Metrics are the counters of one service, in a registry of their own.
type Metrics struct {
	Registry *prometheus.Registry

	Steps         prometheus.Counter
	Inserted      prometheus.Counter
	Ticks         prometheus.Counter
	Changes       *prometheus.CounterVec // rule, kind
	Pending       *prometheus.GaugeVec   // rule
	Decision      prometheus.Histogram
	Commit        prometheus.Histogram
	Program       prometheus.Histogram
	Quarantined   *prometheus.CounterVec // reason
	Rejected      *prometheus.CounterVec // reason
	OrdersSent    prometheus.Counter
	OrdersDone    prometheus.Counter
	Streams       prometheus.Gauge
	Restarts      prometheus.Counter
	Checkpoints   *prometheus.CounterVec // outcome
	Mismatches    prometheus.Counter
	JournalErrors prometheus.Counter
	OutputErrors  prometheus.Counter
}

// Sources give the values that are read when somebody looks.
type Sources struct {
	Lag           func() float64
	SinceMark     func() float64
	CheckpointAge func() float64
	ClockHeld     func() float64
	OrdersOpen    func() float64
	Ready         func() float64
}

// New makes the metrics of a service.
func New(sources Sources) *Metrics {
	buckets := prometheus.ExponentialBuckets(0.0001, 2, 16)
	histogram := func(name, help string) prometheus.Histogram {
		return prometheus.NewHistogram(prometheus.HistogramOpts{Name: name, Help: help, Buckets: buckets})
	}
	counter := func(name, help string) prometheus.Counter {
		return prometheus.NewCounter(prometheus.CounterOpts{Name: name, Help: help})
	}
	vector := func(name, help string, labels ...string) *prometheus.CounterVec {
		return prometheus.NewCounterVec(prometheus.CounterOpts{Name: name, Help: help}, labels)
	}
	gauge := func(name, help string) prometheus.Gauge {
		return prometheus.NewGauge(prometheus.GaugeOpts{Name: name, Help: help})
	}
	m := &Metrics{
		Registry: prometheus.NewRegistry(),
		Steps:    counter("enfd_steps_total", "Steps that were decided."),
		Inserted: counter("enfd_inserted_steps_total", "Steps that a deadline made."),
		Ticks:    counter("enfd_ticks_total", "Ticks that were fed."),
		Changes:  vector("enfd_changes_total", "Events that were added or taken out.", "rule", "kind"),
		Pending: prometheus.NewGaugeVec(prometheus.GaugeOpts{
			Name: "enfd_pending", Help: "What is pending, as the last look at a state found it.",
		}, []string{"rule"}),
		Decision:      histogram("enfd_decision_seconds", "From a request to its answer."),
		Commit:        histogram("enfd_commit_seconds", "To store a batch of records in the journal, with fsync."),
		Program:       histogram("enfd_program_seconds", "From the storing of a step to its answer."),
		Quarantined:   vector("enfd_quarantined_total", "Requests that were not accepted.", "reason"),
		Rejected:      vector("enfd_rejected_total", "Requests that were turned away, to come again.", "reason"),
		OrdersSent:    counter("enfd_orders_sent_total", "Orders that were streamed, again ones too."),
		OrdersDone:    counter("enfd_orders_done_total", "Orders that were acknowledged."),
		Streams:       gauge("enfd_streams", "Open streams."),
		Restarts:      counter("enfd_program_restarts_total", "Starts of the program after it ended by itself."),
		Checkpoints:   vector("enfd_checkpoints_total", "Checkpoints, by how they ended.", "outcome"),
		Mismatches:    counter("enfd_mismatches_total", "Outputs of two runs over one log that were not the same."),
		JournalErrors: counter("enfd_journal_errors_total", "Batches that could not be stored."),
		OutputErrors:  counter("enfd_output_errors_total", "Writes of the enforced log, report or changes that failed."),
	}
	m.Registry.MustRegister(m.Steps, m.Inserted, m.Ticks, m.Changes, m.Pending, m.Decision, m.Commit,
		m.Program, m.Quarantined, m.Rejected, m.OrdersSent, m.OrdersDone, m.Streams, m.Restarts, m.Checkpoints,
		m.Mismatches, m.JournalErrors, m.OutputErrors,
		prometheus.NewGoCollector(), prometheus.NewProcessCollector(prometheus.ProcessCollectorOpts{}))
	for _, source := range []struct {
		name, help string
		value      func() float64
	}{
		{"enfd_journal_lag_steps", "Steps that are in the journal and not decided yet.", sources.Lag},
		{"enfd_journal_since_checkpoint_records", "Records that a restart would replay.", sources.SinceMark},
		{"enfd_checkpoint_age_seconds", "Since the last checkpoint, or the start.", sources.CheckpointAge},
		{"enfd_clock_held_seconds", "How far the clock is ahead of the system's, which was set back.", sources.ClockHeld},
		{"enfd_orders_open", "Orders that nobody has acknowledged.", sources.OrdersOpen},
		{"enfd_ready", "1 where requests are decided.", sources.Ready},
	} {
		m.Registry.MustRegister(prometheus.NewGaugeFunc(
			prometheus.GaugeOpts{Name: source.name, Help: source.help}, source.value))
	}
	return m
}

// Since observes the time since a start.
func Since(histogram prometheus.Histogram, start time.Time) {
	histogram.Observe(time.Since(start).Seconds())
}
