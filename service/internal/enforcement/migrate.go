package enforcement

import (
	"bufio"
	"bytes"
	"context"
	"errors"
	"fmt"
	"io"
	"os"
	"path/filepath"

	"enfd/internal/changes"
	"enfd/internal/disk"
	"enfd/internal/engine"
	"enfd/internal/journal"
	"enfd/internal/logtext"
	"enfd/internal/orders"
	"enfd/internal/state"
)

// ErrNotEnded says that the service has not ended with a checkpoint.
var ErrNotEnded = errors.New("the last run has not ended with a checkpoint: start the service and end it")

// Migration is a policy that was tried on all that came in since the beginning.
type Migration struct {
	// Checked is what `enf check` says of the new policy.
	Checked string
	// Verdict is that of the new policy over what was emitted under the old ones.
	Verdict Verdict
	// Fewer and More are the lines of reports, what the old policies changed and the new one would not have, and the other
	// way around.
	Fewer, More []string
	// Missing has what the new policy would have added by now and the old ones have not: at the swap these become orders.
	Missing []changes.Change

	options   Options
	old       Epoch
	mark      Mark
	folder    string
	signature []byte
	policy    []byte
	lock      *os.File
}

// Migrate tries a signature and a policy on all that came in since the beginning. Nothing is changed before Swap; Close
// must be called.
func Migrate(ctx context.Context, options Options) (*Migration, error) {
	m := &Migration{options: options}
	if err := m.try(ctx); err != nil {
		m.Close()
		return nil, err
	}
	return m, nil
}

func (m *Migration) try(ctx context.Context) (err error) {
	if m.lock, err = Lock(m.options.Data); err != nil {
		return err
	}
	checked, err := Check(ctx, m.options.Program, m.options.Signature, m.options.Policy)
	if err != nil {
		return err
	}
	m.Checked = string(checked)
	if m.signature, err = os.ReadFile(m.options.Signature); err != nil {
		return fmt.Errorf("read the signature: %w", err)
	}
	if m.policy, err = os.ReadFile(m.options.Policy); err != nil {
		return fmt.Errorf("read the policy: %w", err)
	}
	if m.old, err = CurrentEpoch(m.options.Data); err != nil {
		return err
	}
	if m.mark, err = LastMark(m.old.Dir); err != nil {
		return err
	}
	if err := m.isEnded(); err != nil {
		return err
	}
	if m.folder, err = os.MkdirTemp(m.options.Data, "migrating-"); err != nil {
		return fmt.Errorf("migrate: %w", err)
	}
	if err := m.audit(ctx); err != nil {
		return err
	}
	if err := m.replay(ctx); err != nil {
		return err
	}
	return m.compare()
}

// isEnded sees that the last segment has no record.
func (m *Migration) isEnded() error {
	info, err := os.Stat(m.old.Dir.File(m.mark.Segment, journal.Log))
	if err != nil {
		return fmt.Errorf("%w: %v", ErrNotEnded, err)
	}
	if info.Size() > 0 {
		return ErrNotEnded
	}
	return nil
}

// all opens a kind of file of all segments of all epochs, as one text.
func (m *Migration) all(kind string) (io.Reader, func(), error) {
	var (
		readers []io.Reader
		closers []func()
	)
	closeAll := func() {
		for _, each := range closers {
			each()
		}
	}
	for number := 0; number <= m.old.Number; number++ {
		epoch := EpochOf(m.options.Data, number)
		mark, err := LastMark(epoch.Dir)
		if err == nil {
			var reader io.Reader
			var closeReader func()
			reader, closeReader, err = epoch.openAll(kind, mark.Segment)
			if err == nil {
				readers, closers = append(readers, reader), append(closers, closeReader)
			}
		}
		if err != nil {
			closeAll()
			return nil, nil, err
		}
	}
	return io.MultiReader(readers...), closeAll, nil
}

// audit holds what was emitted since the beginning, and what is owed, against the new policy.
func (m *Migration) audit(ctx context.Context) error {
	owed, err := m.old.owed(ctx, m.options.Program, m.mark)
	if err != nil {
		return err
	}
	emitted, closeAll, err := m.all(journal.Enforced)
	if err != nil {
		return err
	}
	defer closeAll()
	m.Verdict.Line, m.Verdict.Holds, err = auditOf(ctx, m.options.Program, m.options.Signature, m.options.Policy,
		io.MultiReader(emitted, bytes.NewReader(owed)))
	return err
}

func (m *Migration) file(name string) string { return filepath.Join(m.folder, name) }

// replay enforces all that came in under the new policy.
func (m *Migration) replay(ctx context.Context) error {
	log, closeAll, err := m.all(journal.Log)
	if err != nil {
		return err
	}
	defer closeAll()
	return RunOver(ctx, engine.Options{
		Program: m.options.Program, Signature: m.options.Signature, Policy: m.options.Policy, Save: m.file("state"),
	}, log, m.file("enforced"), m.file("report"))
}

// compare finds what differs in the reports. Positions are left out of the comparison: one step more moves all behind it.
func (m *Migration) compare() error {
	text, closeAll, err := m.all(journal.Report)
	if err != nil {
		return err
	}
	defer closeAll()
	oldLines, err := readChanges(text)
	if err != nil {
		return err
	}
	file, err := os.Open(m.file("report"))
	if err != nil {
		return fmt.Errorf("compare the reports: %w", err)
	}
	defer file.Close()
	newLines, err := readChanges(file)
	if err != nil {
		return err
	}
	there, added := map[string]int{}, map[string]int{}
	for _, line := range oldLines {
		there[line.same()]++
		if line.change.Kind == logtext.Cause {
			added[line.change.Event]++
		}
	}
	for _, line := range newLines {
		if there[line.same()]--; there[line.same()] < 0 {
			m.More = append(m.More, line.text)
		}
		if line.change.Kind != logtext.Cause {
			continue
		}
		if added[line.change.Event]--; added[line.change.Event] < 0 {
			missing, err := changes.Of(line.change, true, "", changes.Origin{Position: line.change.Origin})
			if err != nil {
				return err
			}
			m.Missing = append(m.Missing, missing)
		}
	}
	for i := len(oldLines) - 1; i >= 0; i-- {
		if line := oldLines[i]; there[line.same()] > 0 {
			there[line.same()]--
			m.Fewer = append(m.Fewer, line.text)
		}
	}
	for i, k := 0, len(m.Fewer)-1; i < k; i, k = i+1, k-1 {
		m.Fewer[i], m.Fewer[k] = m.Fewer[k], m.Fewer[i]
	}
	return nil
}

// reported is a line of a report.
type reported struct {
	text   string
	change logtext.Change
}

func (r reported) same() string {
	return fmt.Sprint(r.change.Kind, " ", r.change.Event, " ", r.change.Time, " ", r.change.Rule)
}

func readChanges(text io.Reader) ([]reported, error) {
	var lines []reported
	scanner := bufio.NewScanner(text)
	scanner.Buffer(nil, 1<<20)
	for scanner.Scan() {
		change, err := logtext.ParseChange(scanner.Text())
		if err != nil {
			return nil, err
		}
		lines = append(lines, reported{scanner.Text(), change})
	}
	if err := scanner.Err(); err != nil {
		return nil, fmt.Errorf("compare the reports: %w", err)
	}
	return lines, nil
}

// Swap goes over to the new policy: an epoch that begins with the state of the replay. What was open stays open, and what
// is missing becomes orders.
func (m *Migration) Swap() error {
	epoch, err := MakeEpoch(m.options.Data, m.old.Number+1, m.signature, m.policy)
	if err != nil {
		return err
	}
	mark, err := m.newMark()
	if err != nil {
		return err
	}
	for from, to := range map[string]string{
		m.file("state"):    epoch.Dir.File(0, journal.State),
		m.file("enforced"): epoch.past(),
	} {
		if err := disk.SyncFile(from); err != nil {
			return err
		}
		if err := disk.Rename(from, to); err != nil {
			return fmt.Errorf("swap the policy: %w", err)
		}
	}
	log, err := journal.Open(epoch.Dir)
	if err != nil {
		return err
	}
	log.Close()
	if err := mark.write(epoch.Dir); err != nil {
		return err
	}
	return epoch.MakeCurrent(m.options.Data)
}

// newMark makes the mark with which the new epoch begins.
func (m *Migration) newMark() (Mark, error) {
	file, err := os.Open(m.file("state"))
	if err != nil {
		return Mark{}, fmt.Errorf("read the state: %w", err)
	}
	defer file.Close()
	saved, err := state.Read(file)
	if err != nil {
		return Mark{}, err
	}
	mark := m.mark
	mark.Segment, mark.Position, mark.Clock = 0, saved.Position, saved.Clock
	book, err := orders.Open(filepath.Join(m.options.Data, "orders.done"), m.mark.Orders+1, m.mark.Open)
	if err != nil {
		return Mark{}, err
	}
	defer book.Close()
	origins := map[uint64]changes.Origin{}
	for _, due := range saved.Due {
		origins[due.Origin] = changes.Origin{Position: due.Origin}
	}
	for _, missing := range m.Missing {
		origins[missing.Origin.Position] = missing.Origin
	}
	if err := m.fillOrigins(origins); err != nil {
		return Mark{}, err
	}
	for _, missing := range m.Missing {
		mark.Changes++
		missing.N, missing.Origin = mark.Changes, origins[missing.Origin.Position]
		missing.Order = book.Add(missing)
		mark.Orders = missing.Order
	}
	mark.Open, _ = book.After(0, int(mark.Orders))
	mark.Origins = map[uint64]changes.Origin{}
	for _, due := range saved.Due {
		mark.Origins[due.Origin] = origins[due.Origin]
	}
	return mark, nil
}

// fillOrigins gives the times and labels of the steps of the replay at some positions.
func (m *Migration) fillOrigins(origins map[uint64]changes.Origin) error {
	var labels []string
	for number := 0; number <= m.old.Number; number++ {
		dir := EpochOf(m.options.Data, number).Dir
		segments, err := dir.Segments()
		if err != nil {
			return err
		}
		more, err := labelsOf(dir, segments...)
		if err != nil {
			return err
		}
		labels = append(labels, more...)
	}
	file, err := os.Open(m.file("enforced"))
	if err != nil {
		return fmt.Errorf("read the replay: %w", err)
	}
	defer file.Close()
	return eachStep(file, labels, func(step changes.Origin) {
		if _, wanted := origins[step.Position]; wanted {
			origins[step.Position] = step
		}
	})
}

// Close drops what was only tried.
func (m *Migration) Close() {
	if m.folder != "" {
		os.RemoveAll(m.folder)
	}
	if m.lock != nil {
		m.lock.Close()
	}
}
