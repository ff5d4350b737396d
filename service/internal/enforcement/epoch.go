package enforcement

import (
	"bytes"
	"encoding/json"
	"errors"
	"fmt"
	"io/fs"
	"os"
	"path/filepath"
	"strconv"
	"strings"
	"syscall"

	"enfd/internal/changes"
	"enfd/internal/disk"
	"enfd/internal/engine"
	"enfd/internal/journal"
)

// ErrOtherPolicy says that the signature or the policy is not the one that the data was made under.
var ErrOtherPolicy = errors.New("the signature or the policy was changed; enfd migrate-policy goes over to it")

// ErrOtherTimes says that the data has times of another kind or unit.
var ErrOtherTimes = errors.New("the data has times of another kind or unit, which the configuration must have")

// ErrInUse says that another service has the data.
var ErrInUse = errors.New("the data is in use by another process")

// Epoch is the time in which one policy is enforced: a folder with its own signature, policy and journal.
type Epoch struct {
	Number int
	Dir    journal.Dir
}

// Signature gives the path of the epoch's signature.
func (e Epoch) Signature() string { return filepath.Join(string(e.Dir), "signature") }

// Policy gives the path of the epoch's policy.
func (e Epoch) Policy() string { return filepath.Join(string(e.Dir), "policy") }

// run says how enf goes on behind a mark, with its state saved at the end where a path for it is given.
func (e Epoch) run(program string, mark Mark, save string) engine.Options {
	return engine.Options{
		Program: program, Signature: e.Signature(), Policy: e.Policy(), Resume: mark.state(e.Dir), Save: save,
	}
}

// past gives the path of what would have been emitted under the epoch's policy before it.
func (e Epoch) past() string { return filepath.Join(string(e.Dir), "past") }

// temporary gives the folder of what is only being made.
func (e Epoch) temporary() string { return filepath.Join(string(e.Dir), "making") }

// current is the file that has the number of the epoch.
const current = "current"

// EpochOf gives an epoch of a folder of data by its number.
func EpochOf(data string, number int) Epoch {
	return Epoch{Number: number, Dir: journal.Dir(filepath.Join(data, "epochs", fmt.Sprintf("%04d", number)))}
}

// CurrentEpoch gives the epoch of a folder of data; an error wraps fs.ErrNotExist where there is none yet.
func CurrentEpoch(data string) (Epoch, error) {
	text, err := os.ReadFile(filepath.Join(data, current))
	if err != nil {
		return Epoch{}, fmt.Errorf("find the epoch: %w", err)
	}
	number, err := strconv.Atoi(strings.TrimSpace(string(text)))
	if err != nil {
		return Epoch{}, fmt.Errorf("find the epoch: %w", err)
	}
	return EpochOf(data, number), nil
}

// MakeEpoch makes the folder of an epoch with its signature and policy. It is not the current one yet.
func MakeEpoch(data string, number int, signature, policy []byte) (Epoch, error) {
	epoch := EpochOf(data, number)
	if err := disk.MakeFolder(string(epoch.Dir)); err != nil {
		return Epoch{}, fmt.Errorf("make an epoch: %w", err)
	}
	if err := disk.WriteFile(epoch.Signature(), signature, 0o640); err != nil {
		return Epoch{}, err
	}
	return epoch, disk.WriteFile(epoch.Policy(), policy, 0o640)
}

// MakeCurrent makes an epoch the one of the folder of data, in one step.
func (e Epoch) MakeCurrent(data string) error {
	return disk.WriteFile(filepath.Join(data, current), []byte(strconv.Itoa(e.Number)+"\n"), 0o640)
}

// openEpoch gives the current epoch, made where there is none, and sees that its signature and policy are these.
func openEpoch(data string, signature, policy []byte) (Epoch, error) {
	epoch, err := CurrentEpoch(data)
	if errors.Is(err, fs.ErrNotExist) {
		if epoch, err = MakeEpoch(data, 0, signature, policy); err == nil {
			err = epoch.MakeCurrent(data)
		}
	}
	if err != nil {
		return Epoch{}, err
	}
	for path, want := range map[string][]byte{epoch.Signature(): signature, epoch.Policy(): policy} {
		have, err := os.ReadFile(path)
		if err != nil {
			return Epoch{}, fmt.Errorf("open the epoch: %w", err)
		}
		if !bytes.Equal(have, want) {
			return Epoch{}, ErrOtherPolicy
		}
	}
	if err := os.RemoveAll(epoch.temporary()); err != nil {
		return Epoch{}, fmt.Errorf("open the epoch: %w", err)
	}
	if err := disk.MakeFolder(epoch.temporary()); err != nil {
		return Epoch{}, fmt.Errorf("open the epoch: %w", err)
	}
	return epoch, nil
}

// keepTimes sees that times are of the kind and the unit that they were at the first start: as others they would let each
// deadline pass at once, or none.
func keepTimes(data, times string) error {
	path := filepath.Join(data, "times")
	text, err := os.ReadFile(path)
	if errors.Is(err, fs.ErrNotExist) {
		return disk.WriteFile(path, []byte(times+"\n"), 0o640)
	}
	if err != nil {
		return fmt.Errorf("read the kind of times: %w", err)
	}
	if have := strings.TrimSpace(string(text)); have != times {
		return fmt.Errorf("%w: %s, not %s", ErrOtherTimes, have, times)
	}
	return nil
}

// Lock takes the folder of data for this process, until the file is closed or the process ends.
func Lock(data string) (*os.File, error) {
	if err := disk.MakeFolder(data); err != nil {
		return nil, fmt.Errorf("lock the data: %w", err)
	}
	file, err := os.OpenFile(filepath.Join(data, "lock"), os.O_RDWR|os.O_CREATE, 0o640)
	if err != nil {
		return nil, fmt.Errorf("lock the data: %w", err)
	}
	if err := syscall.Flock(int(file.Fd()), syscall.LOCK_EX|syscall.LOCK_NB); err != nil {
		file.Close()
		return nil, fmt.Errorf("%w: %s", ErrInUse, data)
	}
	return file, nil
}

// Mark says what was before a segment. With the state at its beginning it is a checkpoint.
type Mark struct {
	Segment  int    `json:"segment"`
	Records  uint64 `json:"records"`
	Position uint64 `json:"position"`
	Changes  uint64 `json:"changes"`
	Orders   uint64 `json:"orders"`
	Clock    int64  `json:"clock"`
	// Open has the orders before it that nobody had acknowledged.
	Open []changes.Change `json:"open"`
	// Origins tells the steps before it since which something is pending, by their positions.
	Origins map[uint64]changes.Origin `json:"origins"`
}

// write puts the mark into its file; from then on the checkpoint counts.
func (m Mark) write(dir journal.Dir) error {
	text, err := json.Marshal(m)
	if err != nil {
		return fmt.Errorf("write a mark: %w", err)
	}
	return disk.WriteFile(dir.File(m.Segment, journal.Mark), text, 0o640)
}

// LastMark gives the last checkpoint of a journal. Where there is none it gives the mark of the beginning.
func LastMark(dir journal.Dir) (Mark, error) {
	segments, err := dir.Segments()
	if err != nil {
		return Mark{}, err
	}
	for i := len(segments) - 1; i >= 0; i-- {
		text, err := os.ReadFile(dir.File(segments[i], journal.Mark))
		if errors.Is(err, fs.ErrNotExist) {
			continue
		}
		var mark Mark
		if err == nil {
			err = json.Unmarshal(text, &mark)
		}
		if err != nil {
			return Mark{}, fmt.Errorf("read the mark of segment %d: %w", segments[i], err)
		}
		return mark, nil
	}
	return Mark{}, nil
}

// state gives the path of the mark's state, or nothing where enforcement begins there.
func (m Mark) state(dir journal.Dir) string {
	path := dir.File(m.Segment, journal.State)
	if _, err := os.Stat(path); m.Segment == 0 && err != nil {
		return ""
	}
	return path
}
