// Package orders keeps what is to be done until somebody says that it is done.
//
// An order is an event that was added. Its number is the number of such events before it in the report and one, so it is
// the same after each restart.
package orders

import (
	"bufio"
	"bytes"
	"errors"
	"fmt"
	"os"
	"path/filepath"
	"sort"
	"strconv"
	"sync"

	"enfd/internal/changes"
	"enfd/internal/disk"
)

// ErrUnknown says that no order of this number was given.
var ErrUnknown = errors.New("no such order")

// Book has the open orders, and a file with the numbers of those that are done. Many goroutines may use it.
type Book struct {
	path string

	mu    sync.Mutex
	file  *disk.File
	size  int64  // of the whole lines of the file
	wrote uint64 // acknowledgements written to the file
	next  uint64 // the number of the next order
	done  map[uint64]struct{}
	open  map[uint64]changes.Change
	rise  []uint64 // the numbers of the open orders, rising, and of some that are done
	grown chan struct{}
	// inDoubt says that nobody knows what the file has, so that it is written anew before anything is done.
	inDoubt bool

	// syncing is held by the one that syncs for all; it is taken before mu.
	syncing sync.Mutex
	synced  uint64
}

// Open opens the book with the file of what is done. The next order has the number next; open are those before it that
// were open when next was; some may be done since.
func Open(path string, next uint64, open []changes.Change) (*Book, error) {
	content, err := os.ReadFile(path)
	if err != nil && !errors.Is(err, os.ErrNotExist) {
		return nil, fmt.Errorf("open the orders: %w", err)
	}
	b := &Book{
		path: path, next: next, done: map[uint64]struct{}{}, open: map[uint64]changes.Change{},
		grown: make(chan struct{}),
	}
	whole := bytes.LastIndexByte(content, '\n') + 1
	for lines := bufio.NewScanner(bytes.NewReader(content[:whole])); lines.Scan(); {
		// A line that is no number was not synced, and nobody was answered for it.
		if number, err := strconv.ParseUint(lines.Text(), 10, 64); err == nil {
			b.done[number] = struct{}{}
		}
	}
	for _, order := range open {
		if _, is := b.done[order.Order]; !is {
			b.open[order.Order] = order
			b.rise = append(b.rise, order.Order)
		}
	}
	sort.Slice(b.rise, func(i, k int) bool { return b.rise[i] < b.rise[k] })
	if b.file, err = disk.OpenFile(path, os.O_WRONLY|os.O_CREATE, 0o640); err != nil {
		return nil, fmt.Errorf("open the orders: %w", err)
	}
	b.size = int64(whole)
	if err = b.file.Truncate(b.size); err == nil {
		err = disk.SyncFolder(filepath.Dir(path))
	}
	if err != nil {
		b.file.Close()
		return nil, fmt.Errorf("open the orders: %w", err)
	}
	return b, nil
}

// Add adds the next order, which the book numbers, and gives its number.
func (b *Book) Add(order changes.Change) uint64 {
	b.mu.Lock()
	defer b.mu.Unlock()
	order.Order = b.next
	b.next++
	if _, is := b.done[order.Order]; !is {
		b.open[order.Order] = order
		b.rise = append(b.rise, order.Order)
	}
	return order.Order
}

// Wake wakes those who wait for orders.
func (b *Book) Wake() {
	b.mu.Lock()
	defer b.mu.Unlock()
	close(b.grown)
	b.grown = make(chan struct{})
}

// After gives the open orders of greater numbers, in their order and at most limit, and a channel that is closed when
// there may be more.
func (b *Book) After(number uint64, limit int) ([]changes.Change, <-chan struct{}) {
	b.mu.Lock()
	defer b.mu.Unlock()
	if len(b.rise) > 2*len(b.open)+64 {
		kept := b.rise[:0]
		for _, each := range b.rise {
			if _, is := b.open[each]; is {
				kept = append(kept, each)
			}
		}
		b.rise = kept
	}
	var after []changes.Change
	first := sort.Search(len(b.rise), func(i int) bool { return b.rise[i] > number })
	for _, each := range b.rise[first:] {
		if len(after) == limit {
			break
		}
		if order, is := b.open[each]; is {
			after = append(after, order)
		}
	}
	return after, b.grown
}

// Counts gives the number of open orders and of all.
func (b *Book) Counts() (open int, all uint64) {
	b.mu.Lock()
	defer b.mu.Unlock()
	return len(b.open), b.next - 1
}

// Done notes that an order is done, so that no crash brings it back. To say so again is no fault.
func (b *Book) Done(number uint64) error {
	mine, err := b.write(number)
	if err == nil && mine > 0 {
		err = b.sync(mine)
	}
	if err != nil {
		return fmt.Errorf("order %d: %w", number, err)
	}
	b.mu.Lock()
	defer b.mu.Unlock()
	delete(b.open, number)
	return nil
}

// write puts the number into the file and gives the count of acknowledgements written; 0 where it was done before.
func (b *Book) write(number uint64) (uint64, error) {
	b.mu.Lock()
	defer b.mu.Unlock()
	if number == 0 || number >= b.next {
		return 0, ErrUnknown
	}
	if _, is := b.open[number]; !is {
		return 0, nil
	}
	if _, is := b.done[number]; is {
		// Another call has written it, and may be about to sync it.
		return b.wrote, nil
	}
	if !b.inDoubt {
		line := strconv.FormatUint(number, 10) + "\n"
		if _, err := b.file.WriteAt([]byte(line), b.size); err != nil {
			return 0, err
		}
		b.size += int64(len(line))
	}
	b.wrote++
	b.done[number] = struct{}{}
	return b.wrote, nil
}

// sync makes lasting at least the first mine acknowledgements; one of those who wait does it for all.
func (b *Book) sync(mine uint64) error {
	b.syncing.Lock()
	defer b.syncing.Unlock()
	if b.synced >= mine {
		return nil
	}
	b.mu.Lock()
	if b.inDoubt {
		defer b.mu.Unlock()
		return b.renew()
	}
	file, wrote := b.file, b.wrote
	b.mu.Unlock()
	if err := file.Sync(); err != nil {
		b.mu.Lock()
		b.inDoubt = true
		b.mu.Unlock()
		return err
	}
	b.synced = wrote
	return nil
}

// Forget drops from the file what is done of the orders below next, as a checkpoint has those of them that are open.
func (b *Book) Forget(next uint64, open []changes.Change) error {
	b.syncing.Lock()
	defer b.syncing.Unlock()
	b.mu.Lock()
	defer b.mu.Unlock()
	wanted := map[uint64]struct{}{}
	for _, order := range open {
		wanted[order.Order] = struct{}{}
	}
	for number := range b.done {
		if _, is := wanted[number]; !is && number < next {
			delete(b.done, number)
		}
	}
	return b.renew()
}

// renew puts a new file in place of the old one. syncing and mu are held.
func (b *Book) renew() error {
	kept := make([]uint64, 0, len(b.done))
	for number := range b.done {
		kept = append(kept, number)
	}
	sort.Slice(kept, func(i, k int) bool { return kept[i] < kept[k] })
	var content []byte
	for _, number := range kept {
		content = append(strconv.AppendUint(content, number, 10), '\n')
	}
	b.inDoubt = true
	if err := disk.WriteFile(b.path, content, 0o640); err != nil {
		return err
	}
	file, err := disk.OpenFile(b.path, os.O_WRONLY, 0o640)
	if err != nil {
		return fmt.Errorf("open the orders: %w", err)
	}
	b.file.Close()
	b.file, b.size, b.inDoubt = file, int64(len(content)), false
	// All that was written stands in the new file, or is not wanted any more.
	b.synced = b.wrote
	return nil
}

// Close closes the file.
func (b *Book) Close() error { return b.file.Close() }
