package enforcement

import (
	"fmt"
	"math/rand"
	"os"
	"path/filepath"
	"strings"
	"sync"
	"testing"
	"time"

	"enfd/internal/disk"
)

// event is a change that was made to files, with the file's number: a path is not enough, as files are renamed while they
// are open.
type event struct {
	kind     disk.Kind
	path, to string
	file     int
	at       int64
	bytes    []byte // what was written, or what the file had when its sync began
}

// recorder notes the changes to the files below a folder, each once it is made.
type recorder struct {
	mu     sync.Mutex
	root   string
	events []event
	files  map[*disk.File]int
	paths  map[string]int
	count  int
}

// record has a recorder note all changes, until the end that it gives is called.
func record(t *testing.T, root string) (r *recorder, end func()) {
	t.Helper()
	r = &recorder{root: root, files: map[*disk.File]int{}, paths: map[string]int{}}
	disk.Watch(r.see)
	end = func() { disk.Watch(nil) }
	t.Cleanup(end)
	return r, end
}

// length gives the number of the events so far.
func (r *recorder) length() int {
	r.mu.Lock()
	defer r.mu.Unlock()
	return len(r.events)
}

func (r *recorder) see(c disk.Change) (made func()) {
	var before []byte
	switch c.Kind {
	case disk.Synced:
		// By its number the file is found even where its path is another's now.
		before, _ = os.ReadFile(fmt.Sprintf("/proc/self/fd/%d", c.File.Fd()))
		// A disk takes its time. Who answers before it is ready is seen.
		time.Sleep(300 * time.Microsecond)
	case disk.Renamed:
		before, _ = os.ReadFile(c.Path)
	case disk.Written:
		before = append(before, c.Bytes...)
	}
	return func() {
		r.mu.Lock()
		defer r.mu.Unlock()
		r.note(c, before)
	}
}

func (r *recorder) note(c disk.Change, bytes []byte) {
	made := event{kind: c.Kind, path: c.Path, to: c.To, at: c.At, bytes: bytes}
	switch c.Kind {
	case disk.Opened:
		number, known := r.paths[c.Path]
		if !known {
			number = r.newFile(c.Path)
			r.events = append(r.events, event{kind: disk.Opened, path: c.Path, file: number})
		}
		r.files[c.File] = number
		return
	case disk.Written, disk.Truncated, disk.Synced:
		made.file = r.files[c.File]
	case disk.Renamed:
		number, known := r.paths[c.Path]
		if !known {
			// enf has written it.
			number = r.newFile(c.Path)
			r.events = append(r.events, event{kind: disk.Opened, path: c.Path, file: number},
				event{kind: disk.Written, file: number, bytes: bytes})
		}
		delete(r.paths, c.Path)
		r.paths[c.To] = number
		made.file = number
	case disk.Linked:
		number := r.paths[c.Path]
		r.paths[c.To] = number
		made.file = number
	case disk.Removed:
		delete(r.paths, c.Path)
	}
	r.events = append(r.events, made)
}

func (r *recorder) newFile(path string) int {
	r.count++
	r.paths[path] = r.count
	return r.count
}

// machine has what would be on disk if the power failed: what is lasting, and what was done since and may be lost.
type machine struct {
	root    string
	files   map[int]*content
	folders map[string]map[string]int // by path, the lasting names in it; a folder's number is 0
	pending []naming
}

// content is what a file has.
type content struct {
	lasting []byte
	since   []event
}

// naming is a change of names that is not lasting: a name goes, or comes, or both.
type naming struct {
	gone, come string
	file       int
}

func newMachine(root string) *machine {
	return &machine{root: root, files: map[int]*content{}, folders: map[string]map[string]int{root: {}}}
}

// make does to the machine what an event does.
func (m *machine) make(e event) {
	switch e.kind {
	case disk.Opened:
		m.files[e.file] = &content{}
		m.pending = append(m.pending, naming{come: e.path, file: e.file})
	case disk.FolderMade:
		m.pending = append(m.pending, naming{come: e.path})
	case disk.Linked:
		m.pending = append(m.pending, naming{come: e.to, file: e.file})
	case disk.Renamed:
		m.pending = append(m.pending, naming{gone: e.path, come: e.to, file: e.file})
	case disk.Removed:
		m.pending = append(m.pending, naming{gone: e.path})
	case disk.Written, disk.Truncated:
		m.files[e.file].since = append(m.files[e.file].since, e)
	case disk.Synced:
		m.files[e.file] = &content{lasting: e.bytes}
	case disk.FolderSynced:
		kept := m.pending[:0]
		for _, each := range m.pending {
			switch {
			case filepath.Dir(each.come) == e.path && each.come != "", each.come == "" && filepath.Dir(each.gone) == e.path:
				each.apply(m.folders)
				continue
			case each.gone != "" && filepath.Dir(each.gone) == e.path:
				// The name has gone from here, and nobody knows yet whether it has come there.
				naming{gone: each.gone}.apply(m.folders)
				each.gone = ""
			}
			kept = append(kept, each)
		}
		m.pending = kept
	}
}

func (n naming) apply(folders map[string]map[string]int) {
	if n.gone != "" {
		delete(folders[filepath.Dir(n.gone)], filepath.Base(n.gone))
	}
	if n.come == "" {
		return
	}
	above := filepath.Dir(n.come)
	if folders[above] == nil {
		folders[above] = map[string]int{}
	}
	folders[above][filepath.Base(n.come)] = n.file
}

// luck says what of that which is not lasting is there all the same.
type luck struct {
	name string
	// names gives what is there of a change of names, and data says whether a write is: 0 none of it, 1 a part, 2 all.
	names func(naming) naming
	data  func() int
	pick  func(n int) int
}

func noLuck(int) luck {
	return luck{"nothing else", func(naming) naming { return naming{} }, func() int { return 0 }, nil}
}

func namesAlone(int) luck {
	return luck{"all names and no data", func(n naming) naming { return n }, func() int { return 0 }, nil}
}

// chance leaves some of all. What goes from one folder to another may be lasting in one of them alone.
func chance(seed int) luck {
	random := rand.New(rand.NewSource(int64(seed)))
	names := func(n naming) (left naming) {
		gone := random.Intn(2) == 0
		come := gone
		if n.gone != "" && filepath.Dir(n.gone) != filepath.Dir(n.come) {
			come = random.Intn(2) == 0
		}
		if gone {
			left.gone = n.gone
		}
		if come {
			left.come, left.file = n.come, n.file
		}
		return left
	}
	return luck{fmt.Sprint("what chance ", seed, " left"), names, func() int { return random.Intn(3) }, random.Intn}
}

// image is what is on disk after the power has failed: the contents by their paths below the root.
func (m *machine) image(l luck) map[string][]byte {
	folders := map[string]map[string]int{}
	for path, names := range m.folders {
		folders[path] = map[string]int{}
		for name, file := range names {
			folders[path][name] = file
		}
	}
	for _, each := range m.pending {
		l.names(each).apply(folders)
	}
	contents := map[int][]byte{}
	for file := 1; file <= len(m.files); file++ {
		contents[file] = m.files[file].left(l)
	}
	files := map[string][]byte{}
	var walk func(folder, below string)
	walk = func(folder, below string) {
		for name, file := range folders[folder] {
			if file == 0 {
				files[below+name+"/"] = nil
				walk(filepath.Join(folder, name), below+name+"/")
			} else {
				files[below+name] = contents[file]
			}
		}
	}
	walk(m.root, "")
	return files
}

// left gives what is left of a file.
func (c *content) left(l luck) []byte {
	left := append([]byte(nil), c.lasting...)
	for _, each := range c.since {
		kept := l.data()
		if kept == 0 {
			continue
		}
		if each.kind == disk.Truncated {
			left = resized(left, each.at)
			continue
		}
		const sector = 512
		if end := each.at + int64(len(each.bytes)); int64(len(left)) < end {
			left = resized(left, end)
		}
		for at := each.at; at < each.at+int64(len(each.bytes)); at++ {
			if kept == 1 && l.pick(2) == 0 {
				at += sector - at%sector - 1
				continue
			}
			for end := at - at%sector + sector; at < end && at < each.at+int64(len(each.bytes)); at++ {
				left[at] = each.bytes[at-each.at]
			}
			at--
		}
	}
	return left
}

func resized(content []byte, size int64) []byte {
	if int64(len(content)) >= size {
		return content[:size]
	}
	return append(content, make([]byte, size-int64(len(content)))...)
}

// put writes an image into a folder.
func put(image map[string][]byte, folder string) error {
	for path, content := range image {
		to := filepath.Join(folder, path)
		if strings.HasSuffix(path, "/") {
			if err := os.MkdirAll(to, 0o700); err != nil {
				return err
			}
			continue
		}
		if err := os.MkdirAll(filepath.Dir(to), 0o700); err != nil {
			return err
		}
		if err := os.WriteFile(to, content, 0o600); err != nil {
			return err
		}
	}
	return nil
}
