package gather

import (
	"crypto/sha256"
	"fmt"
	"math/rand"
	"os"
	"path/filepath"
	"sort"
	"strings"
	"syscall"
	"testing"
	"time"

	"github.com/syncthing/syncthing/lib/protocol"
	"golang.org/x/exp/slices"
	"syncthing-audit/choice"
	"syncthing-audit/device"
	"syncthing-audit/part"
)

// madeUp is a folder that was drawn at random: a directory, an index and two views, which say much that doesn't fit.
type madeUp struct {
	directory
	own    []device.Entry
	views  [2][]device.Entry
	broken string // which reading of the index fails: "own", "0", "1" or "check"; none without it
	after  int    // how many entries that reading gives before
}

var errMadeUp = fmt.Errorf("the index can't be read")

func (m *madeUp) Folder() part.Folder {
	return part.Folder{ID: "docs", Kind: "send-receive", Views: []part.View{{Device: "0"}, {Device: "1"}}}
}

func (m *madeUp) Own(names choice.Names, take func(device.Entry) bool) error {
	return m.give("own", m.own, names, take)
}

func (m *madeUp) View(of part.View, names choice.Names, take func(device.Entry) bool) error {
	return m.give(of.Device, m.views[of.Device[0]-'0'], names, func(entry device.Entry) bool { return take(withoutHash(entry)) })
}

// withoutHash gives an entry without the hash of its list of blocks, as a view has it.
func withoutHash(entry device.Entry) device.Entry {
	if entry.Record == nil || entry.Record.Content == nil {
		return entry
	}
	record, content := *entry.Record, *entry.Record.Content
	content.Hash, record.Content, entry.Record = part.Hash{}, &content, &record
	return entry
}

func (m *madeUp) Max() int64 { return 77 }

func (m *madeUp) Check() error {
	if m.broken == "check" {
		return errMadeUp
	}
	return nil
}

// give gives the entries that were asked for, or fails on the way.
func (m *madeUp) give(reading string, entries []device.Entry, names choice.Names, take func(device.Entry) bool) error {
	for place, entry := range entries {
		if m.broken == reading && place == m.after {
			return errMadeUp
		}
		if names.Has("docs", entry.Name) && !take(entry) {
			return nil
		}
	}
	if m.broken == reading {
		return errMadeUp
	}
	return nil
}

const block = protocol.MinBlockSize

// lengths are those of files: none, one byte, and what stands beside the ends of blocks.
var lengths = []int{0, 1, 5, block - 1, block, block + 1, 2 * block, 3*block + 7, 5 * block}

// madeUpNames are the names that a folder may have, some below others; the last ones aren't UTF-8, or are ignored or Syncthing's own.
var madeUpNames = []string{"a", "a/a", "a/b", "a-", "a.b", "a/b/c", "b", "b/a", "c", "c\xff", "d", "d.log", "e.log/f", ".syncthing.g.tmp", "~syncthing~h.tmp", ".stfolder/i"}

// makeUp draws a folder.
func makeUp(t *testing.T, random *rand.Rand, longest int) *madeUp {
	made := &madeUp{directory: directory{t.TempDir()}}
	contents := map[string][]byte{}
	for _, name := range madeUpNames {
		if random.Intn(3) > 0 {
			contents[name] = made.put(t, random, name, longest)
		}
	}
	names := append([]string{"only in an index", "only.log"}, madeUpNames[:13]...)
	sort.Strings(names)
	for _, name := range names {
		lists := []*[]device.Entry{&made.own, &made.views[0], &made.views[1]}
		for _, list := range lists {
			if random.Intn(4) > 0 {
				*list = append(*list, anEntry(random, name, contents[name]))
			}
		}
	}
	return made
}

// put puts something under a name where its place is free, and gives its bytes.
func (m *madeUp) put(t *testing.T, random *rand.Rand, name string, longest int) []byte {
	path := filepath.Join(m.path, name)
	if os.MkdirAll(filepath.Dir(path), 0o755) != nil {
		return nil // a file stands above it
	}
	var data []byte
	var err error
	switch random.Intn(8) {
	case 0:
		err = os.MkdirAll(path, 0o750)
	case 1:
		err = os.Symlink(strings.Repeat("t", random.Intn(3)*600+1), path)
	case 2:
		err = syscall.Mkfifo(path, 0o600)
	default:
		data = make([]byte, lengths[random.Intn(longest)])
		random.Read(data)
		err = os.WriteFile(path, data, 0o640)
	}
	if err != nil && !os.IsExist(err) {
		t.Fatal(err)
	}
	modified := time.Unix(random.Int63n(2e9), random.Int63n(1e9))
	if data != nil {
		err = os.Chtimes(path, modified, modified)
	}
	if err != nil {
		return nil
	}
	return data
}

// hashesOf gives the hashes of a file's blocks, read as a whole.
func hashesOf(data []byte, size int64) [][32]byte {
	hashes := [][32]byte{}
	for begin := int64(0); begin == 0 || begin < int64(len(data)); begin += size {
		end := begin + size
		if end > int64(len(data)) {
			end = int64(len(data))
		}
		hashes = append(hashes, sha256.Sum256(data[begin:end]))
	}
	return hashes
}

// contentOf gives the content that block hashes make.
func contentOf(length int, size int64, hashes [][32]byte) part.Content {
	all := []byte{}
	for _, hash := range hashes {
		all = append(all, hash[:]...)
	}
	return part.Content{Size: int64(length), BlockSize: size, Hash: sha256.Sum256(all)}
}

// anEntry draws what an index says of a name whose file has these bytes: often them, in blocks of any size, or nearly them, or something else.
func anEntry(random *rand.Rand, name string, data []byte) device.Entry {
	if random.Intn(8) == 0 {
		kind := []string{part.Ignored, part.OddRecord, part.Rescan}[random.Intn(3)]
		why := []string{"it was made up so", part.WhyIgnoredElsewhere}[random.Intn(2)]
		return device.Entry{Name: name, Out: &part.LeftOut{Kind: kind, Why: why, Bytes: random.Int63n(9)}}
	}
	record := &part.Record{Type: random.Intn(2), ModifiedBy: 1, Sequence: 1 + random.Int63n(70), Deleted: random.Intn(5) == 0, Invalid: random.Intn(5) == 0}
	entry := device.Entry{Name: name, Record: record}
	if record.Deleted || record.Type != int(protocol.FileInfoTypeFile) {
		return entry
	}
	recorded := append([]byte{}, data...)
	switch random.Intn(4) {
	case 0:
		recorded = append(recorded, make([]byte, random.Intn(2*block))...)
	case 1:
		recorded = recorded[:random.Intn(len(recorded)+1)]
	case 2:
		if len(recorded) > 0 {
			recorded[random.Intn(len(recorded))] ^= 1
		}
	}
	size := int64(block << random.Intn(3))
	entry.Blocks = hashesOf(recorded, size)
	content := contentOf(len(recorded), size, entry.Blocks)
	record.Content = &content
	return entry
}

// namesOf gives all names that a folder's disk and index have, each once, rising.
func (m *madeUp) namesOf(onDisk map[string]os.FileInfo) []string {
	names := []string{}
	for name := range onDisk {
		names = append(names, name)
	}
	for _, entries := range [][]device.Entry{m.own, m.views[0], m.views[1]} {
		for _, entry := range entries {
			names = append(names, entry.Name)
		}
	}
	sort.Strings(names)
	return slices.Compact(names)
}
