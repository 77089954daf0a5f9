package history

import (
	"time"

	"github.com/syndtr/goleveldb/leveldb/util"
	"syncthing-audit/lists"
	"syncthing-audit/part"
)

// gone is that a file which was read at a device doesn't stand there any more.
type gone struct {
	before Reading
	taken  time.Time // the audit that came to it; the zero time until one does
}

func (g *gone) bytes() []byte { return appendTime(g.before.bytes(), g.taken) }

func readGone(value []byte) (*gone, error) {
	if len(value) != lengthOfReading+8 {
		return nil, errValue
	}
	return &gone{readingIn(value[:lengthOfReading]), readTime(value[lengthOfReading:])}, nil
}

// Held is that a file had these bytes at a device when it was read there last.
type Held struct {
	Device string    `json:"device"`
	Read   time.Time `json:"read"`
	Size   int64     `json:"size"`
	Block  int64     `json:"block_size"`
	Hash   string    `json:"hash"`              // SHA-256 of the block hashes, one after another
	IsGone bool      `json:"gone,omitempty"`    // it doesn't stand there any more
	IsOff  bool      `json:"unasked,omitempty"` // the device isn't audited now
}

// readingAt gives what was read last of a file at a device; nothing if nothing was, or it is gone there.
func (h *History) readingAt(folder string, device uint64, name string) (*Reading, error) {
	return valueAt(h.db, keyOfReading(folder, device, name), readReading)
}

// goneAt gives what was read last of a file that is gone at a device; nothing if it isn't.
func (h *History) goneAt(folder, name string, device uint64) (*gone, error) {
	return valueAt(h.db, keyOfGone(folder, name, device), readGone)
}

// held says which devices of a folder had a file when they were read last, and with which bytes.
func (h *History) held(audit *Audited, folder, name string) ([]Held, error) {
	all := []Held{}
	for _, device := range audit.known(folder) {
		told := Held{Device: audit.IDs[device], IsOff: !audit.isAsked(folder, device)}
		reading, err := h.readingAt(folder, device, name)
		if err == nil && reading == nil {
			var of *gone
			if of, err = h.goneAt(folder, name, device); of != nil {
				reading, told.IsGone = &of.before, true
			}
		}
		if err != nil {
			return nil, err
		}
		if reading != nil {
			told.Read, told.Size, told.Block, told.Hash = reading.At, reading.Content.Size, reading.Content.BlockSize, reading.Content.Hash.String()
			all = append(all, told)
		}
	}
	return all, nil
}

// had gives the devices of a folder that aren't audited now and had these bytes of a file when it was read there last. What can't be read isn't told.
func (h *History) had(audit *Audited, folder, name string, content part.Content) []Held {
	all, err := h.held(audit, folder, name)
	if err != nil {
		return nil
	}
	return lists.Where(all, func(held Held) bool {
		return held.IsOff && !held.IsGone && held.Size == content.Size && held.Block == content.BlockSize && held.Hash == content.Hash.String()
	})
}

// goes forgets the reading of a file that doesn't stand under its name any more. Where something else does, it isn't gone.
func (t *taking) goes(line *part.Name, before *Reading) error {
	if line.Disk != nil {
		return t.removeReading(string(line.Name))
	}
	return t.goneFrom(string(line.Name), before)
}

// goneFrom keeps what a file had that is gone.
func (t *taking) goneFrom(name string, before *Reading) error {
	if err := t.removeReading(name); err != nil {
		return err
	}
	return t.put(keyOfGone(t.folder, name, t.head.Number()), (&gone{before: *before}).bytes())
}

// findGone notes whether a file of the folder is known to be gone: else none has to be forgotten as that.
func (t *taking) findGone() error {
	found := t.to.NewIterator(util.BytesPrefix(keyOfAllGone(t.folder)), nil)
	defer found.Release()
	t.isGone = found.Next()
	return found.Error()
}

// noteThere forgets that a file was gone.
func (t *taking) noteThere(name string) error {
	return t.remove(keyOfGone(t.folder, name, t.head.Number()))
}

// AddStayed adds of each folder how many files that were read before still stand at the device; of several devices the most.
func (t *Tee) AddStayed(to map[string]int64) {
	for folder, files := range t.taken.stayed {
		if files > to[folder] {
			to[folder] = files
		}
	}
}
