package history

import (
	"bytes"
	"io"
	"time"

	"github.com/syndtr/goleveldb/leveldb/iterator"
	"github.com/syndtr/goleveldb/leveldb/util"
	"syncthing-audit/part"
)

// taking takes the names of one folder of a part.
type taking struct {
	writes
	head   *part.Head
	folder string
	at     time.Time
	now    time.Time
	before iterator.Iterator    // what was read of the folder's names before
	isEnd  bool                 // whether no earlier reading is left
	newer  map[string]time.Time // of folders of which something was read after this part: when
	stayed map[string]int64     // of each folder: how many files that were read before still stand
	isGone bool                 // whether a file of the folder is known to be gone
}

// Take keeps what a part has read. What the part didn't read stays as it was; a name that isn't there any more is forgotten.
func (h *History) Take(stream part.Stream, at time.Time) error {
	taken := h.taking(stream.Head(), at, h.now())
	defer taken.release()
	for {
		line, err := stream.Next()
		if err == io.EOF {
			return taken.end()
		}
		if err == nil {
			err = taken.take(line)
		}
		if err != nil {
			return err
		}
	}
}

func (h *History) taking(head *part.Head, at, now time.Time) *taking {
	return &taking{writes: writes{to: h.db}, head: head, at: at, now: now, newer: map[string]time.Time{}, stayed: map[string]int64{}}
}

func (t *taking) release() {
	if t.before != nil {
		t.before.Release()
	}
}

func (t *taking) take(line part.Line) error {
	switch {
	case line.Begin != nil:
		t.release()
		t.folder = line.Begin.Folder
		t.before = t.to.NewIterator(util.BytesPrefix(keyOfReadings(t.folder, t.head.Number())), nil)
		t.isEnd = !t.before.Next()
		if err := t.before.Error(); err != nil {
			return err
		}
		if err := t.findGone(); err != nil {
			return err
		}
		return t.compareAge()
	case line.End != nil:
		return t.forget("")
	}
	return t.name(line.Name)
}

// nameBefore gives the name of the earlier reading.
func (t *taking) nameBefore() string {
	return string(bytes.TrimPrefix(t.before.Key(), keyOfReadings(t.folder, t.head.Number())))
}

// forget forgets what was read of names before this one, or of all that are left where it is empty: they aren't there any more.
func (t *taking) forget(before string) error {
	for !t.isEnd && (before == "" || t.nameBefore() < before) {
		if name := t.nameBefore(); t.head.Names.Has(t.folder, name) {
			earlier, err := readReading(t.before.Value())
			if err == nil && !t.isOlderThan(earlier) {
				err = t.goneFrom(name, earlier)
			}
			if err != nil {
				return err
			}
		}
		t.isEnd = !t.before.Next()
	}
	return t.before.Error()
}

// isOlderThan says whether a reading is kept that was made after this part: an old part doesn't change it. A reading of a time that is still to come
// was made by a clock that was wrong, and gives way to each other one.
func (t *taking) isOlderThan(earlier *Reading) bool { return t.isBehind(earlier.At) }

func (t *taking) removeReading(name string) error {
	if err := t.remove(keyOfReading(t.folder, t.head.Number(), name)); err != nil {
		return err
	}
	return t.removeChange(name)
}

func (t *taking) removeChange(name string) error {
	if err := t.remove(keyOfChange(t.folder, name, t.head.Number())); err != nil {
		return err
	}
	return t.remove(keyOfTaken(t.folder, name, t.head.Number()))
}

// name keeps what was read of a name.
func (t *taking) name(line *part.Name) error {
	name := string(line.Name)
	if t.head.IsOverWireAlone() {
		line = seenOverWire(t.head, line)
	}
	if err := t.forget(name); err != nil {
		return err
	}
	var before *Reading
	if !t.isEnd && t.nameBefore() == name {
		var err error
		if before, err = readReading(t.before.Value()); err != nil {
			return err
		}
		t.isEnd = !t.before.Next()
	}
	reading := readingOf(line, t.at)
	switch {
	case before != nil && reading == nil && isGone(line) && !t.isOlderThan(before):
		return t.goes(line, before)
	case before != nil:
		t.stayed[t.folder]++
	case reading != nil && t.isGone:
		if err := t.noteThere(name); err != nil {
			return err
		}
	}
	if reading == nil || before != nil && t.isOlderThan(before) {
		return nil
	}
	isChanged, err := t.compare(name, before, reading)
	if err == nil && isChanged {
		err = t.noteTaken(name, isRecorded(line.Own, reading))
	}
	if err != nil {
		return err
	}
	return t.put(keyOfReading(t.folder, t.head.Number(), name), reading.bytes())
}

// isGone says whether no file stands under a name any more. What wasn't read, or moved while it was, may be there.
func isGone(line *part.Name) bool {
	return line.IsToldHere() && len(line.Moved) == 0 && (line.Disk == nil || len(line.Disk.Contents) == 0 && line.Disk.Lost == "")
}

// compare keeps that a file's bytes changed under its time, and forgets that once it has its bytes again or another time. It says whether they are changed.
func (t *taking) compare(name string, before, reading *Reading) (bool, error) {
	if before == nil {
		return false, nil
	}
	key := keyOfChange(t.folder, name, t.head.Number())
	earlier, err := changeAt(t.to, key)
	switch {
	case err != nil:
		return false, err
	case earlier != nil && reading.hasTimeOf(&earlier.Before) && reading.Content != earlier.Before.Content:
		return true, nil
	case earlier != nil:
		return false, t.removeChange(name)
	case reading.isOtherBytesOf(before):
		return true, t.put(key, (&Change{Before: *before, Since: *reading}).bytes())
	}
	return false, nil
}

// noteTaken keeps whether the device records the bytes that changed.
func (t *taking) noteTaken(name string, is bool) error {
	key := keyOfTaken(t.folder, name, t.head.Number())
	if !is {
		return t.remove(key)
	}
	return t.put(key, nil)
}

// isRecorded says whether a device records the bytes that were read.
func isRecorded(own *part.Record, reading *Reading) bool {
	return own != nil && !own.Deleted && own.Content != nil && *own.Content == reading.Content
}
