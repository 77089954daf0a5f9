package history

import (
	"time"

	"github.com/syndtr/goleveldb/leveldb"
)

// Newer says of which folders of a part something was read after the part was made, and when. Such a part says nothing of how things are now: whoever
// can write parts may have brought it back, with its signature.
func (t *Tee) Newer() map[string]time.Time { return t.taken.newer }

// compareAge keeps when the newest part of a device was made, and notes where this one is older.
func (t *taking) compareAge() error {
	key := keyOfPart(t.folder, t.head.Number())
	value, err := t.to.Get(key, nil)
	switch {
	case err == leveldb.ErrNotFound:
	case err == nil && len(value) != 8:
		return errValue
	case err != nil:
		return err
	case t.isBehind(readTime(value)):
		return nil
	}
	return t.put(key, appendTime(nil, t.at))
}

// isBehind says whether this part was made before something that was read, and notes that. What was read in a time that is still to come was read by a
// clock that was wrong.
func (t *taking) isBehind(read time.Time) bool {
	if !read.After(t.at) || read.After(t.now) {
		return false
	}
	if read.After(t.newer[t.folder]) {
		t.newer[t.folder] = read
	}
	return true
}
