package history

import (
	"encoding/binary"
	"time"

	"github.com/syndtr/goleveldb/leveldb"
	"github.com/syndtr/goleveldb/leveldb/opt"
)

// Fault is that an audit found something wrong with a name at a device: the cause is the word that --json has for it.
type Fault struct {
	Folder, Name string
	Device       uint64
	Cause        string
}

// Seen says in which audits a fault was found: first, last, and in how many. Mended is the first one in which the name was audited and not at fault.
type Seen struct {
	First, Last time.Time
	Audits      int64
	Mended      time.Time // the zero time before
}

// News is what an audit found that the one before it didn't, or no longer.
type News struct {
	New     []Fault
	Mended  []Fault // found before; the name was audited, and isn't at fault any more
	Lasting []Fault // found before, and again
	Unasked []Fault // found before; the name wasn't audited now
}

// Keep keeps what an audit found, and says what is new. All is written at once: a process that ends on the way leaves the history as it was, and
// the audit is kept later. If the same audit is kept twice, it is one, with the same news.
func (h *History) Keep(at time.Time, found []Fault, isAudited func(Fault) bool) (News, error) {
	kept := &keeping{history: h, at: at.UTC().Round(0), again: map[Fault]bool{}}
	for _, fault := range found {
		if err := kept.find(fault); err != nil {
			return News{}, err
		}
	}
	err := h.each([]byte{ofFault}, func(key, value []byte) error { return kept.compare(key, value, isAudited) })
	if err != nil {
		return News{}, err
	}
	kept.batch.Put(keyOfLast(), appendTime(nil, kept.at))
	return kept.news, h.db.Write(&kept.batch, &opt.WriteOptions{Sync: true})
}

// keeping is an audit that is being kept.
type keeping struct {
	history *History
	at      time.Time
	again   map[Fault]bool // what it found
	batch   leveldb.Batch
	news    News
}

// find takes a fault that the audit found.
func (k *keeping) find(fault Fault) error {
	if k.again[fault] {
		return nil
	}
	k.again[fault] = true
	seen, err := k.history.Seen(fault)
	if err != nil {
		return err
	}
	if seen == nil || !seen.Mended.IsZero() {
		seen = &Seen{First: k.at}
	}
	if seen.First.Equal(k.at) {
		k.news.New = append(k.news.New, fault)
	} else {
		k.news.Lasting = append(k.news.Lasting, fault)
	}
	if !seen.Last.Equal(k.at) {
		seen.Last = k.at
		seen.Audits++
	}
	k.batch.Put(keyOfFault(fault), seen.bytes())
	return nil
}

// compare takes a fault that is in the history. What is mended stays there until the next audit, so that nobody misses it.
func (k *keeping) compare(key, value []byte, isAudited func(Fault) bool) error {
	folder, name, device, cause, err := readName(key)
	if err != nil {
		return err
	}
	fault := Fault{folder, name, device, cause}
	seen, err := readSeen(value)
	switch {
	case err != nil:
		return err
	case k.again[fault]:
	case !seen.Mended.IsZero() && !seen.Mended.Equal(k.at):
		k.batch.Delete(keyOfFault(fault))
	case isAudited(fault):
		k.news.Mended = append(k.news.Mended, fault)
		seen.Mended = k.at
		k.batch.Put(keyOfFault(fault), seen.bytes())
	default:
		k.news.Unasked = append(k.news.Unasked, fault)
	}
	return nil
}

// Last gives when the last audit was kept; the zero time before the first.
func (h *History) Last() (time.Time, error) {
	value, err := h.db.Get(keyOfLast(), nil)
	switch {
	case err == leveldb.ErrNotFound:
		return time.Time{}, nil
	case err == nil && len(value) != 8:
		err = errValue
	}
	if err != nil {
		return time.Time{}, err
	}
	return readTime(value), nil
}

// Seen says since when a fault is found; nothing if it isn't.
func (h *History) Seen(fault Fault) (*Seen, error) {
	return valueAt(h.db, keyOfFault(fault), readSeen)
}

func (s *Seen) bytes() []byte {
	text := []byte{}
	for _, at := range []time.Time{s.First, s.Last, s.Mended} {
		text = appendTime(text, at)
	}
	return binary.BigEndian.AppendUint64(text, uint64(s.Audits))
}

func readSeen(value []byte) (*Seen, error) {
	if len(value) != 4*8 {
		return nil, errValue
	}
	return &Seen{First: readTime(value), Last: readTime(value[8:]), Mended: readTime(value[16:]), Audits: int64(binary.BigEndian.Uint64(value[24:]))}, nil
}

// appendTime adds a time in nanoseconds since 1970, 0 for the zero time: two audits may be made in one second.
func appendTime(to []byte, at time.Time) []byte {
	if at.IsZero() {
		return binary.BigEndian.AppendUint64(to, 0)
	}
	return binary.BigEndian.AppendUint64(to, uint64(at.UnixNano()))
}

func readTime(value []byte) time.Time {
	nanoseconds := int64(binary.BigEndian.Uint64(value))
	if nanoseconds == 0 {
		return time.Time{}
	}
	return time.Unix(0, nanoseconds).UTC()
}
