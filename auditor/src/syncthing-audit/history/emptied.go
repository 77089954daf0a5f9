package history

import (
	"encoding/json"
	"time"

	"golang.org/x/exp/slices"
	"syncthing-audit/part"
)

const (
	// fewestGone is how many files at least go from a folder at once that it is told, unless all do.
	fewestGone = 5
	// DaysOfEmptied is for how many days it is told. It is new once.
	DaysOfEmptied = 7
	// daysOfGone is for how many days it is known what a file had that is gone.
	daysOfGone = 400
)

// Emptied is that, from one audit to the next, at least half of a folder's files went from all devices that were audited, and five of them, or all.
type Emptied struct {
	Folder string       `json:"folder"`
	Since  time.Time    `json:"audit_before"` // the last one that had them
	Found  time.Time    `json:"found"`        // the first one without
	IsNew  bool         `json:"new"`          // whether this audit is that one
	Files  int64        `json:"files"`        // that are gone still
	Of     int64        `json:"of"`           // files that were known then
	First  []part.Bytes `json:"first"`
	Held   []Holder     `json:"unasked"` // devices that aren't audited now, and had some of them
}

// Gone counts the files of emptied folders.
func (s *Since) Gone() int64 {
	files := int64(0)
	for _, emptied := range s.Emptied {
		files += emptied.Files
	}
	return files
}

// Holder is a device that had some files when it was read last.
type Holder struct {
	Device string    `json:"device"`
	Files  int64     `json:"files"`
	Read   time.Time `json:"read"` // the first of them
}

// emptiedValue is what a history keeps of an emptied folder.
type emptiedValue struct {
	Since    time.Time `json:"since"`
	Files    int64     `json:"files"`
	Of       int64     `json:"of"`
	Intended bool      `json:"intended,omitempty"` // whether somebody said that it was wanted
}

// goneName is a file that is gone from all devices that were audited.
type goneName struct {
	name  string
	at    map[uint64]*gone
	taken time.Time // by the last audit that came to it; the zero time where one of its devices is new
	is    bool      // whether it is gone from all
}

// emptying looks at what is gone from a folder.
type emptying struct {
	history *History
	audit   *Audited
	folder  string
	wrong   map[string]bool // names that are at fault now
	fresh   []*goneName     // that no audit came to
	since   time.Time
	wanted  []time.Time // the audits that found what somebody wanted to go
}

// addEmptied adds the folders from which most files went, and keeps that this audit came to them. Before the first audit nothing is known.
func (h *History) addEmptied(since *Since, audit *Audited) error {
	for _, folder := range sorted(audit.Folders) {
		look := &emptying{history: h, audit: audit, folder: folder, wrong: map[string]bool{}}
		for _, fault := range audit.Found {
			if fault.Folder == folder {
				look.wrong[fault.Name] = true
			}
		}
		if since.Before != nil {
			look.since = *since.Before
		}
		if err := look.addTo(since); err != nil {
			return err
		}
	}
	return nil
}

func (e *emptying) addTo(since *Since) error {
	marks := &writes{to: e.history.db}
	var err error
	if e.wanted, err = e.history.intended(e.folder); err != nil {
		return err
	}
	err = e.eachName(func(name *goneName) error { return e.take(name, marks) })
	if err != nil {
		return err
	}
	if err := e.keepNew(marks); err != nil {
		return err
	}
	if err := e.mark(marks); err != nil {
		return err
	}
	if err := marks.end(); err != nil {
		return err
	}
	return e.tell(since)
}

// eachName gives the names of which a file is gone from some device, rising.
func (e *emptying) eachName(take func(*goneName) error) error {
	var next *goneName
	give := func() error {
		if next == nil {
			return nil
		}
		is, err := e.isGone(next)
		if err != nil {
			return err
		}
		next.is = is
		return take(next)
	}
	err := e.history.each(keyOfAllGone(e.folder), func(key, value []byte) error {
		_, name, device, _, err := readName(key)
		if err != nil || !slices.Contains(e.audit.known(e.folder), device) {
			return err
		}
		of, err := readGone(value)
		if err != nil {
			return err
		}
		if next == nil || next.name != name {
			if err := give(); err != nil {
				return err
			}
			next = &goneName{name: name, at: map[uint64]*gone{}, taken: of.taken}
		}
		next.at[device] = of
		if of.taken.IsZero() || !next.taken.IsZero() && of.taken.After(next.taken) {
			next.taken = of.taken
		}
		return nil
	})
	if err != nil {
		return err
	}
	return give()
}

// isGone says whether no audited device has a file of this name any more. A name at fault is told as that.
func (e *emptying) isGone(name *goneName) (bool, error) {
	if e.wrong[name.name] || !e.audit.Names(e.folder, name.name) && !e.isPassed(name) {
		return false, nil
	}
	for _, device := range e.audit.Folders[e.folder] {
		reading, err := e.history.readingAt(e.folder, device, name.name)
		if err != nil || reading != nil {
			return false, err
		}
	}
	return true, nil
}

// isPassed says whether an earlier audit came to a name, which this one needn't look at.
func (e *emptying) isPassed(name *goneName) bool { return !name.taken.IsZero() }

// take takes a name that is gone; what is gone for long is forgotten.
func (e *emptying) take(name *goneName, marks *writes) error {
	if name.taken.IsZero() {
		if at := e.intendedAt(name); name.is && !at.IsZero() {
			return e.markAt(name, at, marks)
		}
		if name.is {
			e.fresh = append(e.fresh, name)
		}
		return nil
	}
	if name.taken.AddDate(0, 0, daysOfGone).After(e.audit.At) {
		return nil
	}
	for device := range name.at {
		if err := marks.remove(keyOfGone(e.folder, name.name, device)); err != nil {
			return err
		}
	}
	return nil
}

// keepNew keeps that the folder was emptied. What was renamed, or moved to another folder, isn't gone.
func (e *emptying) keepNew(marks *writes) error {
	stayed := e.audit.Stayed[e.folder]
	of := int64(len(e.fresh)) + stayed
	if e.since.IsZero() || !isMost(int64(len(e.fresh)), of) {
		return nil
	}
	lost, err := e.withoutMoved()
	if err != nil || !isMost(int64(len(lost)), of) {
		return err
	}
	for _, name := range lost {
		name.taken = e.audit.At.UTC().Round(0)
	}
	text, err := json.Marshal(emptiedValue{Since: e.since, Files: int64(len(lost)), Of: of})
	if err != nil {
		return err
	}
	return marks.put(keyOfEmptied(e.folder, e.audit.At), text)
}

// readEmptied gives what a history keeps of an emptied folder, and which audit found that.
func readEmptied(key, value, prefix []byte) (emptiedValue, time.Time, error) {
	var of emptiedValue
	if len(key) != len(prefix)+8 || json.Unmarshal(value, &of) != nil {
		return of, time.Time{}, errValue
	}
	return of, readTime(key[len(prefix):]), nil
}

// isMost says whether so many of a folder's files are told.
func isMost(files, of int64) bool {
	return files > 0 && (files == of || files >= fewestGone && 2*files >= of)
}

// withoutMoved gives the names that no audit came to and whose bytes stand nowhere else in the audited folders.
func (e *emptying) withoutMoved() ([]*goneName, error) {
	stands := map[part.Content]bool{}
	for _, name := range e.fresh {
		for _, of := range name.at {
			stands[of.before.Content] = false
		}
	}
	for folder, devices := range e.audit.Folders {
		for _, device := range devices {
			err := e.history.each(keyOfReadings(folder, device), func(_, value []byte) error {
				reading, err := readReading(value)
				if err == nil {
					if _, is := stands[reading.Content]; is {
						stands[reading.Content] = true
					}
				}
				return err
			})
			if err != nil {
				return nil, err
			}
		}
	}
	lost := []*goneName{}
	for _, name := range e.fresh {
		isMoved := false
		for _, of := range name.at {
			isMoved = isMoved || stands[of.before.Content]
		}
		if !isMoved {
			lost = append(lost, name)
		}
	}
	return lost, nil
}

// mark keeps that this audit came to the names. Those of an emptied folder have its time, and the others one before.
func (e *emptying) mark(marks *writes) error {
	for _, name := range e.fresh {
		taken := name.taken
		if taken.IsZero() {
			taken = e.audit.At.UTC().Round(0).Add(-1)
		}
		if err := e.markAt(name, taken, marks); err != nil {
			return err
		}
	}
	return nil
}

func (e *emptying) markAt(name *goneName, taken time.Time, marks *writes) error {
	for device, of := range name.at {
		if err := marks.put(keyOfGone(e.folder, name.name, device), (&gone{of.before, taken}).bytes()); err != nil {
			return err
		}
	}
	return nil
}

// tell tells of each time at which the folder was emptied, for some days, while most of those files are gone still.
func (e *emptying) tell(since *Since) error {
	marks := &writes{to: e.history.db}
	told, times := map[time.Time]*Emptied{}, []time.Time{}
	prefix := keyOfEmptieds(e.folder)
	err := e.history.each(prefix, func(key, value []byte) error {
		of, at, err := readEmptied(key, value, prefix)
		if err != nil {
			return err
		}
		days := DaysOfEmptied
		if of.Intended {
			days = daysOfGone
		}
		if !at.AddDate(0, 0, days).After(e.audit.At) {
			return marks.remove(append([]byte(nil), key...))
		}
		if of.Intended {
			return nil
		}
		told[at], times = &Emptied{Folder: e.folder, Since: of.Since, Found: at, IsNew: at.Equal(e.audit.At), Of: of.Of, First: []part.Bytes{}, Held: []Holder{}}, append(times, at)
		return nil
	})
	if err == nil {
		err = marks.end()
	}
	if err != nil || len(told) == 0 {
		return err
	}
	err = e.eachName(func(name *goneName) error {
		of := told[name.taken]
		if of == nil || !name.is {
			return nil
		}
		if of.Files++; of.Files <= MostListed {
			of.First = append(of.First, part.Bytes(name.name))
		}
		return e.addHolders(of, name)
	})
	for _, at := range times {
		if isMost(told[at].Files, told[at].Of) {
			since.Emptied = append(since.Emptied, *told[at])
		}
	}
	return err
}

// addHolders adds the devices that aren't audited now, and had the file when they were read last.
func (e *emptying) addHolders(to *Emptied, name *goneName) error {
	for _, device := range e.audit.known(e.folder) {
		if e.audit.isAsked(e.folder, device) {
			continue
		}
		reading, err := e.history.readingAt(e.folder, device, name.name)
		if err != nil {
			return err
		}
		if reading == nil {
			continue
		}
		id := e.audit.IDs[device]
		place := slices.IndexFunc(to.Held, func(holder Holder) bool { return holder.Device == id })
		if place < 0 {
			place, to.Held = len(to.Held), append(to.Held, Holder{Device: id, Read: reading.At})
		}
		to.Held[place].Files++
		if reading.At.Before(to.Held[place].Read) {
			to.Held[place].Read = reading.At
		}
	}
	return nil
}
