package history

import (
	"time"

	"github.com/syndtr/goleveldb/leveldb/util"
	"golang.org/x/exp/slices"
	"syncthing-audit/part"
)

// MostListed is how many names are listed one by one of each kind; more are counted.
const MostListed = 1000

// Since is what a history says beside an answer.
type Since struct {
	Before  *time.Time `json:"audit_before,omitempty"` // when the audit before this one was kept
	New     List       `json:"new"`                    // faults that the audit before didn't find
	Lasting List       `json:"lasting"`
	Mended  List       `json:"mended"`         // found before; the name was audited, and isn't at fault any more
	Deleted List       `json:"deleted"`        // found before; nothing is there any more
	Unread  List       `json:"not_read_again"` // found before on a disk; its bytes weren't asked for now, so it counts as wrong
	Unasked List       `json:"not_looked"`     // found before; the name wasn't audited now
	Changed []Changed  `json:"bytes_changed_everywhere"`
	Count   int64      `json:"bytes_changed_everywhere_count"`   // of all, also of those that aren't listed
	Taken   []Changed  `json:"bytes_changed_and_recorded"`       // on these devices, and not on all that have the file
	Takes   int64      `json:"bytes_changed_and_recorded_count"` // of all, also of those that aren't listed
	Read    []Read     `json:"read"`
	Waiting []Waiting  `json:"not_read_yet,omitempty"`
	Emptied []Emptied  `json:"emptied,omitempty"`
	Unkept  string     `json:"not_kept,omitempty"` // why the history doesn't have all of this audit

	Directory string           `json:"-"` // of the history
	UnreadIn  map[string]int64 `json:"-"` // how many names weren't read again, by folders, at which nothing else is wrong

	// Had gives the devices that aren't audited now and had these bytes of a file when it was read there last.
	Had func(folder, name string, content part.Content) []Held `json:"-"`
}

// List has the first of some faults, and counts all.
type List struct {
	Count int64  `json:"count"`
	First []Told `json:"first"`
}

// Told is a fault with the audits in which it was found.
type Told struct {
	Folder string     `json:"folder"`
	Name   part.Bytes `json:"name"`
	Device string     `json:"device,omitempty"` // its id; none where the fault is of the folder's devices together
	Reason string     `json:"reason"`
	First  time.Time  `json:"first"`
	Last   time.Time  `json:"last"`
	Audits int64      `json:"audits"`
	Held   []Held     `json:"held,omitempty"` // of a name that is deleted since: who had which bytes
}

// Changed is a file whose bytes changed under one time and size on these devices.
type Changed struct {
	Folder  string     `json:"folder"`
	Name    part.Bytes `json:"name"`
	Devices []string   `json:"devices"`
	Before  time.Time  `json:"read_with_bytes_before"`
	Since   time.Time  `json:"read_with_these_bytes"`
	Size    int64      `json:"size"`
	Block   int64      `json:"block_size"`
	Hash    string     `json:"hash_before"` // SHA-256 of the block hashes, one after another
}

// Read says how much of a device's files in a folder was read, whenever that was.
type Read struct {
	Folder     string     `json:"folder"`
	Device     string     `json:"device"`
	Files      int64      `json:"files"`
	Bytes      int64      `json:"bytes"`
	Oldest     time.Time  `json:"oldest"` // of no meaning where no file was read
	OldestName part.Bytes `json:"oldest_name,omitempty"`
}

// NotKept gives what is said where a history can't be opened or written: of what is new nothing is known.
func NotKept(why error) *Since {
	none := List{First: []Told{}}
	return &Since{New: none, Lasting: none, Mended: none, Deleted: none, Unread: none, Unasked: none, Changed: []Changed{}, Taken: []Changed{}, Read: []Read{}, Unkept: why.Error()}
}

// Audited is an audit that is to be kept.
type Audited struct {
	At      time.Time
	Found   []Fault
	Folders map[string][]uint64 // the devices of each folder that were audited
	Sharing map[string][]uint64 // other devices that share these folders
	Names   func(folder, name string) bool
	// Whether the bytes that a fault is of weren't asked for, where others of its device were looked at.
	IsUnread func(Fault) bool
	IDs      map[uint64]string                             // of devices
	IsThere  func(folder, name string, device uint64) bool // of names at fault before
	Stayed   map[string]int64                              // of each folder: how many files that were read before still stand
}

// Since keeps an audit, and says what the history has beside its answer.
func (h *History) Since(audit Audited) (*Since, error) {
	since := &Since{Changed: []Changed{}, Taken: []Changed{}, Read: []Read{}}
	before, err := h.Last()
	if err != nil {
		return nil, err
	}
	if !before.IsZero() {
		since.Before = &before
	}
	if err := h.addChanged(since, &audit); err != nil {
		return nil, err
	}
	absent, err := h.absent(&audit)
	if err != nil {
		return nil, err
	}
	news, err := h.Keep(audit.At, audit.Found, func(fault Fault) bool { return audit.hasLooked(fault, absent[fault.Folder]) })
	if err != nil {
		return nil, err
	}
	mended, deleted := audit.split(news.Mended)
	unread, unasked := splitUnread(news.Unasked, audit.IsUnread)
	since.UnreadIn = namesIn(unread, audit.Found)
	for _, kind := range []struct {
		faults []Fault
		to     *List
	}{{unread, &since.Unread}, {news.New, &since.New}, {news.Lasting, &since.Lasting}, {mended, &since.Mended}, {deleted, &since.Deleted}, {unasked, &since.Unasked}} {
		if *kind.to, err = h.list(kind.faults, audit.IDs); err != nil {
			return nil, err
		}
	}
	for place := range since.Deleted.First {
		told := &since.Deleted.First[place]
		if told.Held, err = h.held(&audit, told.Folder, string(told.Name)); err != nil {
			return nil, err
		}
	}
	if err := h.addEmptied(since, &audit); err != nil {
		return nil, err
	}
	since.Had = func(folder, name string, content part.Content) []Held { return h.had(&audit, folder, name, content) }
	return since, h.addRead(since, audit)
}

// split tells faults that are mended from those of which nothing is there any more: what a device had isn't there again. One whose bytes went to all devices, or
// are recorded, is neither: that is told as a fault of its own.
func (a *Audited) split(faults []Fault) (mended, deleted []Fault) {
	spread := a.spread()
	for _, fault := range faults {
		switch {
		case a.IsThere != nil && !a.IsThere(fault.Folder, fault.Name, fault.Device):
			deleted = append(deleted, fault)
		case !spread[[2]string{fault.Folder, fault.Name}]:
			mended = append(mended, fault)
		}
	}
	return mended, deleted
}

// spread gives the names whose bytes changed under one time on all devices, or where they are recorded.
func (a *Audited) spread() map[[2]string]bool {
	spread := map[[2]string]bool{}
	for _, fault := range a.Found {
		if fault.Cause == ChangedEverywhere || fault.Cause == ChangedAndRecorded {
			spread[[2]string{fault.Folder, fault.Name}] = true
		}
	}
	return spread
}

// known gives all devices of a folder that was audited, each once.
func (a *Audited) known(folder string) []uint64 {
	known := append([]uint64(nil), a.sharing(folder)...)
	slices.Sort(known)
	return slices.Compact(known)
}

// isAsked says whether a device was audited in a folder.
func (a *Audited) isAsked(folder string, device uint64) bool {
	return slices.Contains(a.Folders[folder], device)
}

// IsToLookAt says whether the history knows something by which an answer without faults isn't the whole truth.
func (s *Since) IsToLookAt() bool {
	return s.Count+s.Takes > 0 || len(s.Emptied) > 0 || s.Unkept != ""
}

// sharing gives all devices that share a folder which was audited.
func (a *Audited) sharing(folder string) []uint64 {
	if len(a.Folders[folder]) == 0 {
		return nil
	}
	return append(append([]uint64(nil), a.Folders[folder]...), a.Sharing[folder]...)
}

// hasLooked says whether an audit looked at all that a fault is of: its name, and its device or, where it is of all devices together, each one that was read
// before. What nobody looked at isn't mended.
func (a *Audited) hasLooked(fault Fault, isOneAbsent bool) bool {
	devices, is := a.Folders[fault.Folder]
	switch {
	case !is || !a.Names(fault.Folder, fault.Name):
		return false
	case fault.Device == 0:
		return !isOneAbsent
	}
	return slices.Contains(devices, fault.Device)
}

// absent says of which folders a device that was read before wasn't audited.
func (h *History) absent(audit *Audited) (map[string]bool, error) {
	absent := map[string]bool{}
	for folder := range audit.Folders {
		for _, device := range audit.Sharing[folder] {
			found := h.db.NewIterator(util.BytesPrefix(keyOfReadings(folder, device)), nil)
			absent[folder] = absent[folder] || !slices.Contains(audit.Folders[folder], device) && found.Next()
			found.Release()
			if err := found.Error(); err != nil {
				return nil, err
			}
		}
	}
	return absent, nil
}

// list lists the first faults.
func (h *History) list(faults []Fault, ids map[uint64]string) (List, error) {
	told := List{Count: int64(len(faults)), First: []Told{}}
	for _, fault := range faults {
		if len(told.First) == MostListed {
			break
		}
		seen, err := h.Seen(fault)
		if err != nil {
			return List{}, err
		}
		told.First = append(told.First, Told{Folder: fault.Folder, Name: part.Bytes(fault.Name), Device: ids[fault.Device], Reason: fault.Cause, First: seen.First, Last: seen.Last, Audits: seen.Audits})
	}
	return told, nil
}

// Causes of files whose bytes changed under one time: on all devices that have them, or on one that records them, so that others take them.
const (
	ChangedEverywhere  = "BytesChangedEverywhere"
	ChangedAndRecorded = "BytesChangedAndRecorded"
)

// addChanged adds the files whose bytes changed on all devices, and those whose bytes changed where they are recorded. Each is a fault of the audit, too: it
// is new once.
func (h *History) addChanged(since *Since, audit *Audited) error {
	return h.EachChanged(audit.sharing, func(spread Spread, isEverywhere bool) error {
		on, err := h.taken(&spread)
		if err != nil {
			return err
		}
		for _, device := range on {
			if err := h.addTaken(audit, Fault{spread.Folder, spread.Name, device, ChangedAndRecorded}, isEverywhere); err != nil {
				return err
			}
		}
		switch {
		case isEverywhere:
			audit.Found = append(audit.Found, Fault{Folder: spread.Folder, Name: spread.Name, Cause: ChangedEverywhere})
			add(&since.Changed, &since.Count, &spread, spread.Devices, audit)
		case len(on) > 0:
			add(&since.Taken, &since.Takes, &spread, on, audit)
		}
		return nil
	})
}

// addTaken adds the fault of a device that records bytes which changed under one time. Once all devices have them, it lasts where it was told, and is new nowhere.
func (h *History) addTaken(audit *Audited, fault Fault, isEverywhere bool) error {
	if isEverywhere {
		seen, err := h.Seen(fault)
		if err != nil || seen == nil || !seen.Mended.IsZero() {
			return err
		}
	}
	audit.Found = append(audit.Found, fault)
	return nil
}

// add adds a file to a list, as far as that goes, and counts it.
func add(to *[]Changed, count *int64, spread *Spread, on []uint64, audit *Audited) {
	if *count++; *count > MostListed {
		return
	}
	before := spread.Change.Before
	changed := Changed{Folder: spread.Folder, Name: part.Bytes(spread.Name), Before: before.At, Since: spread.Change.Since.At, Size: before.Content.Size,
		Block: before.Content.BlockSize, Hash: before.Content.Hash.String()}
	for _, device := range on {
		changed.Devices = append(changed.Devices, audit.IDs[device])
	}
	*to = append(*to, changed)
}

func (h *History) addRead(since *Since, audit Audited) error {
	for _, folder := range sorted(audit.Folders) {
		for _, device := range audit.Folders[folder] {
			covered, err := h.Coverage(folder, device)
			if err != nil {
				return err
			}
			since.Read = append(since.Read, Read{folder, audit.IDs[device], covered.Files, covered.Bytes, covered.Oldest, part.Bytes(covered.OldestName)})
		}
	}
	return nil
}
