package finding

import (
	"syncthing-audit/damage"
	"syncthing-audit/part"
)

// How a disk isn't as its record says, of a name that waits for a scan: these, and the kinds of damage.
const (
	WaitsMissing = "missing"
	WaitsUnknown = "unknown" // no details were kept
	WaitsChanged = "changed"
	WaitsBack    = "back" // it is deleted by the record
	WaitsNew     = "new"
)

// KindsOfWaiting are all of them. What looks most like damage comes first.
var KindsOfWaiting = kindsOfWaiting()

func kindsOfWaiting() []string {
	kinds := []string{WaitsMissing}
	for _, kind := range damage.Kinds {
		kinds = append(kinds, string(kind))
	}
	return append(kinds, WaitsUnknown, WaitsChanged, WaitsBack, WaitsNew)
}

// Waiting counts the names that wait for a scan on a device.
type Waiting struct {
	Names   map[string]int64 `json:"names"`   // by how they wait
	From    map[string]int64 `json:"from"`    // how many of them stand as recorded on the disks of other devices
	Nowhere int64            `json:"nowhere"` // how many have recorded bytes that stand on no other device's disk
}

// KindOfWaiting says how the disk isn't as the record says.
func KindOfWaiting(at *part.Name) string {
	switch {
	case at == nil:
		return WaitsUnknown
	case at.Own == nil:
		return WaitsNew
	case at.Own.Deleted:
		return WaitsBack
	case at.Disk == nil:
		return WaitsMissing
	}
	if why := damage.Of(at.Own, at.Disk); why != damage.None {
		return string(why)
	}
	return WaitsChanged
}

// LosesRecorded says whether a scan takes something else in place of what is recorded.
func LosesRecorded(kind string) bool { return kind != WaitsNew && kind != WaitsBack }

// addWaiting counts what waits for a scan.
func (l *Live) addWaiting(moved Moved) {
	if moved.Waits == "" {
		return
	}
	if l.Waiting == nil {
		l.Waiting = map[string]*Waiting{}
	}
	to := l.Waiting[moved.Device]
	if to == nil {
		to = NewWaiting()
		l.Waiting[moved.Device] = to
	}
	to.Names[moved.Waits]++
	for _, other := range moved.Have {
		to.From[other]++
	}
	if len(moved.Have) == 0 && LosesRecorded(moved.Waits) {
		to.Nowhere++
	}
}

// NewWaiting counts nothing yet.
func NewWaiting() *Waiting { return &Waiting{Names: map[string]int64{}, From: map[string]int64{}} }

// Add adds what waits elsewhere.
func (w *Waiting) Add(other *Waiting) {
	for kind, count := range other.Names {
		w.Names[kind] += count
	}
	for device, count := range other.From {
		w.From[device] += count
	}
	w.Nowhere += other.Nowhere
}

// Losing counts the names of which a scan takes something else than what is recorded: what is new, or back, takes nothing away.
func (w *Waiting) Losing() int64 { return w.count(LosesRecorded) }

// Sent counts the names that are to be looked at before a scan: all but what is new.
func (w *Waiting) Sent() int64 { return w.count(func(kind string) bool { return kind != WaitsNew }) }

// count counts the names that wait so.
func (w *Waiting) count(isSo func(kind string) bool) int64 {
	sum := int64(0)
	for kind, count := range w.Names {
		if isSo(kind) {
			sum += count
		}
	}
	return sum
}

// SendsAfterScan gives what waits at a member for a scan that sends what stands there, where that is more than what is new; nothing where none does.
func (f *Folder) SendsAfterScan(member int) *Waiting {
	if f.Live == nil {
		return nil
	}
	waits, about := f.Live.Waiting[f.Members[member].Head.Device], f.Members[member].About
	if waits == nil || about != nil && about.Kind == receiveOnly || waits.Sent() == 0 {
		return nil
	}
	return waits
}

const receiveOnly = "receive-only"
