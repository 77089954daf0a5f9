package finding

import (
	"fmt"
	"strings"
)

// Unsure is something at a device that may change a folder which is in step under one version, and that no row says. So the folder isn't known
// to be firm.
type Unsure struct {
	Device string   `json:"device"`
	Kind   string   `json:"kind"`
	Why    string   `json:"why"`             // in words, of Busy, Wanted and Writers
	Names  int64    `json:"names,omitempty"` // of the others: at how many names
	Unread int64    `json:"-"`               // of OverWire: how many files' bytes weren't asked for
	Asked  bool     `json:"-"`               // of OverWire: whether Syncthing itself said what kind of folder it is, and what it does there
	Waits  *Waiting `json:"-"`               // of what waits for a scan: how
}

// What makes a folder unsure.
const (
	Waits    = "not-scanned"   // a scan sends something else than what is recorded
	Busy     = "busy"          // what a scan has found may wait in Syncthing's memory
	Wanted   = "wanted"        // Syncthing says that it still needs names, or fails at some
	ToIgnore = "to-ignore"     // .stignore has come to ignore directories that the index has
	Writers  = "writers"       // something else of Syncthing writes into the directory
	Linked   = "linked"        // files have links elsewhere: another folder may change their times and modes
	OverWire = "over-the-wire" // the device was asked over the wire, where not all is seen
)

// KindsOfUnsure are all of these, in the order in which they are told.
var KindsOfUnsure = []string{Waits, Busy, Wanted, ToIgnore, Writers, Linked, OverWire}

// Words says in words what it is.
func (u *Unsure) Words() string {
	if u.Kind == Busy || u.Kind == Wanted || u.Kind == Writers {
		return u.Kind + ": " + u.Why
	}
	if u.Kind == OverWire {
		return fmt.Sprintf("%s: %d directories and symlinks not seen, %d files not read", u.Kind, u.Names, u.Unread)
	}
	return fmt.Sprintf("%s: %d names", u.Kind, u.Names)
}

// CallUnsure says what is to be told of what makes a folder unsure: of one that isn't firm anyway, it is that it may change.
func (f Firm) CallUnsure() string {
	if f == NotKnown {
		return "not known to be firm"
	}
	return "may change by itself"
}

// Unsure gives all that makes a folder unsure, by devices.
func (f *Folder) Unsure() []Unsure {
	unsure := []Unsure{}
	for member, at := range f.Members {
		if at.Device == nil || at.About == nil {
			continue
		}
		device := at.Head.Device
		if waits := f.SendsAfterScan(member); waits != nil && waits.Losing() > 0 {
			unsure = append(unsure, Unsure{Device: device, Kind: Waits, Names: waits.Losing(), Waits: waits})
		}
		if why := at.Head.WhyBusy(at.About); why != "" {
			unsure = append(unsure, Unsure{Device: device, Kind: Busy, Why: why})
		}
		if why := at.About.Rest.WhyWanted(); why != "" {
			unsure = append(unsure, Unsure{Device: device, Kind: Wanted, Why: why, Names: at.About.Rest.Wanted.Most()})
		}
		if at.ToIgnore > 0 {
			unsure = append(unsure, Unsure{Device: device, Kind: ToIgnore, Names: at.ToIgnore})
		}
		if len(at.About.Writers) > 0 {
			unsure = append(unsure, Unsure{Device: device, Kind: Writers, Why: strings.Join(at.About.Writers, ", ")})
		}
		if at.Linked != nil && at.Linked.Names > 0 {
			unsure = append(unsure, Unsure{Device: device, Kind: Linked, Names: at.Linked.Names})
		}
		if at.Head.IsOverWireAlone() {
			unsure = append(unsure, Unsure{Device: device, Kind: OverWire, Names: at.Unseen.Standing, Unread: at.Unseen.Unread, Asked: at.About.Rest != nil})
		}
	}
	return unsure
}
