package finding

import (
	"time"

	"syncthing-audit/part"
)

// Live is what two looks at running devices say of a folder beside what is still. Of parts of different moments it says which names changed between.
type Live struct {
	OfParts  bool                `json:"of_parts,omitempty"` // whether the devices were stopped, and no look was made
	WentBack bool                `json:"-"`                  // whether the index of a device went back, so that no later audit of it by itself has the names at rest
	Seconds  *float64            `json:"still_seconds"`      // between the last first look and the first second one; none where clocks differ by more
	Moving   int64               `json:"names_in_motion"`    // that changed between the looks at a device, and aren't audited
	Names    []Moving            `json:"in_motion"`          // the first MostListed
	Unheard  []Unheard           `json:"not_heard_of"`
	Waits    int64               `json:"names_waiting,omitempty"` // of all names in motion, those that wait for a scan
	Waiting  map[string]*Waiting `json:"waiting,omitempty"`       // by device: what waits for a scan there, of all these names
}

// Moving is a name that changed at a device while it was looked at, or waits there.
type Moving struct {
	Name part.Bytes `json:"name"`
	At   []Moved    `json:"devices"`
}

// Moved says what changed at a device.
type Moved struct {
	Device   string   `json:"device"`
	Why      []string `json:"why"`
	Waits    string   `json:"waits,omitempty"` // of what waits for a scan: how
	Recorded *State   `json:"recorded,omitempty"`
	Found    *State   `json:"found,omitempty"`
	Have     []string `json:"have_recorded,omitempty"` // the other devices on whose disks what it records stands, and is recorded
}

// Unheard counts the still names whose record one device hadn't heard of from another one: it is on its way, or they aren't
// connected.
type Unheard struct {
	Device string `json:"device"`
	Of     string `json:"of"`
	Names  int64  `json:"names"`
}

// NewLive gives what is told where nothing was in motion.
func NewLive() *Live { return &Live{Names: []Moving{}, Unheard: []Unheard{}} }

// SetStill sets for how long the names were still, in milliseconds.
func (l *Live) SetStill(spent time.Duration) {
	seconds := float64(spent.Round(time.Millisecond)) / 1e9
	l.Seconds = &seconds
}

// isMoving says whether names of a folder that was audited while its devices ran weren't audited.
func (l *Live) isMoving() bool { return l != nil && l.Moving > 0 }

// isOnItsWay says whether records of such a folder may be on their way.
func (l *Live) isOnItsWay() bool { return l != nil && len(l.Unheard) > 0 }

// AddMoving adds a name that changed; the first MostListed are told by name.
func (l *Live) AddMoving(moving Moving) {
	l.Moving++
	isWaiting := false
	for _, at := range moving.At {
		isWaiting = isWaiting || at.Waits != ""
		l.addWaiting(at)
	}
	if isWaiting {
		l.Waits++
	}
	if len(l.Names) < MostListed {
		l.Names = append(l.Names, moving)
	}
}

// AddUnheard adds a name of which a device hadn't heard.
func (l *Live) AddUnheard(device, of string) {
	for place := range l.Unheard {
		if l.Unheard[place].Device == device && l.Unheard[place].Of == of {
			l.Unheard[place].Names++
			return
		}
	}
	l.Unheard = append(l.Unheard, Unheard{device, of, 1})
}
