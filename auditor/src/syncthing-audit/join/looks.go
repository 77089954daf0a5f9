package join

import (
	"errors"
	"fmt"
	"time"

	"golang.org/x/exp/slices"
	"syncthing-audit/part"
)

// checkLooks says which device was looked at once, where others were twice. An observer looks twice by itself: its parts go with those of devices that
// are stopped.
func checkLooks(devices []*Device) error {
	for place, device := range devices {
		for _, other := range devices[:place] {
			if err := checkTwoLooks(device, other); err != nil {
				return err
			}
		}
	}
	return nil
}

// checkTwoLooks says why the parts of two devices don't go together by their looks.
func checkTwoLooks(device, other *Device) error {
	isOverWire := device.Head.IsOverWire() || other.Head.IsOverWire()
	switch {
	case device.Head.IsOverWire() && other.Head.IsOverWire():
		if device.Head.Look.ID != other.Head.Look.ID {
			return fmt.Errorf("refused: %s and %s are of two runs of 'observe', which may be of two moments: observe all in one run", device.From, other.From)
		}
	case isOverWire && device.Head.Look != nil && other.Head.Look != nil:
		return fmt.Errorf("refused: one of %s and %s is made by two looks at the device itself, and the other one over the wire: observe both, or stop the "+
			"first device and make its part by 'part'", device.From, other.From)
	case !isOverWire && (device.Head.Look == nil) != (other.Head.Look == nil):
		if device.Head.Look == nil {
			device, other = other, device
		}
		return fmt.Errorf("refused: %s is of two looks, as at a running device, and %s of one: make all parts in the same way",
			device.From, other.From)
	}
	return nil
}

// outOfOrder gives the members of which one's second look may have begun before another one's first look was over. It can't name that look then.
func outOfOrder(folder *Folder) []odds {
	found := []odds{}
	for _, member := range folder.Members {
		for _, other := range folder.Members {
			if member.Head.Look == nil || other.Head.Look == nil || member.Head.Look.After[other.Head.Device] == other.Head.Look.ID {
				continue
			}
			found = append(found, odds{member.Head.Device, other.Head.Device,
				"its second look has no token of the first look of " + other.Label() +
					", so it may have begun before that was over: make the second look of this one anew, with the tokens of all",
				"the second look of " + member.Label() + " has no token of its first look, so that one may have begun before this one was over: make the second look " +
					"of that one anew, with the tokens of all"})
		}
	}
	return found
}

// ErrClocks says that the devices' clocks differ by more than the time between the looks.
var ErrClocks = errors.New("by the devices' clocks the second looks began before the first ones were over")

// IsLive says whether the folder was audited by two looks at each device that ran.
func (f *Folder) IsLive() bool {
	return slices.IndexFunc(f.Members, func(member Member) bool { return member.Head.Look != nil }) >= 0
}

// Still gives how long it was between the last first look and the first second one, by the devices' clocks.
func (f *Folder) Still() (time.Duration, error) {
	var last, first time.Time
	for _, member := range f.Members {
		look := member.Head.Look
		if look == nil {
			continue
		}
		if last.IsZero() || look.At.After(last) {
			last = look.At
		}
		if first.IsZero() || look.Ended.Before(first) {
			first = look.Ended
		}
	}
	if first.Before(last) {
		return 0, ErrClocks
	}
	return first.Sub(last), nil
}

// IsMoving says whether a name changed at a member between its two looks, or after its part was made.
func (r *Row) IsMoving() bool {
	if len(r.Later) > 0 {
		return true
	}
	for _, name := range r.At {
		if name != nil && len(name.Moved) > 0 {
			return true
		}
	}
	return false
}

// IsUnheard says whether a member hadn't heard of another one's own record of a name at its second look. It has heard of it
// if its view has the record and goes as far as the record's sequence. Links are in order, so nothing else of the name is
// on its way then.
func (f *Folder) IsUnheard(row *Row, knower, of int) bool {
	at := row.At[of]
	if knower == of || at == nil || at.Own == nil || !sharesWith(f.Members[of].About, f.Members[knower].Head.Device) {
		return false
	}
	view, seen := ViewOf(f.Members, row, knower, of)
	if view == nil || seen == nil {
		return true
	}
	heard := view.Heard
	if f.Members[knower].Head.Look == nil { // a stopped device hears of nothing more
		heard = view.Max
	}
	return heard < at.Own.Sequence || seen.Invalid != at.Own.Invalid || !slices.Equal(seen.Version, at.Own.Version)
}

// ViewOf gives a member's view of another one, and the record of a name that it has there; nothing where it has none.
func ViewOf(members []Member, row *Row, knower, of int) (*part.View, *part.Record) {
	for place := range members[knower].About.Views {
		view := &members[knower].About.Views[place]
		if view.Device != members[of].Head.Device {
			continue
		}
		if at := row.At[knower]; at != nil {
			if seen := slices.IndexFunc(at.Views, func(seen part.Seen) bool { return seen.View == place }); seen >= 0 {
				return view, at.Views[seen].Record
			}
		}
		return view, nil
	}
	return nil, nil
}
