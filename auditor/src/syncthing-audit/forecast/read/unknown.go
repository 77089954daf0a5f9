package read

import (
	"golang.org/x/exp/slices"
	"golang.org/x/text/unicode/norm"
	"syncthing-audit/choice"
	"syncthing-audit/forecast"
	"syncthing-audit/join"
	"syncthing-audit/part"
)

// Why is why it isn't known what comes of names.
type Why string

const (
	Absent     Why = "device-left-out"  // another device shares the folder, and isn't audited
	Unlinked   Why = "not-linked"       // no way leads from the device to all others
	OverWire   Why = "over-the-wire"    // the device was seen over the wire, which doesn't show all of its disk
	Untried    Why = "untried-version"  // nobody compared the device's version of Syncthing with the model
	Untold     Why = "options-not-told" // the device's part doesn't tell the folder's options
	Paused     Why = "paused"           // the folder, or a device
	Attributes Why = "attributes"       // owners or extended attributes are scanned, which the model hasn't
	Writers    Why = "writers"          // something else of Syncthing writes into the directory
	OtherIndex Why = "another-index"    // a device knows of an index that another one doesn't have any more, or is to repair its own
	Asked      Why = "names-not-asked"  // not all names were read
	LeftOut    Why = "left-out"         // something of the name isn't audited
	Moving     Why = "in-motion"        // it changed while it was looked at
	OddName    Why = "odd-name"         // it isn't in Unicode's form NFC: a scan renames it, or passes it over
	Case       Why = "case"             // another name differs from it by upper and lower case alone, and a disk takes both for one
	Linked     Why = "linked"           // it is one file with another name on a disk: what is set at one is set at both
	Damaged    Why = "damaged"          // a disk fails to give what it has
	NeverTold  Why = "never-told"       // a device may never tell a change of it
	Copies     Why = "conflict-copies"  // it may come to have more conflict copies than are kept
	Twins      Why = "same-bytes"       // another name, which isn't looked at, has the same bytes
	TooMany    Why = "too-many"         // more names differ than are looked at
	Budget     Why = "budget"           // too many orders to try in the time
	Endless    Why = "no-end"           // in some order that was tried it came to no end
)

// AllWhys are all of them.
var AllWhys = []Why{Absent, Unlinked, OverWire, Untried, Untold, Paused, Attributes, Writers, OtherIndex, Asked, LeftOut, Moving, OddName, Case, Linked, Damaged, NeverTold, Copies,
	Twins, TooMany, Budget, Endless}

// Unknown is why it isn't known what comes of all names of a folder, and of which devices that is.
type Unknown struct {
	Why     Why
	Members []int // rising; none where it is of all
}

// unknownOf gives all reasons of a folder.
func unknownOf(members []join.Member) []Unknown {
	var all []Unknown
	for _, check := range []struct {
		why Why
		is  func(member int) bool
	}{
		{Absent, func(member int) bool { return sharesWithAbsent(members, member) }},
		{Unlinked, func(member int) bool { return isUnlinked(members, member) }},
		{OverWire, func(member int) bool { return members[member].Head.IsOverWireAlone() }},
		{Untried, func(member int) bool { return forecast.ReleaseOf(members[member].Head.Runs) == forecast.Untried }},
		{Untold, func(member int) bool {
			return members[member].About.Options == nil && !members[member].Head.IsOverWireAlone()
		}},
		{Paused, func(member int) bool {
			return members[member].About.Paused || len(members[member].About.PausedDevices) > 0
		}},
		{Attributes, func(member int) bool { return members[member].About.ScansAttributes }},
		{Writers, func(member int) bool { return len(members[member].About.Writers) > 0 }},
		{OtherIndex, func(member int) bool { return members[member].Head.ToRepair || seesOtherIndex(members, member) }},
		{Asked, func(member int) bool { return !isAll(members[member].Head.Names) }},
	} {
		var found []int
		for member := range members {
			if check.is(member) {
				found = append(found, member)
			}
		}
		if len(found) > 0 {
			all = append(all, Unknown{check.why, found})
		}
	}
	return all
}

func isAll(names choice.Names) bool { return names.IsAll() }

func memberOf(members []join.Member, device string) int {
	return slices.IndexFunc(members, func(member join.Member) bool { return member.Head.Device == device })
}

func sharesWithAbsent(members []join.Member, member int) bool {
	return slices.IndexFunc(members[member].About.Sharing, func(with part.Sharing) bool { return memberOf(members, with.Device) < 0 }) >= 0
}

// apartFrom gives the devices with which one doesn't share the folder.
func apartFrom(members []join.Member, member int) forecast.Places {
	apart := forecast.Places(0)
	for other, device := range members {
		if other != member && slices.IndexFunc(members[member].About.Sharing, func(with part.Sharing) bool { return with.Device == device.Head.Device }) < 0 {
			apart |= 1 << other
		}
	}
	return apart
}

// isUnlinked says whether no way leads from a device to all others.
func isUnlinked(members []join.Member, member int) bool {
	reached := forecast.Places(1) << member
	for range members {
		for between := range members {
			if reached.Has(between) {
				reached |= ^apartFrom(members, between) & (1<<len(members) - 1)
			}
		}
	}
	return reached != 1<<len(members)-1
}

func seesOtherIndex(members []join.Member, member int) bool {
	for _, view := range members[member].About.Views {
		if other := memberOf(members, view.Device); other >= 0 && !apartFrom(members, member).Has(other) && view.IndexID != members[other].About.IndexID {
			return true
		}
	}
	return false
}

// unknownAt gives why it isn't known what comes of a name, if there is a reason in what its devices have. It notes who may never tell the name.
func (r *Rows) unknownAt(row *join.Row) Why {
	if isBelow(r.out, row.Name) {
		return LeftOut
	}
	if len(row.Later) > 0 {
		return Moving
	}
	if !norm.NFC.IsNormalString(row.Name) {
		return OddName
	}
	for _, at := range row.At {
		switch {
		case at == nil:
		case at.IsDamaged() || at.Disk != nil && at.Disk.Unread > 0:
			return Damaged
		case len(at.Out) > 0:
			return LeftOut
		case len(at.Moved) > 0 || at.Receiving != "":
			return Moving
		}
	}
	why := Why("")
	for member, at := range row.At { // of what is in motion or left out no view is there
		if at == nil {
			continue
		}
		if at.Own != nil && at.Own.Invalid && at.Own.Local == nil {
			why = NeverTold
		} else if r.isNeverTold(member, row) {
			r.Places[NeverTold] |= 1 << member
			why = NeverTold
		}
	}
	return why
}

// isNeverTold says whether another device has heard of later changes of a device's index, and not of its record of a name. Syncthing sends
// what comes behind the last change that the other one has heard of.
func (r *Rows) isNeverTold(member int, row *join.Row) bool {
	own := row.At[member].Own
	if own == nil {
		return false
	}
	for knower := range r.members {
		view, seen := join.ViewOf(r.members, row, knower, member)
		if view == nil || heard(view) < own.Sequence || r.world.Devices[knower].Apart.Has(member) {
			continue
		}
		if seen == nil || seen.Invalid != own.Invalid || !slices.Equal(seen.Version, own.Version) {
			return true
		}
	}
	return false
}

// heard gives how far a device has heard of an index.
func heard(view *part.View) int64 {
	if view.Heard > view.Max {
		return view.Heard
	}
	return view.Max
}
