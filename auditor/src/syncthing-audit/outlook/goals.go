package outlook

import (
	"golang.org/x/exp/slices"
	"syncthing-audit/damage"
	"syncthing-audit/forecast"
	"syncthing-audit/lists"
)

// goalOf gives what is to stand at a name that needs a hand; nothing where it needs none, or where nobody can tell what is right.
func goalOf(name *forecast.Name, told *Name, kinds []damage.Kind) *forecast.Node {
	for _, kind := range kinds {
		if kind.MayBeOfRecord() {
			return nil
		}
	}
	if node := wantedOf(name, told); node != nil && !isEmptyBesideBytes(name, node) {
		return node
	}
	return nil
}

// isEmptyBesideBytes says whether something is an empty file, and another one at the name has bytes: it may be damage, also where it was recorded.
func isEmptyBesideBytes(name *forecast.Name, node *forecast.Node) bool {
	return thingOf(node).isEmpty() && nodeWhere(name, func(what *forecast.Node) bool { return what.Content.Size > 0 }) != nil
}

func wantedOf(name *forecast.Name, told *Name) *forecast.Node {
	switch told.Fate {
	case Lost:
		return lastRecorded(name, told.certain)
	case Depends:
		return laterOf(name, told)
	case Stays:
		return recordedOf(name, told)
	}
	return nil
}

// recordedOf gives what is to stand at a name of which a device keeps other bytes than recorded, that no scan sees: what the others come to have, where that
// stands under the name now; or else what the device recorded last.
func recordedOf(name *forecast.Name, told *Name) *forecast.Node {
	for _, kept := range told.Kept {
		if kept.Why != forecast.NotSeen {
			continue
		}
		if node := comesTo(name, told); node != nil {
			return node
		}
		if own := name.Own[kept.member]; own != nil {
			return nodeOf(name, thingOfRecord(own))
		}
	}
	return nil
}

// comesTo gives what stands at a name now and in the end on most devices that don't keep it otherwise than others. A device takes rotten bytes of
// its own to a name that another one gave them: so what it recorded there before isn't what is to stand there.
func comesTo(name *forecast.Name, told *Name) *forecast.Node {
	var there *forecast.Node
	most := 0
	for _, thing := range told.Ends[0] {
		isKept := lists.Has(told.Kept, func(kept Kept) bool { return slices.Contains(thing.Devices, kept.Device) })
		if node := nodeOf(name, thing); node != nil && !thing.IsCopy && !isKept && len(thing.Devices) > most {
			there, most = node, len(thing.Devices)
		}
	}
	return there
}

// lastRecorded gives that of some things which is recorded, and after which none of the others was. It gives nothing where a later change was recorded
// whose bytes are on no disk, or that looks harmed: nobody can tell what is right. Neither can anybody where a change beside it stays: what is lost is saved then.
func lastRecorded(name *forecast.Name, things []Thing) *forecast.Node {
	var found *forecast.Record
	var node *forecast.Node
	for _, thing := range things {
		for _, own := range name.Own {
			if isValid(own) && isOf(own, thing) && own.Type != forecast.Directory && (found == nil || found.IsBelow(own)) {
				found, node = own, nodeOf(name, thing)
			}
		}
	}
	for _, own := range name.Own {
		if found == nil || !isValid(own) || own.Deleted {
			continue
		}
		there, isHarmed := nodeOf(name, thingOfRecord(own)), looksHarmed(own, thingOf(node), found)
		isKept := there != nil && !isHarmed && !isAmong(things, thingOf(there))
		if found.IsBelow(own) && (there == nil || isHarmed) || isKept && isBeside(own, found) {
			return nil
		}
	}
	return node
}

// isBeside says whether of two changes neither knew the other.
func isBeside(one, other *forecast.Record) bool { return !one.IsAtMost(other) && !other.IsAtMost(one) }

func nodeOf(name *forecast.Name, thing Thing) *forecast.Node {
	return nodeWhere(name, func(what *forecast.Node) bool { return thing.IsSame(thingOf(what)) })
}

// nodeWhere gives what stands at a name on the first device where this is so of it; nothing where it is on none.
func nodeWhere(name *forecast.Name, is func(what *forecast.Node) bool) *forecast.Node {
	for _, what := range name.Disk {
		if what != nil && is(what) {
			return what
		}
	}
	return nil
}

// laterOf gives what stands at a name now and at some of its ends, and was modified last: of several ends that is what Syncthing itself keeps of two
// changes. Nothing stands there at an end in which a deletion came first.
func laterOf(name *forecast.Name, told *Name) *forecast.Node {
	var later *forecast.Node
	for _, end := range told.Ends {
		for _, thing := range end {
			node := nodeOf(name, thing)
			if node != nil && !thing.IsCopy && (later == nil || node.Time > later.Time) {
				later = node
			}
		}
	}
	return later
}

// holdsLost says whether a name is a directory on some devices and not on others, and something below it is lost: that needs the directory first.
func holdsLost(group *forecast.World, told []Name, place int) bool {
	name := &group.Names[place]
	isNone := func(what *forecast.Node) bool { return what == nil || what.Type != forecast.Directory }
	return directoryAt(name) != nil && lists.Has(name.Disk, isNone) && losesBelow(group, told, name.Name)
}

// losesBelow says whether something that isn't a directory is lost below a name. A directory that was renamed loses nothing.
func losesBelow(group *forecast.World, told []Name, name string) bool {
	for at := range told {
		if other := &group.Names[at]; told[at].Fate == Lost && isBelow(other.Name, name) && !isDirectory(other) {
			return true
		}
	}
	return false
}

// directoryAt gives the directory that stands at a name on some device; nothing where none does.
func directoryAt(name *forecast.Name) *forecast.Node {
	return nodeWhere(name, func(what *forecast.Node) bool { return what.Type == forecast.Directory })
}
