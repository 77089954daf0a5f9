package outlook

import (
	"golang.org/x/exp/slices"
	"syncthing-audit/damage"
	"syncthing-audit/forecast"
	"syncthing-audit/lists"
)

// How something that stands on a disk comes to be on none, if it isn't lost.
type way int

const (
	byNothing   way = iota // it is lost
	byRecord               // a recorded change, which stands somewhere at each end, or a recorded deletion came after it
	byUnscanned            // a change that no scan has seen yet came after it
)

// goesBy gives what stands at a name on some disk now and on none at some end, and goes in one of these ways.
func (j *judge) goesBy(name *forecast.Name, ways ...way) []Thing {
	goes := lists.Where(thingsNow(j.group.Devices, name), func(thing Thing) bool {
		return !j.survives(name.Name, thing) && slices.Contains(ways, j.wayOf(name, thing))
	})
	for place := range goes {
		goes[place].Versions = j.versionsOf(name.Name, goes[place])
	}
	return goes
}

// isEmptyEnd says whether nothing stands at a name but copies.
func isEmptyEnd(end []Thing) bool {
	return !lists.Has(end, func(thing Thing) bool { return !thing.IsCopy })
}

// survives says whether something stands on some disk at each end, even where conflict copies meet: a file's bytes under any name that hangs together
// with this one, anything else under its name or in a copy.
func (j *judge) survives(name string, thing Thing) bool {
	return j.staysIn(j.sure, name, thing, isSure)
}

// isSure says whether a thing stays where copies meet.
func isSure(things []Thing, at int) bool { return !mayGoByMeeting(things, at) }

// staysIn says the same of such bytes, and of such things at a name.
func (j *judge) staysIn(bytes []map[forecast.Content]bool, name string, thing Thing, counts func(things []Thing, at int) bool) bool {
	for place := range j.ends {
		if !j.staysAt(place, bytes, name, thing, counts) {
			return false
		}
	}
	return true
}

// staysAt says so of one end.
func (j *judge) staysAt(place int, bytes []map[forecast.Content]bool, name string, thing Thing, counts func(things []Thing, at int) bool) bool {
	is, end := thing.Content.Size > 0 && bytes[place][thing.Content], j.ends[place]
	for at, other := range end[name] {
		is = is || thing.IsLike(other) && counts(end[name], at)
	}
	return is
}

// wayOf says what came after something that stands at a name. What no device has recorded nothing can have replaced, and a recorded change whose bytes
// are harmed has replaced nothing: what was there before it is the best that is left. Neither has what looks harmed in the record or on a disk.
func (j *judge) wayOf(name *forecast.Name, thing Thing) way {
	of := lists.Where(name.Own, func(own *forecast.Record) bool { return isValid(own) && isOf(own, thing) })
	if len(of) == 0 {
		return byNothing
	}
	for _, own := range name.Own {
		isKept := isValid(own) && !isOf(own, thing) && (own.Deleted || !looksHarmed(own, thing, of...) && j.survives(name.Name, thingOfRecord(own)))
		if isKept && areAll(of, func(record *forecast.Record) bool { return record.IsBelow(own) }) {
			return byRecord
		}
	}
	for i, own := range name.Own {
		if isValid(own) && showsChange(own, name.Disk[i]) && kindOf(j.damage, name.Name, i) == damage.None && areAll(of, func(record *forecast.Record) bool { return record.IsAtMost(own) }) {
			return byUnscanned
		}
	}
	return byNothing
}

// kindOf gives why what stands at a name on a device's disk looks like damage.
func kindOf(of map[string][]damage.Kind, name string, member int) damage.Kind {
	if kinds := of[name]; kinds != nil {
		return kinds[member]
	}
	return damage.None
}

func areAll(records []*forecast.Record, is func(*forecast.Record) bool) bool {
	return !lists.Has(records, func(record *forecast.Record) bool { return !is(record) })
}

// looksHarmed says whether what is recorded in place of a file looks like harm that a scan took for a change: it is empty, or has other bytes under the very
// time of these earlier records.
func looksHarmed(record *forecast.Record, thing Thing, earlier ...*forecast.Record) bool {
	isUnderItsTime := func(before *forecast.Record) bool { return before.Time == record.Time }
	return isEmptied(record, thing) || !record.Deleted && record.Type == forecast.File && thing.Type == forecast.File && record.Content != thing.Content && thing.Content.Size > 0 && lists.Has(earlier, isUnderItsTime)
}

// isEmptied says whether an empty file is recorded in place of a file's bytes.
func isEmptied(record *forecast.Record, thing Thing) bool {
	return !record.Deleted && record.Type == forecast.File && record.Content.Size == 0 && thing.Type == forecast.File && thing.Content.Size > 0
}

// isValid says whether there is a record that other devices may take.
func isValid(record *forecast.Record) bool { return record != nil && record.Flag == forecast.Valid }

func isOf(record *forecast.Record, thing Thing) bool {
	return !record.Deleted && record.Type == thing.Type && record.Content == thing.Content && record.Target == string(thing.Target)
}

// showsChange says whether something else stands on a disk than is recorded, and a scan takes that for a change somebody made: it is of another
// kind, or of another time. What isn't there, what was emptied, what has other bytes under the recorded time, and what was cut short under it isn't.
func showsChange(own *forecast.Record, what *forecast.Node) bool {
	switch {
	case what == nil:
		return false
	case own.Deleted || own.Type != what.Type:
		return true
	case what.Type == forecast.File:
		return own.Time != what.Time && own.Content != what.Content && (what.Content.Size > 0 || own.Content.Size == 0)
	}
	return own.Target != what.Target
}
