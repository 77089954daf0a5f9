package outlook

import (
	"sort"
	"time"

	"golang.org/x/exp/slices"
	"syncthing-audit/forecast"
	"syncthing-audit/lists"
	"syncthing-audit/part"
)

// Thing is what stands at a name, or in a conflict copy of it, on some devices.
type Thing struct {
	Devices          []string      `json:"devices"` // in the folder's order
	Type             forecast.Type `json:"type"`
	forecast.Content               // of a file
	Target           part.Bytes    `json:"target,omitempty"`
	Modified         *time.Time    `json:"modified,omitempty"` // of a file; none of what is made later
	IsCopy           bool          `json:"copy,omitempty"`
	Ignored          *part.Count   `json:"ignored,omitempty"`      // in place of a directory what .stignore keeps out there with (?d), which goes with it
	Versions         []Versions    `json:"old_versions,omitempty"` // of what is lost or goes: of each device
}

// thingsOf gives what stands at each name at an end. The same thing on several devices stands once.
func thingsOf(devices []forecast.Device, end *forecast.End) map[string][]Thing {
	standing := map[string][]Thing{}
	for member, disk := range end.Disks {
		for place := range disk {
			thing := thingOf(&disk[place].Node)
			thing.IsCopy = disk[place].IsCopy
			standing[disk[place].Name] = withThing(standing[disk[place].Name], thing, devices[member].ID)
		}
	}
	for _, things := range standing {
		sortThings(things, devices)
	}
	return standing
}

// sortThings puts copies last, and things in the order of their first devices.
func sortThings(things []Thing, devices []forecast.Device) {
	sort.SliceStable(things, func(a, b int) bool {
		first, second := &things[a], &things[b]
		if first.IsCopy != second.IsCopy {
			return second.IsCopy
		}
		if at, then := placeOf(devices, first.Devices[0]), placeOf(devices, second.Devices[0]); at != then {
			return at < then
		}
		return first.Content.Hash < second.Content.Hash
	})
}

func placeOf(devices []forecast.Device, id string) int {
	return slices.IndexFunc(devices, func(device forecast.Device) bool { return device.ID == id })
}

// thingsNow gives what stands at a name now, the same on several devices once.
func thingsNow(devices []forecast.Device, name *forecast.Name) []Thing {
	var things []Thing
	for member, what := range name.Disk {
		if what != nil {
			things = withThing(things, thingOf(what), devices[member].ID)
		}
	}
	return things
}

// withThing adds a thing on a device: the same on several devices stands once.
func withThing(things []Thing, thing Thing, device string) []Thing {
	if place := slices.IndexFunc(things, thing.IsSame); place >= 0 {
		things[place].Devices = append(things[place].Devices, device)
		return things
	}
	thing.Devices = []string{device}
	return append(things, thing)
}

func thingOf(what *forecast.Node) Thing {
	thing := Thing{Type: what.Type, Content: what.Content, Target: part.Bytes(what.Target)}
	if what.Type == forecast.File && what.Time != forecast.Now {
		at := time.Unix(0, what.Time).UTC()
		thing.Modified = &at
	}
	return thing
}

func thingOfRecord(record *forecast.Record) Thing {
	return Thing{Type: record.Type, Content: record.Content, Target: part.Bytes(record.Target)}
}

// IsSame says whether two things are one, whatever their times, and wherever they stand.
func (t Thing) IsSame(other Thing) bool { return t.IsLike(other) && t.IsCopy == other.IsCopy }

// IsLike says whether two things are alike, be one of them a copy.
func (t Thing) IsLike(other Thing) bool {
	isIgnored := t.Ignored != nil && other.Ignored != nil && t.Devices[0] == other.Devices[0] || t.Ignored == nil && other.Ignored == nil
	return isIgnored && t.Type == other.Type && t.Content == other.Content && t.Target == other.Target
}

func (t Thing) isEmpty() bool { return t.Type == forecast.File && t.Content.Size == 0 }

// isAmong says whether a thing is one of some things, or a copy that is kept of it.
func isAmong(things []Thing, thing Thing) bool { return lists.Has(things, thing.IsLike) }

// filesOf leaves directories out: what is below them are names, too.
func filesOf(things []Thing) []Thing {
	return lists.Where(things, func(thing Thing) bool { return thing.Type != forecast.Directory })
}

// stands says whether something stands at a name on a device that is no copy.
func stands(things []Thing, device string) bool {
	return lists.Has(things, func(thing Thing) bool { return !thing.IsCopy && slices.Contains(thing.Devices, device) })
}
