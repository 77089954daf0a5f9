package finding

import (
	"syncthing-audit/join"
	"syncthing-audit/part"
)

// MostKept limits of how many names details are kept. Each name counts once for every device that shares its folder, so
// there is room for 10,000 names of three devices. If more fail, as on a device that is behind as a whole, the others are
// told without details.
const MostKept = 30000

// Room is what is left of that.
type Room struct{ taken int }

// Keep gives what the devices have of a name, and of their views what is told of them; nothing where there is no room.
func (r *Room) Keep(row *join.Row) *join.Row {
	if r.taken+len(row.At) > MostKept {
		return nil
	}
	r.taken += len(row.At)
	copied := &join.Row{Name: row.Name, At: make([]*part.Name, len(row.At))}
	for place, name := range row.At {
		if name != nil {
			kept := *name
			kept.Views = heardOf(name)
			copied.At[place] = &kept
		}
	}
	return copied
}

// heardOf gives the versions that a device has heard of from others and hasn't itself.
func heardOf(name *part.Name) []part.Seen {
	var heard []part.Seen
	for _, seen := range name.Views {
		if name.Own == nil || !seen.Record.Version.IsAtMost(name.Own.Version) {
			heard = append(heard, part.Seen{View: seen.View, Record: &part.Record{Version: seen.Record.Version}})
		}
	}
	return heard
}
