package read

import (
	"golang.org/x/exp/slices"
	"syncthing-audit/join"
	"syncthing-audit/part"
)

// isAtRest says whether all devices have one record of a name, know that of each other, and have on their disks what it says: no step changes
// anything of it then.
func (r *Rows) isAtRest(row *join.Row) bool {
	due := anyOwn(row)
	if due == nil {
		return hasNothing(row)
	}
	for member, at := range row.At {
		if !r.hasAtRest(member, at, due) || !r.knowsAtRest(member, row, due) {
			return false
		}
	}
	return true
}

func anyOwn(row *join.Row) *part.Record {
	for _, at := range row.At {
		if at != nil && at.Own != nil {
			return at.Own
		}
	}
	return nil
}

func hasNothing(row *join.Row) bool {
	for _, at := range row.At {
		if at != nil && (at.Disk != nil || len(at.Views) > 0) {
			return false
		}
	}
	return true
}

// hasAtRest says whether a device's own record is what is due, and its disk as that says. What is deleted it needn't ever have had.
func (r *Rows) hasAtRest(member int, at *part.Name, due *part.Record) bool {
	if at == nil || at.Own == nil {
		return due.Deleted && (at == nil || at.Disk == nil)
	}
	if !isOne(at.Own, due) || !at.IsAsRecorded(0) {
		return false
	}
	if due.Deleted {
		return true
	}
	if due.Permissions != nil && !r.members[member].About.IgnoresPermissions && *due.Permissions&0o777 != at.Disk.Permissions&0o777 {
		return false
	}
	return due.Content == nil || len(at.Disk.Contents) > 0 && at.Disk.Contents[0] == *at.Own.Content
}

// isOne says whether two records are one but for their sequences.
func isOne(a, b *part.Record) bool {
	isSameContent := a.Content == b.Content || a.Content != nil && b.Content != nil && *a.Content == *b.Content
	return !a.Invalid && !b.Invalid && a.Deleted == b.Deleted && a.Type == b.Type && a.Target == b.Target && isSameContent && slices.Equal(a.Version, b.Version)
}

// knowsAtRest says whether a device knows of each other one's own record. Its own one, if there is one, is what is due.
func (r *Rows) knowsAtRest(member int, row *join.Row, due *part.Record) bool {
	known := 0
	if at := row.At[member]; at != nil {
		for _, seen := range at.Views {
			if other := r.viewed[member][seen.View]; other >= 0 {
				isDue := seen.Record == at.Own || isOne(seen.Record, due)
				if !isDue || !hasOwn(row.At[other]) {
					return false
				}
				known++
			}
		}
	}
	others := 0
	for other, at := range row.At {
		if other != member && hasOwn(at) && !r.world.Devices[member].Apart.Has(other) {
			others++
		}
	}
	return known == others
}

func hasOwn(at *part.Name) bool { return at != nil && at.Own != nil }
