package audit

import (
	"syncthing-audit/finding"
	"syncthing-audit/join"
	"syncthing-audit/part"
)

// addPermissions adds a name whose permissions differ between a disk and its index, or between two devices' own entries.
func (n *names) addPermissions(row *join.Row) {
	at := make([]finding.Bits, len(row.At))
	differs := false
	for member, name := range row.At {
		if name == nil || n.found.Members[member].About.IgnoresPermissions {
			continue
		}
		at[member] = bitsOf(name)
		differs = differs || at[member].OnDisk && at[member].Disk != at[member].Index
		for other := range row.At[:member] {
			differs = differs || at[member].Has && at[other].Has && name.Own.Type == row.At[other].Own.Type &&
				at[member].Index != at[other].Index
		}
	}
	if differs {
		n.found.Permissions.Add(finding.Permissions{Name: row.Name, At: at})
		n.keep(row)
	}
}

// bitsOf gives the permissions of an entry that has some. It gives those on the disk, too, if what stands there is of the
// entry's kind.
func bitsOf(name *part.Name) finding.Bits {
	var bits finding.Bits
	if name.Own == nil || name.Own.Permissions == nil {
		return bits
	}
	bits.Has, bits.Index = true, *name.Own.Permissions&0o777
	if name.Disk != nil && name.Disk.Type == name.Own.Type {
		bits.OnDisk, bits.Disk = true, name.Disk.Permissions&0o777
	}
	return bits
}
