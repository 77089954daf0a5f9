package audit

import (
	"syncthing-audit/finding"
	"syncthing-audit/join"
	"syncthing-audit/part"
)

// addDamaged adds a name of which a disk itself fails to give what it has. A file goes into a row all the same, with bytes
// of no file, so that the other devices are compared. What else fails so has no row: a directory's names aren't known, say.
func (n *names) addDamaged(row *join.Row) {
	if damaged := damagedOf(row); len(damaged.At) > 0 {
		damaged.IsFile = damaged.IsFile && !hasOut(row)
		n.found.Damaged.Add(damaged)
	}
}

// damagedOf gives of which devices the disk itself fails to give what it has, and whether that is a file.
func damagedOf(row *join.Row) finding.Damaged {
	damaged := finding.Damaged{Name: part.Bytes(row.Name)}
	for member, name := range row.At {
		if name == nil || name.IsIgnored() {
			continue
		}
		if name.Disk != nil && name.Disk.Lost != "" {
			damaged.IsFile = true
			damaged.At = append(damaged.At, finding.DamagedAt{Member: member, Why: name.Disk.Lost})
		}
		for _, out := range name.Out {
			if out.Kind == part.Damaged {
				damaged.At = append(damaged.At, finding.DamagedAt{Member: member, Why: out.Why})
			}
		}
	}
	return damaged
}
