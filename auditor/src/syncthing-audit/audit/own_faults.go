package audit

import (
	"sort"

	"syncthing-audit/finding"
	"syncthing-audit/join"
	"syncthing-audit/part"
)

// whyRot says that a disk has other bytes than its own index records, and why no more is told.
const whyRot = "other bytes on the disk than its own index records; size and time are as recorded. The name wasn't compared with other devices'"

// addOwnFaults adds what is wrong at each device by itself of a name that isn't audited. It may be another device that says that it changes or
// can't be read, and what a device's own disk and index say is so whatever others say.
func (n *names) addOwnFaults(row *join.Row) {
	damaged := damagedOf(row)
	damaged.IsFile = false // no row has it
	for member, name := range row.At {
		if name != nil && isRotten(name, n.found.Members[member].About) {
			damaged.At = append(damaged.At, finding.DamagedAt{Member: member, Why: whyRot, IsRot: true})
		}
	}
	if len(damaged.At) > 0 {
		n.keep(row)
		sort.SliceStable(damaged.At, func(a, b int) bool { return damaged.At[a].Member < damaged.At[b].Member })
		n.found.Damaged.Add(damaged)
		n.audited++
	}
}

// isRotten says whether a file isn't what its device's own record says, while its size and time are.
func isRotten(name *part.Name, in *part.Folder) bool {
	own, disk := name.Own, name.Disk
	if own == nil || own.Invalid || own.Content == nil || disk == nil || disk.Lost != "" || !name.IsToldHere() || len(name.Moved) > 0 ||
		!name.IsAsRecorded(in.Window()) {
		return false
	}
	return name.HasOtherBytes()
}
