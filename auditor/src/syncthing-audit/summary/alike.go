package summary

import (
	"golang.org/x/exp/slices"
	"syncthing-audit/part"
)

// sameOtherBytes gives the devices that have the same bytes in place of those that are recorded, where several do.
func sameOtherBytes(faults []*Fault) [][]string {
	groups := [][]string{}
	isTold := map[string]bool{}
	for place, fault := range faults {
		if fault.Cause != OtherBytes || isTold[fault.Device] {
			continue
		}
		same := []string{fault.Device}
		for _, other := range faults[place+1:] {
			if other.Cause == OtherBytes && haveSame(fault.onDisk(), other.onDisk()) {
				same = append(same, other.Device)
				isTold[other.Device] = true
			}
		}
		if len(same) > 1 {
			groups = append(groups, same)
		}
	}
	return groups
}

// haveSame says whether one file's bytes are another's: of one size, and in blocks of one size of one hash.
func haveSame(contents, others []part.Content) bool {
	return slices.IndexFunc(contents, func(content part.Content) bool { return slices.Contains(others, content) }) >= 0
}

// sourcesOf gives the other devices on whose disks the very bytes stand that a member recorded, at their time: whatever these devices recorded.
func (r *reader) sourcesOf(member int) []string {
	sources := []string{}
	own := r.at(member).Own
	if own == nil || own.Content == nil {
		return sources
	}
	for other, at := range r.row.At {
		if other != member && at != nil && isAsRecorded(at.Disk, own) {
			sources = append(sources, r.folder.Members[other].Head.Device)
		}
	}
	return sources
}

// isAsRecorded says whether the file that a record says stands on a disk, with its time.
func isAsRecorded(disk *part.Node, record *part.Record) bool {
	return disk != nil && disk.Type == record.Type && disk.ModifiedS == record.ModifiedS && disk.ModifiedNs == record.ModifiedNs &&
		slices.Contains(disk.Contents, *record.Content)
}
