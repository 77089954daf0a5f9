package audit

import (
	"golang.org/x/exp/slices"
	"syncthing-audit/finding"
	"syncthing-audit/join"
	"syncthing-audit/part"
)

// movedOf says what changed at a member, or how its disk isn't as recorded where the name waits for a scan.
func (n *names) movedOf(row *join.Row, member int) finding.Moved {
	name := row.At[member]
	moved := finding.Moved{Device: n.idOf(member), Why: name.Moved}
	if !slices.Contains(name.Moved, part.MovedUnscanned) && name.Waits == nil {
		return moved
	}
	moved.Waits = finding.KindOfWaiting(name.Waits)
	if name.Waits == nil {
		return moved
	}
	moved.Recorded, moved.Found = finding.Recorded(name.Waits.Own), finding.Found(name.Waits.Disk)
	if name.Waits.Own == nil || name.Waits.Own.Deleted {
		return moved
	}
	for other, at := range row.At {
		if other != member && hasRecorded(at, name.Waits.Own) {
			moved.Have = append(moved.Have, n.idOf(other))
		}
	}
	return moved
}

// hasRecorded says whether what a record says stands on a member's disk, and is recorded there.
func hasRecorded(at *part.Name, record *part.Record) bool {
	switch {
	case at == nil || len(at.Moved)+len(at.Out) > 0 || at.Own == nil || at.Own.Deleted || at.Disk == nil || at.Disk.Lost != "" || at.Disk.Unread > 0:
		return false
	case at.Own.Type != record.Type || at.Disk.Type != record.Type || at.Disk.Target != record.Target:
		return false
	case record.Content == nil: // then neither has one, as both are of one type
		return true
	}
	return at.Own.Content.IsSame(record.Content) && slices.IndexFunc(at.Disk.Contents, func(found part.Content) bool { return found.IsSame(record.Content) }) >= 0
}
