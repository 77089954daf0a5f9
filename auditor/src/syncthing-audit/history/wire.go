package history

import "syncthing-audit/part"

// seenOverWire gives a name of a part that was made over the wire as a history has it. There a file's time isn't seen. Where the recorded bytes stand,
// it has the recorded time; where other bytes do, nothing is kept of them.
func seenOverWire(head *part.Head, line *part.Name) *part.Name {
	unread := &part.Name{Name: line.Name, Out: []part.LeftOut{{Kind: part.Unknown, Why: "its time isn't seen"}}}
	switch {
	case head.IsOfRecords() || line.NotRead:
		return unread
	case line.Disk == nil:
		return line
	case line.Own == nil || line.Own.Content == nil || line.Disk.Differ != nil || line.Disk.Size != line.Own.Content.Size:
		return unread
	}
	seen, disk := *line, *line.Disk
	disk.ModifiedS, disk.ModifiedNs = line.Own.ModifiedS, line.Own.ModifiedNs
	seen.Disk = &disk
	return &seen
}

// isUnclearOverWire says whether a name of such a part isn't audited, so that nobody knows whether a fault of it was mended: no bytes were asked for,
// or what stands there waits for a scan by its length.
func isUnclearOverWire(head *part.Head, line *part.Name) bool {
	own, disk := line.Own, line.Disk
	switch {
	case !head.IsOverWireAlone():
		return false
	case head.IsOfRecords():
		return true
	case own == nil || own.Deleted || own.Content == nil:
		return disk != nil
	}
	return disk == nil || disk.Size != own.Content.Size
}

// isUnreadOverWire says whether bytes are recorded under a name of such a part, and weren't asked for.
func isUnreadOverWire(head *part.Head, line *part.Name) bool {
	own := line.Own
	return head.IsOverWireAlone() && (head.IsOfRecords() || line.NotRead) && own != nil && !own.Deleted && own.Content != nil
}
