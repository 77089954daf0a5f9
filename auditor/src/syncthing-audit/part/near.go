package part

import (
	"time"

	"syncthing-audit/bep"
)

// Window gives by how much less the times of a file may differ that Syncthing takes for one in the folder.
func (f *Folder) Window() time.Duration { return time.Duration(f.TimeWindow) * time.Second }

// HasNearTime says whether a file on the disk has the recorded size, and another time than the record, which Syncthing takes for the same.
func (n *Name) HasNearTime(window time.Duration) bool {
	own, disk := n.Own, n.Disk
	if own == nil || disk == nil || own.Content == nil || !isFile(disk.Type) || own.Content.Size != disk.Size {
		return false
	}
	recorded, found := time.Unix(own.ModifiedS, int64(own.ModifiedNs)), time.Unix(disk.ModifiedS, int64(disk.ModifiedNs))
	return !recorded.Equal(found) && bep.IsTimeEqual(recorded, found, window)
}

// TakeTime gives such a file the recorded time, as Syncthing sees it.
func (n *Name) TakeTime() { n.Disk.ModifiedS, n.Disk.ModifiedNs = n.Own.ModifiedS, n.Own.ModifiedNs }
