package summary

import (
	"fmt"
	"strings"

	"golang.org/x/exp/slices"
	"syncthing-audit/finding"
	"syncthing-audit/part"
)

var (
	absent  = func(at *part.Name) { at.Disk = nil }
	touched = func(at *part.Name) { at.Disk.ModifiedS = later }
	again   = func(at *part.Name) { at.Own.Deleted, at.Own.Content = true, nil }
)

// toldOf gives what a person reads of names that devices have so.
func toldOf(row []*part.Name, reasons string, stray, names int, more func(*finding.Folder)) string {
	return printed(answerOf(len(row), func(folder *finding.Folder) {
		for next := 0; next < names; next++ {
			name := fmt.Sprint("a", next)
			if reasons == "" && stray == 0 {
				unwon(folder, name, 0, finding.Unscanned, row[0])
			} else if reasons != "" {
				fails(folder, name, row, strings.Split(reasons, ",")...)
			}
			if stray > 0 {
				at := []finding.Bits{}
				for range row {
					at = append(at, finding.Bits{Has: true, Index: 0o644, OnDisk: true, Disk: 0o644})
				}
				at[stray-1].Disk = 0o600
				folder.Permissions.Add(finding.Permissions{Name: name, At: at})
			}
		}
		more(folder)
	}))
}

// onFirst is the version of a local change of the server, on top of the laptop's first one.
var onFirst = [][2]uint64{{1, 1}, {2, 5}}

// local gives what a device has whose record is a local change, with the version that its index has of it.
func local(at *part.Name, version ...[2]uint64) *part.Name {
	at.Own.Invalid, at.Own.Version, at.Own.Local = true, nil, version
	return at
}

// changedTo is a file that was changed on the disk since the last scan.
func changedTo(hash byte) *part.Name {
	return with(file(1, 1), func(at *part.Name) {
		rotten(at)
		at.Disk.Contents[0].Hash, at.Disk.ModifiedS = part.Hash{hash}, later
	})
}

// olderThanRecorded is a file with other bytes than recorded, and an older time.
func olderThanRecorded(hash byte) *part.Name {
	return with(changedTo(hash), func(at *part.Name) { at.Disk.ModifiedS = at.Own.ModifiedS - 60 })
}

// directory gives what a device in step has of a directory, under this version of its first device.
func directory(version uint64) *part.Name {
	return with(file(version, 1), func(at *part.Name) {
		at.Own.Type, at.Own.Content = 1, nil
		at.Disk = &part.Node{Type: 1, ModifiedS: started}
	})
}

// replaced gives what a device has that has this file in place of a directory that it recorded.
func replaced() *part.Name {
	return with(directory(1), func(at *part.Name) { at.Disk = file(1, 2).Disk })
}

// isSame says whether what stands on a disk is what a record says, whatever the times.
func isSame(disk *part.Node, due *part.Record) bool {
	if disk == nil || due == nil || due.Deleted || disk.Type != due.Type || disk.Target != due.Target {
		return false
	}
	return due.Content == nil || slices.Contains(disk.Contents, *due.Content)
}
