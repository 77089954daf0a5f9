package report

import (
	"io"
	"strconv"
	"strings"

	"syncthing-audit/outside"
)

// Dangers are what a start, a scan or a revert may lose.
type Dangers struct {
	IsUnread     bool // whether an audit before found a fault of a disk that nobody read since
	First        []First
	Disks        []Disk
	UnderOneTime []UnderOneTime
}

// First is what is to be done on devices before all else.
type First struct {
	Why     string
	Devices []uint64
	Names   int64 // where these are counted
}

// Disk is a name that isn't on a device's disk as that recorded it, in a way that looks like damage or waits for a scan.
type Disk struct {
	Folder, Name    string
	Device          uint64
	Why             string
	Recorded, Found int64 // sizes
}

// UnderOneTime is a name of which other bytes are due at a device, under the very time of what it recorded. Rot that a scan took looks so, and an edit that kept the time.
type UnderOneTime struct {
	Folder, Name  string
	Device        uint64
	Recorded, Due int64 // sizes
}

// print prints these.
func (d *Dangers) print(to io.Writer) {
	if d == nil {
		return
	}
	for _, first := range d.First {
		numbers := []string{}
		for _, number := range first.Devices {
			numbers = append(numbers, strconv.FormatUint(number, 10))
		}
		outside.Printf(to, "first: on %s: %s", strings.Join(numbers, ", "), first.Why)
		if first.Names > 0 {
			outside.Printf(to, ", %d names", first.Names)
		}
		outside.Print(to, "\n")
	}
	for _, disk := range d.Disks {
		outside.Printf(to, "not as recorded: %s %s on %d: %s, %d bytes recorded, %d found\n", disk.Folder, printed(disk.Name), disk.Device, disk.Why, disk.Recorded, disk.Found)
	}
	for _, is := range d.UnderOneTime {
		outside.Printf(to, "under one time: %s %s on %d: %d bytes recorded, %d due\n", is.Folder, printed(is.Name), is.Device, is.Recorded, is.Due)
	}
}
