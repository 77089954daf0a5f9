package read

import (
	"fmt"

	"syncthing-audit/forecast"
	"syncthing-audit/join"
)

// links finds names that are one file on a disk (hard links) and may both change there. A pull that needs no bytes sets time and mode of the file that
// stands there, so at all of its names: a scan then takes the others for changed, and their old bytes may prevail over newer ones.
type links struct {
	files repeats
	of    map[string][]link // of names of the world
}

// link is a file with several names, on a device's disk.
type link struct {
	member int
	number int64
}

func (l link) key() key { return keyOf(fmt.Sprint(l.member, " ", l.number)) }

// linksOf gives which files with several names a name is.
func linksOf(row *join.Row) []link {
	var found []link
	for member, at := range row.At {
		if at != nil && at.Disk != nil && at.Disk.Link != 0 {
			found = append(found, link{member, at.Disk.Link})
		}
	}
	return found
}

// take takes a row of a name that isn't at rest; it keeps which files the name is, where it comes to be of the world.
func (l *links) take(row *join.Row, isKept bool) {
	found := linksOf(row)
	for _, one := range found {
		l.files.take(one.key())
	}
	if len(found) == 0 || !isKept {
		return
	}
	if l.of == nil {
		l.of = map[string][]link{}
	}
	l.of[row.Name] = found
}

// places gives the devices on whose disks a name is one file with another one that was taken.
func (l *links) places(name string) forecast.Places {
	places := forecast.Places(0)
	for _, one := range l.of[name] {
		if l.files.again[one.key()] {
			places |= 1 << one.member
		}
	}
	return places
}
