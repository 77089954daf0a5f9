package part

import "math"

// Version is a version vector: the greatest value of each device that changed the name, by the device's number (BEP 'Vector').
type Version [][2]uint64

// IsAtMost says whether a version is at most another one everywhere.
func (v Version) IsAtMost(other Version) bool {
	for _, counter := range v {
		if counter[1] > other.valueAt(counter[0]) {
			return false
		}
	}
	return true
}

// Counts says whether a version counts a change of this device.
func (v Version) Counts(device uint64) bool { return v.valueAt(device) > 0 }

// valueAt gives a version's value for a device; 0 where it isn't listed.
func (v Version) valueAt(device uint64) uint64 {
	for _, counter := range v {
		if counter[0] == device {
			return counter[1]
		}
	}
	return 0
}

// GoesFirst says whether Syncthing keeps this one of two concurrent versions of what was modified at the same time (its WinsConflict): of the ids
// whose values differ, it has the greater value for the least one.
func (v Version) GoesFirst(other Version) bool {
	goes, least := false, uint64(math.MaxUint64)
	for _, list := range []Version{v, other} {
		for _, counter := range list {
			here, there := v.valueAt(counter[0]), other.valueAt(counter[0])
			if here != there && counter[0] <= least {
				goes, least = here > there, counter[0]
			}
		}
	}
	return goes
}
