package forecast

import "strings"

// Release is a series of releases of Syncthing that do the same as far as the model goes.
type Release uint8

const (
	Untried Release = iota
	V1_19
	V1_29
)

// ReleaseOf gives the release of a version such as 'v1.19.2', and Untried for one that nobody compared with the model.
func ReleaseOf(version string) Release {
	switch {
	case strings.HasPrefix(version, "v1.19."):
		return V1_19
	case strings.HasPrefix(version, "v1.29."):
		return V1_29
	}
	return Untried
}

// dropsOthers says whether a scan that finds a local change anew drops what the change counts of others, though the folder still only
// receives.
func (r Release) dropsOthers() bool { return r == V1_19 }

// mergesIn says whether a scan takes the record that prevails where what it finds is the same, in a folder of this kind.
func (r Release) mergesIn(kind Kind) bool { return r == V1_19 || kind == ReceiveOnly }

// mergesOtherBytes says whether it does so without a look at the bytes.
func (r Release) mergesOtherBytes() bool { return r != V1_19 }
