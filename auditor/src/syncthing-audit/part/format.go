package part

import "fmt"

// The versions of the format. A part has another one where it says too little for a program that doesn't know of what it says: that one
// refuses the part then.
const (
	FirstVersion    = 1
	VersionOfLooks  = 2 // of one of two looks, which says nothing by itself
	VersionOfSlices = 3 // of one slice of the names, whether of a look or not
	VersionOfWire   = 4 // made over the wire, of two looks: what isn't seen so isn't to be asked for
	VersionOfDisks  = 5 // of disks alone, or over the wire of a device whose disks are in another part: one says little without the other
	VersionOfBudget = 6 // over the wire, with the bytes of some files alone
)

// DueVersion gives the version that a part has by what its head says.
func (h *Head) DueVersion() int {
	switch {
	case h.Wire != nil && h.Wire.IsPartial:
		return VersionOfBudget
	case h.Half != nil || h.Wire != nil && h.Wire.Half != "":
		return VersionOfDisks
	case h.Wire != nil:
		return VersionOfWire
	case h.IsOfSlice():
		return VersionOfSlices
	case h.Look != nil:
		return VersionOfLooks
	}
	return FirstVersion
}

// checkVersionOf says why a head's version is none.
func checkVersionOf(head *Head) error {
	if head.Version < FirstVersion || head.Version > VersionOfBudget {
		return fmt.Errorf("the part has version %d; this program reads versions %d to %d", head.Version, FirstVersion, VersionOfBudget)
	}
	if due := head.DueVersion(); head.Version != due {
		return fmt.Errorf("the part has version %d; by what it says of looks, slices, disks and the wire it is %d", head.Version, due)
	}
	return nil
}
