package history

// Causes in which what stands on a device's disk isn't as recorded.
const (
	storeDiffers = "StoreDiffers"
	storeUnclean = "StoreUnclean"
)

// at is a name in a folder at a device.
type at struct {
	place
	device uint64
}

func atOf(fault Fault) at { return at{place{fault.Folder, fault.Name}, fault.Device} }

// splitUnread gives of the faults that nobody looked at those of disks of which no bytes were asked for, and the others. Where the record was at fault, too,
// Syncthing writes the file anew once that is mended: then nobody knows of a fault on the disk.
func splitUnread(unasked []Fault, isUnread func(Fault) bool) (unread, others []Fault) {
	isOfRecord := map[at]bool{}
	for _, fault := range unasked {
		if fault.Cause != storeDiffers && fault.Cause != storeUnclean {
			isOfRecord[atOf(fault)] = true
		}
	}
	for _, fault := range unasked {
		if isUnread != nil && !isOfRecord[atOf(fault)] && isUnread(fault) {
			unread = append(unread, fault)
		} else {
			others = append(others, fault)
		}
	}
	return unread, others
}

// namesIn counts the names of faults that weren't read again, by folders, but for those at which something was found now: these count there.
func namesIn(unread, found []Fault) map[string]int64 {
	counted, counts := map[place]bool{}, map[string]int64{}
	for _, fault := range found {
		counted[place{fault.Folder, fault.Name}] = true
	}
	for _, fault := range unread {
		if name := (place{fault.Folder, fault.Name}); !counted[name] {
			counted[name] = true
			counts[fault.Folder]++
		}
	}
	return counts
}

// HasUnread says whether a fault of a disk was found before and wasn't read again.
func (s *Since) HasUnread() bool { return s != nil && s.Unread.Count > 0 }
