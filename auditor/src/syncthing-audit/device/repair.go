package device

import "os"

// endingOfMark is that of the empty file beside an index by which Syncthing knows at its next start that it is to repair the index. It makes the
// file where its own lists don't fit the records.
const endingOfMark = ".needsrepair"

// noteMark notes whether the index is to be repaired. Here it is read from a copy, which Syncthing's package doesn't repair.
func (h *Home) noteMark() {
	_, err := os.Lstat(h.database() + endingOfMark)
	h.ToRepair = err == nil
}
