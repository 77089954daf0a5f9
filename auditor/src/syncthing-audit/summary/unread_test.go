package summary

import (
	"strings"
	"testing"
	"time"

	"syncthing-audit/finding"
	"syncthing-audit/part"
)

// What wasn't read of a file is told beside it, and for programs.
func TestWhatWasNotReadOfAFile(t *testing.T) {
	summary := Of(answerOf(2, func(folder *finding.Folder) {
		fails(folder, "a", []*part.Name{file(1, 1), with(file(1, 1), func(at *part.Name) {
			rotten(at)
			at.Disk.Size, at.Disk.Unread = 15e12, 14e12
		})}, "StoreDiffers 2")
	}))
	var written strings.Builder
	summary.Print(&written, time.UTC, time.Time{})
	const told = "    its last 14000.0 GB weren't read: it is that much longer than any record, so it isn't what is recorded, and which devices have the same bytes isn't known\n"
	if !strings.Contains(written.String(), told) {
		t.Error(written.String())
	}
	if found := summary.Folders[0].Files[0].Faults[0].Found; found == nil || found.Unread != 14e12 {
		t.Errorf("%+v", found)
	}
}
