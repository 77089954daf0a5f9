package summary

import (
	"strings"
	"testing"

	"syncthing-audit/finding"
	"syncthing-audit/part"
)

// Where no device has what is recorded under a name, and one has it under a name that is to be deleted there, the advice is to save that first. Without one it is
// to look elsewhere.
func TestBytesUnderANameThatGoes(t *testing.T) {
	rotten := func(at *part.Name) { at.Disk.Contents[0].Hash[0] = 9 }
	for hash, due := range map[byte]string{
		7: "before Syncthing starts on any of these devices, copy old of server elsewhere: it has what is recorded here, and is to be deleted. Then copy that to laptop under this name",
		8: "look among old versions and backups: no audited device has what is recorded",
	} {
		summary := Of(answerOf(2, func(folder *finding.Folder) {
			fails(folder, "new", []*part.Name{with(file(1, 7), rotten), nil}, "StoreDiffers 1", "RecordMissing 2", "StoreDiffers 2")
			fails(folder, "old", []*part.Name{gone(), file(1, hash)}, "RecordDiffers 2", "StoreDiffers 2", "ViewAhead 2")
		}))
		for _, file := range summary.Folders[0].Files {
			if told := strings.Join(file.Advice, "; "); file.Name == "new" && !strings.HasPrefix(told, due) {
				t.Errorf("%d: %s", hash, told)
			}
		}
	}
}
