package summary

import (
	"fmt"
	"strings"
	"testing"

	"syncthing-audit/finding"
	"syncthing-audit/part"
)

// A device that has the recorded bytes with another time hasn't the file as recorded, and nothing is copied from there while another device
// has it. Where none has, its bytes are told.
func TestWhoHasAFileOfAnotherTime(t *testing.T) {
	touched := func() *part.Name { return with(file(1, 1), func(at *part.Name) { at.Disk.ModifiedS = later }) }
	const source = "copy it from "
	for _, example := range []struct {
		devices    int
		row        []*part.Name
		reasons    []string
		told, from string
	}{
		{3, []*part.Name{touched(), with(file(1, 1), rotten), file(1, 1)}, []string{"StoreUnclean 1", "StoreDiffers 2"}, " as recorded on: phone if nothing is done", "phone"},
		{2, []*part.Name{touched(), with(file(1, 1), rotten)}, []string{"StoreUnclean 1", "StoreDiffers 2"}, " the recorded bytes on: laptop if nothing is done", ""},
		{2, []*part.Name{touched(), file(1, 1)}, []string{"StoreUnclean 1"}, " as recorded on: server if nothing is done", ""},
	} {
		text := printed(answerOf(example.devices, func(folder *finding.Folder) { fails(folder, "a", example.row, example.reasons...) }))
		if !strings.Contains(text, example.told) || strings.Count(text, " on: ") != 1 || strings.Contains(text, source) != (example.from != "") ||
			!strings.Contains(text, source+example.from) && example.from != "" {
			t.Errorf("%s: %s", example.told, text)
		}
	}
}

// So it is of many such files, which are one entry.
func TestWhoHasManyFilesOfAnotherTime(t *testing.T) {
	for devices, told := range map[int]string{1: " the recorded bytes on: laptop if nothing is done", 2: " as recorded on: server if nothing is done"} {
		text := printed(answerOf(devices, func(folder *finding.Folder) {
			for at := 0; at < mostAlone+1; at++ {
				row := []*part.Name{with(file(1, 1), func(at *part.Name) { at.Disk.ModifiedS = later }), file(1, 1)}
				fails(folder, fmt.Sprint("a", at), row[:devices], "StoreUnclean 1")
			}
		}))
		if !strings.Contains(text, told) || strings.Count(text, " on: ") != 1 {
			t.Errorf("%d: %s", devices, text)
		}
	}
}
