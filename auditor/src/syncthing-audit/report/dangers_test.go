package report

import (
	"strings"
	"testing"

	"syncthing-audit/finding"
)

// What comes first and what looks damaged have lines of their own, above the devices' names, which stand last.
func TestLinesOfDangers(t *testing.T) {
	var written strings.Builder
	answer := &finding.Answer{Folders: []*finding.Folder{folderOf("docs", 2)}, Devices: []finding.Device{{Number: 1, Name: "laptop"}, {Number: 2}}}
	Lines(&written, answer, &Dangers{
		First:        []First{{"made-safe", []uint64{1, 2}, 0}, {"looks-damaged", []uint64{2}, 3}},
		Disks:        []Disk{{"docs", "a b", 2, "emptied", 17, 0}},
		UnderOneTime: []UnderOneTime{{"docs", "c d", 1, 17, 18}},
	})
	const want = "first: on 1, 2: made-safe\nfirst: on 2: looks-damaged, 3 names\nnot as recorded: docs a\\x20b on 2: emptied, 17 bytes recorded, 0 found\n" +
		"under one time: docs c\\x20d on 1: 17 bytes recorded, 18 due\ndevice 1: laptop\n"
	if !strings.HasSuffix(written.String(), want) {
		t.Error(written.String())
	}
}
