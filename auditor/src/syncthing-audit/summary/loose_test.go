package summary

import (
	"fmt"
	"strings"
	"testing"
	"time"

	"syncthing-audit/finding"
)

// notFirm fills a folder in step at three devices that isn't firm.
func notFirm(folder *finding.Folder) {
	folder.NotFirm = &finding.Failure{Reason: finding.VersionDiffers, Name: "a b", Device: 2}
	folder.Loose.Add(finding.Loose{Name: "a b", At: []finding.LooseAt{{Member: 1, Reason: finding.VersionDiffers}, {Member: 2, Reason: finding.ViewNotBelow}}})
	folder.Loose.Add(finding.Loose{Name: "c", At: []finding.LooseAt{{Member: 2, Reason: finding.VersionDiffers, IsOlder: true}}})
}

// What keeps a folder in step from being firm is told by name and device, with what it means.
func TestWhatAPersonReadsOfFirmness(t *testing.T) {
	const lineOfDevices = "1,204 names (4 deleted), 335.2 MB hashed on laptop, phone, server\n"
	meaning := `  that is: all devices have the same content, and have or know of versions that differ. Syncthing
         may still exchange records. That this changes no file is proved of this project's own peers
         only, which merge versions when they adopt a record, as Syncthing doesn't.
  to do: let all of these devices run, connected, until they are idle, and audit again.
`
	cases := []struct {
		why  string
		fill func(*finding.Folder)
		text string
	}{
		{"two names", notFirm, "docs (Documents): in step, not firm; " + lineOfDevices + `
2 names keep docs from being firm
  'a b': server has it under a concurrent version; phone knows of a concurrent or newer version at another device
  c: phone has it under an older version
` + meaning + lastLine},
		{"many names, as far as audited", func(folder *finding.Folder) {
			for next := 0; next < mostOfList+1234; next++ {
				folder.Loose.Add(finding.Loose{Name: fmt.Sprintf("%04d", next), At: []finding.LooseAt{{Member: 0, Reason: finding.VersionDiffers}}})
			}
			folder.NotFirm = &finding.Failure{Reason: finding.VersionDiffers, Name: "0000", Device: 1}
			folder.Live = finding.NewLive()
			folder.Live.Moving = 1
		}, "docs (Documents): in step as far as audited, not firm; still: 1,204 names (4 deleted), 335.2 MB hashed on laptop, phone, server; in motion: 1\n" + `
1,244 names keep docs from being firm
` + linesOf(mostOfList, "  %04d: laptop has it under a concurrent version\n") + "  and 1,234 more (--lines has all)\n" + meaning},
	}
	for _, row := range cases {
		var written strings.Builder
		Of(answerOf(3, row.fill)).Print(&written, time.UTC, time.Time{})
		if !strings.HasPrefix(written.String(), row.text) {
			t.Errorf("%s:\n%s\nnot\n%s", row.why, written.String(), row.text)
		}
	}
}

// linesOf gives so many lines with their numbers.
func linesOf(count int, format string) string {
	lines := ""
	for next := 0; next < count; next++ {
		lines += fmt.Sprintf(format, next)
	}
	return lines
}

// A program reads the same, and of names beyond those that are listed their count.
func TestWhatAProgramReadsOfFirmness(t *testing.T) {
	summary := Of(answerOf(3, notFirm))
	folder := summary.Folders[0]
	if summary.Verdict != InStep || summary.Firm != finding.NotFirm || folder.Firm != finding.NotFirm || folder.Loose != 2 || len(folder.NotFirm) != 2 ||
		folder.NotFirm[0].Devices[0] != (LooseAt{server, finding.VersionDiffers, false}) {
		t.Errorf("%+v", folder)
	}
	folder = Of(answerOf(2, func(folder *finding.Folder) {
		for next := 0; next < finding.MostListed+2; next++ {
			folder.Loose.Add(finding.Loose{Name: "a", At: []finding.LooseAt{{Member: 0, Reason: finding.VersionDiffers}}})
		}
		folder.NotFirm = &finding.Failure{Reason: finding.VersionDiffers, Name: "a", Device: 1}
	})).Folders[0]
	if folder.Loose != finding.MostListed+2 || len(folder.NotFirm) != finding.MostListed {
		t.Errorf("%d names, %d listed", folder.Loose, len(folder.NotFirm))
	}
	folder = Of(answerOf(2, func(folder *finding.Folder) {
		notFirm(folder)
		fails(folder, "odd", nil, "NameUnknown 0")
	})).Folders[0]
	if folder.Firm != finding.NotFirm || folder.Loose != 0 || len(folder.NotFirm) != 0 {
		t.Errorf("of a folder that isn't in step: %+v", folder)
	}
}
