package summary

import (
	"strings"
	"testing"
	"time"

	"syncthing-audit/choice"
	"syncthing-audit/finding"
)

// What of the devices' folders wasn't audited is told, with its count. Who chose the folders by their ids asked for no more;
// for anyone else the answer is one as far as audited.
func TestFoldersThatWereNotAudited(t *testing.T) {
	music, pics := finding.Unasked{ID: "music", Label: "My music"}, finding.Unasked{ID: "pics", Label: "pics"}
	both := func(answer *finding.Answer) {
		answer.Devices[0].Unasked = []finding.Unasked{music}
		answer.Devices[1].Unasked = []finding.Unasked{music, pics}
	}
	silent := func(answer *finding.Answer) { answer.Devices[1].IsSilent = true }
	bothSilent := func(answer *finding.Answer) { answer.Devices[0].IsSilent, answer.Devices[1].IsSilent = true, true }
	const toldOfSilent = "not told: which other folders server may share; an older syncthing-audit made its part\n"
	for _, row := range []struct {
		why      string
		isByName bool
		change   func(*finding.Answer)
		verdict  string
		told     string
	}{
		{"there is nothing else", false, func(*finding.Answer) {}, InStep, ""},
		{"nobody asked for them", false, both, AsFar,
			"not audited: 2 folders that these devices share and no part has: music (My music) on laptop, server; pics on server\n" +
				"  to do: make the parts without --folder, or with it for each of these folders; or name with\n" +
				"         --folder which ones to audit.\n"},
		{"others were asked for", true, both, InStep, "not asked for: 2 folders: music (My music) on laptop, server; pics on server\n"},
		{"an old part", false, silent, AsFar, toldOfSilent + "  to do: make it anew; or name with --folder which ones to audit.\n"},
		{"old parts", false, bothSilent, AsFar, "not told: which other folders laptop, server may share; an older syncthing-audit made their parts\n" +
			"  to do: make them anew; or name with --folder which ones to audit.\n"},
		{"an old part, and one folder was asked for", true, silent, InStep, toldOfSilent},
	} {
		answer := answerOf(2, func(*finding.Folder) {})
		answer.IsByName = row.isByName
		row.change(answer)
		var written strings.Builder
		summary := Of(answer)
		summary.Print(&written, time.UTC, time.Time{})
		if summary.Verdict != row.verdict || !strings.HasSuffix(written.String(), "on laptop, server\n\n"+row.told+lastLine[1:]) {
			t.Errorf("%s: %s\n%s", row.why, summary.Verdict, written.String())
		}
	}
}

// Of parts that were made with --names or --slice it is told which names they have, and of a slice how many there are in all, as far as
// the parts tell it. Who answers without the flags didn't choose these.
func TestNamesThatWereNotAudited(t *testing.T) {
	begun, sliced, both := choice.Names{Prefix: "a b"}, choice.Names{Slice: 3, Slices: 7}, choice.Names{Prefix: "a b", Slice: 3, Slices: 7}
	for _, row := range []struct {
		asked         choice.Names
		indexed       int64
		byNames       bool
		verdict, told string
	}{
		{begun, 1001, false, AsFar, "not audited: names that don't begin with 'a b'; no part has them\n" +
			"  to do: make the parts without --names; or say by --names 'a b' that only these are to be audited.\n"},
		{begun, 1001, true, InStep, "not asked for: names that don't begin with 'a b'\n"},
		{sliced, 1001, false, AsFar, "not audited: names outside slice 3 of 7; no part has them (in all: 1,001 names, by each folder's fullest index)\n" +
			"  to do: make the parts without --slice; or say by --slice 3/7 that only these are to be audited.\n"},
		{sliced, 1, true, InStep, "not asked for: names outside slice 3 of 7 (in all: 1 name, by each folder's fullest index)\n"},
		{sliced, 0, true, InStep, "not asked for: names outside slice 3 of 7\n"},
		{both, 0, false, AsFar, "not audited: names that don't begin with 'a b', and names outside slice 3 of 7; no part has them\n" +
			"  to do: make the parts without --names and --slice; or say by --names 'a b' --slice 3/7 that only\n" +
			"         these are to be audited.\n"},
	} {
		answer := answerOf(2, func(folder *finding.Folder) {
			for _, member := range folder.Members {
				member.Head.Names = row.asked
			}
			folder.Members[1].About.Indexed = row.indexed
		})
		answer.ByNames = row.byNames
		var written strings.Builder
		summary := Of(answer)
		summary.Print(&written, time.UTC, time.Time{})
		if summary.Verdict != row.verdict || summary.Folders[0].Verdict != row.verdict || !strings.HasSuffix(written.String(), "on laptop, server\n\n"+row.told+lastLine[1:]) {
			t.Errorf("%s\n%s", summary.Verdict, written.String())
		}
	}
}
