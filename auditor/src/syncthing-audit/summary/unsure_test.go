package summary

import (
	"strings"
	"testing"

	"syncthing-audit/finding"
	"syncthing-audit/part"
)

// A folder that something may change without a record is in step as far as audited, and not known to be firm. What that is stands below, with what
// to do; so it does as JSON.
func TestWhatMayChangeAFirmFolder(t *testing.T) {
	for kind, row := range map[string]struct {
		change func(folder *finding.Folder)
		told   string
	}{
		finding.Busy: {func(folder *finding.Folder) {
			folder.Members[1].Head.Look = &part.Look{}
			folder.Members[1].About.Rest = &part.Rest{State: "scanning"}
		}, "docs (Documents) on server: Syncthing was never seen idle between the looks: it was 'scanning'. What a scan found may wait"},
		finding.Wanted: {func(folder *finding.Folder) {
			folder.Members[1].About.Rest = &part.Rest{State: part.RestIdle, Wanted: &part.Wanted{Count: part.Count{Names: 2, Bytes: 5}, Errors: 1,
				First: []part.NameError{{Name: "a b", Why: "no room"}}}}
		}, "docs (Documents) on server: Syncthing says that it fails at names there: 1. See its page there"},
		finding.Waits: {func(folder *finding.Folder) {
			waits(folder, "b", 1, []int{0}, noBytes)
			waits(folder, "c", 1, []int{0}, absent)
		}, "docs (Documents) on server: no scan has seen what stands there: 1 is MISSING, 1 is EMPTY. A scan may send that to all devices. Do first what"},
		finding.ToIgnore: {func(folder *finding.Folder) { folder.Members[1].ToIgnore = 2 },
			"docs (Documents) on server: 2 directories in its index that .stignore ignores by now. Have Syncthing scan"},
		finding.Writers: {func(folder *finding.Folder) {
			folder.Members[1].About.Writers = []string{"the old versions of docs", "folder photos"}
		},
			"docs (Documents) on server: Syncthing writes and deletes in its directory for the old versions of docs, folder photos, too. A place elsewhere"},
		finding.Linked: {func(folder *finding.Folder) { folder.Members[1].Linked = &part.Count{Names: 1, Bytes: 5} },
			"docs (Documents) on server: 1 name stands for a file that has a name elsewhere, too (a hard link): whoever"},
	} {
		answer := answerOf(2, row.change)
		text := strings.Join(strings.Fields(printed(answer)), " ")
		if !strings.Contains(text, "in step as far as audited, not known to be firm; ") || !strings.Contains(text, "not known to be firm: "+row.told) {
			t.Errorf("%s: %s", kind, text)
		}
		folder := Of(answer).Folders[0]
		if len(folder.Unsure) != 1 || folder.Unsure[0].Kind != kind || folder.Firm != finding.NotKnown || folder.Verdict != AsFar {
			t.Errorf("%s: %+v", kind, folder.Unsure)
		}
	}
	loose := answerOf(2, func(folder *finding.Folder) {
		folder.NotFirm = &finding.Failure{Reason: finding.VersionDiffers, Name: "a", Device: 1}
		folder.Members[1].ToIgnore = 1
	})
	if text := printed(loose); !strings.Contains(text, "may change by itself: docs (Documents) on server: 1 directory") || strings.Contains(text, "not known") {
		t.Error(text)
	}
	calm := answerOf(2, func(folder *finding.Folder) {
		folder.Live, folder.Members[0].About.Kind = stillFor(0), receiveOnly
		waits(folder, "b", 0, []int{1}, noBytes)                                    // it sends nothing
		waits(folder, "c", 1, nil, func(row *part.Name) { row.Own = nil })          // it takes nothing away
		waits(folder, "d", 1, nil, func(row *part.Name) { row.Own.Deleted = true }) // nor does this
		folder.Members[1].Linked = &part.Count{}
	})
	if text := printed(calm); strings.Contains(text, "not known") || Of(calm).Firm != finding.IsFirm {
		t.Error(text)
	}
}

// What Syncthing itself said is told of all devices that were asked, those of one answer together.
func TestWhatSyncthingItselfSays(t *testing.T) {
	answer := answerOf(3, func(folder *finding.Folder) {
		for place := range folder.Members[:2] {
			folder.Members[place].About.Rest = &part.Rest{State: part.RestIdle, Wanted: &part.Wanted{}}
		}
		folder.Members[2].About.Rest = &part.Rest{State: "scanning", Wanted: &part.Wanted{Count: part.Count{Names: 2, Bytes: 5}, Errors: 2,
			First: []part.NameError{{Name: "a b", Why: "no room"}}}}
	})
	text := strings.Join(strings.Fields(printed(answer)), " ")
	for _, told := range []string{"Syncthing itself says of docs (Documents) on laptop, server: send-receive, idle, needs nothing, fails at nothing",
		"send-receive, scanning, needs 2 names (5 bytes), fails at 2 names, first at 'a b' (no room)"} {
		if !strings.Contains(text, told) {
			t.Errorf("%q isn't in %s", told, text)
		}
	}
	if wanted := Of(answer).Folders[0].Devices[2].Wanted; wanted == nil || wanted.Names != 2 || wanted.Errors != 2 || len(wanted.First) != 1 {
		t.Errorf("%+v", wanted)
	}
}

// Where no Syncthing ran on a device, that is told of its folders.
func TestADeviceThatDoesNotRunIsTold(t *testing.T) {
	text := printed(answerOf(2, func(folder *finding.Folder) {
		folder.Members[0].About.Rest, folder.Members[1].About.Rest = &part.Rest{State: part.RestIdle}, &part.Rest{State: part.RestStopped}
	}))
	if !strings.Contains(text, "not running: Syncthing on server (docs)") || strings.Contains(text, "Syncthing on laptop") {
		t.Error(text)
	}
}
