package script

import (
	"strings"
	"testing"
	"time"

	"syncthing-audit/outlook"
	"syncthing-audit/part"
	"syncthing-audit/shell"
	"syncthing-audit/summary"
)

// wholes are the scripts of the test below, without the prelude that each has.
var wholes = []File{{"1-nas-AAAAAAA.sh", `#!/bin/sh
# Steps on nas, of an audit at 20261130T020405Z.
#
# Read it, and fill in what follows. Run it by sh, as the user who runs Syncthing there, while Syncthing is stopped on all devices of the folder.
# It deletes nothing: what it takes away goes to $aside. Each step is made once, so it may be run again.
# Run all scripts whose names begin with 1- on their devices, then those with 2-, and so on up to 2-. This one is of round 1.

stopped=no # yes, once Syncthing is stopped on all devices
aside=     # a directory outside of all folders of Syncthing, best on the same disk
folder_1=  # where docs (Papers) is on this device
folder_2=  # where more is on this device
source_1=  # where docs (Papers) of pc is: a path here, or HOST:/PATH, which rsync reaches by ssh
source_2=  # where more of phone is: a path here, or HOST:/PATH, which rsync reaches by ssh
audit=20261130T020405Z

PRELUDE

check_all
check_folder "$folder_1" 'docs (Papers)' '.stfolder'
check_folder "$folder_2" 'more' '.stfolder'
check_source "$source_1" 'docs (Papers) of pc'
check_source "$source_2" 'more of phone'
prepare

# What stands there may go once Syncthing starts: it is kept.
save 1 "$folder_1" 'x y'

# What stands there may go once Syncthing starts: it is kept.
fetch 2 "$folder_1" 'z' "$source_1" new

# What stands there may go once Syncthing starts: it is kept.
fetch 4 "$folder_2" 'z' "$source_2" new

printf '%s\n' 'All steps of this script are made. Once all scripts of round 1 are through, those of round 2 are next.'
`}, {"2-phone-CCCCCCC.sh", `#!/bin/sh
# Steps on phone, of an audit at 20261130T020405Z.
#
# Read it, and fill in what follows. Run it by sh, as the user who runs Syncthing there, while Syncthing is stopped on all devices of the folder.
# It deletes nothing: what it takes away goes to $aside. Each step is made once, so it may be run again.
# Run all scripts whose names begin with 1- on their devices, then those with 2-, and so on up to 2-. This one is of round 2.

stopped=no # yes, once Syncthing is stopped on all devices
aside=     # a directory outside of all folders of Syncthing, best on the same disk
folder_1=  # where docs (Papers) is on this device
source_1=  # where docs (Papers) of nas is: a path here, or HOST:/PATH, which rsync reaches by ssh
audit=20261130T020405Z

PRELUDE

check_all
check_folder "$folder_1" 'docs (Papers)' '.stfolder'
check_source "$source_1" 'docs (Papers) of nas'
prepare

# What stands there may go once Syncthing starts: it is kept.
fetch 3 "$folder_1" 'z' "$source_1" new

printf '%s\n' 'All steps of this script are made. Once all scripts are through, start Syncthing on all devices.'
`}}

// A script as a whole: what it says of itself, what is to be filled in, what it checks, its steps, and what comes next.
func TestScriptsAsAWhole(t *testing.T) {
	copies := func(to, from, name string) *outlook.Plan {
		return &outlook.Plan{Names: []part.Bytes{part.Bytes(name)}, Count: 1, Steps: []outlook.Step{{Act: outlook.Copy, Device: to, From: from}}}
	}
	told := summaryOf([]*outlook.Plan{planOf(ids[0], "x y"), copies(ids[0], ids[1], "z"), copies(ids[2], ids[0], "z")})
	told.Folders = append(told.Folders, &summary.Folder{ID: "more", Outlook: &outlook.Outlook{Plans: []*outlook.Plan{copies(ids[0], ids[2], "z")}}})
	for place := range told.Devices {
		told.Devices[place].Name = []string{"nas", "pc", "phone"}[place]
	}
	told.Folders[0].Label = "Papers"
	scripts := Of(told, time.Date(2026, 11, 30, 3, 4, 5, 0, time.FixedZone("", 3600)))
	if len(scripts) != len(wholes) {
		t.Fatalf("%d scripts", len(scripts))
	}
	for place, due := range wholes {
		is := scripts[place]
		if text := strings.Replace(is.Text, prelude, "PRELUDE\n", 1); is.Name != due.Name || text != due.Text {
			t.Errorf("%s is\n%s\nnot %s\n%s", is.Name, text, due.Name, due.Text)
		}
	}
}

// Where all scripts are of one round, none speaks of rounds. What is to be done beside them stands in each, above and in its last words; but where names
// have no script yet, the last words lead to the next audit.
func TestLastWordsOfScripts(t *testing.T) {
	const made, start = "All steps of this script are made.", "Once all scripts are through, start Syncthing on all devices."
	const begins, without, unknown = "The answer begins with what is to be done before Syncthing starts: 2 lines.",
		"The answer's entries say what to do before Syncthing starts, for 3 names that no script puts right.", "It isn't known what a start does to 4 names: see to them first."
	const decided = "A start has all devices change or delete 6 names: see first whether that is wanted."
	const hidden, again = "5 more names need such steps, and no script has them: audit again after these.", "Audit again, before Syncthing starts, for the steps that no script has."
	for _, row := range []struct {
		first                             int
		without, decided, unknown, hidden int64
		notes, last                       []string
	}{
		{0, 0, 0, 0, 0, nil, []string{made, start}},
		{2, 0, 0, 0, 0, []string{begins}, []string{made, begins, start}},
		{0, 3, 0, 0, 0, []string{without}, []string{made, without, start}},
		{0, 0, 6, 0, 0, []string{decided}, []string{made, decided, start}},
		{0, 0, 0, 4, 0, []string{unknown}, []string{made, unknown, start}},
		{2, 3, 6, 4, 0, []string{begins, without, decided, unknown}, []string{made, begins, without, decided, unknown, start}},
		{2, 3, 0, 4, 5, []string{hidden, begins, without, unknown}, []string{made, again}},
	} {
		told := summaryOf([]*outlook.Plan{planOf(ids[0], "x")})
		told.First = make([]summary.First, row.first)
		told.Folders[0].Outlook.WithoutSteps, told.Folders[0].Outlook.ToDecide, told.Folders[0].Outlook.NotKnown = row.without, row.decided, row.unknown
		told.Folders[0].Outlook.Plans[0].Count += row.hidden
		text := Of(told, time.Unix(0, 0))[0].Text
		above, _, _ := strings.Cut(text, "\nstopped=no")
		_, above, _ = strings.Cut(above, "so it may be run again.\n")
		due := ""
		for _, note := range row.notes {
			due += "# " + note + "\n"
		}
		if above != due {
			t.Errorf("%q stands above, not %q", above, due)
		}
		if last := "\nprintf '%s\\n' " + shell.Exact(strings.Join(row.last, " ")) + "\n"; !strings.HasSuffix(text, last) {
			t.Errorf("no %q at the end of %q", last, text)
		}
	}
}
