package print

import (
	"strings"
	"testing"
	"time"

	"syncthing-audit/forecast"
	"syncthing-audit/forecast/read"
	"syncthing-audit/outlook"
	"syncthing-audit/part"
)

var devices = []string{"LAPTOP", "SERVER", "PHONE"}

// at gives the ids of devices.
func at(members ...int) []string {
	var ids []string
	for _, member := range members {
		ids = append(ids, devices[member])
	}
	return ids
}

// modified is when all files were.
var modified = time.Unix(1600000000, 0).UTC()

func file(size int64, hash string, members ...int) outlook.Thing {
	return outlook.Thing{Devices: at(members...), Type: forecast.File, Content: forecast.Content{Size: size, Hash: hash}, Modified: &modified}
}

var texts = []struct {
	why  string
	of   outlook.Outlook
	text string
}{
	{"all names are at rest", outlook.Outlook{}, ""},
	{"one comes right", outlook.Outlook{Names: 1, Right: 1}, `
if nobody does anything in docs, and all devices scan, then run and reach one another until nothing changes any more:
  1 name comes right by itself, and loses nothing but what a recorded change replaced
    if not, see whether a device or the folder is paused, whether they are connected, whether a disk is full or refuses the name, and whether Syncthing's page lists 'Failed Items'
`},
	{"one of each", outlook.Outlook{Names: 7, Walked: 1,
		Lost: 1, NotKnown: 1, Depends: 1, Changed: 1, Deleted: 1, Stays: 1, Right: 1,
		Unknown: []outlook.Group{{Why: string(read.LeftOut), Names: 1}}, Kept: []outlook.Group{{Why: "only-sends", Devices: at(1), Names: 1}},
		Listed: []outlook.Name{
			{Name: "my budget", Fate: outlook.Lost, Loses: []outlook.Thing{file(5, "aa", 0, 2)}, Ends: [][]outlook.Thing{{file(7, "bb", 0, 1, 2)}}},
			{Name: "b", Fate: outlook.Depends, Ends: [][]outlook.Thing{{file(7, "bb", 0)}, {}}},
		}},
		`
if nobody does anything in docs, and all devices scan, then run and reach one another until nothing changes any more:
  1 name comes right by itself, and loses nothing but what a recorded change replaced
    if not, see whether a device or the folder is paused, whether they are connected, whether a disk is full or refuses the name, and whether Syncthing's page lists 'Failed Items'
  1 name is deleted on all devices, as is recorded
  1 name takes a change that no scan has seen yet; then no device's folder has what it replaces
  1 name loses something that a disk has now:
    'my budget': 5 bytes on laptop, phone (modified 2020-09-13 12:26:40 UTC); then no device's folder has it
  1 name comes to one of several ends, by the order of what happens; nothing is lost:
    b: 2 ends
  1 name stays wrong:
    1 name on server: it only sends, so it doesn't take what the others have
  of 1 name it isn't known what becomes of it:
    1 name: something of the name or of a directory above isn't audited; to know it, see below why it is left out
  of 1 name not all orders were tried: what is said of it holds in all orders tried
`},
	{"several of each", outlook.Outlook{Names: 2021, Walked: 2,
		Lost: 7, NotKnown: 2, Depends: 2, Changed: 2, Deleted: 2, Stays: 2, Right: 2004,
		Unknown: []outlook.Group{{Why: string(read.Untried), Devices: at(0, 2), Names: 2}}, Kept: []outlook.Group{{Why: "not-seen", Devices: at(0), Names: 2, InSome: true}},
		Listed: []outlook.Name{{Name: "l", Fate: outlook.Lost, Loses: []outlook.Thing{{Devices: at(0), Type: forecast.Symlink, Target: "a b"}, {Devices: at(1), Type: forecast.Directory}},
			Ends: [][]outlook.Thing{{}, {file(7, "bb", 0)}}}}},
		`
if nobody does anything in docs, and all devices scan, then run and reach one another until nothing changes any more:
  2,004 names come right by themselves, and lose nothing but what a recorded change replaced
    if not, see whether a device or the folder is paused, whether they are connected, whether a disk is full or refuses the name, and whether Syncthing's page lists 'Failed Items'
  2 names are deleted on all devices, as is recorded
  2 names take a change that no scan has seen yet; then no device's folder has what it replaces
  7 names lose something that a disk has now:
    l: the symlink to 'a b' on laptop; then no device's folder has it, in some order
    l: the directory on server; then no device's folder has it, in some order
    and 6 more names (--json has them)
  2 names come to one of several ends, by the order of what happens; nothing is lost:
    and 2 more names (--json has them)
  2 names stay wrong:
    2 names on laptop: it has other bytes than recorded, which no scan sees, and may send them to a device that is added, in some order
  of 2 names it isn't known what becomes of them:
    2 names: this version of Syncthing wasn't compared with the forecast (laptop, phone)
  of 2 names not all orders were tried: what is said of them holds in all orders tried
`},
}

// A person reads plans with numbered steps from the top, those of one plan together.
func TestPlans(t *testing.T) {
	goal := file(5, "aa", 0, 2)
	of := outlook.Outlook{Names: 9, NotKnown: 1, Plans: []*outlook.Plan{
		{Names: []part.Bytes{"my budget"}, Count: 1, Goal: &goal, IsAll: true, Copies: at(1), Steps: []outlook.Step{{Act: outlook.Save, Device: devices[1]}, {Act: outlook.Copy, Device: devices[1], From: devices[0], Over: true}}},
		{Names: []part.Bytes{"a", "b", "c", "d", "e", "f"}, Count: 7, Goal: &goal, Steps: []outlook.Step{{Act: outlook.Touch, Device: devices[0]}}},
		{Names: []part.Bytes{"d"}, Count: 1, Below: 2, Goal: &outlook.Thing{Devices: at(2), Type: forecast.Directory}, IsAll: true, Steps: []outlook.Step{{Act: outlook.Copy, Device: devices[0], From: devices[2]}}},
		{Names: []part.Bytes{"z"}, Count: 1, Steps: []outlook.Step{{Act: outlook.Save, Device: devices[1]}}},
	}}
	if told := readBy(func(p *Person) { p.plans("docs", &of) }); told != `
to do in docs, from the top, while Syncthing is stopped on all its devices:
  for 'my budget':
    1. on server: copy it elsewhere if what stands there may be right: it goes by the steps below
    2. on server: copy it from laptop, as it is there (cp -a, or rsync -aI, as the user who runs Syncthing there), once what stands there is taken away
    then all devices have what laptop, phone have now (modified 2020-09-13 12:26:40 UTC); what server has now is kept as a conflict copy
  for a b c d e and 2 more names (--json has them):
    3. on laptop: touch each
    then all devices have what laptop, phone have now, in all orders tried
  for d, with 2 names below it:
    4. on laptop: copy it from phone, as it is there, with all below it (cp -a, or rsync -aI, as the user who runs Syncthing there)
    then all devices have what phone has now
  for z:
    5. on server: copy it elsewhere, if it is to stay: the start may take it away
  6. start Syncthing on all its devices; of 1 name it isn't known what that does: see to it first
  names that these steps put right need nothing of what the entries below say to do
` {
		t.Error(told)
	}
}

// A person reads what may be chosen for the whole folder, what that does, and what to save before.
func TestChoices(t *testing.T) {
	loss := func(name part.Bytes) outlook.Loss {
		return outlook.Loss{Name: name, Loses: []outlook.Thing{file(5, "aa", 1)}}
	}
	of := outlook.Outlook{Names: 9, Choices: []*outlook.Choice{
		{Act: outlook.Revert, Device: devices[1], Names: 8, Alike: 8, Lost: 7, IsAll: true, Loses: []outlook.Loss{loss("a b"), loss("b"), loss("c"), loss("d"), loss("e"), loss("f")}},
		{Act: outlook.Both, Device: devices[1], Names: 3, Alike: 1, Unknown: 1},
		{Act: outlook.Override, Device: devices[2], Names: 1, Alike: 1, Lost: 1, IsAll: true, Loses: []outlook.Loss{loss("a")}},
		{Act: outlook.Both, Device: devices[2], IsAll: true},
	}}
	if told := readBy(func(p *Person) { p.plans("docs", &of) }); told != `
to choose in docs on server, for the whole folder, once all that is to stay is saved; or neither:
  'Revert Local Changes', once Syncthing has scanned and taken what the others have:
    8 names come to another end, and all devices then have one thing of each
    7 names lose something that a disk has now: copy that elsewhere before Syncthing starts, if it is to stay
      'a b': 5 bytes on server (modified 2020-09-13 12:26:40 UTC)
      b: 5 bytes on server (modified 2020-09-13 12:26:40 UTC)
      c: 5 bytes on server (modified 2020-09-13 12:26:40 UTC)
      d: 5 bytes on server (modified 2020-09-13 12:26:40 UTC)
      e: 5 bytes on server (modified 2020-09-13 12:26:40 UTC)
      and 2 more names (--json has them)
  the folder made 'Send & Receive' there, before Syncthing scans:
    3 names come to another end; of 1 all devices then have one thing, in all orders tried
    of 1 name it isn't known what this does: save it first

to choose in docs on phone, for the whole folder, once all that is to stay is saved; or neither:
  'Override Changes', once Syncthing has scanned and heard what the others have:
    1 name comes to another end, and all devices then have one thing of it
    1 name loses something that a disk has now: copy it elsewhere before Syncthing starts, if it is to stay
      a: 5 bytes on server (modified 2020-09-13 12:26:40 UTC)
  the folder made 'Send & Receive' there, before Syncthing scans:
    changes nothing that is known
` {
		t.Error(told)
	}
}

// What a choice takes away since something recorded replaces it is named, too.
func TestWhatGoesByAChoice(t *testing.T) {
	goes := []outlook.Loss{{Name: "a", Loses: []outlook.Thing{file(5, "aa", 1)}}}
	of := outlook.Outlook{Names: 9, Choices: []*outlook.Choice{{Act: outlook.Both, Device: devices[1], Names: 3, Alike: 3, IsAll: true, Goes: goes, Gone: 1}}}
	if told := readBy(func(p *Person) { p.plans("docs", &of) }); !strings.Contains(told, `
    1 name loses what a recorded change or deletion then replaces: copy it elsewhere before Syncthing starts, if it is to stay
      a: 5 bytes on server (modified 2020-09-13 12:26:40 UTC)
`) {
		t.Error(told)
	}
}

// Where steps are to be taken, what may be chosen is told by another audit: they change what it does, and move what it loses.
func TestNothingIsChosenBesideSteps(t *testing.T) {
	of := outlook.Outlook{Names: 9, Plans: []*outlook.Plan{{Names: []part.Bytes{"a"}, Count: 1, Steps: []outlook.Step{{Act: outlook.Save, Device: devices[1]}}}},
		Choices: []*outlook.Choice{{Act: outlook.Revert, Device: devices[1], Names: 8, IsAll: true}, {Act: outlook.Both, Device: devices[1], Names: 3, IsAll: true}}}
	if told := readBy(func(p *Person) { p.plans("docs", &of) }); told != `
to do in docs, from the top, while Syncthing is stopped on all its devices:
  for a:
    1. on server: copy it elsewhere, if it is to stay: the start may take it away
  2. start Syncthing on all its devices
  3. audit again, once they are idle. What may be chosen for the whole folder ('Revert Local Changes' on server, 'Send & Receive' on server) is told then: these steps change what it does
` {
		t.Error(told)
	}
}

func TestWhatAPersonReads(t *testing.T) {
	for place := range texts {
		row := &texts[place]
		if told := readBy(func(p *Person) { p.Outlook("docs", false, &row.of) }); told != row.text {
			t.Errorf("%s:\n%s\nis to be\n%s", row.why, told, row.text)
		}
	}
}

// Of a folder in step that stays so nothing is said.
func TestAFolderInStep(t *testing.T) {
	for count, isQuiet := range map[int64]bool{2: true, 1: false} {
		of := outlook.Outlook{Names: 2, Right: count, Lost: 2 - count}
		if told := readBy(func(p *Person) { p.Outlook("docs", true, &of) }); (told == "") != isQuiet {
			t.Error(told)
		}
	}
}

// Each reason that there is has words.
func TestAllReasonsHaveWords(t *testing.T) {
	for _, why := range append([]forecast.Why{outlook.Differs}, forecast.AllWhys[1:]...) {
		if wordsOfKept[why] == "" {
			t.Errorf("%s has no words", why)
		}
	}
	for _, why := range read.AllWhys {
		if unknowns[string(why)].why == "" {
			t.Errorf("%s has no words", why)
		}
	}
	if len(read.AllWhys) != len(unknowns) || len(forecast.AllWhys) != len(wordsOfKept) {
		t.Error("there are words for what is no reason")
	}
}

// A directory is copied with all below it, in place of what stands there. What no step puts right comes before the start.
func TestPlansOfDirectories(t *testing.T) {
	goal := outlook.Thing{Devices: at(0, 2), Type: forecast.Directory}
	of := &outlook.Outlook{Plans: []*outlook.Plan{{Names: []part.Bytes{"d"}, Count: 1, Below: 3, Goal: &goal, IsAll: true,
		Steps: []outlook.Step{{Act: outlook.Delete, Device: devices[1]}, {Act: outlook.Copy, Device: devices[1], From: devices[0]}}}}}
	of.WithoutSteps, of.FirstWithout = 7, []part.Bytes{"a", "b c", "d", "e", "f"}
	if told := readBy(func(p *Person) { p.plans("docs", of) }); told != `
to do in docs, from the top, while Syncthing is stopped on all its devices:
  for d, with 3 names below it:
    1. on server: delete what stands there in its place
    2. on server: copy it from laptop, as it is there, with all below it (cp -a, or rsync -aI, as the user who runs Syncthing there)
    then all devices have what laptop, phone have now
  3. do what the entries below say to do before Syncthing starts or scans, for 7 names that no step here puts right: a 'b c' d e f and 2 more names
  4. start Syncthing on all its devices
  names that these steps put right need nothing of what the entries below say to do
` {
		t.Error(told)
	}
}
