package print

import (
	"strings"
	"testing"

	"syncthing-audit/forecast"
	"syncthing-audit/outlook"
	"syncthing-audit/part"
)

// kept gives a thing with what old versions of the devices on which it stands have of it then.
func kept(thing outlook.Thing, have ...outlook.Having) outlook.Thing {
	for place, one := range have {
		thing.Versions = append(thing.Versions, outlook.Versions{Device: thing.Devices[place], Have: one})
	}
	return thing
}

// Of what is lost a person reads which old versions then have it, and why others don't.
func TestWhichOldVersionsHaveWhatIsLost(t *testing.T) {
	for _, row := range []struct {
		thing outlook.Thing
		told  string
	}{
		{file(5, "aa", 0), ""},
		{kept(file(5, "aa", 2, 0), outlook.Have, outlook.Have), "the old versions of laptop, phone then have it"},
		{kept(file(5, "aa", 0, 1), outlook.HaveNone, outlook.HaveNone), "laptop, server keep no old versions"},
		{kept(file(5, "aa", 0, 1, 2), outlook.HaveNone, outlook.Have, outlook.HaveNot),
			"laptop keeps no old versions; the old versions of server then have it; it isn't kept among the old versions of phone"},
		{kept(file(5, "aa", 0, 1), outlook.HaveExternal, outlook.HaveUntold),
			"laptop gives old versions to a command, of which nothing is known; whether server keeps old versions isn't told"},
	} {
		if told := Names(strings.ToLower).versions(row.thing); told != row.told {
			t.Errorf("%s, not %s", told, row.told)
		}
	}
	for _, have := range outlook.Havings {
		if wordsOfVersions[have] == nil {
			t.Errorf("%s has no words", have)
		}
	}
	if len(wordsOfVersions) != len(outlook.Havings) {
		t.Error("there are words for what isn't told")
	}
}

// That stands wherever something is told to be lost, with what old versions are worth where some have it.
func TestOldVersionsStandWhereLossesDo(t *testing.T) {
	lost, none := kept(file(5, "aa", 1), outlook.Have), kept(file(7, "bb", 0), outlook.HaveNone)
	name := outlook.Name{Name: "a", Fate: outlook.Lost, Loses: things(lost), Now: things(file(5, "aa", 1), file(7, "bb", 0)), Ends: ends(nil), IsAll: true}
	other := outlook.Name{Name: "b", Fate: outlook.Lost, Loses: things(none), Ends: ends(nil), IsAll: true}
	const noBackup = "old versions are no backup: Syncthing deletes them by age and count\n"
	told := readBy(func(p *Person) { p.lost(&outlook.Outlook{Lost: 2, Listed: []outlook.Name{name, other}}) })
	if told != `  2 names lose something that a disk has now:
    a: 5 bytes on server (modified 2020-09-13 12:26:40 UTC); then no device's folder has it; the old versions of server then have it
    b: 7 bytes on laptop (modified 2020-09-13 12:26:40 UTC); then no device's folder has it; laptop keeps no old versions
    `+noBackup {
		t.Error(told)
	}
	if told := readBy(func(p *Person) { p.lost(&outlook.Outlook{Lost: 1, Listed: []outlook.Name{other}}) }); strings.Contains(told, noBackup) {
		t.Error(told)
	}
	if told := Foretold(&name, devices, strings.ToLower, false); told != "no device has it then; what server has now goes, and the old versions of server then have it; what laptop has now goes" {
		t.Error(told)
	}
	of := outlook.Outlook{Choices: []*outlook.Choice{{Act: outlook.Revert, Device: devices[1], Names: 1, Lost: 1, IsAll: true, Loses: []outlook.Loss{{Name: "a", Loses: things(lost, none)}}}}}
	if told := readBy(func(p *Person) { p.plans("docs", &of) }); !strings.HasSuffix(told, `
      a: 5 bytes on server (modified 2020-09-13 12:26:40 UTC), and the old versions of server then have it; 7 bytes on laptop (modified 2020-09-13 12:26:40 UTC), and laptop keeps no old versions
      `+noBackup) {
		t.Error(told)
	}
}

// What goes with a directory since .stignore ignores it so is told by its count, in the list and in the entry.
func TestWhatGoesWithADirectory(t *testing.T) {
	lost := kept(outlook.Thing{Devices: at(1), Type: forecast.Directory, Ignored: &part.Count{Names: 1, Bytes: 5}}, outlook.HaveNone)
	name := outlook.Name{Name: "d", Fate: outlook.Lost, Loses: things(lost), Ends: ends(nil), IsAll: true}
	told := readBy(func(p *Person) { p.lost(&outlook.Outlook{Lost: 1, Listed: []outlook.Name{name}}) })
	if !strings.Contains(told, "\n    d: 1 name (5 bytes) that .stignore ignores with (?d) on server; then no device's folder has it; server keeps no old versions\n") {
		t.Error(told)
	}
	if told := Foretold(&name, devices, strings.ToLower, false); told != "no device has it then; with it 1 name (5 bytes) that .stignore ignores with (?d) on server goes" {
		t.Error(told)
	}
	name.Ends, lost.Ignored.Names = ends(nil, things(file(5, "aa", 1))), 2
	if told := Foretold(&name, devices, strings.ToLower, false); !strings.Contains(told, "; with it 2 names (5 bytes) that .stignore ignores with (?d) on server go, in some order") {
		t.Error(told)
	}
}
