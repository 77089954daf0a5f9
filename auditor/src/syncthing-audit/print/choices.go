package print

import (
	"syncthing-audit/lists"
	"syncthing-audit/outlook"
	"syncthing-audit/shell"
)

// choices prints what may be chosen for the whole folder on devices, and what each does as things stand now. Where steps are to be taken before, these
// change what it does, and move what it loses: then another audit says that.
func (p *Person) choices(folder string, o *outlook.Outlook) {
	if len(o.Plans) > 0 {
		return
	}
	last := ""
	for _, choice := range o.Choices {
		if choice.Device != last {
			p.Line("\nto choose in %s on %s, for the whole folder, once all that is to stay is saved; or neither:", folder, p.Called(choice.Device))
		}
		last = choice.Device
		p.Line("  %s", wordsOfChoice[choice.Act])
		p.Line("    %s", ofChoice(choice))
		p.losses(choice.Loses, choice.Lost, "something that a disk has now")
		p.losses(choice.Goes, choice.Gone, "what a recorded change or deletion then replaces")
		if choice.Unknown > 0 {
			p.Line("    of %s it isn't known what this does: save %s first", Counted(choice.Unknown, "name", "names"), itOrThem(choice.Unknown))
		}
	}
}

// choosers names what may be chosen and the devices.
func (p *Person) choosers(o *outlook.Outlook) string {
	return Joined(o.Choices, ", ", func(choice *outlook.Choice) string {
		return namesOfChoice[choice.Act] + " on " + p.Called(choice.Device)
	})
}

var namesOfChoice = map[outlook.Act]string{outlook.Revert: "'Revert Local Changes'", outlook.Override: "'Override Changes'", outlook.Both: "'Send & Receive'"}

var wordsOfChoice = map[outlook.Act]string{
	outlook.Revert:   namesOfChoice[outlook.Revert] + ", once Syncthing has scanned and taken what the others have:",
	outlook.Override: namesOfChoice[outlook.Override] + ", once Syncthing has scanned and heard what the others have:",
	outlook.Both:     "the folder made " + namesOfChoice[outlook.Both] + " there, before Syncthing scans:",
}

// ofChoice counts the names that come to another end than if nobody does anything.
func ofChoice(choice *outlook.Choice) string {
	if choice.Names == 0 {
		return "changes nothing that is known"
	}
	told := Counted(choice.Names, "name comes", "names come") + " to another end"
	switch {
	case choice.Alike == choice.Names:
		told += ", and all devices then have one thing of " + oneOf(choice.Names, "it", "each")
	case choice.Alike > 0:
		told += "; of " + Thousands(choice.Alike) + " all devices then have one thing"
	}
	return told + tried(choice.IsAll)
}

// losses names what goes by a choice alone, of so many names.
func (p *Person) losses(all []outlook.Loss, count int64, of string) {
	if count == 0 {
		return
	}
	p.Line("    %s %s: copy %s elsewhere before Syncthing starts, if it is to stay", Counted(count, "name loses", "names lose"), of, oneOf(count, "it", "that"))
	told := []outlook.Thing{}
	for _, loss := range lists.AtMost(outlook.MostNamed, all) {
		p.Line("      %s: %s", shell.Path(string(loss.Name)), Joined(loss.Loses, "; ", func(thing outlook.Thing) string {
			return withVersions(p.where(thing), ", and ", p.Called.versions(thing))
		}))
		told = append(told, loss.Loses...)
	}
	p.more("      ", count-outlook.MostNamed)
	p.noBackup("      ", told)
}
