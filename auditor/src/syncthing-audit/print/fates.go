package print

import (
	"strings"

	"golang.org/x/exp/slices"
	"syncthing-audit/forecast"
	"syncthing-audit/lists"
	"syncthing-audit/outlook"
)

// mostEnds is how many ends of a name are told one by one.
const mostEnds = 3

// fate is a name with the devices of its folder.
type fate struct {
	*outlook.Name
	devices []string
	called  Names
}

// Foretold says what becomes of a name if nobody does anything, on all of these devices; of several names that become alike, with isMany.
func Foretold(name *outlook.Name, devices []string, called Names, isMany bool) string {
	f := fate{name, devices, called}
	ends := lists.Each(lists.AtMost(mostEnds, f.Ends), f.end)
	if more := len(f.Ends) - mostEnds; more > 0 {
		ends = append(ends, "to "+Counted(int64(more), "more end", "more ends"))
	}
	told := strings.Join(ends, "; or ")
	if len(ends) > 1 {
		told = "one of several ends, by the order of what happens: " + told
	}
	for _, thing := range f.Loses {
		if thing.Ignored != nil {
			told += "; with it " + what(thing) + " on " + called(thing.Devices[0]) + oneOf(thing.Ignored.Names, " goes", " go") + inSome(len(f.Ends) > 1)
		}
	}
	if words := f.reasons(); words != "" {
		told += " (" + words + ")"
	}
	if isMany {
		told = "of each, " + told
	}
	return told + tried(f.IsAll)
}

// end says what all devices have at an end, and what is a copy then or gone.
func (f *fate) end(end []outlook.Thing) string {
	var words []string
	left := f.devices
	for _, thing := range end {
		if !thing.IsCopy {
			words = append(words, f.holders(thing))
			left = without(left, thing.Devices)
		}
	}
	switch {
	case len(words) == 0:
		words = append(words, "no device has it then")
	case len(left) > 0:
		words = append(words, f.called.All(left)+" then "+oneOf(int64(len(left)), "has", "have")+" nothing there")
	}
	for _, thing := range end {
		if thing.IsCopy {
			words = append(words, f.now(thing)+" is kept as a conflict copy on "+f.called.All(thing.Devices))
		}
	}
	for _, thing := range f.Now {
		if slices.IndexFunc(end, thing.IsLike) < 0 && thing.Type != forecast.Directory {
			words = append(words, withVersions(f.now(thing)+" goes", ", and ", f.versionsOf(thing)))
		}
	}
	return strings.Join(words, "; ")
}

// versionsOf says which devices' old versions then have something that is lost; nothing of what isn't lost.
func (f *fate) versionsOf(thing outlook.Thing) string {
	if place := slices.IndexFunc(f.Loses, thing.IsLike); place >= 0 {
		return f.called.versions(f.Loses[place])
	}
	return ""
}

// holders says which devices have something then.
func (f *fate) holders(thing outlook.Thing) string {
	now := f.find(thing)
	switch {
	case len(thing.Devices) == len(f.devices):
		return "all devices then have " + f.now(thing)
	case now != nil && len(without(thing.Devices, now.Devices)) == 0:
		return f.called.All(thing.Devices) + " " + oneOf(int64(len(thing.Devices)), "keeps what it has", "keep what they have")
	}
	return f.called.All(thing.Devices) + " then " + oneOf(int64(len(thing.Devices)), "has ", "have ") + f.now(thing)
}

// now says what something is by who has it now.
func (f *fate) now(thing outlook.Thing) string {
	if now := f.find(thing); now != nil {
		return "what " + f.called.All(now.Devices) + " " + oneOf(int64(len(now.Devices)), "has", "have") + " now"
	}
	if thing.Type == forecast.File {
		return "a file that no disk has under this name now"
	}
	return "a " + thing.Type.Word() + " that no disk has there now"
}

func (f *fate) find(thing outlook.Thing) *outlook.Thing {
	if place := slices.IndexFunc(f.Now, thing.IsLike); place >= 0 {
		return &f.Now[place]
	}
	return nil
}

// reasons say why devices keep it otherwise than others.
func (f *fate) reasons() string {
	reasons := Places{}
	for _, kept := range f.Kept {
		reasons.Add(wordsOfKept[kept.Why]+inSome(kept.InSome), kept.Device)
	}
	return reasons.Joined(f.called, func(why, devices string) string { return devices + ": " + why })
}

func without(devices, those []string) []string {
	return lists.Where(devices, func(device string) bool { return !slices.Contains(those, device) })
}

// WhyUnknown says why it isn't known what becomes of a name, and what would make it known.
func WhyUnknown(o *outlook.Outlook, name *outlook.Name, called Names) string {
	place := slices.IndexFunc(o.Unknown, func(group outlook.Group) bool { return name == nil || group.Why == string(name.Why) })
	if place < 0 {
		return "more names differ than are listed"
	}
	return whyUnknown(&o.Unknown[place], called.All(o.Unknown[place].Devices))
}
