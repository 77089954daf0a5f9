package summary

import (
	"syncthing-audit/outlook"
	"syncthing-audit/print"
)

// foretold is what becomes of a name if nobody does anything, and the plan for it, if there is one.
type foretold struct {
	fate     *outlook.Name
	plan     *outlook.Plan
	choices  map[string]bool // devices on which something may be chosen for the whole folder
	devices  []string        // of the folder
	hasSteps bool            // whether steps are to be taken for other names before something is chosen
	why      string          // in words, behind a colon: why it isn't known
}

// foreteller gives for each name of a folder what is foretold of it.
func foreteller(folder *Folder, named print.Names) func(name string) foretold {
	told := folder.Outlook
	fates, choices := map[string]*outlook.Name{}, map[string]bool{}
	for place := range told.Listed {
		fates[string(told.Listed[place].Name)] = &told.Listed[place]
	}
	for _, choice := range told.Choices {
		choices[choice.Device] = true
	}
	planOf, isListed := print.PlansByName(told), told.MoreNames == 0
	return func(name string) foretold {
		fate := foretold{fate: fates[name], plan: planOf(name), choices: choices, devices: devicesIn(folder), hasSteps: len(told.Plans) > 0}
		switch {
		case fate.fate == nil && isListed && len(told.Unknown) == 0:
			fate.why = ": nothing is foretold of it"
		case fate.fate == nil || fate.is(outlook.Unknown):
			fate.why, fate.fate = ": "+print.WhyUnknown(told, fate.fate, named), nil
		}
		return fate
	}
}

// isKnown says whether it is known what becomes of the name.
func (f *foretold) isKnown() bool { return f.fate != nil }

// is says whether this is what becomes of it.
func (f *foretold) is(fate outlook.Fate) bool { return f.isKnown() && f.fate.Fate == fate }

// hasGoal says whether there are steps after which all devices have one thing.
func (f *foretold) hasGoal() bool { return f.plan != nil && f.plan.Goal != nil }

// tell says what becomes of the name if nobody does anything; nothing of one of which the permissions alone differ, where that isn't known.
func (f *File) tell(named print.Names) string {
	switch {
	case f.foretold.isKnown():
		return print.Foretold(f.foretold.fate, f.foretold.devices, named, f.isMany)
	case len(f.Faults) == 0:
		return ""
	}
	return "it isn't known what happens" + f.foretold.why
}
