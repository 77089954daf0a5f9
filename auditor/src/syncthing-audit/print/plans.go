package print

import (
	"path"

	"syncthing-audit/lists"
	"syncthing-audit/outlook"
	"syncthing-audit/part"
	"syncthing-audit/shell"
)

// plans prints what to do, from the top. What no step puts right comes before the start: that would send it, or lose it.
func (p *Person) plans(folder string, o *outlook.Outlook) {
	defer p.choices(folder, o)
	if len(o.Plans) == 0 {
		return
	}
	p.Line("\nto do in %s, from the top, while Syncthing is stopped on all its devices:", folder)
	number := int64(0)
	for _, plan := range o.Plans {
		number = p.plan(plan, number)
	}
	if o.WithoutSteps > 0 {
		number++
		p.Line("  %s. do what the entries below say to do before Syncthing starts or scans, for %s: %s", Thousands(number),
			Counted(o.WithoutSteps, "name that no step here puts right", "names that no step here puts right"), firstOf(o.FirstWithout, o.WithoutSteps))
	}
	p.Line("  %s. start Syncthing on all its devices%s", Thousands(number+1), seeFirst(o))
	if len(o.Choices) > 0 {
		p.Line("  %s. audit again, once they are idle. What may be chosen for the whole folder (%s) is told then: these steps change what it does", Thousands(number+2), p.choosers(o))
	}
	if lists.Has(o.Plans, func(plan *outlook.Plan) bool { return plan.Goal != nil }) {
		p.Line("  names that these steps put right need nothing of what the entries below say to do")
	}
}

// seeFirst says what a start does to names that no step is for: it sends their changes and deletions, and of some nothing is known.
func seeFirst(o *outlook.Outlook) string {
	told := ""
	if o.ToDecide > 0 {
		told = "; that has all devices change or delete " + Counted(o.ToDecide, "name", "names") + " below: see first whether that is wanted"
	}
	if o.NotKnown > 0 {
		told += "; of " + Counted(o.NotKnown, "name", "names") + " it isn't known what that does: see to " + itOrThem(o.NotKnown) + " first"
	}
	return told
}

// plan prints the steps of a plan behind so many others, and gives how many there are then.
func (p *Person) plan(plan *outlook.Plan, number int64) int64 {
	p.Line("  for %s:", namesOf(plan))
	it := oneOf(plan.Count, "it", "each")
	for _, step := range plan.Steps {
		number++
		p.Line("    %s. on %s: %s", Thousands(number), p.Called(step.Device), p.step(&step, it, plan))
	}
	if plan.Goal == nil {
		return number
	}
	told := "then all devices have what " + p.Called.have(plan.Goal.Devices) + " now"
	if plan.Count == 1 {
		told += p.modified(*plan.Goal)
	}
	if len(plan.Copies) > 0 {
		told += "; what " + p.Called.have(plan.Copies) + " now is kept as a conflict copy"
	}
	p.Line("    %s%s", told, tried(plan.IsAll))
	return number
}

// firstOf gives the first of so many names, and how many more there are.
func firstOf(all []part.Bytes, count int64) string {
	told := Joined(lists.AtMost(outlook.MostNamed, all), " ", func(name part.Bytes) string { return shell.Path(string(name)) })
	if more := count - outlook.MostNamed; more > 0 {
		told += " and " + Counted(more, "more name", "more names")
	}
	return told
}

// namesOf gives the first names of a plan, and how many there are.
func namesOf(plan *outlook.Plan) string {
	told := firstOf(plan.Names, plan.Count)
	if plan.Count > outlook.MostNamed {
		told += " (--json has them)"
	}
	if plan.Below > 0 {
		told += ", with " + Counted(plan.Below, "name", "names") + " below " + itOrThem(plan.Count)
	}
	return told
}

// step says what a step does. What is lost for certain is to be copied elsewhere; what a good copy replaces, only if it may be right.
func (p *Person) step(step *outlook.Step, it string, plan *outlook.Plan) string {
	switch step.Act {
	case outlook.Save:
		if plan.Goal != nil {
			return "copy " + it + " elsewhere if what stands there may be right: it goes by the steps below"
		}
		return "copy " + it + " elsewhere, if it is to stay: the start may take it away"
	case outlook.Touch:
		return "touch " + it
	case outlook.Copy:
		return "copy " + it + " from " + p.Called(step.From) + howToCopy(step, it, plan)
	}
	if plan.IsOfDirectories() {
		return "delete what stands there in " + oneOf(plan.Count, "its place", "their places")
	}
	return "delete " + it
}

// howToCopy says how something is copied whole. Over a symlink cp would write into what that leads to, and into a directory in place of it. Syncthing can't
// give a mode to what belongs to another user.
func howToCopy(step *outlook.Step, it string, plan *outlook.Plan) string {
	told := ", as it is there"
	if plan.IsOfDirectories() {
		told += ", with all below " + it
	}
	told += " (cp -a, or rsync -aI, as the user who runs Syncthing there)"
	if step.Over {
		told += ", once what stands there is taken away"
	}
	return told
}

// tried says whether something holds in those orders that were tried.
func tried(allOrders bool) string {
	if allOrders {
		return ""
	}
	return ", in all orders tried"
}

// PlansByName gives for each name the plan of it: its own, or that of a directory above it which is copied with all below it.
func PlansByName(o *outlook.Outlook) func(name string) *outlook.Plan {
	found := map[string]*outlook.Plan{}
	for _, plan := range o.Plans {
		for _, name := range plan.Names {
			found[string(name)] = plan
		}
	}
	return func(name string) *outlook.Plan {
		plan := found[name]
		for above := path.Dir(name); plan == nil && above != "." && above != "/"; above = path.Dir(above) {
			if other := found[above]; other != nil && other.Below > 0 {
				plan = other
			}
		}
		return plan
	}
}

// Leads says to what a plan leads; nothing where it saves alone.
func Leads(plan *outlook.Plan, called Names) string {
	if plan.Goal == nil {
		return ""
	}
	return "all devices then have what " + called.have(plan.Goal.Devices) + " now"
}
