// Package outlook says what happens in a folder if nobody does anything: all its devices run and reach one another, until nothing changes any
// more. It takes the ends that the forecast gives, and sorts names by what becomes of them. It foretells nothing by itself.
//
// The package says nothing in words. It reads nothing, and changes nothing.
package outlook

import (
	"sort"

	"golang.org/x/exp/slices"
	"syncthing-audit/forecast"
	"syncthing-audit/forecast/read"
	"syncthing-audit/lists"
	"syncthing-audit/part"
)

// Fate is what becomes of a name.
type Fate string

// The fates, the most dangerous one first. Each name has one.
const (
	Lost     Fate = "lost"      // at some end something that stands on a disk now is on none, and nothing recorded replaced it
	Unknown  Fate = "not-known" // the forecast doesn't say
	Depends  Fate = "depends"   // there are several ends, by the order of what happens, and nothing is lost at any
	Changed  Fate = "changed"   // a change that no scan has seen yet replaces what is recorded
	Deleted  Fate = "deleted"   // a recorded deletion comes to all devices
	Stays    Fate = "stays"     // devices go on having it otherwise than others
	ByItself Fate = "right"     // all come to have one thing, and what that replaces is what a recorded change replaced
)

// Fates are all of them, in that order.
var Fates = []Fate{Lost, Unknown, Depends, Changed, Deleted, Stays, ByItself}

func (o *Outlook) count(of Fate) *int64 {
	return map[Fate]*int64{Lost: &o.Lost, Unknown: &o.NotKnown, Depends: &o.Depends, Changed: &o.Changed, Deleted: &o.Deleted, Stays: &o.Stays, ByItself: &o.Right}[of]
}

// MostNamed is how many names a person reads one by one of each kind.
const MostNamed = 5

// MostListed is how many names are listed one by one, by danger; more are counted.
const MostListed = 10000

// Outlook is what becomes of the names of a folder that aren't at rest. A person reads it by package print, and a program as JSON: devices are
// told by their ids, in the folder's order.
type Outlook struct {
	Names    int64 `json:"names"` // that aren't at rest, or don't stay as they are: each has one of the fates that are counted next
	Right    int64 `json:"right"`
	Deleted  int64 `json:"deleted"`
	Changed  int64 `json:"changed"`
	Lost     int64 `json:"lost"`
	Depends  int64 `json:"depends"`
	Stays    int64 `json:"stays"`
	NotKnown int64 `json:"not_known"`

	Walked       int64     `json:"not_all_orders_tried"` // of the names whose fate is known: those of which some orders were tried, and not all
	Unknown      []Group   `json:"why_not_known"`        // a name counts once
	Kept         []Group   `json:"why_stays"`            // a name counts once for each reason
	Listed       []Name    `json:"fates"`                // by danger
	MoreNames    int64     `json:"fates_unlisted"`
	Plans        []*Plan   `json:"plans"`                   // for names that need a hand; those of the names in most danger come first
	WithoutSteps int64     `json:"without_steps,omitempty"` // names that something is to be done for before a start, and that no plan has
	ToDecide     int64     `json:"to_decide,omitempty"`     // names that a start has all devices change or delete, and that no plan has
	Choices      []*Choice `json:"choices,omitempty"`       // for the whole folder, on devices that only send or only receive

	FirstWithout []part.Bytes `json:"-"` // the first of the names without steps, which a person reads
}

// Group counts names with one reason.
type Group struct {
	Why     string   `json:"why"` // of read, or of forecast
	Devices []string `json:"devices,omitempty"`
	Names   int64    `json:"names"`
	InSome  bool     `json:"in_some_orders,omitempty"`
	first   int      // the place of the first device
}

// Name is a name with what becomes of it.
type Name struct {
	Name  part.Bytes `json:"name"`
	Fate  Fate       `json:"fate"`
	Why   read.Why   `json:"why,omitempty"` // of one that isn't known
	IsAll bool       `json:"all_orders"`
	Loses []Thing    `json:"loses,omitempty"` // what is lost at some end, where it stands now
	Kept  []Kept     `json:"kept,omitempty"`  // why devices don't come to have one thing
	Ends  [][]Thing  `json:"ends,omitempty"`
	Now   []Thing    `json:"now,omitempty"` // what stands on the disks now
	Plan  *Plan      `json:"-"`

	certain []Thing // what is lost where no conflict copies meet, too
	deleted []Thing // what goes by a recorded deletion, where nothing stands at the name in the end
}

// Kept is why a device keeps a name otherwise than others.
type Kept struct {
	Device string       `json:"device"`
	Why    forecast.Why `json:"why"`
	InSome bool         `json:"in_some_orders,omitempty"` // at some ends, and not at all of them
	member int
}

// Foreteller has what all folders of an answer share: the budget, and what was found already.
type Foreteller struct {
	forecaster *forecast.Forecaster
	planner    *planner
}

// NewForeteller gives one. The present is a time in nanoseconds.
func NewForeteller(budget forecast.Budget, present int64) *Foreteller {
	return &Foreteller{forecast.New(budget), newPlanner(present)}
}

// Of gives what becomes of the names of a folder's rows, and what to do about those that need a hand.
func (f *Foreteller) Of(rows *read.Rows) *Outlook {
	t := &teller{rows: rows, planner: f.planner, choices: newChoices(f.forecaster, rows.Damage), outlook: &Outlook{Listed: []Name{}}, unknown: map[read.Why]int64{},
		kept: map[Kept]int64{}}
	world := rows.World()
	t.devices = world.Devices
	for _, group := range world.Groups() {
		t.group(group, f.forecaster)
	}
	t.plan()
	for why, count := range rows.Count {
		t.outlook.NotKnown += count
		t.outlook.Names += count
		t.unknown[why] += count
	}
	return t.end()
}

type teller struct {
	rows    *read.Rows
	devices []forecast.Device
	planner *planner
	choices *choices
	outlook *Outlook
	unknown map[read.Why]int64
	kept    map[Kept]int64
	groups  []toldGroup
}

// toldGroup is what becomes of names that hang together, but for plans.
type toldGroup struct {
	group forecast.World
	names []Name
	judge *judge
}

// plan finds plans, first for few names that hang together: one search of many may take all that a budget has.
func (t *teller) plan() {
	sort.SliceStable(t.groups, func(a, b int) bool { return len(t.groups[a].names) < len(t.groups[b].names) })
	for _, group := range t.groups {
		t.planner.plan(&group.group, group.names, t.rows.Damage)
		for place := range group.names {
			if name := &group.group.Names[place]; !t.rows.Calm[name.Name] || !group.judge.staysAsItIs(name, &group.names[place]) {
				t.add(group.names[place])
			}
		}
	}
}

// group tells what becomes of names that hang together.
func (t *teller) group(group forecast.World, forecaster *forecast.Forecaster) {
	why := t.whyUnknown(&group)
	if why != "" {
		t.addUnknown(&group, why)
		return
	}
	answer := forecaster.OfGroup(group.Devices, group.Names)
	if why := t.whyNoAnswer(&group, &answer); why != "" {
		t.addUnknown(&group, why)
		return
	}
	told := toldGroup{group: group}
	told.judge = newJudge(&told.group, &answer, t.rows.Damage)
	for place := range group.Names {
		told.names = append(told.names, told.judge.name(&group.Names[place]))
	}
	t.choices.take(&group, told.names, told.judge)
	t.groups = append(t.groups, told)
}

// whyUnknown gives why nothing is foretold of names that hang together, by what is known of them.
func (t *teller) whyUnknown(group *forecast.World) read.Why {
	var found read.Why
	for place := range group.Names {
		if why := t.rows.Unknown[group.Names[place].Name]; why != "" && (found == "" || why < found) {
			found = why
		}
	}
	return found
}

// whyNoAnswer gives why an answer doesn't say what becomes of these names.
func (t *teller) whyNoAnswer(group *forecast.World, answer *forecast.Answer) read.Why {
	switch {
	case answer.IsOver:
		return read.Budget
	case len(answer.Untried) > 0:
		return read.Untried
	case answer.Endless > 0 || len(answer.Ends) == 0:
		return read.Endless
	case mayTakeFromTwins(group, answer) && t.rows.HasTwin(group.Names):
		return read.Twins
	}
	return ""
}

func (t *teller) addUnknown(group *forecast.World, why read.Why) {
	for place := range group.Names {
		name := &group.Names[place]
		t.add(Name{Name: part.Bytes(name.Name), Fate: Unknown, Why: why, Plan: &Plan{Steps: savesOf(group.Devices, name, filesOf(thingsNow(group.Devices, name)), t.rows.Damage[name.Name])}})
		t.unknown[why]++
	}
}

func (t *teller) add(told Name) {
	t.outlook.Names++
	*t.outlook.count(told.Fate)++
	if told.Fate != Unknown && !told.IsAll {
		t.outlook.Walked++
	}
	if told.Fate == Stays {
		for _, kept := range told.Kept {
			t.kept[kept]++
		}
	}
	t.outlook.Listed = append(t.outlook.Listed, told)
}

// end sorts what was told.
func (t *teller) end() *Outlook {
	outlook := t.outlook
	outlook.Unknown, outlook.Kept = []Group{}, []Group{}
	for why, count := range t.unknown {
		group := Group{Why: string(why), Names: count}
		for _, all := range t.rows.All {
			if all.Why == why {
				group.Devices = lists.Each(all.Members, func(member int) string { return t.devices[member].ID })
			}
		}
		for member := range t.devices {
			if t.rows.Places[why].Has(member) {
				group.Devices = append(group.Devices, t.devices[member].ID)
			}
		}
		outlook.Unknown = append(outlook.Unknown, group)
	}
	for kept, count := range t.kept {
		outlook.Kept = append(outlook.Kept, Group{string(kept.Why), []string{kept.Device}, count, kept.InSome, kept.member})
	}
	for _, groups := range [][]Group{outlook.Unknown, outlook.Kept} {
		sort.Slice(groups, func(a, b int) bool { return groups[a].isBefore(&groups[b]) })
	}
	sort.SliceStable(outlook.Listed, func(a, b int) bool { return outlook.Listed[a].isBefore(&outlook.Listed[b]) })
	outlook.Plans, outlook.Choices = plansOf(outlook.Listed), t.choices.byDevices()
	if len(outlook.Listed) > MostListed {
		outlook.Listed = outlook.Listed[:MostListed]
	}
	outlook.MoreNames = outlook.Names - int64(len(outlook.Listed))
	return outlook
}

// AddWithoutSteps adds a name that something is to be done for before a start, and that no plan has.
func (o *Outlook) AddWithoutSteps(name string) {
	if o.WithoutSteps++; len(o.FirstWithout) < MostNamed {
		o.FirstWithout = append(o.FirstWithout, part.Bytes(name))
	}
}

func (g *Group) isBefore(other *Group) bool {
	if g.Names != other.Names {
		return g.Names > other.Names
	}
	if g.Why != other.Why {
		return g.Why < other.Why
	}
	return g.first < other.first
}

// isBefore says whether a name is in more danger than another one: by its fate, then by how many bytes it loses, then by its name.
func (n *Name) isBefore(other *Name) bool {
	if n.Fate != other.Fate {
		return slices.Index(Fates, n.Fate) < slices.Index(Fates, other.Fate)
	}
	if a, b := n.bytesLost(), other.bytesLost(); a != b {
		return a > b
	}
	return n.Name < other.Name
}

func (n *Name) bytesLost() int64 {
	sum := int64(0)
	for _, thing := range n.Loses {
		sum = part.Sum(sum, thing.Content.Size)
		if thing.Ignored != nil {
			sum = part.Sum(sum, thing.Ignored.Bytes)
		}
	}
	return sum
}
