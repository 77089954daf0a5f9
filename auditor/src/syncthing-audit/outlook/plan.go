package outlook

import (
	"fmt"
	"math"
	"path"
	"sort"
	"strings"

	"golang.org/x/exp/slices"
	"syncthing-audit/advice"
	"syncthing-audit/damage"
	"syncthing-audit/forecast"
	"syncthing-audit/lists"
	"syncthing-audit/part"
)

// Step is one step on one device's disk, for a name.
type Step struct {
	Act    Act    `json:"act"`
	Device string `json:"device"`
	From   string `json:"from,omitempty"` // of a copy
	Over   bool   `json:"over,omitempty"` // whether a copy takes the place of what stands there now
}

// Act is what a step does, or what is chosen for a folder.
type Act = advice.Act

// What steps do: those that are searched for, and one that copies what stands there to somewhere else.
const (
	Touch  = advice.Touch
	Copy   = advice.Copy
	Delete = advice.Delete
	Save   = Act("save")
)

// Plan is what to do about names, while Syncthing is stopped on all devices of the folder. It is followed from the top.
type Plan struct {
	Names  []part.Bytes `json:"names"`                 // by danger
	Count  int64        `json:"names_count"`           // of all names: the first MostListed are there
	Below  int64        `json:"names_below,omitempty"` // of a directory that is copied: of how many names below it the same holds
	Steps  []Step       `json:"steps"`
	Goal   *Thing       `json:"then,omitempty"`           // of the first name: what all devices have then; where it stands now. Without one the steps save what is lost
	Copies []string     `json:"kept_as_copies,omitempty"` // the devices whose present bytes are kept as a conflict copy then
	IsAll  bool         `json:"all_orders"`
	by     string       // the directory whose plan does what this one's name needs
}

// mostOfGroup is for how many names that hang together a plan is searched at most.
const mostOfGroup = 100

// planner finds plans. Names that are alike cost one search.
type planner struct {
	search advice.Search
	damage map[string][]damage.Kind // of the names that are planned for
	known  map[string][]advice.Step // by the shape of a group and a goal; nothing where there is no plan
}

func newPlanner(present int64) *planner {
	return &planner{search: advice.Search{Forecaster: forecast.New(budgetOfPlans), Present: present}, known: map[string][]advice.Step{}}
}

// budgetOfPlans is that of all searches together.
var budgetOfPlans = forecast.Budget{States: 1500, Walks: 40, Total: 300000, Most: 500000}

// plan finds what to do about the names of a group that need a hand. Where each of several has a plan, all of these together must lead where
// each one leads.
func (p *planner) plan(group *forecast.World, told []Name, damaged map[string][]damage.Kind) {
	p.damage = damaged
	world, goals := p.repairs(group, told, damaged)
	var hands []hand
	for place := range told {
		name := &group.Names[place]
		node := goalOf(name, &told[place], damaged[name.Name])
		if node == nil && holdsLost(group, told, place) {
			node = directoryAt(name)
		}
		if node != nil && told[place].Plan == nil {
			hands = append(hands, hand{place: place, goal: advice.Goal{Name: name.Name, Node: node}})
		}
	}
	if len(group.Names) <= mostOfGroup && len(hands) > 0 {
		for place, plan := range p.planAll(group, world, goals, hands, lostAnyway(told)) {
			if told[place].Plan == nil {
				told[place].Plan = plan
			}
		}
	}
	for place := range told {
		if goes := told[place].toSave(); told[place].Plan == nil && (len(goes) > 0 || told[place].Fate == Lost) {
			told[place].Plan = &Plan{Steps: savesOf(group.Devices, &group.Names[place], goes, damaged[group.Names[place].Name]), IsAll: told[place].IsAll}
		}
	}
}

// hand is a name that needs a hand, by its place in its group, what is to stand there, and steps that may lead to that.
type hand struct {
	place int
	goal  advice.Goal
	steps []advice.Step
}

// together gives all goals and all steps.
func together(hands []hand) (goals []advice.Goal, steps []advice.Step) {
	for _, hand := range hands {
		goals, steps = append(goals, hand.goal), append(steps, hand.steps...)
	}
	return goals, steps
}

// plansOf gives each of these names its steps of what was found for all of them together.
func (p *planner) plansOf(group *forecast.World, hands []hand, found *advice.Plan) map[int]*Plan {
	plans := map[int]*Plan{}
	for _, hand := range hands {
		mine := *found
		mine.Steps = hand.steps
		plans[hand.place] = planOf(group, hand, &mine, p.damage)
	}
	return plans
}

// planAll plans for each of these names in the world that the plans before it leave. The last world's ends are then all goals at once, or there
// is no plan for any of these names.
func (p *planner) planAll(group *forecast.World, world forecast.World, goals []advice.Goal, hands []hand, lost map[forecast.Content]bool) map[int]*Plan {
	if len(hands) > fewHands && len(goals) == 0 {
		if plans := p.planAlike(group, hands, lost); plans != nil {
			return plans
		}
	}
	plans, saved := map[int]*Plan{}, []rottenAt{}
	for _, next := range hands {
		found := p.find(&world, next.goal)
		if found == nil {
			continue
		}
		rotten, isLoss := losesOthers(group, []hand{next}, found.Lost, lost)
		if isLoss {
			continue
		}
		plans[next.place] = planOf(group, next, found, p.damage)
		saved = append(saved, rotten...)
		goals = append(goals, next.goal)
		for _, step := range found.Steps {
			step.On(&world, p.search.Present)
		}
	}
	for at, goal := range goals {
		if isLast := at == len(goals)-1; !isLast && len(plans) > 0 && p.search.Check(world, goal, nil) == nil {
			return nil
		}
	}
	for _, hand := range hands {
		if plan := plans[hand.place]; plan != nil && len(plan.Steps) == 0 {
			plan.by = plannedAbove(hand.goal.Name, plans, group)
		}
	}
	saveRotten(plans, saved)
	return plans
}

// lostAnyway gives the bytes that are lost if nobody does anything.
func lostAnyway(told []Name) map[forecast.Content]bool {
	contents := map[forecast.Content]bool{}
	for place := range told {
		for _, thing := range told[place].Loses {
			contents[thing.Content] = true
		}
	}
	return contents
}

// plannedAbove gives the directory above a name that is copied with all below it.
func plannedAbove(name string, plans map[int]*Plan, group *forecast.World) string {
	for above := path.Dir(name); above != "."; above = path.Dir(above) {
		for place, plan := range plans {
			if group.Names[place].Name == above && len(plan.Steps) > 0 {
				return above
			}
		}
	}
	return ""
}

// find finds a plan of a goal. Nothing of it deletes where another one does without.
func (p *planner) find(world *forecast.World, goal advice.Goal) *advice.Plan {
	names := world.Copied().Names
	place := sort.Search(len(names), func(at int) bool { return names[at].Name >= goal.Name })
	key := fmt.Sprint(forecast.Shape(world.Devices, names), place, holderOf(&names[place], goal.Node))
	steps, is := p.known[key]
	if !is {
		found := best(p.search.Plans(world.Copied(), goal))
		if found != nil {
			steps = append([]advice.Step{}, found.Steps...)
		}
		p.known[key] = steps
		return found
	}
	if steps == nil {
		return nil
	}
	mine := append([]advice.Step{}, steps...)
	for at := range mine {
		mine[at].Name = goal.Name
	}
	return p.search.Check(world.Copied(), goal, mine)
}

func holderOf(name *forecast.Name, node *forecast.Node) int {
	return slices.IndexFunc(name.Disk, func(what *forecast.Node) bool { return what != nil && *what == *node })
}

// best gives the first plan that deletes nothing, or else the first one.
func best(plans []advice.Plan) *advice.Plan {
	deletes := func(step advice.Step) bool { return step.Act == advice.Delete }
	switch place := slices.IndexFunc(plans, func(plan advice.Plan) bool { return !lists.Has(plan.Steps, deletes) }); {
	case place >= 0:
		return &plans[place]
	case len(plans) > 0:
		return &plans[0]
	}
	return nil
}

// toSave gives what a plan saves that leads to no goal: what is lost, and what goes by a recorded deletion beside it; or else what goes from a device on which
// nothing takes its place though the name stays on others.
func (n *Name) toSave() []Thing {
	switch n.Fate {
	case Lost:
		return append(append([]Thing{}, n.Loses...), n.deleted...)
	case Stays, Depends:
		return n.goes()
	}
	return nil
}

// goes gives what stands on a device now, and at some end nowhere, where the device has nothing then.
func (n *Name) goes() []Thing {
	return lists.Where(filesOf(n.Now), func(thing Thing) bool {
		return lists.Has(n.Ends, func(end []Thing) bool {
			return !isAmong(end, thing) && lists.Has(thing.Devices, func(device string) bool { return !stands(end, device) })
		})
	})
}

// savesOf saves things that are lost else, and what may be right where the record may be the damage. An empty file has nothing to save.
func savesOf(devices []forecast.Device, name *forecast.Name, things []Thing, kinds []damage.Kind) []Step {
	var steps []Step
	for _, thing := range things {
		if step := (Step{Act: Save, Device: thing.Devices[0]}); !thing.isEmpty() && !slices.Contains(steps, step) {
			steps = append(steps, Step{Act: Save, Device: thing.Devices[0]})
		}
	}
	for member, kind := range kinds {
		if kind.MayBeOfRecord() && !isAmong(things, thingOf(name.Disk[member])) {
			steps = append(steps, Step{Act: Save, Device: devices[member].ID})
		}
	}
	return steps
}

// planOf gives a plan of a name in which what is lost on the way is saved first.
func planOf(group *forecast.World, hand hand, found *advice.Plan, damaged map[string][]damage.Kind) *Plan {
	name, plan, judge := &group.Names[hand.place], &Plan{IsAll: found.Answer.IsAll}, newJudge(group, &found.Answer, damaged)
	for _, thing := range thingsNow(group.Devices, name) {
		if thing.IsLike(thingOf(hand.goal.Node)) {
			goal := thing
			plan.Goal = &goal
		}
		if judge.isCopyAtAll(name.Name, thing) {
			plan.Copies = append(plan.Copies, thing.Devices...)
		}
	}
	plan.Steps = savesOf(group.Devices, name, append(judge.goesBy(name, byNothing, byUnscanned), judge.dropped(name)...), nil)
	for _, step := range found.Steps {
		next := Step{Act: step.Act, Device: group.Devices[step.Device].ID}
		if next.Act != Touch && !plan.does(Save, next.Device) && (hasBelow(group, step.Device, name.Name) || holdsIgnored(group, step.Device, name.Name)) {
			plan.Steps = append([]Step{{Act: Save, Device: next.Device}}, plan.Steps...)
		}
		if next.Act == Copy {
			next.From, next.Over = group.Devices[step.From].ID, name.Disk[step.Device] != nil && !plan.does(Delete, next.Device)
		}
		plan.Steps = append(plan.Steps, next)
	}
	sort.Slice(plan.Copies, func(a, b int) bool {
		return placeOf(group.Devices, plan.Copies[a]) < placeOf(group.Devices, plan.Copies[b])
	})
	return plan
}

// does says whether a plan has this step on a device.
func (p *Plan) does(act Act, device string) bool {
	return lists.Has(p.Steps, func(step Step) bool { return step.Act == act && step.Device == device })
}

// hasBelow says whether a device has something below a name: it goes with the directory.
func hasBelow(group *forecast.World, member int, name string) bool {
	return lists.Has(group.Names, func(other forecast.Name) bool { return other.Disk[member] != nil && isBelow(other.Name, name) })
}

// isCopyAtAll says whether something stands as a conflict copy of a name at each end.
func (j *judge) isCopyAtAll(name string, thing Thing) bool {
	for _, end := range j.ends {
		at := slices.IndexFunc(end[name], func(other Thing) bool { return other.IsCopy && other.IsLike(thing) })
		if at < 0 || mayGoByMeeting(end[name], at) {
			return false
		}
	}
	return true
}

// plansOf brings names with the same plan together, in their order. Directories come first, those above others before these: nothing is copied below one that
// isn't there.
func plansOf(listed []Name) []*Plan {
	byKey, ofName := lists.Grouped[string, Plan]{}, map[string]*Plan{}
	for place := range listed {
		plan := listed[place].Plan
		if plan == nil || len(plan.Steps) == 0 {
			continue
		}
		key := fmt.Sprint(plan.Steps, plan.Goal == nil, plan.Copies, plan.IsAll, plan.depthOf(listed[place].Name))
		if plan.Goal != nil {
			key += fmt.Sprint(plan.Goal.Devices)
		}
		all := byKey.Of(key)
		if all.Count == 0 {
			*all = *plan
			all.Below = 0
		}
		all.Count++
		all.Below += plan.Below
		ofName[string(listed[place].Name)] = all
		if len(all.Names) < MostListed {
			all.Names = append(all.Names, listed[place].Name)
		}
	}
	for place := range listed {
		if plan := listed[place].Plan; plan != nil && ofName[plan.by] != nil {
			ofName[plan.by].Below++
		}
	}
	plans := byKey.All()
	sort.SliceStable(plans, func(a, b int) bool { return plans[a].depthOf(plans[a].Names[0]) < plans[b].depthOf(plans[b].Names[0]) })
	return plans
}

// depthOf says how far below the folder's root a name stands whose directory is copied. All other names are deeper than any directory.
func (p *Plan) depthOf(name part.Bytes) int {
	if !p.IsOfDirectories() {
		return math.MaxInt32
	}
	return strings.Count(string(name), "/")
}

// IsOfDirectories says whether directories are copied with all below them.
func (p *Plan) IsOfDirectories() bool { return p.Goal != nil && p.Goal.Type == forecast.Directory }
