package forecast

import (
	"fmt"
	"math/rand"
	"sort"

	"syncthing-audit/lists"
)

// Budget says how long a forecast may try.
type Budget struct {
	States int // up to so many states of a group all orders are tried
	Walks  int // beyond that so many in random order
	Total  int // once so many states of all groups were tried, only small groups have all orders tried
	Most   int // once so much was done, nothing more is: states count their names, and so do walks; 0 for no end
}

// statesOfSmall is how many states a small group has at most.
const statesOfSmall = 200

// mostEndless is after how many walks without an end none is expected any more.
const mostEndless = 5

// statesOfWalk is as how many states a walk counts.
const statesOfWalk = 30

// of gives the budget for so many names that hang together, on so many devices: each state of many takes longer.
func (b Budget) of(names, devices int) Budget {
	const most, fewest = 16, 5
	share := weight(devices)
	if names > most {
		share *= float64(names) / most
	}
	if share <= 1 {
		return b
	}
	walks := int(float64(b.Walks) / share)
	if walks < fewest {
		walks = fewest
	}
	return Budget{int(float64(b.States) / share), walks, b.Total, b.Most}
}

// weight says how much longer a state of so many devices takes than one of a few.
func weight(devices int) float64 {
	const few = 6
	if devices <= few {
		return 1
	}
	return float64(devices*devices) / (few * few)
}

// Usual is the budget of an answer to a person.
var Usual = Budget{States: 4000, Walks: 100, Total: 300000}

// Answer is what comes of names that hang together.
type Answer struct {
	Names   []string // rising
	Ends    []End
	IsAll   bool  // all orders were tried
	Orders  int   // else: how many were
	Endless int   // how many of those came to no end
	States  int   // how many states were seen
	Untried []int // devices of which nobody knows whether their release does what the model does: there is no end then
	IsOver  bool  // the budget was spent before: there is no end then
}

// Forecaster makes forecasts. It keeps what it found, so names that are alike cost one.
type Forecaster struct {
	budget Budget
	known  map[string]*result
	tried  int // states
	done   int // of the budget's most
}

// result is an answer by the numbers of a machine.
type result struct {
	ends    []numbered
	isAll   bool
	orders  int
	endless int
	states  int
	drawn   []int // names for which something was drawn
	tied    []int // names that may get their bytes from another name, and those from which they may
}

// New gives a forecaster.
func New(budget Budget) *Forecaster { return &Forecaster{budget: budget, known: map[string]*result{}} }

// Of gives an answer for each group of names of a world that hang together.
func (f *Forecaster) Of(world World) []Answer {
	var answers []Answer
	for _, group := range world.Groups() {
		answers = append(answers, f.OfGroup(group.Devices, group.Names))
	}
	return answers
}

// Groups gives a world for each group of names that hang together.
func (w World) Groups() []World {
	var worlds []World
	for _, names := range split(w.Names) {
		worlds = append(worlds, World{Devices: w.Devices, Names: names})
	}
	return worlds
}

// MostTogether is of how many names that hang together, and aren't alike, something is foretold at most.
const MostTogether = 400

// mostPlaces is how many places of names on disks all ends of an answer have at most.
const mostPlaces = 1000000

// OfGroup gives an answer for names that are taken to hang together. With commands, these are given one after another at each end, and what is told is
// what comes of that: of Revert and Override.
func (f *Forecaster) OfGroup(devices []Device, names []Name, commands ...Command) Answer {
	sortNames(names)
	if untried := untriedOf(devices); untried != nil {
		return Answer{Names: textsOf(names), Untried: untried}
	}
	if len(names) <= fewNames {
		answer, _ := f.ofEach(devices, names, commands)
		return answer
	}
	sieve := newSieve(devices, names)
	for {
		left := sieve.sifted(names)
		if len(left) > MostTogether {
			return Answer{Names: textsOf(names), IsOver: true}
		}
		answer, noted := f.ofEach(devices, left, commands)
		switch {
		case sieve.separates(noted):
		case len(answer.Ends)*len(names)*len(devices) > mostPlaces:
			return Answer{Names: textsOf(names), IsOver: true}
		default:
			return sieve.spread(answer, names)
		}
	}
}

// notedNames are names that may go otherwise than those that are like them.
type notedNames struct {
	drawn []string // for which something is drawn
	tied  []string // that may get their bytes from another name, and those from which they may
}

// ofEach gives an answer for names of which each is looked at, and those that may go otherwise than those that are like them.
func (f *Forecaster) ofEach(devices []Device, names []Name, commands []Command) (Answer, notedNames) {
	l := newLoader(devices, names)
	first := l.start(names)
	shape := l.shape(first) + fmt.Sprint(commands)
	found, is := f.known[shape]
	if !is {
		if f.budget.Most > 0 && f.done >= f.budget.Most {
			return Answer{Names: textsOf(names), IsOver: true}, notedNames{}
		}
		found = f.find(first, len(names), commands)
		f.known[shape] = found
	}
	answer := Answer{Names: textsOf(names), IsAll: found.isAll, Orders: found.orders, Endless: found.endless, States: found.states}
	for place := range found.ends {
		answer.Ends = append(answer.Ends, l.end(&found.ends[place], names))
	}
	named := func(n int) string { return names[n].Name }
	return answer, notedNames{lists.Each(found.drawn, named), lists.Each(found.tied, named)}
}

// Shape gives a text that two groups of names share if they are alike: what becomes of one becomes of the other, by the places of their names.
func Shape(devices []Device, names []Name) string {
	sortNames(names)
	l := newLoader(devices, names)
	return l.shape(l.start(names))
}

func textsOf(names []Name) []string {
	texts := make([]string, 0, len(names))
	for place := range names {
		texts = append(texts, names[place].Name)
	}
	return texts
}

func untriedOf(devices []Device) []int {
	var untried []int
	for place, device := range devices {
		if device.Release == Untried {
			untried = append(untried, place)
		}
	}
	return untried
}

func sortNames(names []Name) {
	sort.Slice(names, func(a, b int) bool { return names[a].Name < names[b].Name })
}

// find tries all orders, or walks where there are too many; then again behind each command.
func (f *Forecaster) find(first *state, count int, commands []Command) *result {
	starts, all := first.withLists()
	found := &result{isAll: all}
	ends := f.search(starts, count, found)
	for _, command := range commands {
		var after []*state
		for _, end := range ends {
			outcomes, all := end.outcomes(command.on)
			after, found.isAll = append(after, outcomes...), found.isAll && all
		}
		ends = f.search(after, count, found)
	}
	for n := range first.drawn {
		found.drawn = append(found.drawn, first.rootAmong(n, count))
	}
	for n := range first.tied {
		found.tied = append(found.tied, first.rootAmong(n, count))
	}
	seen := map[string]bool{}
	for _, end := range ends {
		numbered := end.numberedEnd(count)
		if key := numbered.key(); !seen[key] {
			seen[key] = true
			found.ends = append(found.ends, numbered)
		}
	}
	return found
}

// search gives the ends to which these states come, and counts what it tried.
func (f *Forecaster) search(starts []*state, count int, result *result) []*state {
	if len(starts) == 0 {
		return nil
	}
	devices := len(starts[0].devices)
	heavy := weight(devices)
	budget, cost := f.budget.of(count, devices), int(float64(count)*heavy*heavy)
	if f.tried > f.budget.Total && budget.States > statesOfSmall {
		budget.States = statesOfSmall
	}
	ends, states, done := explore(starts, budget.States)
	f.tried += states
	f.done += states * cost
	result.states += states
	if done {
		return ends
	}
	result.isAll = false
	random := rand.New(rand.NewSource(int64(count)))
	for walks := 0; walks < budget.Walks && (result.orders < mostEndless || result.endless < result.orders); walks++ {
		result.orders++
		f.done += statesOfWalk * cost
		if end := walk(starts[random.Intn(len(starts))], random); end != nil {
			ends = append(ends, end)
		} else {
			result.endless++
		}
	}
	return ends
}
