package read

import (
	"strings"

	"syncthing-audit/damage"
	"syncthing-audit/forecast"
	"syncthing-audit/join"
	"syncthing-audit/part"
)

// MostCells limits of how many names a world is made: each name counts for every device and every view of one. There is room for some 20,000
// names of three devices. Names beyond are counted.
const MostCells = 300000

// Rows makes a world of the rows of a folder: of the names that aren't at rest, and of what hangs together with them. Rows come rising by name.
type Rows struct {
	reader
	members []join.Member
	viewed  [][]int // of each member's views: of which member each is, or -1

	All     []Unknown      // why it isn't known what comes of any name
	Unknown map[string]Why // of a name of the world: why that isn't known
	Count   map[Why]int64  // of names beside the world
	Calm    map[string]bool
	Damage  map[string][]damage.Kind // of names of the world that look damaged somewhere: how, at each device
	room    int
	risky   map[string]bool         // names of the world that may be something else than a directory somewhere
	copies  map[string]int          // conflict copies that are at rest, by what they are copies of
	resting map[string]bool         // those of them that stay in the world where one more copy may take their place
	bytes   filter                  // of names that are at rest
	out     map[string]bool         // names that aren't told as a whole
	Places  map[Why]forecast.Places // the devices of which it is that some names aren't known
	cases   cases                   // where a disk ignores case
	links   links                   // where a file has several names
}

// NewRows begins with a folder.
func NewRows(folder *join.Folder) *Rows {
	rows := &Rows{reader: newReader(folder.ID, len(folder.Members)), members: folder.Members, All: unknownOf(folder.Members), Unknown: map[string]Why{},
		Count: map[Why]int64{}, Calm: map[string]bool{}, Damage: map[string][]damage.Kind{}, Places: map[Why]forecast.Places{}, room: MostCells, risky: map[string]bool{}, copies: map[string]int{}, resting: map[string]bool{}, out: map[string]bool{}}
	for place, member := range folder.Members {
		rows.places[member.Head.Device] = place
		device, err := rows.device(member.Head)
		if err != nil {
			rows.All = append(rows.All, Unknown{Untold, []int{place}})
		}
		device.Apart = apartFrom(folder.Members, place)
		if options := member.About.Options; options != nil && options.IgnoresCase {
			rows.Places[Case] |= 1 << place
		}
		rows.world.Devices = append(rows.world.Devices, device)
		views := make([]int, len(member.About.Views))
		for at, view := range member.About.Views {
			if views[at] = memberOf(folder.Members, view.Device); views[at] >= 0 && device.Apart.Has(views[at]) {
				views[at] = -1
			}
		}
		rows.viewed = append(rows.viewed, views)
	}
	return rows
}

// Take takes a row.
func (r *Rows) Take(row *join.Row) {
	isBelow := isBelow(r.risky, row.Name)
	if !isBelow && isOutside(row) {
		return
	}
	if r.Places[Case] != 0 {
		r.cases.take(row)
	}
	isCalm := !hasOuts(row) && r.isAtRest(row)
	if isCalm && !isBelow {
		r.pass(row)
		if r.mayBeDropped(row.Name) {
			r.resting[row.Name] = true
			r.takeRow(row)
		}
		return
	}
	why := r.unknownAt(row)
	r.noteOut(row)
	r.links.take(row, len(r.All) == 0 && r.room >= r.cells())
	switch {
	case len(r.All) > 0:
		r.Count[r.All[0].Why]++
	case why == LeftOut:
		r.Count[LeftOut]++
		r.eachAbove(row.Name)
	case r.room < r.cells():
		r.Count[TooMany]++
	default:
		r.keep(row, why, isCalm)
	}
}

// noteOut notes a name of which a device doesn't tell all: what is below it isn't known, either.
func (r *Rows) noteOut(row *join.Row) {
	for _, at := range row.At {
		if at != nil && len(at.Out) > 0 {
			r.out[strings.TrimSuffix(row.Name, "/")] = true
		}
	}
}

// eachAbove notes what is above a name that is left out: something is below it that nobody knows.
func (r *Rows) eachAbove(name string) {
	for above := upper(name); above != ""; above = upper(above) {
		if r.risky[above] {
			r.Unknown[above] = LeftOut
		}
	}
}

// upper gives the directory above a name; nothing where it is in the folder itself.
func upper(name string) string {
	if at := strings.LastIndexByte(name, '/'); at > 0 {
		return name[:at]
	}
	return ""
}

func (r *Rows) cells() int { return len(r.members) * (len(r.members) + 2) }

func (r *Rows) keep(row *join.Row, why Why, isCalm bool) {
	r.takeRow(row)
	for member, at := range row.At {
		if at != nil {
			r.noteDamage(row, member)
		}
	}
	if why != "" {
		r.Unknown[row.Name] = why
	}
	if isCalm {
		r.Calm[row.Name] = true
	}
	if why != "" || !isDirectoryAnyway(row) {
		r.risky[row.Name] = true
	}
}

// takeRow takes a row into the world.
func (r *Rows) takeRow(row *join.Row) {
	r.room -= r.cells()
	for member, at := range row.At {
		if at != nil {
			r.takeName(member, at, r.members[member].About.Views)
		}
	}
}

func (r *Rows) noteDamage(row *join.Row, member int) {
	kind := damage.Of(row.At[member].Own, row.At[member].Disk)
	if kind == damage.None {
		return
	}
	if r.Damage[row.Name] == nil {
		r.Damage[row.Name] = make([]damage.Kind, len(r.members))
	}
	r.Damage[row.Name][member] = kind
}

// pass notes what of a name that is at rest may matter to others.
func (r *Rows) pass(row *join.Row) {
	if root := forecast.RootOfCopy(row.Name); root != "" {
		r.copies[root]++
	}
	if due := anyOwn(row); due != nil && due.Content != nil && due.Content.Size > 0 {
		r.bytes.add(due.Content)
	}
}

// isBelow says whether one of these is above a name.
func isBelow(names map[string]bool, name string) bool {
	if len(names) == 0 {
		return false
	}
	for above := upper(name); above != ""; above = upper(above) {
		if names[above] {
			return true
		}
	}
	return false
}

// isDirectoryAnyway says whether a name is a directory for all who have anything of it, and stands on all disks: nothing makes anything else
// of it.
func isDirectoryAnyway(row *join.Row) bool {
	const directory = 1
	is := func(record *part.Record) bool { return record.Type == directory && !record.Deleted }
	for _, at := range row.At {
		if at == nil || at.Disk == nil || at.Disk.Type != directory || at.Own != nil && !is(at.Own) {
			return false
		}
		for _, seen := range at.Views {
			if !is(seen.Record) {
				return false
			}
		}
	}
	return true
}

// hasOuts says whether something of a name isn't known at a device.
func hasOuts(row *join.Row) bool {
	if len(row.Later) > 0 {
		return true
	}
	for _, at := range row.At {
		if at != nil && (len(at.Out)+len(at.Moved) > 0 || at.IsDamaged() || at.Disk != nil && at.Disk.Unread > 0) {
			return true
		}
	}
	return false
}

// isOutside says whether all who have a name ignore it, also at the next scan, and no index has it.
func isOutside(row *join.Row) bool {
	for _, at := range row.At {
		if at != nil && (at.Own != nil || len(at.Views) > 0 || !at.IsIgnored() || at.IsIgnoredBefore()) {
			return false
		}
	}
	return true
}

// World gives the world, once all rows were taken.
func (r *Rows) World() forecast.World {
	if len(r.All) > 0 {
		return forecast.World{Devices: r.world.Devices}
	}
	r.dropResting()
	r.finish()
	r.addHolding()
	r.addBars()
	for _, name := range r.world.Names {
		if _, is := r.Unknown[name.Name]; is {
			continue
		}
		if r.cases.has(name.Name) {
			r.Unknown[name.Name] = Case
		} else if places := r.links.places(name.Name); places != 0 {
			r.Unknown[name.Name] = Linked
			r.Places[Linked] |= places
		} else if r.mayDropCopies(name.Name) {
			r.Unknown[name.Name] = Copies
		}
	}
	return r.world
}

// addBars adds which devices' systems can't have a name.
func (r *Rows) addBars() {
	for place := range r.world.Names {
		name := &r.world.Names[place]
		for member := range r.members {
			if !r.members[member].CanHave(name.Name) {
				name.Bars |= 1 << member
			}
		}
	}
}

// addHolding adds on which disks directories hold what .stignore keeps out. Where a part doesn't list all of these, it isn't known of directories there.
func (r *Rows) addHolding() {
	places := make(map[string]int, len(r.world.Names))
	for place := range r.world.Names {
		places[r.world.Names[place].Name] = place
	}
	for member := range r.members {
		if holding := r.members[member].Holding; holding != nil {
			for _, name := range holding.Names {
				if place, is := places[string(name)]; is {
					r.world.Names[place].Holds |= 1 << member
				}
			}
			r.notListed(member, holding.More, "")
		}
		if deletable := r.members[member].Deletable; deletable != nil {
			last := ""
			for _, one := range deletable.In {
				last = string(one.Directory)
				if place, is := places[last]; is {
					r.addIgnored(&r.world.Names[place], member, one.Count)
				}
			}
			r.notListed(member, deletable.More, last)
		}
	}
}

// addIgnored adds what goes with a directory on a disk.
func (r *Rows) addIgnored(name *forecast.Name, member int, count part.Count) {
	if name.Ignored == nil {
		name.Ignored = make([]forecast.Ignored, len(r.members))
	}
	name.Ignored[member] = forecast.Ignored{Names: count.Names, Bytes: count.Bytes}
}

// notListed notes that it isn't known of a device's directories behind a name what they hold, where there are more than its part lists.
func (r *Rows) notListed(member int, more int64, last string) {
	if more == 0 {
		return
	}
	for place := range r.world.Names {
		name := &r.world.Names[place]
		if what := name.Disk[member]; name.Name > last && what != nil && what.Type == forecast.Directory && r.risky[name.Name] {
			r.Unknown[name.Name] = LeftOut
		}
	}
}

// mostResting is how many conflict copies that are at rest stay in the world at most.
const mostResting = 1000

// mayBeDropped says whether a name at rest is a conflict copy that a device may take away once there are too many.
func (r *Rows) mayBeDropped(name string) bool {
	if len(r.All) > 0 || r.room < r.cells() || len(r.resting) == mostResting || forecast.RootOfCopy(name) == "" {
		return false
	}
	for _, device := range r.world.Devices {
		if device.MaxConflicts >= 0 {
			return true
		}
	}
	return false
}

// dropResting takes the conflict copies at rest out of the world again that stay as they are. Of the others it isn't known.
func (r *Rows) dropResting() {
	for name := range r.resting {
		if root := forecast.RootOfCopy(name); r.names[root] != nil && r.mayDropCopies(root) {
			r.Unknown[name], r.Calm[name] = Copies, true
		} else {
			r.names[name] = nil
		}
	}
}

// mayDropCopies says whether a name may come to have more conflict copies than a device keeps.
func (r *Rows) mayDropCopies(name string) bool {
	for _, device := range r.world.Devices {
		if r.copies[name] > 0 && device.MaxConflicts >= 0 && r.copies[name]+len(r.members) > device.MaxConflicts {
			return true
		}
	}
	return false
}

// HasTwin says whether a name beside the world may have the bytes of one of these.
func (r *Rows) HasTwin(names []forecast.Name) bool {
	found := false
	for place := range names {
		names[place].EachContent(func(content forecast.Content) { found = found || r.bytes.has(content) })
	}
	return found
}
