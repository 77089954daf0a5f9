package summary

import (
	"fmt"
	"sort"
	"strings"

	"syncthing-audit/finding"
	"syncthing-audit/lists"
	"syncthing-audit/part"
	"syncthing-audit/print"
)

// mostAlone is how many names with the same fault at the same devices are told one by one; more are told as one, by so many of them and a count.
const mostAlone = 5

// Group are names that have the same fault at the same devices, as those of a device that is behind as a whole.
type Group struct {
	Cause   Cause    `json:"cause"`
	Devices []string `json:"devices"`
	Names   int64    `json:"names"`
	Deleted bool     `json:"deletion,omitempty"` // whether what the devices are behind with is a deletion
	Bytes   int64    `json:"bytes"`
	Unsized int64    `json:"names_without_details"` // whose bytes aren't known
	First   []Text   `json:"first_names"`
	Have    []string `json:"have_recorded"` // devices that have what is due, of all of these names
	Modes   []Mode   `json:"permissions,omitempty"`
	Advice  []string `json:"advice"`

	Foretold string `json:"if_nothing_is_done,omitempty"` // in words, of each

	of       *File   // what is so of each name
	files    []*File // these names, rising; the first ones where the others are counted
	isFolded bool    // whether programs are told of them as one, too
}

// canBeTold says whether a name may be told with others: where all that is wrong with it asks for the same everywhere.
func (f *File) canBeTold() bool {
	return !f.has(func(fault *Fault) bool {
		return fault.Cause != f.Faults[0].Cause || !kinds[fault.Cause].canFold || fault.isTied || fault.IsOfOneTime || len(f.Permissions) > 0
	})
}

// keyOf is the same for all names of which the very same is told, their advice too. So whatever advice comes to depend on, an entry of many says of each of
// them what is said of that by itself.
func (f *folding) keyOf(file *File) string {
	key, many := fmt.Sprint(file.danger(), file.Permissions, file.Have, file.isOfAnotherTime, file.Same, file.isOfNobody()), file.asMany()
	for _, fault := range file.Faults {
		key += fmt.Sprint(" ", fault.Device, fault.Cause, fault.Kind, fault.Deletion, fault.isTied, fault.IsOfOneTime, fault.isWithout(), fault.Damage, fault.lacksDeletion())
		if fault.Cause == Changed {
			key += fmt.Sprint(fault.types(), fault.isOlder())
		}
	}
	return key + many.tell(f.named) + strings.Join(adviceOf(many, f.named), "\n")
}

// asMany gives a name as it is told for many.
func (f *File) asMany() *File {
	file := *f
	file.isMany = true
	return &file
}

// shorten keeps of each fault only its device, kind and reasons. It is for a name whose details weren't kept: so it can be
// told together with others. There may be any number of such names.
func (f *File) shorten() {
	for place, fault := range f.Faults {
		f.Faults[place] = &Fault{Device: fault.Device, Cause: Differs, Kind: fault.Kind, Reasons: fault.Reasons}
	}
	f.Follows, f.Permissions, f.Have = []Follow{}, []Mode{}, []string{}
}

// mostKinds is how many kinds of alike names are told apart, where details of the names weren't kept.
const mostKinds = 1000

// folding takes the names of a folder, rising. It tells many names with the same fault as one.
type folding struct {
	named print.Names
	to    *actions                     // of all entries
	wrong int64                        // names with faults
	modes int64                        // names of which the permissions alone differ
	alike lists.Grouped[string, Group] // names of which the very same is told
	kinds int                          // how many of these may be told as one
	off   []part.Sharing               // devices that share the folder and aren't audited in it
	going going                        // bytes that stand under a name which goes
	name  string                       // of the folder, for a person
	held  int64                        // names of the folder that some device holds
}

// take takes the next name.
func (f *folding) take(file *File) {
	file.off = f.off
	if len(file.Faults) > 0 {
		f.wrong++
	} else if len(file.Permissions) > 0 {
		f.modes++
	}
	file.sortDevices(f.named)
	file.Same = sameOtherBytes(file.Faults)
	f.going.add(file)
	f.to.note(file, f.name, f.held)
	isAlike, key := file.canBeTold(), f.keyOf(file)
	if !file.hasDetails && (!isAlike || !f.alike.Has(key) && f.kinds >= mostKinds) {
		file.shorten()
		isAlike, key = true, f.keyOf(file)
	}
	if isAlike && !f.alike.Has(key) {
		f.kinds++
	}
	file.among = f.alike.Of(key)
	file.among.take(file, isAlike)
}

// take takes one more name; of those that are told as one in JSON, too, only the first ones are kept, and the others counted.
func (g *Group) take(file *File, canBeFolded bool) {
	g.Names++
	g.Bytes += file.Size
	if !file.hasDetails {
		g.Unsized++
	}
	if g.isFolded = canBeFolded && g.Names > mostAlone; !g.isFolded {
		g.files = append(g.files, file)
	}
}

// end gives what is told name by name, rising, and what is told of many at once.
func (f *folding) end() ([]*File, []*Group) {
	files, groups := []*File{}, []*Group{}
	for _, group := range f.alike.All() {
		if group.isFolded {
			groups = append(groups, group.tell(f.named))
		} else {
			files = append(files, group.files...)
		}
	}
	sort.Slice(files, func(a, b int) bool { return files[a].Name < files[b].Name })
	for _, file := range files {
		file.elsewhere = f.going.of(file)
		file.Foretold, file.Advice = file.tell(f.named), adviceOf(file, f.named)
	}
	link(files)
	return files, groups
}

// tell gives what is told of these names as one.
func (g *Group) tell(named print.Names) *Group {
	many := g.files[0].asMany()
	many.Foretold, many.Advice = many.tell(named), adviceOf(many, named)
	g.of, g.Cause, g.Have, g.Modes, g.Foretold, g.Advice = many, Permissions, many.Have, many.Permissions, many.Foretold, many.Advice
	if len(many.Faults) > 0 {
		g.Cause = many.Faults[0].Cause
		g.Deleted = g.Cause == Behind && many.Faults[0].Deletion
	}
	g.Devices = lists.Each(many.Faults, func(fault *Fault) string { return fault.Device })
	g.First = lists.Each(g.files[:mostAlone], func(file *File) Text { return file.Name })
	return g
}

// modesOf gives the permissions of a name.
func modesOf(folder *finding.Folder, permissions *finding.Permissions) []Mode {
	modes := []Mode{}
	for member, bits := range permissions.At {
		if !bits.Has && !bits.OnDisk {
			continue
		}
		mode := Mode{Device: folder.Members[member].Head.Device}
		if bits.Has {
			mode.Index = fmt.Sprintf("%04o", bits.Index)
		}
		if bits.OnDisk {
			mode.Disk = fmt.Sprintf("%04o", bits.Disk)
		}
		modes = append(modes, mode)
	}
	return modes
}

// sortDevices puts what is told of devices in the order of their names.
func (f *File) sortDevices(named print.Names) {
	sort.SliceStable(f.Faults, func(a, b int) bool { return named(f.Faults[a].Device) < named(f.Faults[b].Device) })
	sort.SliceStable(f.Permissions, func(a, b int) bool { return named(f.Permissions[a].Device) < named(f.Permissions[b].Device) })
	sort.SliceStable(f.Have, func(a, b int) bool { return named(f.Have[a]) < named(f.Have[b]) })
}
