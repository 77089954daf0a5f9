package read

import (
	"fmt"
	"math/rand"
	"reflect"
	"testing"

	"syncthing-audit/damage"
	"syncthing-audit/forecast"
	"syncthing-audit/join"
	"syncthing-audit/part"
)

// worldly tells a record or a node of a world, but for its bytes.
func worldly(kind int, deleted bool, flag forecast.Flag, version part.Version, seconds int64, nanoseconds int, target string, mode int) string {
	return fmt.Sprint([]forecast.Type{forecast.File, forecast.Directory, forecast.Symlink, forecast.Symlink, forecast.Symlink}[kind], deleted, flag, version, seconds*1000000000+int64(nanoseconds), target, mode)
}

// recordOf tells a record of a row as the world has it, and its bytes.
func recordOf(of *part.Record, isOwn bool) (string, forecast.Content) {
	if of == nil {
		return "", forecast.Content{}
	}
	flag, version, mode, bytes := forecast.Flag(0), of.Version, forecast.NoMode, forecast.Content{}
	if of.Invalid {
		if flag = forecast.Invalid; isOwn {
			flag, version = forecast.LocalChange, of.Local
		}
	}
	if of.Permissions != nil {
		mode = int(*of.Permissions % 0o1000)
	}
	if of.Content != nil {
		bytes = forecast.Content{Size: of.Content.Size, Hash: of.Content.Hash.String()}
	}
	return worldly(of.Type, of.Deleted, flag, version, of.ModifiedS, of.ModifiedNs, of.Target, mode), bytes
}

// readRecord tells the same of a record that was read.
func readRecord(of *forecast.Record) (string, forecast.Content) {
	if of == nil {
		return "", forecast.Content{}
	}
	var version part.Version
	for _, counter := range of.Version {
		version = append(version, [2]uint64{counter.Device, counter.Value})
	}
	return fmt.Sprint(of.Type, of.Deleted, of.Flag, version, of.Time, of.Target, of.Mode), of.Content
}

// pairs are the bytes that rows tell beside those that are read there, which may be those of a file that is cut in another way.
type pairs struct {
	read map[forecast.Content]forecast.Content
	of   map[forecast.Content]int // the same number for the same bytes
}

// check compares a name of a world with its row.
func (p *pairs) check(t *testing.T, folder *join.Folder, name *forecast.Name, row *join.Row) {
	t.Helper()
	same := func(why, due, is string, told, read forecast.Content) {
		t.Helper()
		if had, is := p.read[told]; is && had != read {
			t.Errorf("%s of %q: %+v is read as %+v and %+v", why, row.Name, told, had, read)
		}
		if p.read[told] = read; due != is {
			t.Errorf("%s of %q: %s, not %s", why, row.Name, is, due)
		}
	}
	direct := &plain{folder: folder}
	for member, at := range row.At {
		if at == nil {
			at = &part.Name{}
		}
		due, told := recordOf(at.Own, true)
		is, read := readRecord(name.Own[member])
		same("the record", due, is, told, read)
		known := direct.views(row, member)
		for other := range row.At {
			due, told := recordOf(known[other], false)
			is, read := readRecord(name.Views[member][other])
			same("a view", due, is, told, read)
		}
		if (at.Disk == nil) != (name.Disk[member] == nil) {
			t.Errorf("%q: %+v stands on the disk", row.Name, name.Disk[member])
		}
		if at.Disk == nil || name.Disk[member] == nil {
			continue
		}
		told = forecast.Content{}
		for place, content := range at.Disk.Contents {
			cut := forecast.Content{Size: content.Size, Hash: content.Hash.String()}
			if place == 0 {
				told = cut
			}
			p.join(told, cut)
		}
		disk := name.Disk[member]
		same("the disk", worldly(at.Disk.Type, false, 0, nil, at.Disk.ModifiedS, at.Disk.ModifiedNs, at.Disk.Target, int(at.Disk.Permissions%0o1000)),
			fmt.Sprint(disk.Type, false, 0, part.Version(nil), disk.Time, disk.Target, disk.Mode), told, disk.Content)
	}
}

// number gives bytes their number.
func (p *pairs) number(of forecast.Content) int {
	if _, is := p.of[of]; !is {
		p.of[of] = len(p.of)
	}
	return p.of[of]
}

// join notes two contents of the same bytes.
func (p *pairs) join(one, other forecast.Content) {
	from, to := p.number(one), p.number(other)
	for content, number := range p.of {
		if number == from {
			p.of[content] = to
		}
	}
}

// end says whether the same bytes are read as the same, and others as others.
func (p *pairs) end(t *testing.T) {
	t.Helper()
	for told, read := range p.read {
		for other, readOther := range p.read {
			if (p.number(told) == p.number(other)) != (read == readOther) {
				t.Errorf("%+v and %+v are read as %+v and %+v", told, other, read, readOther)
			}
		}
	}
}

// What becomes of rows is what a plain reading says of them: which are kept, with what; and of which why it isn't known what comes of them.
func TestRowsAreReadAsAPlainReadingSays(t *testing.T) {
	names := []string{"a", "a.sync-conflict-20261128-230000-AAAAAAA", "a.sync-conflict-20261128-230001-AAAAAAA", "a/b", "a/b/c", "a/d", "b", "b.sync-conflict-20261128-230000-AAAAAAA", "c", "c/d", "d", "e"}
	met := map[Why]int{}
	for seed := int64(0); seed < 300 && !t.Failed(); seed++ {
		random := rand.New(rand.NewSource(seed))
		folder := madeUpFolder(random)
		rows, direct := NewRows(folder), &plain{folder: folder, kept: map[string]*join.Row{}, unknown: map[string]Why{}, count: map[Why]int64{}, calm: map[string]bool{},
			damage: map[string][]damage.Kind{}, copies: map[string]int{}}
		for _, name := range names {
			row := madeUpRow(random, folder, name)
			rows.Take(row)
			direct.take(row)
		}
		world, read := rows.World(), &pairs{map[forecast.Content]forecast.Content{}, map[forecast.Content]int{}}
		direct.end()
		for place := range world.Names {
			if row := direct.kept[world.Names[place].Name]; row == nil {
				t.Errorf("%q is kept", world.Names[place].Name)
			} else {
				read.check(t, folder, &world.Names[place], row)
			}
		}
		read.end(t)
		if len(world.Names) != len(direct.kept) || !reflect.DeepEqual(rows.Unknown, direct.unknown) || !reflect.DeepEqual(rows.Count, direct.count) || !reflect.DeepEqual(rows.Calm, direct.calm) ||
			!reflect.DeepEqual(rows.Damage, direct.damage) {
			t.Errorf("%d names of %d; %v, not %v; %v, not %v; %v, not %v; %v, not %v", len(world.Names), len(direct.kept), rows.Unknown, direct.unknown, rows.Count, direct.count, rows.Calm, direct.calm,
				rows.Damage, direct.damage)
		}
		for place, device := range world.Devices {
			head := folder.Members[place].Head.Folders[0]
			if device.Number != uint64(folder.Members[place].Number) || device.MaxConflicts != head.Options.MaxConflicts || device.IgnoreDelete != head.Options.IgnoresDeletions ||
				device.IgnorePermissions != head.IgnoresPermissions || device.TimeWindow != head.TimeWindow*1000000000 || device.Kind != forecast.SendReceive {
				t.Errorf("%+v, not %+v", device, head)
			}
		}
		if t.Failed() {
			t.Logf("seed %d", seed)
		}
		for _, why := range rows.Unknown {
			met[why]++
		}
		met["calm"] += len(rows.Calm)
		met["kept"] += len(world.Names)
		met["at rest"] += len(names) - len(world.Names)
	}
	for _, why := range []Why{LeftOut, Moving, Damaged, NeverTold, Copies, "calm", "kept", "at rest"} {
		if met[why] < 15 {
			t.Errorf("%s is met %d times", why, met[why])
		}
	}
}
