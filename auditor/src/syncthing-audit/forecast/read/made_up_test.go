package read

import (
	"math/rand"

	"golang.org/x/exp/slices"
	"syncthing-audit/join"
	"syncthing-audit/part"
)

// pick gives one of these.
func pick[T any](random *rand.Rand, all ...T) T { return all[random.Intn(len(all))] }

// madeUpFolder gives a folder of few devices. Some don't share it with each other, and have views of each other from before, or of a stranger.
func madeUpFolder(random *rand.Rand) *join.Folder {
	folder := folderOf(2 + random.Intn(3))
	for place, member := range folder.Members {
		about := member.About
		about.IgnoresPermissions = random.Intn(4) == 0
		member.Head.Folders[0].IgnoresPermissions = about.IgnoresPermissions
		member.Head.Folders[0].Options = &part.Options{MaxConflicts: pick(random, -1, 0, 1, 3, 10), IgnoresDeletions: random.Intn(4) == 0}
		member.Head.Folders[0].TimeWindow = int64(random.Intn(3))
		for view := range about.Views {
			about.Views[view].Max, about.Views[view].Heard = int64(random.Intn(9)), int64(random.Intn(9))
		}
		if random.Intn(3) == 0 {
			about.Views = append([]part.View{{Device: id(9), IndexID: 9}}, about.Views...)
		}
		if place > 1 && random.Intn(3) == 0 {
			partFrom(folder, place)
		}
	}
	return folder
}

// partFrom has a device share the folder with the first one alone.
func partFrom(folder *join.Folder, place int) {
	alone := part.Sharing{Device: folder.Members[place].Head.Device}
	for other, member := range folder.Members {
		switch with := slices.Index(member.About.Sharing, alone); {
		case other == place:
			member.About.Sharing = []part.Sharing{{Device: id(0)}}
		case other > 0 && with >= 0:
			member.About.Sharing = append(member.About.Sharing[:with:with], member.About.Sharing[with+1:]...)
		}
	}
}

// madeUpRecord gives what all devices of a row have, or now and then something else.
func madeUpRecord(random *rand.Rand, base part.Record, isStill bool) *part.Record {
	record := base
	record.Sequence = int64(1 + random.Intn(9))
	if isStill || random.Intn(9) > 0 {
		return &record
	}
	switch random.Intn(8) {
	case 0:
		record.Version = [][2]uint64{{1, 2}, {3, 1}}
	case 1:
		record.Deleted, record.Content = true, nil
	case 2:
		record.Invalid = true
	case 3:
		record.Invalid, record.Local = true, [][2]uint64{{2, 5}}
	case 4:
		record.Type, record.Content = 1-record.Type%2, nil
	case 5:
		record.ModifiedNs, record.Target = 7, "there"
	case 6:
		record.Content = &part.Content{Size: 5, BlockSize: 1 << 17, Hash: part.Hash{byte(1 + random.Intn(3))}}
	case 7:
		bits := uint32(0o1601)
		record.Permissions = &bits
	}
	return &record
}

// madeUpNode gives what a record says, or now and then something else.
func madeUpNode(random *rand.Rand, of *part.Record, isStill bool) *part.Node {
	if of == nil || of.Deleted {
		if isStill {
			return nil
		}
		return pick(random, nil, nil, nil, nil, nil, &part.Node{Type: 1, Permissions: 0o1755}, &part.Node{Size: 5, Contents: []part.Content{{Size: 5, BlockSize: 1 << 17}}})
	}
	node := &part.Node{Type: of.Type, ModifiedS: of.ModifiedS, ModifiedNs: of.ModifiedNs, Target: of.Target, Permissions: 0o644}
	if of.Permissions != nil {
		node.Permissions = *of.Permissions ^ 0o1000
	}
	if of.Content != nil {
		node.Size, node.Contents = of.Content.Size, []part.Content{*of.Content}
	}
	if isStill {
		return node
	}
	switch random.Intn(20) {
	case 0:
		return nil
	case 1:
		node.ModifiedS++
	case 2:
		node.Permissions ^= 0o001
	case 3:
		node.Type = 4
	case 4:
		node.Lost = "lost"
	case 5:
		node.Unread = 1
	case 6:
		if node.Contents != nil {
			node.Contents = append(node.Contents, part.Content{Size: 5, BlockSize: 1 << 18, Hash: part.Hash{byte(random.Intn(3))}})
		}
	case 7:
		node.Size, node.Contents = 0, nil
	}
	return node
}

// madeUpRow gives what the devices of a folder have of a name: often all the same.
func madeUpRow(random *rand.Rand, folder *join.Folder, name string) *join.Row {
	row, bits, isStill := &join.Row{Name: name}, uint32(0o1644), random.Intn(2) == 0
	base := part.Record{ModifiedS: 100, Version: [][2]uint64{{1, 1}}, Permissions: pick(random, nil, &bits)}
	switch random.Intn(6) {
	case 0, 1, 2:
		base.Content = &part.Content{Size: int64(5 * random.Intn(2)), BlockSize: 1 << 17, Hash: part.Hash{byte(random.Intn(3))}}
	case 3:
		base.Type = 1
	case 4:
		base.Deleted = true
	case 5:
		base.Type, base.Target = 4, "there"
	}
	for place, member := range folder.Members {
		at := &part.Name{Name: part.Bytes(name), Own: madeUpRecord(random, base, isStill)}
		if !isStill && random.Intn(20) == 0 {
			at.Own = nil
		}
		at.Disk = madeUpNode(random, at.Own, isStill)
		for view, of := range member.About.Views {
			if of.Device != id(9) && (isStill || random.Intn(30) > 0) && !apartFrom(folder.Members, place).Has(memberOf(folder.Members, of.Device)) || random.Intn(30) == 0 {
				at.Views = append(at.Views, part.Seen{View: view, Record: madeUpRecord(random, base, isStill)})
			}
		}
		if isStill {
			row.At = append(row.At, at)
			continue
		}
		switch random.Intn(30) {
		case 0:
			at.Out = []part.LeftOut{{Kind: part.Ignored}}
		case 1:
			at.Out = []part.LeftOut{{Kind: part.Damaged}}
		case 2:
			at.Moved = []string{part.MovedDisk}
		case 3:
			at.Receiving = "1"
		case 4:
			at.Own, at.Views = nil, nil
			at.Out = []part.LeftOut{{Kind: part.Ignored}}
		case 5:
			if place > 0 {
				at = nil
			}
		}
		row.At = append(row.At, at)
	}
	if isStill && random.Intn(4) == 0 {
		forget(row, folder, random.Intn(len(row.At)))
	}
	if random.Intn(20) == 0 {
		for place := range row.At {
			if row.At[place] = nil; place == 0 || random.Intn(2) == 0 {
				row.At[place] = &part.Name{Name: part.Bytes(name), Out: []part.LeftOut{{Kind: part.Ignored}}}
			}
		}
	}
	if random.Intn(30) == 0 {
		row.Later = []int{0}
	}
	return row
}

// forget has a device never have had a name, and nobody know of that.
func forget(row *join.Row, folder *join.Folder, device int) {
	row.At[device].Own, row.At[device].Disk = nil, nil
	for place, member := range folder.Members {
		var views []part.Seen
		for _, seen := range row.At[place].Views {
			if memberOf(folder.Members, member.About.Views[seen.View].Device) != device {
				views = append(views, seen)
			}
		}
		row.At[place].Views = views
	}
}
