package command

import (
	"strings"
	"time"

	"github.com/syncthing/syncthing/lib/protocol"
	"syncthing-audit/part"
)

func idOf(device byte) string { return protocol.DeviceID{7: device}.String() }

// headOfHostile gives a head with all that a device may say of itself.
func headOfHostile(device byte) *part.Head {
	other := idOf(3 - device)
	return &part.Head{Version: part.FirstVersion, Device: idOf(device), Name: "laptop", Runs: "v9.9.9", Made: time.Unix(0, 0).UTC(),
		Index: &part.Index{Written: time.Unix(1, 0), Configured: time.Unix(2, 0)},
		Newer: &part.Newer{Path: "/srv/data", Read: time.Unix(1, 0), Written: time.Unix(2, 0)},
		Folders: []part.Folder{{ID: "docs", Label: "Documents", Kind: "send-receive", Path: "/srv/docs", Directory: idOf(device) + "docs", Marker: ".mark", IndexID: uint64(device), Max: 99,
			Sharing: []part.Sharing{{Device: other, Name: "server"}}, Views: []part.View{{Device: other, IndexID: uint64(3 - device), Max: 99}},
			Paused: true, PausedDevices: []string{other}, Writers: []string{"versions of pics"},
			Options: &part.Options{MaxConflicts: 10, Versions: &part.Versions{Kind: part.VersionsStaggered, Place: "/srv/old"}}}},
		Others: []part.Other{{ID: "music", Label: "Music", Devices: []string{other}, Away: "it is paused"}}}
}

// hostileFile gives a file with a record that both devices have, and these bytes on the disk.
func hostileFile(name string, sequence int64, found byte) *part.Name {
	permissions := uint32(0o644)
	content := part.Content{Size: 5, BlockSize: protocol.MinBlockSize, Hash: part.Hash{1}}
	own := &part.Record{ModifiedBy: 1, Version: [][2]uint64{{1, 2}}, Sequence: sequence, Content: &content, Permissions: &permissions}
	on := content
	on.Hash = part.Hash{found}
	file := &part.Name{Name: part.Bytes(name), Own: own, Views: []part.Seen{{Record: own}}, Disk: &part.Node{Size: 5, Contents: []part.Content{on}, Permissions: 0o600}}
	if found != 1 {
		file.Disk.Differ = &part.Differ{Count: 1, Ranges: [][2]int64{{0, 0}}, First: part.Pair{Recorded: &part.Hash{2}, Found: &part.Hash{3}}}
	}
	return file
}

// linesOf gives the lines of a part with these names.
func linesOf(names ...*part.Name) []*part.Line {
	lines := []*part.Line{{Begin: &part.Begin{Folder: "docs"}}}
	for _, name := range names {
		lines = append(lines, &part.Line{Name: name})
	}
	return append(lines, &part.Line{End: &part.End{Folder: "docs", Names: int64(len(names)), Bytes: 5, Max: 99, Last: true, Temporary: &part.Count{Names: 1, Bytes: 2}}})
}

// stoppedParts gives the part of a stopped device with each of its texts.
func stoppedParts(device byte) []*hostile {
	lost := hostileFile("b", 2, 7)
	lost.Disk.Differ, lost.Disk.Lost = nil, "the disk fails to give it"
	symlink := &part.Record{Type: 4, ModifiedBy: 1, Version: [][2]uint64{{1, 2}}, Sequence: 3, Target: "a"}
	linked := &part.Name{Name: "c", Own: symlink, Views: []part.Seen{{Record: symlink}}, Disk: &part.Node{Type: 4, Target: "elsewhere"}}
	out := &part.Name{Name: "f/", Out: []part.LeftOut{{Kind: part.Unreadable, Why: "it can't be read", Below: true}}}
	damaged := &part.Name{Name: "g/", Out: []part.LeftOut{{Kind: part.Damaged, Why: "its names can't be had", Below: true}}}
	lines := linesOf(hostileFile("a", 1, 7), lost, linked, hostileFile("d~20261128.sync-conflict-20261128-100000-ABCDEFG", 4, 1), out, damaged)
	end := lines[len(lines)-1].End
	end.Holding = &part.Holding{Names: []part.Bytes{"f"}}
	end.Deletable = &part.Deletable{In: []part.DeletableIn{{Directory: "f", Count: part.Count{Names: 1, Bytes: 5}}}}
	return []*hostile{{headOfHostile(device), lines}}
}

// partsByNames gives that of a device that was asked for names alone which begin so.
func partsByNames(device byte) []*hostile {
	head := headOfHostile(device)
	head.Names.Prefix = "a"
	return []*hostile{{head, linesOf(hostileFile("a", 1, 7))}}
}

// runningParts gives those of both looks at a running one.
func runningParts(device byte) []*hostile {
	look := func(make func(look *part.Look)) *part.Head {
		head := headOfHostile(device)
		head.Index, head.Newer, head.Folders[0].Paused, head.Version = nil, nil, false, part.VersionOfLooks
		head.Look = &part.Look{Home: "home", At: time.Unix(3, 0)}
		make(head.Look)
		return head
	}
	names := func(isSecond bool) []*part.Line {
		still, moved, receiving := hostileFile("a", 1, 7), &part.Name{Name: "b", Moved: []string{part.MovedDisk}}, hostileFile("c", 3, 1)
		still.Disk.Stamp, receiving.Receiving = "stamp", ".syncthing.c.tmp"
		if isSecond {
			still.Disk.Contents, still.Disk.Differ, receiving.Disk.Contents = nil, nil, nil
		}
		return linesOf(still, moved, receiving)
	}
	idOfLook := func(of byte) string { return strings.Repeat("0", 31) + string(rune('0'+of)) }
	second := look(func(look *part.Look) { look.After = map[string]string{idOf(1): idOfLook(1), idOf(2): idOfLook(2)} })
	second.Folders[0].Rest = &part.Rest{State: part.RestUnasked, Why: "it refuses the key",
		Wanted: &part.Wanted{Count: part.Count{Names: 1}, Errors: 1, First: []part.NameError{{Name: "needed", Why: "no room"}}}}
	return []*hostile{{look(func(look *part.Look) { look.ID = idOfLook(device) }), names(false)}, {second, names(true)}}
}

// halvedParts gives the halves of a device that is observed, and whose disks were walked on itself.
func halvedParts(device byte) []*hostile {
	wire := observedParts(device)[0]
	walk := strings.Repeat("1", 31) + string('0'+device)
	wire.Head.Wire, wire.Head.Version = part.NewWire(idOf(9), true), part.VersionOfDisks
	wire.Head.Wire.Half = walk
	for _, line := range wire.Lines {
		if line.Name != nil {
			line.Name.Disk = nil
		}
	}
	found := hostileFile("a", 1, 7).Disk
	found.Differ = nil
	lines := linesOf(&part.Name{Name: "a", Disk: found}, &part.Name{Name: "b", Moved: []string{part.MovedDisk}},
		&part.Name{Name: "e", Out: []part.LeftOut{{Kind: part.Special, Why: "it is a pipe"}}})
	lines[len(lines)-1].End.Max, lines[len(lines)-1].End.ToIgnore = 0, 0
	half := part.NewHalf(walk, wire.Head.Look.ID, "linux", nil)
	ignores := &part.Ignores{Lines: []string{"*.tmp"}}
	if device == 1 {
		ignores = &part.Ignores{Lines: []string{"*.tmp"}, Unknown: "it has a line that isn't known"}
	}
	head := &part.Head{Version: part.VersionOfDisks, Device: wire.Head.Device, Made: time.Unix(3, 0), Half: half, Folders: []part.Folder{{ID: wire.Head.Folders[0].ID,
		Path: "/docs", Directory: "directory " + wire.Head.Device, Ignores: ignores}}}
	return []*hostile{wire, {head, lines}}
}

// observedParts gives the part of a device that was asked over the wire.
func observedParts(device byte) []*hostile {
	head := headOfHostile(device)
	head.Index, head.Newer, head.Others, head.Folders[0].Paused, head.Folders[0].Options = nil, nil, nil, false, nil
	head.Wire, head.Version = part.NewWire(idOf(9), false), part.VersionOfWire
	head.Wire.Without = []part.Without{{Folder: "photos", Why: "it isn't shared"}}
	id := strings.Repeat("0", 32)
	head.Look = &part.Look{Home: "over the wire", ID: id, After: map[string]string{idOf(1): id, idOf(2): id}, At: time.Unix(3, 0), Ended: time.Unix(4, 0)}
	overWire := func(name string, sequence int64, found byte) *part.Name {
		file := hostileFile(name, sequence, found)
		file.Views, file.Disk.Permissions = nil, 0
		return file
	}
	return []*hostile{{head, linesOf(overWire("a", 1, 7), &part.Name{Name: "b", Moved: []string{part.MovedRecord}}, overWire("c", 3, 1),
		&part.Name{Name: "d", Out: []part.LeftOut{{Kind: part.Unknown, Why: "it isn't told"}}})}}
}
