package main

import (
	"crypto/sha256"
	"fmt"
	"os"
	"path/filepath"
	"time"

	"github.com/syncthing/syncthing/lib/protocol"
	"syncthing-audit/part"
)

// makeParts writes the parts of devices that are in step.
func (p *plan) makeParts() error {
	if err := os.MkdirAll(p.room, 0o755); err != nil {
		return err
	}
	ids := make([]string, p.devices)
	for place := range ids {
		ids[place] = protocol.DeviceID(sha256.Sum256([]byte{byte(place)})).String()
	}
	for place := range ids {
		file, err := os.Create(filepath.Join(p.room, fmt.Sprintf("device%d.part", place+1)))
		if err != nil {
			return err
		}
		if err := p.writePart(file, ids, place); err != nil {
			file.Close()
			return err
		}
		if err := file.Close(); err != nil {
			return err
		}
	}
	return nil
}

// writePart writes one device's part.
func (p *plan) writePart(file *os.File, ids []string, place int) error {
	most := int64(p.files)
	folder := part.Folder{ID: folderID, Kind: "send-receive", Path: "/sample", Directory: ids[place], IndexID: uint64(place + 1), Max: most}
	for other, id := range ids {
		if other != place {
			folder.Sharing = append(folder.Sharing, part.Sharing{Device: id, Name: fmt.Sprintf("device%d", other+1)})
			folder.Views = append(folder.Views, part.View{Device: id, IndexID: uint64(other + 1), Max: most})
		}
	}
	head := &part.Head{Version: part.FirstVersion, Device: ids[place], Name: fmt.Sprintf("device%d", place+1),
		Made: time.Unix(1700000000, 0).UTC(), Folders: []part.Folder{folder}, Others: []part.Other{}}
	to, err := part.NewWriter(file, head)
	if err != nil {
		return err
	}
	if err := to.Take(part.Line{Begin: &part.Begin{Folder: folderID}}); err != nil {
		return err
	}
	by, names := part.Number(ids[0]), int64(0)
	for number := 0; number < p.files; number++ {
		line := nameLine(number, p.bytes, by, len(folder.Views))
		if fault := faults[p.each]; fault != nil {
			line = fault(line, place == len(ids)-1)
		}
		if line == nil {
			continue
		}
		if err := to.Take(part.Line{Name: line}); err != nil {
			return err
		}
		names++
	}
	end := &part.End{Folder: folderID, Names: names, Bytes: names * p.bytes, Max: most, Last: true}
	if err := to.Take(part.Line{End: end}); err != nil {
		return err
	}
	return to.Close()
}

// nameLine gives a file that a device has as all others do.
func nameLine(number int, size int64, by uint64, views int) *part.Name {
	permissions := uint32(0o644)
	content := part.Content{Size: size, BlockSize: int64(protocol.BlockSize(size)), Hash: sha256.Sum256([]byte(nameOf(number)))}
	record := part.Record{ModifiedS: 1700000000, ModifiedNs: 123456789, ModifiedBy: by, Version: part.Version{{by, 1700000000}},
		Sequence: int64(number) + 1, Content: &content, Permissions: &permissions}
	name := &part.Name{Name: part.Bytes(nameOf(number)), Own: &record, Disk: &part.Node{ModifiedS: record.ModifiedS,
		ModifiedNs: record.ModifiedNs, Size: size, Contents: []part.Content{content}, Permissions: permissions}}
	for view := 0; view < views; view++ {
		name.Views = append(name.Views, part.Seen{View: view, Record: &record})
	}
	return name
}
