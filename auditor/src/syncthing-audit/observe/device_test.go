package observe

import (
	"strings"
	"testing"
	"time"

	"github.com/syncthing/syncthing/lib/protocol"
	"syncthing-audit/message"
	"syncthing-audit/part"
	"syncthing-audit/wire"
)

var asked = Asked{}

// seen gives a device that shares one folder.
func seen(t *testing.T, records map[string][]byte, since ...string) *Device {
	t.Helper()
	device := &Device{ID: protocol.DeviceID{0: 1, 7: 1}, Out: map[string]error{}, first: time.Unix(1, 0), again: time.Unix(2, 0)}
	device.Folders = []*Folder{seenIn(t, "docs", records, since...)}
	return device
}

// seenIn gives a folder of that device with these records, of which some came again at the second look.
func seenIn(t *testing.T, id string, records map[string][]byte, since ...string) *Folder {
	t.Helper()
	folder := &Folder{of: protocol.DeviceID{0: 1, 7: 1}, index: wire.NewIndex(7), since: wire.NewIndex(7), said: wire.Folder{ID: id}}
	var err error
	if folder.disks, err = newDisks(t.TempDir()); err != nil {
		t.Fatal(err)
	}
	t.Cleanup(folder.disks.close)
	for _, record := range records {
		if err := folder.index.Put(record); err != nil {
			t.Fatal(err)
		}
	}
	for _, name := range since {
		if err := folder.since.Put(fileOf(name, 9, true)); err != nil {
			t.Fatal(err)
		}
	}
	if err := folder.count(); err != nil {
		t.Fatal(err)
	}
	return folder
}

// fileOf gives a record of a file of three bytes as it is sent, with more fields behind it.
func fileOf(name string, sequence uint64, hasVersion bool, more ...byte) []byte {
	text := message.AppendText(nil, 1, []byte(name))
	text = message.AppendNumber(text, 3, 3)
	if hasVersion {
		text = message.AppendText(text, 9, message.AppendText(nil, 1, message.AppendNumber(message.AppendNumber(nil, 1, 1), 2, 1)))
	}
	text = message.AppendNumber(text, 10, sequence)
	text = message.AppendNumber(text, 12, 1)
	text = message.AppendText(text, 16, message.AppendText(message.AppendNumber(nil, 2, 3), 3, make([]byte, 32)))
	return append(text, more...)
}

// invalid is the field of a record that its device marks as invalid.
var invalid = message.AppendNumber(nil, 7, 1)

// linesOf gives the lines of a folder by name, whose names rise.
func linesOf(t *testing.T, of *Folder) map[string]*part.Name {
	t.Helper()
	lines, last := map[string]*part.Name{}, ""
	err := of.each(asked, func(line *part.Name) error {
		if string(line.Name) <= last {
			t.Errorf("%q behind %q", line.Name, last)
		}
		lines[string(line.Name)], last = line, string(line.Name)
		return nil
	})
	if err != nil {
		t.Fatal(err)
	}
	return lines
}

// What is found becomes what a part says; what came between the looks is in motion, and nothing else is told of it.
func TestLines(t *testing.T) {
	folder := seen(t, map[string][]byte{"failed": fileOf("failed", 1, true), "ignored": fileOf("ignored", 2, true), "same": fileOf("same", 3, true),
		"moved": fileOf("moved", 4, true), "invalid": fileOf("invalid", 5, true, invalid...), "local": fileOf("local", 6, false, invalid...),
		"unknown": fileOf("unknown", 7, true), "missing": fileOf("missing", 8, true)}, "a new one", "moved", "new").Folders[0]
	found := map[string]wire.Found{"same": {State: wire.Same, Size: 3, BlockSize: protocol.MinBlockSize, Blocks: [][32]byte{{1}}}, "failed": {State: wire.Failed},
		"ignored": {State: wire.Ignored}, "moved": {State: wire.Same, Size: 3}, "unknown": {State: wire.NotKnown}, "missing": {State: wire.Missing}}
	for name, content := range found {
		if err := folder.disks.put(name, diskOf(folder.of, name, content)); err != nil {
			t.Fatal(err)
		}
	}
	names := linesOf(t, folder)
	if len(names) != 10 {
		t.Errorf("%d names", len(names))
	}
	for name, kind := range map[string]string{"failed": part.Unreadable, "ignored": part.Ignored, "invalid": part.Unknown, "unknown": part.Unknown} {
		if len(names[name].Out) != 1 || names[name].Out[0].Kind != kind {
			t.Errorf("%s: %+v", name, names[name])
		}
	}
	for _, name := range []string{"a new one", "moved", "new"} {
		if line := names[name]; len(line.Moved) != 1 || line.Own != nil || line.Disk != nil {
			t.Errorf("%s: %+v", name, line)
		}
	}
	if name := names["same"]; name.Own == nil || name.Disk == nil || name.Disk.Size != 3 || len(name.Out) > 0 {
		t.Errorf("%+v", name)
	}
	if name := names["missing"]; name.Own == nil || name.Disk != nil || len(name.Out) > 0 {
		t.Errorf("%+v", name)
	}
	if len(names["local"].Out) > 0 || folder.kind() != "receive-only" {
		t.Errorf("%+v, %s", names["local"], folder.kind())
	}
}

// A name that is too long for a part is told by a hash, behind all others, and one that no document has by its reason.
func TestOddNames(t *testing.T) {
	long := strings.Repeat("a", part.MostNameBytes+1)
	folder := seen(t, map[string][]byte{"long": fileOf(long, 1, true), "odd": fileOf("../out", 2, true), "z": fileOf("z", 3, true)}).Folders[0]
	names := linesOf(t, folder)
	if len(names) != 3 || names[long] != nil || names["../out"].Out[0].Kind != part.OddName || len(names["z"].Out) > 0 {
		t.Errorf("%+v", names)
	}
}

// Views and devices are told without the observer, and views have what was heard at both looks.
func TestFolder(t *testing.T) {
	observer, other := protocol.DeviceID{0: 9, 7: 1}, protocol.DeviceID{0: 2, 7: 1}
	observed := seen(t, nil).Folders[0]
	observed.said.Devices = []wire.Sharing{{Device: observed.of}, {Device: observer, IndexID: 3}, {Device: other, Name: "other", IndexID: 4, Sequence: 5}}
	observed.heard.Devices = []wire.Sharing{{Device: other, IndexID: 4, Sequence: 8}}
	folder := observed.head(observer)
	if len(folder.Sharing) != 1 || len(folder.Views) != 1 || folder.Views[0].Max != 5 || folder.Views[0].Heard != 8 {
		t.Errorf("%+v", folder)
	}
	observed.heard.Devices[0].IndexID = 5
	if folder := observed.head(observer); folder.Views[0].Heard != 0 {
		t.Errorf("%+v", folder.Views)
	}
}
