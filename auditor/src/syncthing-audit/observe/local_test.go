package observe

import (
	"errors"
	"fmt"
	"reflect"
	"testing"

	"github.com/syncthing/syncthing/lib/protocol"
	"syncthing-audit/device"
	"syncthing-audit/message"
	"syncthing-audit/part"
	"syncthing-audit/wire"
)

// Of a local change its device's own Syncthing says the version, by the beginnings of the ids of devices that are known. Where that isn't understood, or
// of another record, none is taken.
func TestVersionsOfLocalChanges(t *testing.T) {
	id, two := protocol.DeviceID{7: 1}, protocol.DeviceID{1: 200, 7: 2}
	short := func(of protocol.DeviceID) string { return of.String()[:7] }
	folder := &Folder{of: id, said: wire.Folder{ID: "docs", Devices: []wire.Sharing{{Device: two}}}, index: wire.NewIndex(1)}
	text := func(name string, sequence uint64) []byte { // a deletion by device 7, which is marked as invalid and has no version
		text := message.AppendNumber(message.AppendText(nil, 1, []byte(name)), 6, 1)
		return message.AppendNumber(message.AppendNumber(message.AppendNumber(text, 7, 1), 10, sequence), 12, 7)
	}
	said := map[string][]string{"a": {short(two) + ":3", short(id) + ":4"}, "b": {"XXXXXXX:3"}, "c": {short(id) + ":x"}, "d": {}, "e": {short(id) + ":1", short(id) + ":2"},
		"f": {short(id) + ":0"}, "g": {short(id) + ":5"}}
	names := []string{"a", "b", "c", "d", "e", "f", "g"}
	for place, name := range names {
		if err := folder.index.Put(text(name, uint64(place+1))); err != nil {
			t.Fatal(err)
		}
	}
	counter := message.AppendText(nil, 9, message.AppendText(nil, 1, message.AppendNumber(message.AppendNumber(nil, 1, 7), 2, 1)))
	if err := folder.index.Put(append(text("h", 8), counter...)); err != nil { // it has a version: no local change
		t.Fatal(err)
	}
	asked := 0
	err := folder.AskLocal(nil, func(of, name string) (int64, []string, error) {
		asked++
		sequence := int64(name[0]-'a') + 1
		if name == "g" {
			sequence++ // it changed meanwhile
		}
		return sequence, said[name], nil
	})
	due := part.Version{{part.Number(id.String()), 4}, {part.Number(two.String()), 3}}
	if due[0][0] > due[1][0] {
		due[0], due[1] = due[1], due[0]
	}
	if err != nil || asked != len(names) || !reflect.DeepEqual(folder.locals, map[string]part.Version{"a": due}) {
		t.Errorf("%v, %d, %v", err, asked, folder.locals)
	}
	entry := device.Entry{Name: "a", Record: &part.Record{}}
	if record := folder.withLocal(entry); !reflect.DeepEqual(record.Local, due) || entry.Record.Local != nil {
		t.Errorf("%+v", record)
	}
	if record := folder.withLocal(device.Entry{Name: "b", Record: &part.Record{}}); record.Local != nil {
		t.Errorf("%+v", record)
	}
	if err := folder.AskLocal(nil, func(string, string) (int64, []string, error) { return 0, nil, errors.New("no answer") }); err == nil {
		t.Error("no answer is one")
	}
}

// Of very many local changes some are asked about.
func TestVeryManyLocalChanges(t *testing.T) {
	folder, texts := &Folder{of: protocol.DeviceID{1}, index: wire.NewIndex(1)}, [][]byte{}
	for number := 1; number <= 1003; number++ {
		text := message.AppendNumber(message.AppendText(nil, message.FileName, []byte(fmt.Sprint(number))), message.FileDeleted, 1)
		text = message.AppendNumber(message.AppendNumber(text, message.FileInvalid, 1), message.FileSequence, uint64(number))
		texts = append(texts, message.AppendNumber(text, message.FileModifiedBy, 7))
	}
	if err := folder.index.Put(texts...); err != nil {
		t.Fatal(err)
	}
	asked := 0
	err := folder.AskLocal(nil, func(string, string) (int64, []string, error) { asked++; return 0, nil, nil })
	if err != nil || asked != 1000 || len(folder.locals) != 0 {
		t.Errorf("%d are asked about, %v", asked, err)
	}
}
