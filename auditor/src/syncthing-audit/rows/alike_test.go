package rows

import (
	"fmt"
	"testing"

	"github.com/syncthing/syncthing/lib/protocol"
	"syncthing-audit/join"
	"syncthing-audit/part"
)

// Two records are one but for the sequence where a document says the same of both: each thing that it says makes them two, whatever the others are.
func TestRecordsThatAreOneButForSequence(t *testing.T) {
	bases := []part.Record{{}, {Type: 1, Deleted: true, Version: part.Version{{1, 2}}}, {Type: 4, Target: "x", ModifiedS: 7}, {ModifiedS: 1, ModifiedNs: 2, ModifiedBy: 3, Content: contentOf(5, kilo128, 1)}}
	differ := map[string]func(*part.Record){
		"type": func(of *part.Record) { of.Type += 2 }, "seconds": func(of *part.Record) { of.ModifiedS++ }, "nanoseconds": func(of *part.Record) { of.ModifiedNs++ },
		"by": func(of *part.Record) { of.ModifiedBy++ }, "deleted": func(of *part.Record) { of.Deleted = !of.Deleted }, "invalid": func(of *part.Record) { of.Invalid = !of.Invalid },
		"target": func(of *part.Record) { of.Target += "y" }, "version": func(of *part.Record) { of.Version = append(part.Version{{9, 9}}, of.Version...) },
		"content": func(of *part.Record) { of.Content = contentOf(6, kilo256, 2) }, "content or none": func(of *part.Record) {
			if of.Content == nil {
				of.Content = contentOf(5, kilo128, 1)
			} else {
				of.Content = nil
			}
		},
	}
	alike := map[string]func(*part.Record){
		"nothing": func(*part.Record) {}, "sequence": func(of *part.Record) { of.Sequence++ }, "blocks": func(of *part.Record) { of.Blocks = [][32]byte{{}} },
		"content of its own": func(of *part.Record) {
			if of.Content != nil {
				copied := *of.Content
				of.Content = &copied
			}
		},
	}
	for place, base := range bases {
		for is, changes := range map[bool]map[string]func(*part.Record){false: differ, true: alike} {
			for why, change := range changes {
				one, other := base, base
				change(&other)
				if isOneButForSequence(&one, &other) != is || isOneButForSequence(&other, &one) != is {
					t.Errorf("%d: another %s: they are one: %v", place, why, !is)
				}
			}
		}
	}
}

// wideRow gives a folder of many devices, each with views of all, and a name of which each has another record and node.
func wideRow(count int) (*join.Folder, *join.Row) {
	folder, row := &join.Folder{ID: "docs"}, &join.Row{Name: "a"}
	for member := 0; member < count; member++ {
		about := &part.Folder{ID: "docs", Kind: "send-receive"}
		at := &part.Name{Own: &part.Record{Sequence: 1, ModifiedS: int64(member)}, Disk: &part.Node{ModifiedS: int64(member)}}
		for other := 0; other < count; other++ {
			at.Views = append(at.Views, part.Seen{View: other, Record: &part.Record{Sequence: 1, ModifiedS: int64(other)}})
			about.Views = append(about.Views, part.View{Device: protocol.DeviceID{7: byte(other + 1)}.String()})
		}
		head := &part.Head{Device: protocol.DeviceID{7: byte(member + 1)}.String()}
		folder.Members = append(folder.Members, join.Member{Device: &join.Device{Head: head, Number: uint64(member + 1)}, About: about})
		row.At = append(row.At, at)
	}
	return folder, row
}

// Where there are more than ten devices, records and nodes, each member has its own ones still, and each view those of its device.
func TestARowOfManyDevices(t *testing.T) {
	const count = 13
	folder, row := wideRow(count)
	made, out := streamed(folder, []*join.Row{row})
	if len(made) != 1 || out != nil {
		t.Fatalf("%+v, without %v", made, out)
	}
	seconds := func(of object, list string) string {
		items := of[list].([]interface{})
		if len(items) != 1 {
			return fmt.Sprint(items)
		}
		return fmt.Sprint(items[0].(object)["modified_s"])
	}
	devices := expanded(t, made[0].Written)["cut"].(object)["folders"].([]interface{})[0].(object)["devices"].([]interface{})
	for place, told := range devices {
		device, due := told.(object), fmt.Sprint(place)
		if own, node := seconds(device, "own"), seconds(device, "store"); own != due || node != due || fmt.Sprint(device["device"]) != fmt.Sprint(place+1) {
			t.Errorf("device %d records %s, and has %s", place, own, node)
		}
		for of, told := range device["views"].([]interface{}) {
			if view := told.(object); fmt.Sprint(view["of"]) != fmt.Sprint(of+1) || seconds(view, "records") != fmt.Sprint(of) {
				t.Errorf("device %d sees %v", place, view)
			}
		}
	}
}
