package history

import (
	"testing"

	"syncthing-audit/part"
)

// A fault of a device's disk stays told where the look at it didn't ask for its bytes. What other names and devices have doesn't count, nor what the records
// alone said: where a newer record came, Syncthing has written the file since.
func TestFaultsThatAreNotReadAgain(t *testing.T) {
	content := part.Content{Size: 3, BlockSize: 1 << 17}
	file, gone, directory := &part.Record{Content: &content}, &part.Record{Deleted: true, Content: &content}, &part.Record{}
	wire := &part.Head{Device: ids[0], Wire: part.NewWire("observer", false)}
	records := &part.Head{Device: ids[0], Wire: part.NewWire("observer", true)}
	other, local := &part.Head{Device: ids[1], Wire: wire.Wire}, &part.Head{Device: ids[0]}
	at := func(cause string) Fault {
		return Fault{Folder: "docs", Name: "a", Device: part.Number(ids[0]), Cause: cause}
	}
	for _, row := range []struct {
		why   string
		head  *part.Head
		line  part.Name
		found []string
		isOne bool
	}{
		{"not asked for", wire, part.Name{Name: "a", Own: file, NotRead: true}, []string{"StoreDiffers"}, true},
		{"no bytes at all", records, part.Name{Name: "a", Own: file}, []string{"StoreDiffers"}, true},
		{"of another size", wire, part.Name{Name: "a", Own: file, NotRead: true}, []string{"StoreUnclean"}, true},
		{"read", wire, part.Name{Name: "a", Own: file}, []string{"StoreDiffers"}, false},
		{"at another device", other, part.Name{Name: "a", Own: file, NotRead: true}, []string{"StoreDiffers"}, false},
		{"another name", wire, part.Name{Name: "b", Own: file, NotRead: true}, []string{"StoreDiffers"}, false},
		{"deleted since", records, part.Name{Name: "a", Own: gone}, []string{"StoreDiffers"}, false},
		{"a directory since", records, part.Name{Name: "a", Own: directory}, []string{"StoreDiffers"}, false},
		{"no record", records, part.Name{Name: "a"}, []string{"StoreDiffers"}, false},
		{"an audit of the device itself", local, part.Name{Name: "a", Own: file, Out: []part.LeftOut{{Kind: part.Unreadable}}}, []string{"StoreDiffers"}, false},
		{"of the records", wire, part.Name{Name: "a", Own: file, NotRead: true}, []string{"RecordDiffers"}, false},
		{"it was behind, too", wire, part.Name{Name: "a", Own: file, NotRead: true}, []string{"RecordDiffers", "StoreDiffers"}, false},
	} {
		history, faults := opened(t), []Fault{}
		for _, cause := range row.found {
			faults = append(faults, at(cause))
		}
		if _, err := history.Keep(night(1), faults, func(Fault) bool { return true }); err != nil {
			t.Fatal(err)
		}
		watch, err := history.Watch()
		if err != nil {
			t.Fatal(err)
		}
		watch.take("docs", &row.line, row.head)
		audited := Audited{At: night(2), Folders: map[string][]uint64{"docs": {part.Number(ids[0]), part.Number(ids[1])}}, IDs: map[uint64]string{},
			Names: func(string, string) bool { return false }, IsUnread: watch.IsUnread}
		since, err := history.Since(audited)
		if err != nil {
			t.Fatal(err)
		}
		if is := since.Unread.Count == 1; is != row.isOne || since.Unread.Count+since.Unasked.Count != int64(len(row.found)) || is != (since.UnreadIn["docs"] == 1) {
			t.Errorf("%s: %+v, %+v", row.why, since.Unread, since.Unasked)
		}
		if row.isOne && (!since.Unread.First[0].First.Equal(night(1)) || !since.Unread.First[0].Last.Equal(night(1))) {
			t.Errorf("%s: %+v", row.why, since.Unread.First[0])
		}
	}
}

// A name counts once for its folder, whatever the devices, and not where another fault of it was found.
func TestNamesThatAreNotReadAgain(t *testing.T) {
	fault := func(name string, device uint64, cause string) Fault { return Fault{"docs", name, device, cause} }
	isUnread := func(fault Fault) bool { return fault.Name != "c" }
	unread, others := splitUnread([]Fault{fault("a", 1, "StoreDiffers"), fault("a", 2, "StoreDiffers"), fault("b", 1, "StoreDiffers"), fault("c", 1, "StoreDiffers"), fault("d", 1, "StoreUnclean")}, isUnread)
	if len(unread) != 4 || len(others) != 1 || others[0].Name != "c" {
		t.Errorf("%+v, %+v", unread, others)
	}
	if counts := namesIn(unread, []Fault{fault("b", 2, "RecordDiffers")}); len(counts) != 1 || counts["docs"] != 2 {
		t.Errorf("%v", counts)
	}
	if unread, others := splitUnread([]Fault{fault("a", 1, "StoreDiffers")}, nil); len(unread) != 0 || len(others) != 1 {
		t.Errorf("%+v, %+v", unread, others)
	}
}
