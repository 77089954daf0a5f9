package finding

import (
	"fmt"
	"reflect"
	"strings"
	"testing"

	"syncthing-audit/join"
	"syncthing-audit/part"
	"syncthing-audit/spill"
)

// folderOf gives a folder with these failures, each as 'REASON NAME DEVICE', and names without a winner.
func folderOf(failures, unwon []string) *Folder {
	made := &Folder{}
	for _, one := range failures {
		failure := Failure{}
		fmt.Sscan(one, &failure.Reason, &failure.Name, &failure.Device)
		made.Failures.Add(failure)
	}
	for _, name := range unwon {
		made.Unwon.Add(Unwon{Name: name})
	}
	return made
}

// All failures come in the order in which one document of all would have told them; names without a winner are among them.
func TestOrderOfFailures(t *testing.T) {
	folder := folderOf([]string{"StoreDiffers a 1", "StoreDiffers a 2", "ViewAhead a 2", "NotWinner c 0", "RecordMissing d 1", "StoreDiffers d 1"},
		[]string{"b", "e"})
	var made []string
	folder.EachFailure(func(one *Failure) { made = append(made, fmt.Sprint(one.Reason, " ", one.Name, " ", one.Device)) })
	expected := "NotWinner b 0, NotWinner c 0, NotWinner e 0, RecordMissing d 1, StoreDiffers a 1, StoreDiffers a 2, StoreDiffers d 1, ViewAhead a 2"
	if strings.Join(made, ", ") != expected {
		t.Error(made)
	}
	if first := folder.FirstFailure(); first.Name != "b" || !folder.HasFailures() {
		t.Error(first)
	}
	if folderOf(nil, nil).HasFailures() || !folderOf(nil, []string{"a"}).HasFailures() {
		t.Error("a folder fails where something of it does, and only there")
	}
}

// Each name comes once, with all that is told of it.
func TestNamesOfWhichSomethingIsTold(t *testing.T) {
	folder := folderOf([]string{"RecordMissing a 2", "StoreDiffers a 2", "StoreDiffers d 1"}, []string{"b"})
	for _, name := range []string{"a", "c"} {
		folder.Permissions.Add(Permissions{Name: name})
	}
	var made []string
	folder.EachName(func(one *Told) {
		made = append(made, fmt.Sprint(one.Name, len(one.Failures), one.Unwon != nil, one.Permissions != nil))
	})
	if !reflect.DeepEqual(made, []string{"a2 false true", "b0 true false", "c0 false true", "d1 false false"}) {
		t.Error(made)
	}
}

// Where what was found can't be kept, there is an error, and no answer.
func TestWhatCannotBeKept(t *testing.T) {
	t.Setenv("TMPDIR", "/nowhere")
	for why, fill := range map[string]func(*Folder){
		"failures":    func(f *Folder) { f.Failures.Add(Failure{Reason: "StoreDiffers"}) },
		"no winner":   func(f *Folder) { f.Unwon.Add(Unwon{}) },
		"permissions": func(f *Folder) { f.Permissions.Add(Permissions{}) },
		"loose":       func(f *Folder) { f.Loose.Add(Loose{}) },
		"damaged":     func(f *Folder) { f.Damaged.Add(Damaged{}) },
	} {
		folder := &Folder{}
		for next := 0; next <= spill.MostInMemory; next++ {
			if err := (&Answer{Folders: []*Folder{folder}}).Err(); err != nil {
				t.Errorf("%s: %v", why, err)
			}
			fill(folder)
		}
		if err := (&Answer{Folders: []*Folder{{}, folder}}).Err(); err == nil {
			t.Errorf("%s: an answer that isn't whole is taken", why)
		}
	}
}

// Details are kept as far as there is room, counted for each device.
func TestRoom(t *testing.T) {
	room := &Room{}
	row := &join.Row{Name: "a", At: []*part.Name{{Disk: &part.Node{Size: 7}, Own: &part.Record{}, Views: []part.Seen{{Record: &part.Record{}}}}, nil, nil}}
	for next := 0; next < MostKept/3; next++ {
		if kept := room.Keep(row); kept == nil || kept.Name != "a" || kept.Size() != 7 || kept.At[0].Views != nil || kept.At[1] != nil {
			t.Fatalf("%d: %v", next, kept)
		}
	}
	if room.Keep(row) != nil || row.At[0].Views == nil {
		t.Error("more is kept than there is room, or what was there is changed")
	}
}
