package join

import (
	"testing"

	"syncthing-audit/part"
)

// twoFolders gives a device that was asked over the wire for two folders, of which it shows the one or both.
func twoFolders(at int, wentBack int64, without ...part.Without) *Device {
	made := partOf(at, true, false, 9, 9)
	of := made.Stream.(*lines)
	of.left[len(of.left)-1].End.Last = false
	if len(without) > 0 {
		made.Head.Wire.Without = without
		of.left[len(of.left)-1].End.Last = true
		return made
	}
	photos := made.Head.Folders[0]
	photos.ID, photos.WentBackFrom = "photos", wentBack
	photos.Sharing = append([]part.Sharing{}, photos.Sharing...)
	made.Head.Folders = append(made.Head.Folders, photos)
	made.Head.Wire.WentBackFrom = wentBack
	of.left = append(of.left, part.Line{Begin: &part.Begin{Folder: "photos"}}, part.Line{End: &part.End{Folder: "photos", Max: 9, Last: true}})
	return made
}

// Of several folders at a device each says for itself from where its index went back, and all are read to their ends.
func TestEachFolderWentBackByItself(t *testing.T) {
	plan, err := NewPlan([]*Device{twoFolders(0, 12), twoFolders(1, 0)}, nil)
	if err != nil || len(plan.Refusals) > 0 || len(plan.Folders) != 2 {
		t.Fatal(err, plan)
	}
	for at, expected := range []int64{0, 12} {
		if got := plan.Folders[at].Members[0].Head.Wire.WentBackFrom; got != expected || plan.Folders[at].Members[1].Head.Wire.WentBackFrom != 0 {
			t.Errorf("%s: %d", plan.Folders[at].ID, got)
		}
		if _, err := plan.Folders[at].Rows(func(*Row) error { return nil }); err != nil {
			t.Error(err)
		}
	}
	for _, one := range plan.Devices {
		if err := one.Whole(); err != nil {
			t.Error(err)
		}
	}
	old := partOf(0, true, false, 9, 9) // as programs wrote it that knew one folder
	old.Head.Wire.WentBackFrom = 7
	if plan, err := NewPlan([]*Device{old, partOf(1, true, false, 9, 9)}, nil); err != nil || plan.Folders[0].Members[0].Head.Wire.WentBackFrom != 7 {
		t.Error(err, plan)
	}
}

// A folder that a device doesn't show the observer is left out there, for the reason that the device gives, where another one shares it with that device.
func TestAFolderThatIsNotShown(t *testing.T) {
	for _, one := range []struct {
		without   part.Without
		kind, why string
	}{
		{part.Without{Folder: "photos", Why: "it is paused"}, part.Absent, "it is paused"},
		{part.Without{Folder: "photos", Why: "no password", IsEncrypted: true}, part.Encrypted, "no password"},
		{part.Without{Folder: "else", Why: "?"}, part.Absent, "it doesn't share the folder with the observer"},
	} {
		plan, err := NewPlan([]*Device{twoFolders(0, 0), twoFolders(1, 0, one.without)}, nil)
		if err != nil || len(plan.Folders) != 2 || len(plan.Folders[1].Members) != 1 || len(plan.Refusals) != 1 {
			t.Fatal(err, plan)
		}
		told := plan.Refusals[0]
		if told.Kind != one.kind || told.Folder != "photos" || told.Device != ids[1] || told.Why != one.why+"; device "+ids[0][:7]+" shares it with this one" {
			t.Errorf("%+v", told)
		}
	}
}

// A device on which the folder is encrypted is audited if it was read with the password; otherwise it is left out, with what the observer says of it.
func TestAFolderThatWasOpened(t *testing.T) {
	for _, isOpened := range []bool{true, false} {
		one, two := partOf(0, true, false, 9, 9), partOf(1, true, false, 9, 9)
		one.Head.Folders[0].Sharing[0].Encrypted = true
		two.Head.Folders[0].IsOpened = isOpened
		plan, err := NewPlan([]*Device{one, two}, nil)
		if err != nil || (len(plan.Folders) == 1) != isOpened || (len(plan.Folders[0].Members) == 2) != isOpened || (len(plan.Refusals) == 0) != isOpened {
			t.Errorf("opened %v: %v, %+v", isOpened, err, plan)
		}
	}
	one, two := twoFolders(0, 0), twoFolders(1, 0, part.Without{Folder: "photos", Why: "no password: 9 names", IsEncrypted: true})
	one.Head.Folders[1].Sharing[0].Encrypted = true
	plan, err := NewPlan([]*Device{one, two}, nil)
	why := "the folder is shared encrypted with it by device " + ids[0][:7] + ": no password: 9 names"
	if err != nil || len(plan.Refusals) != 1 || plan.Refusals[0].Why != why || plan.Refusals[0].Kind != part.Encrypted {
		t.Errorf("%v, %+v", err, plan.Refusals)
	}
}
