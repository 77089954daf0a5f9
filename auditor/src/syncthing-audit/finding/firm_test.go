package finding

import (
	"testing"

	"syncthing-audit/join"
	"syncthing-audit/part"
)

func TestHowFirm(t *testing.T) {
	first := &Failure{VersionDiffers, "b", 2}
	unsettled := &Folder{}
	unsettled.Failures.Add(Failure{"StoreDiffers", "a", 1})
	unknown := &Folder{Members: []join.Member{{Device: &join.Device{Head: &part.Head{}}, About: &part.Folder{}, ToIgnore: 1}}}
	isFirm, isnt := &Folder{}, &Folder{NotFirm: first}
	for _, one := range []struct {
		folders []*Folder
		is      Firm
	}{{[]*Folder{isFirm}, IsFirm}, {[]*Folder{isnt}, NotFirm}, {[]*Folder{unsettled}, NotFirm}, {[]*Folder{unknown}, NotKnown}, {[]*Folder{isFirm, unknown, isFirm}, NotKnown},
		{[]*Folder{unknown, isFirm, isnt}, NotFirm}} {
		if is := (&Answer{Folders: one.folders}).HowFirm(); is != one.is {
			t.Errorf("%v, not %v", is, one.is)
		}
	}
}

// What was found to keep a folder from being firm has to begin with what syncaudit says.
func TestLooseNamesBeginWithWhatSyncauditSays(t *testing.T) {
	members := []join.Member{{Device: &join.Device{Number: 1}}, {Device: &join.Device{Number: 2}}}
	found := func(first *Failure, all ...Loose) error {
		folder := &Folder{ID: "docs", Members: members, NotFirm: first}
		for _, one := range all {
			folder.Loose.Add(one)
		}
		return folder.CheckLoose()
	}
	sees := Loose{"a", []LooseAt{{Member: 0, Reason: ViewNotBelow}}}
	differs := Loose{"b", []LooseAt{{Member: 1, Reason: VersionDiffers}}}
	if err := found(nil); err != nil {
		t.Error(err)
	}
	if err := found(&Failure{VersionDiffers, "b", 2}, sees, differs); err != nil {
		t.Error(err)
	}
	for _, err := range []error{found(nil, sees), found(&Failure{ViewNotBelow, "a", 1}), found(&Failure{ViewNotBelow, "a", 1}, sees, differs),
		found(&Failure{VersionDiffers, "b", 1}, sees, differs)} {
		if err == nil {
			t.Error("other names were taken")
		}
	}
	failed := &Folder{Members: members}
	failed.Failures.Add(Failure{"StoreDiffers", "a", 1})
	if failed.Loose.Add(sees); failed.CheckLoose() != nil { // syncaudit says nothing of it
		t.Error(failed.CheckLoose())
	}
}
