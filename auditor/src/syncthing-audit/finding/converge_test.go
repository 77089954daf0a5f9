package finding

import (
	"testing"

	"syncthing-audit/join"
	"syncthing-audit/part"
)

// twoMembers gives two devices of which all was audited.
func twoMembers() []join.Member {
	made := []join.Member{}
	for number := uint64(1); number < 3; number++ {
		made = append(made, join.Member{Device: &join.Device{Number: number, Head: &part.Head{}}, About: &part.Folder{}})
	}
	return made
}

// Of several answers the hindrance is told that one answer to all would tell.
func TestConvergenceOfSeveral(t *testing.T) {
	first, second := &Failure{"Concurrent", "b", 0}, &Failure{"Concurrent", "a", 0}
	third := &Failure{"NothingPrevails", "c", 0}
	told := Convergence{}
	for _, next := range []struct{ said, first *Failure }{{nil, nil}, {first, first}, {second, second}, {nil, second}, {third, third}, {first, third}} {
		if told.Take(Convergence{First: next.said}); told.First != next.first {
			t.Errorf("%+v: %+v", next.said, told)
		}
	}
}

// What is still to come of several is added up, as far as it was told.
func TestPairsToCome(t *testing.T) {
	two, three := int64(2), int64(3)
	told := Convergence{}
	if told.Take(Convergence{}); told.Pairs != nil {
		t.Errorf("%d", *told.Pairs)
	}
	told.Take(Convergence{Pairs: &two})
	told.Take(Convergence{})
	if told.Take(Convergence{Pairs: &three}); told.Pairs == nil || *told.Pairs != 5 || two != 2 {
		t.Errorf("%v, %d", told.Pairs, two)
	}
}

// A folder is called converging only where nothing hinders it, and all of it was audited on two devices that stay as they are.
func TestHowAFolderConverges(t *testing.T) {
	is := func(want Converging, why string, change func(*Answer, *Folder)) {
		folder := &Folder{ID: "docs", Members: twoMembers(), Convergence: Convergence{Pairs: new(int64)}}
		folder.Failures.Add(Failure{"StoreDiffers", "a", 1})
		answer := &Answer{Folders: []*Folder{folder}}
		change(answer, folder)
		if got := answer.HowConverging(folder); got != want {
			t.Errorf("%s: %q, not %q", why, got, want)
		}
	}
	is(Converges, "as it is", func(*Answer, *Folder) {})
	is("", "in step", func(_ *Answer, folder *Folder) { folder.Failures = Failures{} })
	is(NotConverging, "hindered", func(_ *Answer, folder *Folder) { folder.Convergence.First = &Failure{"Concurrent", "a", 0} })
	is(NotConverging, "a name without a winner", func(_ *Answer, folder *Folder) { folder.Unwon.Add(Unwon{Name: "a"}) })
	is(NotConverging, "a damaged disk", func(_ *Answer, folder *Folder) { folder.Damaged.Add(Damaged{Name: "a"}) })
	is(ConvergeNotKnown, "not asked", func(_ *Answer, folder *Folder) { folder.Convergence.Pairs = nil })
	is(ConvergeNotKnown, "a name left out", func(_ *Answer, folder *Folder) { folder.LeftOut = []*LeftOut{{Name: "b"}} })
	is(ConvergeNotKnown, "a device left out", func(answer *Answer, _ *Folder) { answer.LeftOut = []Refusal{{Folder: "docs"}} })
	is(ConvergeNotKnown, "one device", func(_ *Answer, folder *Folder) { folder.Members = folder.Members[:1] })
	is(ConvergeNotKnown, "over the wire", func(_ *Answer, folder *Folder) { folder.Members[1].Head.Wire = part.NewWire("", false) })
	is(ConvergeNotKnown, "a link elsewhere", func(_ *Answer, folder *Folder) { folder.Members[0].Linked = &part.Count{Names: 1} })
	is(ConvergeNotKnown, "an index to be repaired", func(_ *Answer, folder *Folder) { folder.Members[1].Head.ToRepair = true })
	is(ConvergeNotKnown, "a name that its system can't have", func(_ *Answer, folder *Folder) { folder.Members[1].Barred = 1 })
	is(ConvergeNotKnown, "attributes that are scanned", func(_ *Answer, folder *Folder) { folder.Members[1].About.ScansAttributes = true })
	is(ConvergeNotKnown, "a mode that a scan records", func(_ *Answer, folder *Folder) {
		folder.Permissions.Add(Permissions{"b", []Bits{{}, {Has: true, OnDisk: true, Index: 0o644, Disk: 0o600}}})
	})
	is(Converges, "a mode that comes with a record", func(_ *Answer, folder *Folder) {
		folder.Permissions.Add(Permissions{"b", []Bits{{Has: true, OnDisk: true, Index: 0o600, Disk: 0o600}, {Has: true, OnDisk: true, Index: 0o644, Disk: 0o644}}})
	})
	is(ConvergeNotKnown, "another writer", func(_ *Answer, folder *Folder) { folder.Members[1].About.Writers = []string{"versions of music"} })
	is(ConvergeNotKnown, "a record on its way", func(_ *Answer, folder *Folder) { folder.Live = &Live{Unheard: []Unheard{{Names: 1}}} })
	is(ConvergeNotKnown, "a name in motion", func(_ *Answer, folder *Folder) { folder.Live = &Live{Moving: 1} })
}
