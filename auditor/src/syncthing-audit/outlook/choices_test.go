package outlook

import (
	"reflect"
	"testing"

	"syncthing-audit/join"
	"syncthing-audit/part"
)

// changedAt has a member's scan take other bytes of a name: as a local change where it only receives. The others have heard of that.
func changedAt(row *join.Row, member int, hash byte, isLocal bool) {
	own := row.At[member].Own
	own.Content = &part.Content{Size: 7, BlockSize: 1 << 17, Hash: part.Hash{hash}}
	own.ModifiedS, own.Sequence = 300, 8
	version := [][2]uint64{{uint64(member + 1), 5}, {9, 1}}
	if own.Version = version; isLocal {
		own.Version, own.Invalid, own.Local = nil, true, version
	}
	row.At[member].Disk = &part.Node{ModifiedS: 300, Size: 7, Contents: []part.Content{*own.Content}, Permissions: 0o644}
	for other, at := range row.At {
		for view := range at.Views {
			if other != member && viewOf(other, view) == member {
				seen := *own
				seen.Local = nil
				at.Views[view].Record = &seen
			}
		}
	}
}

// viewOf gives of which member a view is.
func viewOf(member, view int) int {
	if view < member {
		return view
	}
	return view + 1
}

// What a device that only receives has changed stays there if nobody does anything. A revert loses it, and sending it replaces what the others have.
func TestChoicesOfADeviceThatOnlyReceives(t *testing.T) {
	row := calm("a", 2, 1)
	changedAt(row, 1, 70, true)
	foretold := outlookOf(folderOf("send-receive", "receive-only"), []*join.Row{row})
	if foretold.Stays != 1 || len(foretold.Plans) != 0 {
		t.Fatalf("%+v", foretold)
	}
	told := map[Act]*Choice{}
	for _, choice := range foretold.Choices {
		told[choice.Act] = choice
	}
	revert, both := told[Revert], told[Both]
	if len(told) != 2 || revert.Device != idOf(1) || revert.Names != 1 || revert.Alike != 1 || both.Names != 1 || both.Alike != 1 || revert.Unknown+both.Unknown > 0 {
		t.Errorf("%+v", foretold.Choices)
	}
	if revert.Lost != 1 || !reflect.DeepEqual(revert.Loses[0].Loses[0].Devices, at(1)) || revert.Loses[0].Loses[0].Content.Size != 7 {
		t.Errorf("a revert loses %+v", revert.Loses)
	}
}

// What others changed doesn't come to a device that only sends. An override takes that back.
func TestChoicesOfADeviceThatOnlySends(t *testing.T) {
	row := calm("a", 2, 1)
	changedAt(row, 0, 70, false)
	told := outlookOf(folderOf("send-receive", "send-only"), []*join.Row{row})
	if told.Stays != 1 || len(told.Choices) != 2 || told.Choices[0].Act != Override || told.Choices[1].Act != Both {
		t.Fatalf("%+v", told)
	}
	override, both := told.Choices[0], told.Choices[1]
	if override.Device != idOf(1) || override.Alike != 1 || override.Lost != 1 || !reflect.DeepEqual(override.Loses[0].Loses[0].Devices, at(0)) {
		t.Errorf("an override: %+v", override)
	}
	if override.Gone != 0 || both.Gone != 1 || !reflect.DeepEqual(both.Goes[0].Loses[0].Devices, at(1)) {
		t.Errorf("what is replaced: %+v, %+v", override, both)
	}
	if both.Alike != 1 || both.Lost != 0 {
		t.Errorf("both: %+v", both)
	}
}

// What no scan has seen is lost by a revert, too, also in a folder that its one device shares with nobody.
func TestChoicesOfAFolderOfItsOwn(t *testing.T) {
	row := calm("a", 1, 1)
	row.At[0].Disk.Contents[0].Hash, row.At[0].Disk.ModifiedS = part.Hash{70}, 200
	told := outlookOf(folderOf("receive-only"), []*join.Row{row})
	if len(told.Choices) != 1 || told.Choices[0].Act != Revert || told.Choices[0].Lost != 1 {
		t.Errorf("%+v", told.Choices)
	}
}

// Devices that send and receive have nothing to choose, nor has one that has nothing of its own.
func TestNothingToChoose(t *testing.T) {
	for _, kinds := range [][]string{{"send-receive", "send-receive"}, {"send-receive", "receive-only"}, {"send-only", "send-receive"}} {
		row := calm("a", 2, 1)
		row.At[0].Disk.Contents[0].Hash, row.At[0].Disk.ModifiedS = part.Hash{70}, 200
		if told := outlookOf(folderOf(kinds...), []*join.Row{row}); len(told.Choices) > 0 || told.Names != 1 {
			t.Errorf("%v: %+v", kinds, told)
		}
	}
}

// Of what goes by itself no choice is told that it takes it away.
func TestWhatGoesByItselfGoesByNoChoice(t *testing.T) {
	row := calm("a", 3, 1)
	changed(row, 2, 60, 200)
	changed(row, 0, 70, 300)
	row.At[0].Own.Version = [][2]uint64{{1, 6}, {3, 5}, {9, 1}}
	told := outlookOf(folderOf("send-receive", "send-only", "send-receive"), []*join.Row{row})
	for _, choice := range told.Choices {
		if choice.Act == Both && choice.Gone == 1 && len(choice.Goes[0].Loses) == 1 && reflect.DeepEqual(choice.Goes[0].Loses[0].Devices, at(1)) {
			return
		}
	}
	t.Errorf("%+v", told.Choices)
}
