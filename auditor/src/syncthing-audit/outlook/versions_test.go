package outlook

import (
	"reflect"
	"testing"

	"syncthing-audit/join"
	"syncthing-audit/part"
)

// Of what is lost it is told whether old versions of the device have it then: not where two changes meet and no conflict copy is kept, where it keeps none, or where
// that isn't known. It is lost all the same.
func TestWhetherOldVersionsHaveWhatIsLost(t *testing.T) {
	emptied := func() *join.Row {
		row := calm("a", 2, 1)
		changed(row, 0, 2, 300)
		cut(row.At[0].Disk, 0, 0)
		*row.At[0].Own.Content = row.At[0].Disk.Contents[0]
		return row
	}
	both := func() *join.Row {
		row := calm("a", 2, 1)
		changed(row, 0, 2, 300)
		changed(row, 1, 3, 200)
		return row
	}
	for why, one := range map[string]struct {
		row      *join.Row
		versions *part.Versions
		have     Having
	}{
		"kept":             {emptied(), &part.Versions{Kind: part.VersionsTrashcan}, Have},
		"none":             {emptied(), &part.Versions{Kind: part.VersionsNone}, HaveNone},
		"by a command":     {emptied(), &part.Versions{Kind: part.VersionsExternal}, HaveExternal},
		"not told":         {emptied(), nil, HaveUntold},
		"no copy is kept":  {both(), &part.Versions{Kind: part.VersionsTrashcan}, HaveNot},
		"no copy, no kept": {both(), &part.Versions{Kind: part.VersionsNone}, HaveNone},
	} {
		folder := folderOf("send-receive", "send-receive")
		for place, versions := range []*part.Versions{{Kind: part.VersionsExternal}, one.versions} {
			folder.Members[place].Head.Folders[0].Options = &part.Options{Versions: versions}
		}
		told := outlookOf(folder, []*join.Row{one.row})
		if told.Lost != 1 || !reflect.DeepEqual(told.Listed[0].Loses[0].Versions, []Versions{{idOf(1), one.have}}) {
			t.Errorf("%s: %v, %+v", why, countsOf(told), told.Listed[0].Loses)
		}
	}
}

// What a revert loses goes to old versions, too.
func TestOldVersionsOfWhatAChoiceLoses(t *testing.T) {
	row := calm("a", 2, 1)
	changed(row, 1, 2, 300)
	row.At[1].Own.Invalid, row.At[1].Own.Local = true, row.At[1].Own.Version
	row.At[0].Views = nil
	folder := folderOf("send-receive", "receive-only")
	folder.Members[1].Head.Folders[0].Options = &part.Options{Versions: &part.Versions{Kind: part.VersionsSimple}}
	told := outlookOf(folder, []*join.Row{row})
	if len(told.Choices) == 0 || told.Choices[0].Act != Revert || told.Choices[0].Lost != 1 || !reflect.DeepEqual(told.Choices[0].Loses[0].Loses[0].Versions, []Versions{{idOf(1), Have}}) {
		t.Errorf("%+v", told.Choices)
	}
}
