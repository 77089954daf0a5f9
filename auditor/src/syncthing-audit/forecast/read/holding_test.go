package read

import (
	"reflect"
	"testing"

	"syncthing-audit/forecast"
	"syncthing-audit/join"
	"syncthing-audit/part"
)

// A world says which directories hold what .stignore keeps out. Where a device doesn't list all of them, nothing is known of its directories that aren't at rest.
func TestDirectoriesThatHoldWhatIsIgnored(t *testing.T) {
	for more, why := range map[int64]Why{0: "", 3: LeftOut} {
		folder := folderOf(2)
		rows := NewRows(folder)
		rows.Take(deleted("empty"))
		rows.Take(deleted("full"))
		folder.Members[1].Holding = &part.Holding{Names: []part.Bytes{"another", "full"}, More: more} // a part tells it at its end
		holds := map[string]forecast.Places{}
		for _, name := range rows.World().Names {
			holds[name.Name] = name.Holds
		}
		if len(holds) != 2 || holds["empty"] != 0 || holds["full"] != 1<<1 || rows.Unknown["empty"] != why {
			t.Errorf("%d more: %v, %v", more, holds, rows.Unknown)
		}
	}
}

// A world says which devices' systems can't have a name.
func TestNamesThatWindowsCannotHave(t *testing.T) {
	for system, bars := range map[string]forecast.Places{"windows": 1 << 1, "linux": 0} {
		folder := folderOf(2)
		folder.Members[1].Head.Half = part.NewHalf("walk", "look", system, nil)
		rows := NewRows(folder)
		for _, name := range []string{"a", "a:b"} {
			rows.Take(calm(name, func(row *join.Row) { row.At[1] = nil }))
		}
		found := map[string]forecast.Places{}
		for _, name := range rows.World().Names {
			found[name.Name] = name.Bars
		}
		if len(found) != 2 || found["a"] != 0 || found["a:b"] != bars {
			t.Errorf("%s: %v", system, found)
		}
	}
}

// deleted gives a directory that the first device deleted.
func deleted(name string) *join.Row {
	return calm(name, func(row *join.Row) {
		for _, at := range row.At {
			at.Own.Type, at.Own.Content, at.Disk.Type, at.Disk.Contents = 1, nil, 1, nil
			at.Views[0].Record.Type, at.Views[0].Record.Content = 1, nil
		}
		row.At[0].Own.Deleted, row.At[0].Own.Version, row.At[0].Own.Sequence, row.At[0].Disk = true, [][2]uint64{{1, 2}}, 10, nil
	})
}

// A world says what goes with which directories. Where a device doesn't list all of them, nothing is known of those behind the ones that it lists.
func TestWhatGoesWithDirectories(t *testing.T) {
	for more, why := range map[int64]Why{0: "", 3: LeftOut} {
		folder := folderOf(2)
		rows := NewRows(folder)
		for _, name := range []string{"before", "full", "last"} {
			rows.Take(deleted(name))
		}
		folder.Members[1].Deletable = &part.Deletable{In: []part.DeletableIn{{Directory: "another", Count: part.Count{Names: 1}}, {Directory: "full", Count: part.Count{Names: 2, Bytes: 9}}}, More: more}
		ignored := map[string][]forecast.Ignored{}
		for _, name := range rows.World().Names {
			ignored[name.Name] = name.Ignored
		}
		if len(ignored) != 3 || ignored["before"] != nil || ignored["last"] != nil || !reflect.DeepEqual(ignored["full"], []forecast.Ignored{{}, {Names: 2, Bytes: 9}}) ||
			rows.Unknown["before"] != "" || rows.Unknown["full"] != "" || rows.Unknown["last"] != why {
			t.Errorf("%d more: %v, %v", more, ignored, rows.Unknown)
		}
	}
}
