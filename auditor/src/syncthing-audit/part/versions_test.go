package part

import (
	"reflect"
	"strings"
	"testing"

	"github.com/syncthing/syncthing/lib/protocol"
)

// How old versions are kept is what is configured. Who keeps none of a name deletes each at once, and of a kind that isn't known nothing is told.
func TestHowOldVersionsAreKept(t *testing.T) {
	for _, one := range []struct {
		kind, place, keep string
		due               *Versions
	}{
		{"", "", "", &Versions{Kind: VersionsNone}}, {"", "old", "3", &Versions{Kind: VersionsNone}},
		{"trashcan", "", "", &Versions{VersionsTrashcan, ".stversions"}}, {"trashcan", "old", "0", &Versions{VersionsTrashcan, "old"}},
		{"simple", "/srv/old", "3", &Versions{VersionsSimple, "/srv/old"}}, {"simple", "", "1", &Versions{VersionsSimple, ".stversions"}},
		{"simple", "", "x", &Versions{VersionsSimple, ".stversions"}}, {"simple", "", "0", &Versions{Kind: VersionsNone}}, {"simple", "", "-1", &Versions{Kind: VersionsNone}},
		{"staggered", "", "0", &Versions{VersionsStaggered, ".stversions"}}, {"external", "/srv/old", "", &Versions{Kind: VersionsExternal}}, {"none", "", "", nil}, {"odd", "old", "", nil},
	} {
		told := VersionsOf(one.kind, one.place, map[string]string{"keep": one.keep})
		if areKept := one.due != nil && one.due.Place != ""; !reflect.DeepEqual(told, one.due) || told.AreKept() != areKept {
			t.Errorf("%+v: %+v", one, told)
		}
	}
}

// A place outside the folder's directory isn't told, by the rules of each system; the options that are told elsewhere stay as they are.
func TestWhichPlacesAreTold(t *testing.T) {
	for place, isTold := range map[string]bool{".stversions": true, "old/a..b": true, "old": true, "": true, "/old": false, `\old`: false, `C:\old`: false, "C:old": false, "~/old": false,
		"../old": false, "a/../../old": false, `a\..\..\old`: false, "..": false} {
		options := &Options{MaxConflicts: 3, Versions: &Versions{Kind: VersionsSimple, Place: place}}
		due := *options.Versions
		if !isTold {
			due.Place = ""
		}
		told := options.WithoutPath()
		if told.MaxConflicts != 3 || *told.Versions != due || options.Versions.Place != place {
			t.Errorf("%q: %+v", place, told.Versions)
		}
	}
	if none := (*Options)(nil); none.WithoutPath() != nil || (&Options{}).WithoutPath().Versions != nil {
		t.Error("something is told of no options")
	}
}

// A kind that isn't known is refused, and so is a place where there is none, in each kind of part. One without these words was made by an older program.
func TestOldVersionsThatAreNone(t *testing.T) {
	for why, one := range map[string]struct {
		versions *Versions
		told     string
	}{
		"nothing": {nil, ""}, "none": {&Versions{Kind: VersionsNone}, ""}, "by a command": {&Versions{Kind: VersionsExternal}, ""}, "hidden": {&Versions{Kind: VersionsSimple}, ""},
		"kept": {&Versions{VersionsStaggered, "old"}, ""}, "a new kind": {&Versions{Kind: "odd"}, `"odd", of which this program doesn't know`}, "no kind": {&Versions{}, "doesn't know"},
		"a place of none": {&Versions{VersionsNone, "old"}, "doesn't know"}, "a place of a command's": {&Versions{VersionsExternal, "old"}, "doesn't know"},
		"a long place": {&Versions{VersionsSimple, strings.Repeat("x", MostNameBytes+1)}, "doesn't know"},
	} {
		folder := Folder{ID: "docs", Kind: "send-receive", IndexID: 1, Rest: &Rest{State: RestIdle}, Options: &Options{Versions: one.versions}, Ignores: &Ignores{}, Directory: "disk"}
		err := checkHead(&Head{Version: 1, Device: protocol.DeviceID{7: 1}.String(), Folders: []Folder{folder}})
		folder.IndexID = 0
		for _, err := range []error{err, checkHalfFolder(&folder)} {
			if (err == nil) != (one.told == "") || err != nil && !strings.Contains(err.Error(), one.told) {
				t.Errorf("%s: %v", why, err)
			}
		}
	}
}
