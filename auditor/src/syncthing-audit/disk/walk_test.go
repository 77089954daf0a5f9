package disk

import (
	"os"
	"path/filepath"
	"reflect"
	"sort"
	"testing"

	"github.com/syncthing/syncthing/lib/fs"
	"syncthing-audit/adapt"
	"syncthing-audit/choice"
)

// Names come in the order of their bytes, as they do in an index, though what stands below a directory then isn't next to
// it.
func TestOrderOfNames(t *testing.T) {
	room := t.TempDir()
	names := []string{"a", "a!", "a-b", "a.txt", "a/b", "a/b c", "a/b/c", "a/b0", "a0", "b", "b/!", "b/c", "b/c!", "b/c!/x", "b/c/x", "ü"}
	for _, name := range names {
		var err error
		if name == "a" || name == "b" || name == "a/b" || name == "b/c" || name == "b/c!" {
			err = os.MkdirAll(filepath.Join(room, name), 0o755)
		} else if err = os.MkdirAll(filepath.Dir(filepath.Join(room, name)), 0o755); err == nil {
			err = os.WriteFile(filepath.Join(room, name), nil, 0o600)
		}
		if err != nil {
			t.Fatal(err)
		}
	}
	sort.Strings(names)
	for _, prefix := range []string{"", "a/", "a/b", "b"} {
		var found, expected []string
		walker := &Walker{Disk: adapt.Directory(fs.NewFilesystem(fs.FilesystemTypeBasic, room)), Names: choice.Names{Prefix: prefix}, Take: func(one Found) error {
			found = append(found, one.Name)
			return nil
		}}
		if err := walker.Walk(); err != nil {
			t.Fatal(err)
		}
		for _, name := range names {
			if len(name) >= len(prefix) && name[:len(prefix)] == prefix {
				expected = append(expected, name)
			}
		}
		if !reflect.DeepEqual(found, expected) {
			t.Errorf("%q: %q, not %q", prefix, found, expected)
		}
	}
	checkSlices(t, room, names)
}

// checkSlices says whether the slices of a directory have each of these names once. A name is found, too, where the directories above it
// are of other slices.
func checkSlices(t *testing.T, room string, names []string) {
	const slices = 5
	var all []string
	for slice := 1; slice <= slices; slice++ {
		asked := choice.Names{Slice: slice, Slices: slices}
		walker := &Walker{Disk: adapt.Directory(fs.NewFilesystem(fs.FilesystemTypeBasic, room)), Folder: "docs", Names: asked, Take: func(one Found) error {
			if !asked.Has("docs", one.Name) || one.Node == nil {
				t.Errorf("slice %d has %q: %+v", slice, one.Name, one.Node)
			}
			all = append(all, one.Name)
			return nil
		}}
		if err := walker.Walk(); err != nil {
			t.Fatal(err)
		}
	}
	sort.Strings(all)
	if !reflect.DeepEqual(all, names) {
		t.Errorf("all slices: %q, not %q", all, names)
	}
}

// A directory that can't be read stands in each slice: which of the names below it are of which isn't known.
func TestADirectoryThatCannotBeReadIsInEachSlice(t *testing.T) {
	room := t.TempDir()
	if err := os.WriteFile(filepath.Join(room, "a"), nil, 0o600); err != nil {
		t.Fatal(err)
	}
	for slice := 1; slice <= 3; slice++ {
		var found []string
		walker := &Walker{Disk: adapt.Directory(unlisted{fs.NewFilesystem(fs.FilesystemTypeBasic, room)}), Folder: "docs", Names: choice.Names{Slice: slice, Slices: 3},
			Take: func(one Found) error {
				if one.Out != nil && one.Out.Below {
					found = append(found, one.Name)
				}
				return nil
			}}
		if err := walker.walk("sub"); err != nil || !reflect.DeepEqual(found, []string{"sub/"}) {
			t.Errorf("slice %d: %q, %v", slice, found, err)
		}
	}
}

// unlisted is a disk whose directories can't be listed.
type unlisted struct{ fs.Filesystem }

func (unlisted) DirNames(string) ([]string, error) { return nil, os.ErrPermission }

// What Syncthing keeps for itself is passed over, files and directories with all that is below.
func TestWhatIsSyncthingsOwnIsPassedOver(t *testing.T) {
	room := t.TempDir()
	for _, name := range []string{".stfolder/a", ".stversions/b/c", "d/.stfolder"} {
		if err := os.MkdirAll(filepath.Join(room, filepath.Dir(name)), 0o755); err != nil {
			t.Fatal(err)
		}
		if err := os.WriteFile(filepath.Join(room, name), nil, 0o600); err != nil {
			t.Fatal(err)
		}
	}
	if err := os.WriteFile(filepath.Join(room, ".stignore"), nil, 0o600); err != nil {
		t.Fatal(err)
	}
	_, order, err := walked(fs.NewFilesystem(fs.FilesystemTypeBasic, room))
	if err != nil || !reflect.DeepEqual(order, []string{"d", "d/.stfolder"}) {
		t.Errorf("%q, %v", order, err)
	}
}
