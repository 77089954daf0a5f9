package device

import (
	"os"
	"path/filepath"
	"reflect"
	"strconv"
	"testing"

	"github.com/syncthing/syncthing/lib/config"
)

// folderIn gives a folder of this id and directory.
func folderIn(t *testing.T, id, directory string) config.FolderConfiguration {
	if err := os.MkdirAll(directory, 0o700); err != nil {
		t.Fatal(err)
	}
	return config.FolderConfiguration{ID: id, Path: directory}
}

// versioned gives a folder with old versions of this type, kept here.
func versioned(folder config.FolderConfiguration, kind, path string) config.FolderConfiguration {
	folder.Versioning.Type, folder.Versioning.FSPath = kind, path
	return folder
}

// Whatever else of Syncthing writes into a folder's directory is told; what stands in no folder isn't.
func TestWhatElseWritesIntoAFolder(t *testing.T) {
	room := t.TempDir()
	t.Setenv("HOME", filepath.Join(room, "elsewhere"))
	docs, inner, beside := folderIn(t, "docs", filepath.Join(room, "docs")), folderIn(t, "inner", filepath.Join(room, "docs", "inner")),
		folderIn(t, "docs2", filepath.Join(room, "docs2"))
	same := folderIn(t, "same", docs.Path)
	hidden := folderIn(t, "hidden", filepath.Join(docs.Path, "hidden"))
	if err := os.WriteFile(filepath.Join(docs.Path, nameOfPatterns), []byte("/hidden\n"), 0o600); err != nil {
		t.Fatal(err)
	}
	broken := folderIn(t, "broken", filepath.Join(room, "broken"))
	if err := os.WriteFile(filepath.Join(broken.Path, nameOfPatterns), []byte("#include nowhere\n/inside\n"), 0o600); err != nil {
		t.Fatal(err)
	}
	paused := inner
	paused.Paused = true
	if err := os.Symlink(docs.Path, filepath.Join(room, "link")); err != nil {
		t.Fatal(err)
	}
	for why, one := range map[string]struct {
		of    config.FolderConfiguration
		other []config.FolderConfiguration
		runs  string
		told  []string
	}{
		"by itself":                      {docs, nil, "", nil},
		"a folder beside it":             {docs, []config.FolderConfiguration{beside}, "", nil},
		"a folder in it":                 {docs, []config.FolderConfiguration{inner}, "", []string{"folder inner"}},
		"a folder above it":              {inner, []config.FolderConfiguration{docs}, "", []string{"folder docs"}},
		"a folder at it":                 {docs, []config.FolderConfiguration{same}, "", []string{"folder same"}},
		"a folder in it that is paused":  {docs, []config.FolderConfiguration{paused}, "", nil},
		"a folder in it that it ignores": {docs, []config.FolderConfiguration{hidden}, "", nil},
		"a folder above that ignores it": {hidden, []config.FolderConfiguration{docs}, "", nil},
		"old versions in their place":    {versioned(docs, "trashcan", ""), nil, "", nil},
		"the same, by name":              {versioned(docs, "trashcan", ".stversions"), nil, "", nil},
		"old versions in it":             {versioned(docs, "trashcan", "old"), nil, "", []string{"the old versions of docs"}},
		"old versions in it, ignored":    {versioned(docs, "trashcan", "hidden/old"), nil, "", nil},
		"old versions by a command":      {versioned(docs, "external", "old"), nil, "", nil},
		"no old versions":                {versioned(docs, "", "old"), nil, "", nil},
		"another one's, by a symlink":    {docs, []config.FolderConfiguration{versioned(beside, "simple", filepath.Join(room, "link"))}, "", []string{"the old versions of docs2"}},
		"another one's, in a folder in it": {docs, []config.FolderConfiguration{versioned(inner, "simple", "old")}, "",
			[]string{"folder inner", "the old versions of inner"}},
		"a folder in a folder in it": {docs, []config.FolderConfiguration{inner, folderIn(t, "deep", filepath.Join(inner.Path, "a/b"))}, "",
			[]string{"folder inner", "folder deep"}},
		"patterns that can't be read": {broken, []config.FolderConfiguration{folderIn(t, "inside", filepath.Join(broken.Path, "inside"))}, "",
			[]string{"folder inside"}},
		"a folder of which it is a marker": {docs, []config.FolderConfiguration{folderIn(t, "odd", filepath.Join(docs.Path, ".stversions/odd"))}, "", nil},
		"at a tilde, in 1.19":              {versioned(docs, "staggered", "~/old"), nil, "v1.19.2", []string{"the old versions of docs"}},
		"at a tilde, in 1.29":              {versioned(docs, "staggered", "~/old"), nil, "v1.29.5", nil},
	} {
		home := &Home{Syncthing: one.runs}
		home.Config.Folders = append([]config.FolderConfiguration{one.of}, one.other...)
		if told := home.writersOf(one.of.ID); !reflect.DeepEqual(told, one.told) {
			t.Errorf("%s: %q", why, told)
		}
	}
}

// Of very many folders each path is looked up once: side by side in one folder, which ignores half of them, and one inside another.
func TestWritersOfManyFolders(t *testing.T) {
	const count = 3000
	room := t.TempDir()
	if err := os.WriteFile(filepath.Join(room, nameOfPatterns), []byte("/odd*\n"), 0o600); err != nil {
		t.Fatal(err)
	}
	home := &Home{}
	home.Config.Folders = append(home.Config.Folders, folderIn(t, "outer", room))
	expected := []string{}
	for next := 0; next < count; next++ {
		id := []string{"even", "odd"}[next%2] + strconv.Itoa(next)
		home.Config.Folders = append(home.Config.Folders, config.FolderConfiguration{ID: id, Path: filepath.Join(room, id)})
		if next%2 == 0 {
			expected = append(expected, "folder "+id)
		}
	}
	if told := home.writersOf("outer"); !reflect.DeepEqual(told, expected) {
		t.Errorf("%d are told: %.200q", len(told), told)
	}
	if even, odd := home.writersOf("even2"), home.writersOf("odd3"); !reflect.DeepEqual(even, []string{"folder outer"}) || odd != nil {
		t.Errorf("%q, %q", even, odd)
	}
}
