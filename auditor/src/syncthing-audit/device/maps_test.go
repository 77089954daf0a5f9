package device

import (
	"strings"
	"testing"

	"github.com/syncthing/syncthing/lib/config"
)

// A path has one place, whichever order the maps are in: that of the longest one that has it, by whole names.
func TestWhereAPathIsOnThisMachine(t *testing.T) {
	words := []string{"/var/syncthing=/volume1/sync", "/var/syncthing/photos=/volume2/photos", "~=/volume1/user", "~/deep/er=/d", "/data/=/srv//data/"}
	expected := map[string]string{
		"/var/syncthing": "/volume1/sync", "/var/syncthing/": "/volume1/sync", "/var/syncthing/docs": "/volume1/sync/docs", "/var//syncthing/./docs/": "/volume1/sync/docs",
		"/var/syncthing/photos": "/volume2/photos", "/var/syncthing/photos/2026": "/volume2/photos/2026", "/var/syncthing/photos2": "/volume1/sync/photos2",
		"/var/syncthing2": "", "/var": "", "/": "", "/var/syncthing/../x": "", "docs": "", "": "", "~": "/volume1/user", "~/": "/volume1/user", "~/docs": "/volume1/user/docs",
		"~docs": "", "~/deep/er": "/d", "~/deep/erb": "/volume1/user/deep/erb", "/data/x": "/srv/data/x", "/~": "",
	}
	for turn := 0; turn < len(words); turn++ {
		words = append(words[1:], words[0])
		maps := Maps{}
		for _, word := range words {
			one, err := ParseMap(word)
			if err == nil {
				err = maps.Add(one)
			}
			if err != nil {
				t.Fatal(err)
			}
		}
		for path, place := range expected {
			if made, is := maps.Path(path); made != place || is != (place != "") {
				t.Errorf("%v: %q is at %q, not at %q", words, path, made, place)
			}
		}
		all := maps
		if err := all.Add(Map{"/", "/host"}); err != nil {
			t.Fatal(err)
		}
		for path, place := range map[string]string{"/": "/host", "/x/y": "/host/x/y", "/var/syncthing/a": "/volume1/sync/a", "~/a": "/volume1/user/a", "a": ""} {
			if made, _ := all.Path(path); made != place {
				t.Errorf("%q is at %q, not at %q", path, made, place)
			}
		}
	}
	if path, is := (Maps{}).Path("docs//x"); path != "docs//x" || !is {
		t.Error("without a map a path is what it is")
	}
}

// What is no map is refused, and so is a second one of the same path.
func TestWhatIsNoMap(t *testing.T) {
	for _, word := range []string{"", "=", "/a", "/a=", "=/a", "a=/b", "/a=b", "/a=~/b", "~a=/b", "./a=/b"} {
		if made, err := ParseMap(word); err == nil {
			t.Errorf("%q is %v", word, made)
		}
	}
	maps := Maps{{"/a", "/b"}}
	if err := maps.Add(Map{"/a", "/c"}); err == nil || !strings.Contains(err.Error(), "/a is named already") || len(maps) != 1 {
		t.Error(err, maps)
	}
}

// A home's folders, and where they keep old versions, are where the maps say. A folder that no map has is refused: another one may be there.
func TestAHomeOfAContainer(t *testing.T) {
	about := func() config.Configuration {
		return config.Configuration{Folders: []config.FolderConfiguration{{ID: "docs", Path: "/var/syncthing/docs", Versioning: config.VersioningConfiguration{FSPath: "/var/syncthing/old"}},
			{ID: "pics", Path: "~/pics", Versioning: config.VersioningConfiguration{FSPath: "old"}}}}
	}
	read := about()
	if err := (Maps{{"/var/syncthing", "/v"}, {"~", "/v"}}).apply("home", &read); err != nil {
		t.Fatal(err)
	}
	for at, path := range []string{"/v/docs", "/v/pics"} {
		if read.Folders[at].Path != path {
			t.Errorf("%s, not %s", read.Folders[at].Path, path)
		}
	}
	if read.Folders[0].Versioning.FSPath != "/v/old" || read.Folders[1].Versioning.FSPath != "old" {
		t.Error(read.Folders[0].Versioning.FSPath, read.Folders[1].Versioning.FSPath)
	}
	read = about()
	if err := (Maps{{"/var/syncthing", "/v"}}).apply("home", &read); err == nil || !strings.Contains(err.Error(), "folder pics is at '~/pics' in config.xml") {
		t.Error(err)
	}
}

// A home is read with its folders where the maps say, or not at all.
func TestAHomeThatIsReadWithMaps(t *testing.T) {
	dir, docs := aHome(t)
	for from, place := range map[string]string{docs: "/volume1/docs", "/": "/volume1/docs" + docs, docs + "2": ""} {
		_, read, err := About(dir, Map{from, "/volume1/docs"})
		if (err == nil) != (place != "") || err == nil && read.Folders[0].Path != place || err != nil && !strings.Contains(err.Error(), "no --map has that") {
			t.Errorf("%s: %+v, %v", from, read.Folders, err)
		}
	}
}
