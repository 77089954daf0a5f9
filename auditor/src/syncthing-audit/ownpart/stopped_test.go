package ownpart

import (
	"errors"
	"io"
	"os"
	"path/filepath"
	"reflect"
	"sort"
	"strings"
	"testing"
	"time"

	"github.com/syncthing/syncthing/lib/config"
	"syncthing-audit/choice"
	"syncthing-audit/commandline"
	"syncthing-audit/device"
	"syncthing-audit/fixture"
	"syncthing-audit/part"
)

// namesIn gives the names of a part, rising.
func namesIn(names map[string]*part.Name) string {
	all := []string{}
	for name := range names {
		all = append(all, name)
	}
	sort.Strings(all)
	return strings.Join(all, " ")
}

// addFolder adds a folder to a home whose directory is at a path.
func addFolder(t *testing.T, home *fixture.Home, id, path string, isPaused bool) {
	home.Config.SetFolder(config.FolderConfiguration{ID: id, Label: "My " + id, Path: path, MarkerName: ".stfolder", Paused: isPaused})
	home.Configure(t)
}

// The part of a stopped device has what stands in the folders that are asked for and there. What it is without is told.
func TestThePartOfAStoppedDevice(t *testing.T) {
	const without = "the part is without folder pics (My pics): "
	for _, row := range []struct {
		why     string
		change  func(*fixture.Home, *commandline.Options)
		folders string
		names   string
		told    []string
	}{
		{"all", func(*fixture.Home, *commandline.Options) {}, "docs", "a b", nil},
		{"names", func(_ *fixture.Home, asked *commandline.Options) { asked.Names = choice.Names{Prefix: "b"} }, "docs", "b", nil},
		{"no name", func(_ *fixture.Home, asked *commandline.Options) { asked.Names = choice.Names{Prefix: "x"} }, "docs", "",
			[]string{"on the disk or in the index: the part has none\n"}},
		{"an empty folder", func(home *fixture.Home, asked *commandline.Options) {
			addFolder(t, home, "pics", filepath.Join(t.TempDir(), "pics"), false)
			if err := os.MkdirAll(filepath.Join(home.Config.Folders[1].Path, ".stfolder"), 0o700); err != nil {
				t.Fatal(err)
			}
			asked.Folders = []string{"pics"}
		}, "pics", "", nil},
		{"a folder that is away", func(home *fixture.Home, _ *commandline.Options) {
			addFolder(t, home, "pics", "/nowhere/pics", false)
		}, "docs", "a b", []string{without + "there is no /nowhere/pics: mount its disk"}},
		{"one that is asked for", func(home *fixture.Home, asked *commandline.Options) {
			addFolder(t, home, "pics", "/nowhere/pics", true)
			asked.Folders = []string{"docs", "pics"}
		}, "docs", "a b", []string{without + "it is paused there, and there is no /nowhere/pics: mount"}},
		{"one that isn't asked for", func(home *fixture.Home, asked *commandline.Options) {
			addFolder(t, home, "pics", "/nowhere/pics", false)
			asked.Folders = []string{"docs"}
		}, "docs", "a b", nil},
		{"a folder that it hasn't", func(_ *fixture.Home, asked *commandline.Options) {
			asked.Folders = []string{"docs", "music"}
		}, "docs", "a b", []string{"syncthing-audit: no folder here has the id music: the only one is docs (server). The part is without it\n"}},
		{"a configuration that changed", func(home *fixture.Home, _ *commandline.Options) {
			later := time.Now().Add(time.Hour)
			if err := os.Chtimes(filepath.Join(home.Dir, "config.xml"), later, later); err != nil {
				t.Fatal(err)
			}
		}, "docs", "a b", []string{"and config.xml after that"}},
		{"an output elsewhere", func(_ *fixture.Home, asked *commandline.Options) { asked.Output = filepath.Join(t.TempDir(), "a.part") }, "docs", "a b", nil},
	} {
		home := homeOf(t)
		asked := askedOf(home)
		row.change(home, &asked)
		temporary := t.TempDir()
		t.Setenv("TMPDIR", temporary)
		var text, log strings.Builder
		if err := Write(asked, writeTo(&text), &log); err != nil {
			t.Errorf("%s: %v", row.why, err)
			continue
		}
		if left, err := os.ReadDir(temporary); err != nil || len(left) > 0 {
			t.Errorf("%s: %v is left, %v", row.why, left, err)
		}
		head, names, _ := read(t, strings.NewReader(text.String()))
		folders := []string{}
		for _, folder := range head.Folders {
			folders = append(folders, folder.ID)
		}
		if strings.Join(folders, " ") != row.folders || namesIn(names) != row.names || head.Look != nil || head.Device != home.ID.String() {
			t.Errorf("%s: %+v, %v", row.why, head, namesIn(names))
		}
		if strings.Count(log.String(), "\n") != len(row.told) {
			t.Errorf("%s: %s", row.why, log.String())
		}
		for _, told := range row.told {
			if !strings.Contains(log.String(), told) {
				t.Errorf("%s: no %q in %s", row.why, told, log.String())
			}
		}
	}
}

// What no part is made of is refused, and nothing is written and nothing stays open or in a temporary place.
func TestWhatNoPartIsMadeOf(t *testing.T) {
	for told, change := range map[string]func(*fixture.Home, *commandline.Options){
		"no index":                          func(home *fixture.Home, _ *commandline.Options) { move(t, home) },
		"Syncthing runs on":                 func(home *fixture.Home, _ *commandline.Options) { hold(t, home.Dir) },
		"refused: the device has no folder": func(home *fixture.Home, _ *commandline.Options) { home.Config.Folders = nil; home.Configure(t) },
		"refused: no folder here has the id music: the only one is docs (server)": func(_ *fixture.Home, asked *commandline.Options) { asked.Folders = []string{"music"} },
		"folder docs (server): there is no ":                                      func(home *fixture.Home, _ *commandline.Options) { removeAll(t, home.Files) },
		"home: folder pics (My pics): there is no /nowhere/pics: is its disk mounted?": func(home *fixture.Home, asked *commandline.Options) {
			addFolder(t, home, "pics", "/nowhere/pics", false)
			asked.Strict = true
		},
		": folder pics (My pics): there is no /nowhere/pics: is its disk mounted?": func(home *fixture.Home, asked *commandline.Options) {
			addFolder(t, home, "pics", "/nowhere/pics", true)
			asked.Folders = []string{"pics"}
		},
		"would be in folder docs (server), whose devices would all get it: name a file elsewhere": func(home *fixture.Home, asked *commandline.Options) {
			asked.Output = filepath.Join(home.Files, "a.part")
		},
		"name a file elsewhere. It is there already, since the shell made it: take it away": func(home *fixture.Home, asked *commandline.Options) {
			asked.Output, asked.IsStandard = filepath.Join(home.Files, "a.part"), true
		},
	} {
		home := homeOf(t)
		asked := askedOf(home)
		change(home, &asked)
		room := t.TempDir()
		t.Setenv("TMPDIR", room)
		before := fixture.CountOpened(t, fixture.Any)
		err := Write(asked, func(func(io.Writer) error) error { return errors.New("it was written") }, io.Discard)
		if err == nil || !strings.Contains(err.Error(), told) || strings.Contains(err.Error(), "take it away") && !asked.IsStandard {
			t.Errorf("%s: %v", told, err)
		}
		if after := fixture.CountOpened(t, fixture.Any); after > before {
			t.Errorf("%s: %d files were open, and %d are", told, before, after)
		}
		if left, err := os.ReadDir(room); err != nil || len(left) > 0 {
			t.Errorf("%s: %v is left, %v", told, left, err)
		}
	}
}

func removeAll(t *testing.T, path string) {
	if err := os.RemoveAll(path); err != nil {
		t.Fatal(err)
	}
}

// A strict part needs each folder that is asked for and isn't paused.
func TestFoldersOfAStrictPart(t *testing.T) {
	for _, row := range []struct {
		isPaused, isStrict, isAsked, isMade bool
	}{
		{false, false, true, true}, {false, true, true, false}, {true, true, true, true}, {true, false, true, true}, {false, true, false, true}, {false, false, false, true},
	} {
		home := homeOf(t)
		addFolder(t, home, "pics", "/nowhere/pics", row.isPaused)
		asked := askedOf(home)
		asked.Strict = row.isStrict
		if !row.isAsked {
			asked.Folders = []string{"docs"}
		}
		if err := Write(asked, writeTo(io.Discard), io.Discard); (err == nil) != row.isMade {
			t.Errorf("%+v: %v", row, err)
		}
	}
}

// While a part is written nothing of it is lost: a disk that fails at any byte is told, and so is what the device's disk fails to give.
func TestLinesOfAPart(t *testing.T) {
	home := homeOf(t)
	opened, err := openSource(device.Open, askedOf(home), io.Discard)
	if err != nil {
		t.Fatal(err)
	}
	defer opened.Close()
	for count, told := range map[int]string{0: "", 1: "the disk here fails to give what it has of 1 name: see", 2: "the disk here fails to give what it has of 2 names: see"} {
		var text, log strings.Builder
		left := count
		err := writeLines(&text, &log, opened.read, func(sink part.Sink) part.Sink {
			return func(line part.Line) error {
				if line.Name != nil && left > 0 {
					left--
					line.Name.Out = append(line.Name.Out, part.LeftOut{Kind: part.Damaged, Why: "input/output error"})
				}
				return sink(line)
			}
		})
		if err != nil || !strings.Contains(log.String(), told) || (log.Len() > 0) != (told != "") {
			t.Errorf("%d: %s, %v", count, log.String(), err)
		}
		if _, names, _ := read(t, strings.NewReader(text.String())); len(names) != 2 {
			t.Errorf("%d: %v", count, names)
		}
	}
	failed := errors.New("it failed")
	through := func(part.Sink) part.Sink { return func(part.Line) error { return failed } }
	if err := writeLines(io.Discard, io.Discard, opened.read, through); !errors.Is(err, failed) {
		t.Errorf("a line that can't be taken: %v", err)
	}
	for _, room := range []int{0, 1, 100} {
		if err := writeLines(&fixture.Cramped{Room: room}, io.Discard, opened.read, asTheyAre); !errors.Is(err, fixture.ErrRoom) {
			t.Errorf("a disk with room for %d bytes: %v", room, err)
		}
	}
}

// What a device shares is what its configuration says: no index is read, and a folder that is away is another one.
func TestWhatADeviceShares(t *testing.T) {
	home := homeOf(t)
	addFolder(t, home, "pics", "/nowhere/pics", false)
	home.Config.SetFolder(config.FolderConfiguration{ID: "safe", Path: home.Files, MarkerName: ".stfolder", Type: config.FolderTypeReceiveEncrypted})
	home.Configure(t)
	id, about, err := device.About(home.Dir)
	if err != nil {
		t.Fatal(err)
	}
	head := AboutOf(&device.Home{ID: id, Config: about}, nil, true)
	own := id.String()
	due := &part.Head{Version: part.FirstVersion, Device: own, Name: "one", Waits: true, Tells: true,
		Folders: []part.Folder{{ID: "docs", Label: "server", Directory: own + "docs", Sharing: []part.Sharing{{Device: fixture.Other.String(), Name: "server"}}},
			{ID: "safe", Directory: own + "safe", Kind: part.KindEncrypted, Sharing: []part.Sharing{}}},
		Others: []part.Other{{ID: "pics", Label: "My pics", Devices: []string{}, Away: head.Others[0].Away, IsStopped: true}}}
	if !reflect.DeepEqual(head, due) || !strings.Contains(head.Others[0].Away, "/nowhere/pics") {
		t.Errorf("%+v\nnot\n%+v", head, due)
	}
	if head := AboutOf(&device.Home{ID: id, Config: about}, []string{"safe"}, false); len(head.Folders) != 1 || len(head.Others) != 2 || strings.Contains(head.Others[1].Away, "/nowhere") {
		t.Errorf("%+v", head)
	}
}
