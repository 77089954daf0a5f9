package ownpart

import (
	"fmt"
	"io"
	"os"
	"path/filepath"
	"strings"
	"testing"
	"time"

	"syncthing-audit/commandline"
	"syncthing-audit/device"
	"syncthing-audit/fixture"
	"syncthing-audit/outside"
	"syncthing-audit/part"
)

// Where the index is of a device that may run is what is named, or is beside the configuration unless that is known to be another's, or is asked of Syncthing.
func TestWhereTheIndexIs(t *testing.T) {
	now, paths, status := time.Now(), "/rest/system/paths", "/rest/system/status"
	startedAt := func(at time.Time) []string {
		return []string{outside.Sprintf(`{"startTime":%q}`, at.Format(time.RFC3339))}
	}
	for _, row := range []struct {
		why           string
		isNamed       bool
		isMoved       bool // into another directory
		isHeld        bool // by a Syncthing that runs
		isStranger    bool // whether whoever answers has no index open
		said          answers
		data, told    string
		isOwn, isMade bool
	}{
		{why: "it is named", isNamed: true, data: "named", isMade: true},
		{why: "beside, and held", isHeld: true, isOwn: true, isMade: true},
		{why: "beside, and nobody says when Syncthing was started", isMade: true},
		{why: "beside, and written since it was started", said: answers{status: startedAt(now.Add(-time.Hour))}, isOwn: true, isMade: true},
		{why: "beside, and not written since", said: answers{status: startedAt(now.Add(time.Hour)), paths: {`{"baseDir-data":"/srv/data"}`}}, data: "/srv/data", isOwn: true, isMade: true},
		{why: "beside, and not written since, as in a container", said: answers{status: startedAt(now.Add(time.Hour)), paths: {`{"baseDir-data":"/var/lib/data"}`}}, data: "/srv/lib/data", isOwn: true, isMade: true},
		{why: "beside, not written since, and nobody says where it is", said: answers{status: startedAt(now.Add(time.Hour))},
			told: ": Syncthing runs, and it hasn't written to the index there since it was started: it has its database elsewhere. Name that behind the home as --data DIR. " +
				"It can't be asked where it is: this Syncthing doesn't say it"},
		{why: "beside, and whoever answers isn't Syncthing", isStranger: true, isMade: true, told: ": Syncthing can't be asked when it was started: "},
		{why: "elsewhere, and a map hasn't the folder of the container", isMoved: true, said: answers{paths: {`{"baseDir-data":"/srv/data"}`}}, told: "no --map has that"},
		{why: "elsewhere", isMoved: true, said: answers{paths: {`{"baseDir-data":"/srv/data"}`}}, data: "/srv/data", isOwn: true, isMade: true},
		{why: "elsewhere, as in a container", isMoved: true, said: answers{paths: {`{"baseDir-data":"/var/lib/data"}`}}, data: "/srv/lib/data", isOwn: true, isMade: true},
		{why: "elsewhere, and nobody says where", isMoved: true, isMade: true, told: "syncthing-audit: Syncthing can't be asked where its database is: this Syncthing doesn't say it"},
	} {
		home := homeOf(t)
		listen(t, home, row.said)
		asked := askedOf(home)
		asked.Maps[0] = device.Maps{}
		if strings.Contains(row.why, "container") {
			to, err := device.ParseMap("/var=/srv")
			if err == nil && strings.Contains(row.why, "hasn't") {
				asked.Maps[0] = device.Maps{to}
			} else if err == nil {
				err = mapTo(&asked, to, home)
			}
			if err != nil {
				t.Fatal(err)
			}
		}
		if row.isNamed {
			asked.Data[0] = "named"
		}
		lockedAt := t.TempDir()
		if err := os.Mkdir(filepath.Join(lockedAt, fixture.NameOfIndex), 0o700); err != nil {
			t.Fatal(err)
		}
		if row.isMoved {
			lockedAt = move(t, home)
		}
		if row.isHeld {
			lockedAt = home.Dir
		}
		release := func() {}
		if !row.isStranger {
			release = hold(t, lockedAt) // so that this process is seen to be a Syncthing
		}
		var log strings.Builder
		isOwn, err := findIndex(asked, &log)
		release()
		if err != nil {
			log.WriteString(err.Error())
		}
		if isOwn != row.isOwn || (err == nil) != row.isMade || asked.Data[0] != row.data || !strings.Contains(log.String(), row.told) || row.told == "" && log.Len() > 0 {
			t.Errorf("%s: %v, %q, %s", row.why, isOwn, asked.Data[0], log.String())
		}
	}
}

// mapTo adds a map, and one that has the home's folder stay where it is.
func mapTo(asked *commandline.Options, to device.Map, home *fixture.Home) error {
	room := filepath.Dir(home.Files)
	stays, err := device.ParseMap(room + "=" + room)
	if err == nil {
		asked.Maps[0] = device.Maps{to, stays}
	}
	return err
}

// A scan is asked of each folder that is asked for, of a Syncthing that runs, unless one of them is paused: then of none.
func TestWhatIsScanned(t *testing.T) {
	const docs, pics = "POST /rest/db/scan?folder=docs", "POST /rest/db/scan?folder=pics"
	for _, row := range []struct {
		why      string
		folders  []string
		isPaused bool // pics
		isHeld   bool
		said     answers
		asked    []string
		told     string
	}{
		{"all", nil, false, true, answers{docs[5:]: {""}, pics[5:]: {""}}, []string{docs, pics}, ""},
		{"one", []string{"docs"}, true, true, answers{docs[5:]: {""}, pics[5:]: {""}}, []string{docs}, ""},
		{"a paused one", nil, true, true, answers{docs[5:]: {""}, pics[5:]: {""}}, nil, "folder pics (My pics) is paused there, and Syncthing doesn't scan it"},
		{"one fails", nil, false, true, answers{pics[5:]: {""}}, []string{docs}, "refused: HOME: folder docs (server) isn't scanned"},
		{"none runs", nil, false, false, answers{docs[5:]: {""}, pics[5:]: {""}}, nil, "So nothing is scanned there: start it, or audit without --rescan"},
	} {
		home := homeOf(t)
		addFolder(t, home, "pics", filepath.Join(t.TempDir(), "pics"), row.isPaused)
		if err := os.MkdirAll(filepath.Join(home.Config.Folders[1].Path, ".stfolder"), 0o700); err != nil {
			t.Fatal(err)
		}
		questions := listen(t, home, row.said)
		if row.isHeld {
			hold(t, home.Dir)
		}
		asked := askedOf(home)
		asked.Folders = row.folders
		err := rescan(asked)
		if fmt.Sprint(*questions) != fmt.Sprint(row.asked) || (err == nil) != (row.told == "") || err != nil && !strings.Contains(err.Error(), strings.Replace(row.told, "HOME", home.Dir, 1)) {
			t.Errorf("%s: %q, %v", row.why, *questions, err)
		}
	}
	if err := rescan(commandline.Options{Homes: []string{t.TempDir()}}); err == nil {
		t.Error("what is no home is scanned")
	}
}

// A first look comes after the scan that is asked for, and isn't made where that fails; one that isn't to be scanned isn't.
func TestAFirstLookAfterAScan(t *testing.T) {
	for said, isMade := range map[string]bool{"/rest/db/scan?folder=docs": true, "/nothing": false} {
		home := homeOf(t)
		questions := listen(t, home, answers{said: {""}})
		hold(t, home.Dir)
		asked := askedOf(home)
		if opened, err := openLive(asked, io.Discard); err != nil || len(*questions) > 0 {
			t.Errorf("%q, %v", *questions, err)
		} else {
			opened.Close()
		}
		asked.Rescan = true
		opened, err := openLive(asked, io.Discard)
		if (err == nil) != isMade || fmt.Sprint(*questions) != "[POST /rest/db/scan?folder=docs]" {
			t.Errorf("%s: %q, %v", said, *questions, err)
		}
		if err == nil {
			opened.Close()
		}
	}
}

// How Syncthing is seen with a folder is what it says itself, asked on until it is idle or the time is over.
func TestWhetherAFolderIsAtRest(t *testing.T) {
	const question = "/rest/db/status?folder=docs"
	busy, idle := `{"state":"scanning"}`, `{"state":"idle"}`
	for _, row := range []struct {
		why    string
		isHeld bool
		still  float64
		said   []string
		state  string
		asked  int
	}{
		{"idle", true, 60, []string{idle}, part.RestIdle, 1},
		{"busy, and then idle", true, 60, []string{busy, idle}, part.RestIdle, 2},
		{"busy for longer", true, 0, []string{busy}, "scanning", 1},
		{"paused", true, 60, []string{`{"state":""}`}, part.RestPaused, 1},
		{"it doesn't say it", true, 60, []string{`{}`}, part.RestUnasked, 1},
		{"stopped", false, 60, []string{busy}, part.RestStopped, 0},
	} {
		home := homeOf(t)
		addFolder(t, home, "pics", "/nowhere/pics", false)
		questions := listen(t, home, answers{question: row.said})
		if row.isHeld {
			hold(t, home.Dir)
		}
		asked := askedOf(home)
		asked.Still = row.still
		rests, err := WaitForRest(asked)
		if err != nil || len(rests) != 1 || rests["docs"].State != row.state || len(*questions) != row.asked || (rests["docs"].Why != "") != (row.state == part.RestUnasked) {
			t.Errorf("%s: %+v, %v, %q", row.why, rests["docs"], err, *questions)
		}
	}
	if _, err := WaitForRest(commandline.Options{Homes: []string{t.TempDir()}}); err == nil {
		t.Error("what is no home is at rest")
	}
}

// What a device shares is told only where a look at it can be made: with a folder, an index, a place for what is told, and a Syncthing where that is to scan.
func TestWhatIsSharedIsTold(t *testing.T) {
	for told, change := range map[string]func(*fixture.Home, *commandline.Options){
		"":                                  func(*fixture.Home, *commandline.Options) {},
		"is this a Syncthing home?":         func(home *fixture.Home, asked *commandline.Options) { asked.Homes = []string{home.Files} },
		"refused: the device has no folder": func(home *fixture.Home, _ *commandline.Options) { home.Config.Folders = nil; home.Configure(t) },
		"no index index-v0.14.0.db":         func(home *fixture.Home, _ *commandline.Options) { move(t, home) },
		"it hasn't written to the index there since it was started": func(home *fixture.Home, _ *commandline.Options) {
			elsewhere := t.TempDir()
			if err := os.Mkdir(filepath.Join(elsewhere, fixture.NameOfIndex), 0o700); err != nil {
				t.Fatal(err)
			}
			hold(t, elsewhere)
			listen(t, home, answers{"/rest/system/status": {`{"startTime":"2100-01-01T00:00:00Z"}`}})
		},
		"would be in folder docs":     func(home *fixture.Home, asked *commandline.Options) { asked.Output = filepath.Join(home.Files, "x") },
		"So nothing is scanned there": func(_ *fixture.Home, asked *commandline.Options) { asked.Rescan = true },
		"docs (server) is paused there": func(home *fixture.Home, asked *commandline.Options) {
			home.Config.Folders[0].Paused = true
			home.Configure(t)
			hold(t, home.Dir)
			asked.Rescan = true
		},
	} {
		home := homeOf(t)
		asked := askedOf(home)
		change(home, &asked)
		var text strings.Builder
		err := TellAbout(asked, writeTo(&text), io.Discard)
		if (err == nil) != (told == "") || err != nil && !strings.Contains(err.Error(), told) || (text.Len() > 0) != (told == "") {
			t.Errorf("%s: %v, %s", told, err, text.String())
		}
		if told == "" && (!strings.Contains(text.String(), `"id":"docs"`) || strings.Contains(text.String(), home.Files)) {
			t.Errorf("%s", text.String())
		}
	}
}

// A container's home, whose paths its machine has elsewhere, and whose index is in another directory, is looked at as any other.
func TestTheHomeOfAContainer(t *testing.T) {
	home := homeOf(t)
	room, data := filepath.Dir(home.Files), move(t, home)
	home.Config.Folders[0].Path = "/var/syncthing/files"
	questions := listen(t, home, answers{"/rest/db/scan?folder=docs": {""}, "/rest/db/status?folder=docs": {`{"state":"idle"}`}})
	to, err := device.ParseMap("/var/syncthing=" + room)
	if err != nil {
		t.Fatal(err)
	}
	asked := askedOf(home)
	asked.Data[0], asked.Maps[0] = data, device.Maps{to}
	release := hold(t, data)
	asked.Rescan = true
	var about strings.Builder
	if err := TellAbout(asked, writeTo(&about), io.Discard); err != nil || !strings.Contains(about.String(), `"folders":[{"id":"docs"`) {
		t.Errorf("%s, %v", about.String(), err)
	}
	head, names, token, _ := begin(t, asked, func() {})
	if namesIn(names) != "a b" || fmt.Sprint(*questions) != "[POST /rest/db/scan?folder=docs]" {
		t.Errorf("%v, %q", namesIn(names), *questions)
	}
	asked.Rescan = false
	if second, names, _ := end(t, asked, token); namesIn(names) != "a b" || second.Folders[0].Rest == nil || second.Folders[0].Rest.State != part.RestIdle || second.Look.Home != head.Look.Home {
		t.Errorf("%v, %+v", namesIn(names), second.Folders[0].Rest)
	}
	release()
	var text strings.Builder
	if err := Write(asked, writeTo(&text), io.Discard); err != nil {
		t.Fatal(err)
	}
	if _, names, _ := read(t, strings.NewReader(text.String())); namesIn(names) != "a b" {
		t.Error(namesIn(names))
	}
}
