package places

import (
	"encoding/json"
	"errors"
	"fmt"
	"io"
	"os"
	"path/filepath"
	"strings"
	"testing"
	"time"

	"github.com/syncthing/syncthing/lib/config"
	"github.com/syncthing/syncthing/lib/protocol"
	"syncthing-audit/audit"
	"syncthing-audit/choice"
	"syncthing-audit/commandline"
	"syncthing-audit/device"
	"syncthing-audit/join"
	"syncthing-audit/ownpart"
	"syncthing-audit/part"
)

// configured gives the configuration of a device that shares the folder docs, and music with nobody.
func configured(devices ...byte) config.Configuration {
	about := config.Configuration{Folders: []config.FolderConfiguration{{ID: "docs", Label: "Documents"}, {ID: "music"}}}
	for _, number := range devices {
		id := protocol.DeviceID{7: number}
		about.Devices = append(about.Devices, config.DeviceConfiguration{DeviceID: id, Name: fmt.Sprint("device ", number)})
		about.Folders[0].Devices = append(about.Folders[0].Devices, config.FolderDeviceConfiguration{DeviceID: id})
	}
	return about
}

// whatDevicesSay are devices with those that they share the folder with, and what is refused by that.
var whatDevicesSay = []struct {
	why      string
	with     map[byte][]byte
	change   func(*config.Configuration)
	leaveOut string
	refused  string
}{
	{"all are named", map[byte][]byte{1: {1, 2}, 2: {1, 2}}, nil, "", ""},
	{"one isn't", map[byte][]byte{1: {1, 2, 3}, 2: {1, 2, 3}}, nil, "", part.Absent},
	{"one is left out", map[byte][]byte{1: {1, 2, 3}, 2: {1, 2, 3}}, nil, part.Absent, ""},
	{"one doesn't share it back", map[byte][]byte{1: {1, 2}, 2: {2}}, nil, "", part.Unshared},
	{"encrypted", map[byte][]byte{1: {1, 2}, 2: {1, 2}}, func(about *config.Configuration) { about.Folders[0].Type = config.FolderTypeReceiveEncrypted },
		"", part.Encrypted + " " + part.Encrypted},
}

// By what devices are configured to share, it is known before any file is read what can't be audited.
func TestWhatDevicesSay(t *testing.T) {
	for _, row := range whatDevicesSay {
		var devices []*join.Device
		for number := byte(1); number < 3; number++ {
			about := configured(row.with[number]...)
			if row.change != nil {
				row.change(&about)
			}
			devices = append(devices, saying(t, number, about))
		}
		plan, err := join.NewPlan(devices, []string{"docs"})
		if err != nil {
			t.Fatal(row.why, err)
		}
		told := []string{}
		for _, refusal := range audit.Refused(plan, audit.Of(row.leaveOut)).Refusals {
			told = append(told, refusal.Kind)
		}
		if strings.Join(told, " ") != row.refused {
			t.Errorf("%s: %q", row.why, told)
		}
	}
}

// saying gives a device as it says of itself what it shares of the folder docs.
func saying(t *testing.T, number byte, about config.Configuration) *join.Device {
	text, err := json.Marshal(ownpart.AboutOf(&device.Home{ID: protocol.DeviceID{7: number}, Config: about}, []string{"docs"}, true))
	if err != nil {
		t.Fatal(err)
	}
	read, err := readAbout(text, fmt.Sprint("place ", number))
	if err != nil || read.Called() != fmt.Sprintf("device %d (%s)", number, read.Head.Device[:7]) || len(read.Head.Folders) != 1 {
		t.Fatal(read, err)
	}
	return read
}

// A program elsewhere that knows no slice, or no directory of the database, is refused before any file is hashed. One that doesn't know the
// question is refused, too, where one of these is asked for; without one it makes its look all the same.
func TestProgramsThatLackAFlag(t *testing.T) {
	room := t.TempDir()
	for at, row := range []struct {
		says    string
		slices  int
		data    string
		lacking string
		refused bool
		isOlder bool
	}{
		{"there is no flag --slice", 7, "", "--slice", true, false}, {"flag provided but not defined: -about", 7, "", "--slice", true, true},
		{"flag provided but not defined: -about", 0, "", "", false, true}, {"no home is at ~", 7, "data", "", true, false},
		{"part has no flag --data", 7, "data", "--data", true, false}, {"there is no flag --data", 7, "data", "--data", true, false},
		{"flag provided but not defined: -about", 0, "data", "--data", true, true},
	} {
		self := filepath.Join(room, fmt.Sprint("audit", at))
		if err := os.WriteFile(self, []byte("#!/bin/sh\necho 'syncthing-audit: "+row.says+"' >&2\nexit 3\n"), 0o700); err != nil {
			t.Fatal(err)
		}
		asked := &place{given: "laptop:", self: self, data: row.data}
		run := &running{asked: commandline.Options{Names: choice.Names{Slice: row.slices / 2, Slices: row.slices}}, places: []*place{asked}, room: t.TempDir(), log: io.Discard}
		err := run.about(0)
		told := "refused: laptop: the syncthing-audit there is older, and has no " + row.lacking + ": bring it to the version here, "
		if (err != nil) != row.refused || asked.isOlder != row.isOlder {
			t.Errorf("%s: %v, %v", row.says, err, asked.isOlder)
		}
		if err != nil && strings.HasPrefix(err.Error(), told) != (row.lacking != "") {
			t.Errorf("%s: %v", row.says, err)
		}
	}
}

// Where devices don't say what they share, it is told what they were asked.
func TestWhatDevicesWereAsked(t *testing.T) {
	self := filepath.Join(t.TempDir(), "audit")
	if err := os.WriteFile(self, []byte("#!/bin/sh\necho 'syncthing-audit: it is off' >&2\nexit 2\n"), 0o700); err != nil {
		t.Fatal(err)
	}
	var log strings.Builder
	places := []*place{{given: "one", home: "one", self: self}, {given: "two", home: "two", self: self}}
	run := &running{places: places, room: t.TempDir(), log: &log, progress: io.Discard, patience: time.Hour}
	if err := run.ask(); err == nil || !strings.HasPrefix(log.String(), "syncthing-audit: asking what is shared: ") || !strings.Contains(log.String(), "it is off") {
		t.Errorf("%v, %s", err, log.String())
	}
}

// What something else prints isn't taken for what a device says.
func TestWhatNoDeviceSays(t *testing.T) {
	for _, text := range []string{"", "Last login: today", "{}", `{"device":"laptop"}`} {
		if _, err := readAbout([]byte(text), "place"); !errors.Is(err, part.ErrNone) {
			t.Errorf("%q is taken: %v", text, err)
		}
	}
	many := fmt.Sprintf(`{"device":%q,"folders":[{"id":"docs","writers":[%s"x"]}]}`, protocol.DeviceID{7: 1}.String(), strings.Repeat(`"x",`, 1000))
	if _, err := readAbout([]byte(many), "place"); !errors.Is(err, part.ErrNone) || !strings.HasPrefix(err.Error(), part.ErrNone.Error()+": folder ") {
		t.Errorf("more than any device has: %v", err)
	}
}

// A device is asked for those of the wanted folders that it has. One without any is refused, and so is a folder that none has.
func TestWhichFoldersADeviceIsAskedFor(t *testing.T) {
	first, two := configured(1, 2), configured(1, 2)
	two.Folders = two.Folders[:1]
	for _, expected := range []struct {
		wanted   []string
		one, two string
		refused  string
	}{
		{nil, "", "", ""},
		{[]string{"docs", "music"}, " --folder docs --folder music", " --folder docs", ""},
		{[]string{"music"}, "", "", "two has none of the folders that are asked for"},
		{[]string{"docs", "Documents"}, "", "", "is a label: the id is docs"},
		{[]string{"docs", "pics"}, "", "", "no folder here has the id pics: there are docs (Documents), music"},
	} {
		run := &running{asked: commandline.Options{Folders: expected.wanted}, places: []*place{{given: "one"}, {given: "two"}}}
		devices := []*join.Device{}
		for at, about := range []config.Configuration{first, two} {
			text, err := json.Marshal(ownpart.AboutOf(&device.Home{ID: protocol.DeviceID{7: byte(at + 1)}, Config: about}, expected.wanted, true))
			if err != nil {
				t.Fatal(err)
			}
			read, err := readAbout(text, run.places[at].given)
			if err != nil {
				t.Fatal(err)
			}
			run.places[at].choose(read)
			devices = append(devices, read)
		}
		err := run.checkWanted(devices)
		if err == nil {
			err = run.checkChosen()
		}
		if expected.refused != "" {
			if err == nil || !strings.Contains(err.Error(), expected.refused) {
				t.Errorf("%s: %v", expected.wanted, err)
			}
			continue
		}
		for at, words := range []string{expected.one, expected.two} {
			if told := strings.Join(run.places[at].chosen(run.asked), " "); err != nil || " "+told != words+" --paths -o -" {
				t.Errorf("%s: %q, %v", expected.wanted, told, err)
			}
		}
	}
}
