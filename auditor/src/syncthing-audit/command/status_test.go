package command

import (
	"crypto/sha256"
	"errors"
	"io"
	"strings"
	"testing"

	"github.com/syncthing/syncthing/lib/config"
	"github.com/syncthing/syncthing/lib/protocol"
	"syncthing-audit/answering"
	"syncthing-audit/ask"
	"syncthing-audit/choice"
	"syncthing-audit/commandline"
	"syncthing-audit/device"
	"syncthing-audit/exit"
	"syncthing-audit/fault"
	"syncthing-audit/fixture"
	"syncthing-audit/ownpart"
	"syncthing-audit/target"
)

// aPart writes the part of a device whose folder, docs, has one file, and gives its path.
func aPart(t *testing.T) string { return aPartOf(t, choice.Names{}) }

// aPartOf writes the same part as one of these names.
func aPartOf(t *testing.T, names choice.Names) string {
	return fixture.Part(t, protocol.DeviceID(sha256.Sum256(nil)), names)
}

// A folder that isn't there is refused by each command in the same words, with the same status.
func TestOneStatusForAFolderThatIsNotThere(t *testing.T) {
	const told = "refused: no folder here has the id pics: the only one is docs"
	var log strings.Builder
	t.Setenv("SYNCAUDIT", "/bin/true")
	for _, words := range [][]string{{"check"}, {"export", "--into", t.TempDir()}} {
		log.Reset()
		status := Run(append(words, "--folder", "pics", aPart(t)), io.Discard, &log)
		if status != exit.Refused || !strings.Contains(log.String(), told) {
			t.Errorf("%s: %d, %s", words, status, log.String())
		}
	}
	home := &device.Home{Config: config.Configuration{Folders: []config.FolderConfiguration{{ID: "docs"}}}}
	log.Reset()
	if status := exit.Of(ownpart.CheckFolders(home, []string{"pics"}, io.Discard), io.Discard, &log); status != exit.Refused || !strings.Contains(log.String(), told) {
		t.Errorf("part: %d, %s", status, log.String())
	}
	if status := exit.Of(ownpart.CheckFolders(&device.Home{}, nil, io.Discard), io.Discard, &log); status != exit.Refused {
		t.Errorf("a device without a folder: %d", status)
	}
}

// Who has other folders on other devices names all of them on each: a part has those that the device has, and the others are told. A
// device with none of them is refused, and tells each.
func TestFoldersThatADeviceLacks(t *testing.T) {
	home := &device.Home{Config: config.Configuration{Folders: []config.FolderConfiguration{{ID: "docs", Label: "Documents"}}}}
	for _, row := range []struct {
		wanted  []string
		refused bool
		told    string
	}{
		{[]string{"docs"}, false, ""},
		{[]string{"docs", "pics"}, false, "syncthing-audit: no folder here has the id pics: the only one is docs (Documents). The part is without it\n"},
		{[]string{"Documents", "docs"}, false, "syncthing-audit: no folder here has the id Documents, which is a label: the id is docs. The part is without it\n"},
		{[]string{"pics", "music"}, true, "has the id pics: the only one is docs (Documents); no folder here has the id music: "},
	} {
		var log strings.Builder
		err := ownpart.CheckFolders(home, row.wanted, &log)
		if err != nil {
			log.WriteString(err.Error())
		}
		if (err != nil) != row.refused || !strings.Contains(log.String(), row.told) || row.told == "" && log.Len() > 0 {
			t.Errorf("%s: %s", row.wanted, log.String())
		}
	}
}

// Whoever gives a home as a part is told how a home is given.
func TestAHomeInPlaceOfAPart(t *testing.T) {
	t.Setenv("SYNCAUDIT", "/bin/true")
	var log strings.Builder
	home := t.TempDir()
	if status := Run([]string{"check", home}, io.Discard, &log); status != exit.Refused || !strings.Contains(log.String(), "stands behind --home") {
		t.Errorf("%d, %s", status, log.String())
	}
}

// full is a writer without room.
type full struct{}

func (full) Write([]byte) (int, error) { return 0, errors.New("no space left on device") }

// An answer that can't be written is a fault, and never done.
func TestAnAnswerThatCannotBeWritten(t *testing.T) {
	room := exportedPart(t)
	for _, form := range []string{"", "--lines", "--json"} {
		words := strings.Fields("sum " + room + " " + form)
		if status := Run(words, io.Discard, io.Discard); status != exit.Done {
			t.Errorf("%s has status %d", words, status)
		}
		var log strings.Builder
		if status := Run(words, full{}, &log); status != exit.Fault || !strings.Contains(log.String(), "the answer can't be written: no space left") {
			t.Errorf("%s has status %d, and tells %q", words, status, log.String())
		}
	}
}

// What else can't be written is a fault, too.
func TestWhatCannotBeWritten(t *testing.T) {
	for _, words := range [][]string{{"--help"}, {"check", "--help"}, {"--version"}, {"export", aPart(t)}} {
		if status := Run(words, full{}, io.Discard); status != exit.Fault {
			t.Errorf("%s has status %d", words, status)
		}
	}
	for _, path := range []string{"/dev/full", "-"} {
		write, err := target.Writer(commandline.Options{Output: path}, full{}, io.Discard, nil)
		if err == nil {
			err = write(func(to io.Writer) error {
				_, err := io.WriteString(to, "new")
				return err
			})
		}
		if status := exit.Of(err, io.Discard, io.Discard); status != exit.Fault {
			t.Errorf("a part that goes to %s has status %d: %v", path, status, err)
		}
	}
}

// An error of 'run' names places in place of its own files, and keeps its status: it is told once, or was.
func TestAnErrorThatNamesPlacesKeepsItsStatus(t *testing.T) {
	const path = "/room/begin-1.part"
	for _, row := range []struct {
		err    error
		status int
		told   string
	}{
		{errors.New(path + " is cut off"), exit.Refused, "syncthing-audit: laptop: is cut off\n"},
		{fault.Of(errors.New(path + ": no space left")), exit.Fault, "syncthing-audit: laptop:: no space left\n"},
		{&ask.Failed{Status: 4}, 4, "syncthing-audit: \n"}, {exit.ErrTold, exit.Refused, ""},
	} {
		var log strings.Builder
		if status := exit.Of(answering.Renamed(row.err, map[string]string{path: "laptop:"}), io.Discard, &log); status != row.status || log.String() != row.told {
			t.Errorf("%v: %d, %q", row.err, status, log.String())
		}
	}
}
