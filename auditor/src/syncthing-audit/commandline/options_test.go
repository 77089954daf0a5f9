package commandline

import (
	"errors"
	"flag"
	"fmt"
	"math/rand"
	"os"
	"path/filepath"
	"reflect"
	"runtime"
	"strings"
	"testing"
	"time"

	"github.com/syncthing/syncthing/lib/protocol"
	"syncthing-audit/audit"
	"syncthing-audit/device"
	"syncthing-audit/part"
	"syncthing-audit/wire"
)

// allFlags has the flags of several commands.
func allFlags(flags *flag.FlagSet, read *Options) {
	InputFlags(flags, read)
	flags.StringVar(&read.Output, "o", "", "")
	StillFlag(flags, read)
	ProgramFlag(flags, read)
	ObserverFlag(flags, read)
}

// Words of parts stand before, between and behind flags, each as often as it likes.
func TestPartsAmongFlags(t *testing.T) {
	for seed := int64(1); seed <= 50; seed++ {
		random := rand.New(rand.NewSource(seed))
		var words, parts, folders []string
		for count := random.Intn(6); count > 0; count-- {
			name := fmt.Sprint(random.Intn(100))
			if random.Intn(2) == 0 {
				words, parts = append(words, name), append(parts, name)
			} else {
				words, folders = append(words, "--folder", name), append(folders, name)
			}
		}
		read, err := Read("check", words, allFlags)
		if err != nil || !reflect.DeepEqual(read.Parts, parts) || !reflect.DeepEqual(read.Folders, folders) {
			t.Errorf("%q: %q, %q, %v", words, read.Parts, read.Folders, err)
		}
	}
}

// What isn't asked for has its default, and what is asked for is known to be.
func TestDefaults(t *testing.T) {
	t.Setenv("SYNCAUDIT", "")
	read, err := Read("run", nil, allFlags)
	if err != nil || read.HasJobs || read.HasStill || read.Jobs != runtime.NumCPU() || read.Stillness() != 10*time.Second || read.Program != "syncaudit" || read.Strict || read.Bytes {
		t.Errorf("%+v, %v", read, err)
	}
	t.Setenv("SYNCAUDIT", "/opt/syncaudit")
	read, err = Read("run", []string{"--jobs", "1", "--leave-out", "absent"}, allFlags)
	if err != nil || !read.HasJobs || read.HasStill || read.Jobs != 1 || read.Program != "/opt/syncaudit" {
		t.Errorf("%+v, %v", read, err)
	}
	if consent := read.Consent(); !reflect.DeepEqual(consent, audit.Consent{Kinds: map[string]bool{"absent": true}}) {
		t.Errorf("%+v", consent)
	}
	read, err = Read("run", []string{"--still", "0.5", "--strict", "--syncaudit", "x"}, allFlags)
	if err != nil || read.HasJobs || !read.HasStill || read.Stillness() != time.Second/2 || read.Program != "x" || !read.Consent().IsStrict {
		t.Errorf("%+v, %v", read, err)
	}
}

// Names that begin with a dash are asked for as an answer gives them.
func TestNamesThatBeginWithADash(t *testing.T) {
	read, err := Read("check", []string{"--names", "./-a", "x.part"}, allFlags)
	if err != nil || read.Names.Prefix != "-a" {
		t.Errorf("%+v, %v", read.Names, err)
	}
}

// What is wrong with words is told in the words of the help, with two dashes, and nothing of them is taken.
func TestWrongWords(t *testing.T) {
	for words, told := range map[string]string{
		"check --jobs 0":            "--jobs is at least 1",
		"check --jobs":              "--jobs needs a word behind it",
		"check -folder":             "--folder needs a word behind it",
		"check --odd":               "there is no flag --odd",
		"check --Home x":            "there is no flag --Home",
		"check -X":                  "there is no flag -X",
		"check --after x":           "check has no flag --after",
		"check --into x":            "check has no flag --into",
		"check --still 1":           "check has no flag --still",
		"sum --folder x":            isOfAll,
		"sum --names x --slice 1/2": isOfAll,
		"run --home x":              "'run' has the devices' places without --home: 'laptop:' or 'laptop:DIR' by ssh, a directory on this machine",
		"check --data x":            `invalid value "x" for flag --data: it stands behind the --home whose database is there`,
		"check --home=":             `invalid value "" for flag --home: empty`,
		"check --allowed-signers=":  `invalid value "" for flag --allowed-signers: empty`,
		"check -o x":                "check has no flag -o",
		"check --leave-out odd":     `invalid value "odd" for flag --leave-out: "odd" is none of ` + strings.Join(part.Kinds, ", "),
	} {
		command := strings.Fields(words)
		_, err := Read(command[0], command[1:], allFlags)
		var wrong *WrongUsage
		if !errors.As(err, &wrong) || err.Error() != told {
			t.Errorf("%s: %v, not %s", words, err, told)
		}
	}
	if read, err := Read("part", []string{"-o", "x"}, allFlags); err != nil || read.Output != "x" {
		t.Errorf("%q, %v", read.Output, err)
	}
	for _, word := range []string{"--help", "-h", "-help"} {
		_, err := Read("check", []string{"x", word}, allFlags)
		var wants *WantsHelp
		if !errors.As(err, &wants) || wants.Command != "check" || err.Error() != "help" {
			t.Errorf("%s: %v", word, err)
		}
	}
}

// Nothing is told by what reads the words: whoever calls it does.
func TestWordsAreReadInSilence(t *testing.T) {
	had := os.Stderr
	defer func() { os.Stderr = had }()
	file, err := os.Create(filepath.Join(t.TempDir(), "told"))
	if err != nil {
		t.Fatal(err)
	}
	defer file.Close()
	os.Stderr = file
	Read("check", []string{"--odd"}, allFlags)
	Read("check", []string{"--help"}, allFlags)
	if told, err := os.ReadFile(file.Name()); err != nil || len(told) > 0 {
		t.Errorf("%s, %v", told, err)
	}
}

// What an observer is asked for stands in its flags, and bytes are read of homes.
func TestFlagsOfSomeCommands(t *testing.T) {
	path := func(name, text string) string {
		path := filepath.Join(t.TempDir(), name)
		if err := os.WriteFile(path, []byte(text), 0o600); err != nil {
			t.Fatal(err)
		}
		return path
	}
	device := protocol.DeviceID{1: 1}
	words := []string{"x", "--budget", "20GB", "--every", "1d", "--passwords", path("passwords", "docs secret\n"), "--rest", path("apis", device.String()+" http://localhost:1 KEY\n")}
	read, err := Read("observe", words, ObserveFlags)
	if err != nil || read.Budget != 20e9 || read.Every != 24*time.Hour || read.Passwords["docs"] != "secret" || read.APIs[device] == nil || read.APIs[device].Key != "KEY" {
		t.Errorf("%+v, %v", read, err)
	}
	if read, err := Read("check", []string{"--home", "x", "--bytes"}, allFlags); err != nil || !read.Bytes {
		t.Errorf("%+v, %v", read, err)
	}
}

// The database and the paths of a home stand behind that home; a database once, and a path once.
func TestWhatStandsBehindAHome(t *testing.T) {
	read, err := Read("check", strings.Fields("--home a --map /x=/y --map ~/z=/w --home b --data d --home c"), allFlags)
	if err != nil || !reflect.DeepEqual(read.Homes, []string{"a", "b", "c"}) || !reflect.DeepEqual(read.Data, map[int]string{1: "d"}) ||
		!reflect.DeepEqual(read.Maps, map[int]device.Maps{0: {{From: "/x", To: "/y"}, {From: "~/z", To: "/w"}}}) {
		t.Errorf("%+v, %v", read, err)
	}
	read, err = Read("run", strings.Fields("a --data d b --map /x=/y"), PlaceFlags)
	if err != nil || !reflect.DeepEqual(read.Parts, []string{"a", "b"}) || !reflect.DeepEqual(read.Data, map[int]string{0: "d"}) || len(read.Maps[0]) != 0 || len(read.Maps[1]) != 1 {
		t.Errorf("%+v, %v", read, err)
	}
	read, err = Read("observe", strings.Fields("a --disk d b c --disk e"), ObserveFlags)
	if err != nil || !reflect.DeepEqual(read.Disks, map[int]string{0: "d", 2: "e"}) {
		t.Errorf("%+v, %v", read, err)
	}
	for words, told := range map[string]string{
		"--home a --data d --data e":         "the database of a is named already",
		"--home a --data=":                   "empty",
		"--map /x=/y":                        "it stands behind the --home whose paths these are",
		"--home a --map /x":                  "it is FROM=TO",
		"--home a --map /x=/y --map /x/=/z":  "/x is named already",
		"--home a --home b --data d --data=": "empty",
	} {
		if _, err := Read("check", strings.Fields(words), allFlags); err == nil || !strings.Contains(err.Error(), told) {
			t.Errorf("%s: %v, not %s", words, err, told)
		}
	}
	for words, told := range map[string]string{"--disk d": "it stands behind the device whose disks are walked", "a --disk=": "empty", "a --disk d --disk e": "the disks of a are named already"} {
		if _, err := Read("observe", strings.Fields(words), ObserveFlags); err == nil || !strings.Contains(err.Error(), told) {
			t.Errorf("%s: %v, not %s", words, err, told)
		}
	}
}

// Kinds add up, however they are given.
func TestKinds(t *testing.T) {
	read, err := Read("check", strings.Fields("--leave-out "+part.Kinds[0]+","+part.Kinds[1]+" --leave-out "+part.Kinds[2]), allFlags)
	if due := map[string]bool{part.Kinds[0]: true, part.Kinds[1]: true, part.Kinds[2]: true}; err != nil || !reflect.DeepEqual(read.LeaveOut, due) {
		t.Errorf("%v, %v", read.LeaveOut, err)
	}
}

// Homes and parts that don't go together are refused, and those that do aren't.
func TestInputs(t *testing.T) {
	home, part := []string{"a"}, []string{"b"}
	for _, row := range []struct {
		given Options
		told  string
	}{
		{Options{}, "no home and no part is given"},
		{Options{Homes: home}, ""}, {Options{Parts: part}, ""}, {Options{Homes: home, Parts: part}, ""},
		{Options{Homes: home, Bytes: true}, ""}, {Options{Parts: part, Signers: "s"}, ""}, {Options{Homes: home, Parts: part, Signers: "s"}, ""},
		{Options{Homes: home, Parts: part, Bytes: true}, "--bytes reads homes; parts have no bytes"},
		{Options{Homes: home, Signers: "s"}, "--allowed-signers is for parts: a home has no signature"},
	} {
		if err := row.given.CheckInputs(); (err == nil) != (row.told == "") || err != nil && err.Error() != row.told {
			t.Errorf("%+v: %v", row.given, err)
		}
	}
}

// Observers are those that are named, and the one of this machine and user, if it is there.
func TestObservers(t *testing.T) {
	state := t.TempDir()
	t.Setenv("XDG_STATE_HOME", state)
	named := protocol.DeviceID{1: 1}.String()
	read, err := Read("check", []string{"--observer", named, "x"}, allFlags)
	if err != nil || !reflect.DeepEqual(read.KnownObservers(), []string{named}) {
		t.Fatalf("%v, %v", read.KnownObservers(), err)
	}
	home, err := HomeOfObserver()
	if err != nil || home != filepath.Join(state, "syncthing-audit", "observer") {
		t.Errorf("%s, %v", home, err)
	}
	if err := os.Mkdir(filepath.Dir(home), 0o700); err != nil {
		t.Fatal(err)
	}
	observer, err := wire.Create(home)
	if err != nil {
		t.Fatal(err)
	}
	if known := read.KnownObservers(); !reflect.DeepEqual(known, []string{named, observer.ID.String()}) || len(read.Observers) != 1 {
		t.Errorf("%v", known)
	}
	for _, word := range []string{"", "x", named[1:]} {
		if _, err := Read("check", []string{"--observer", word}, allFlags); err == nil || !strings.Contains(err.Error(), "it is no device id") {
			t.Errorf("%q: %v", word, err)
		}
	}
	t.Setenv("XDG_STATE_HOME", "not/absolute")
	t.Setenv("HOME", state)
	if home, err := HomeOfObserver(); err != nil || home != filepath.Join(state, ".local/state/syncthing-audit/observer") {
		t.Errorf("%s, %v", home, err)
	}
	os.Unsetenv("HOME")
	if home, err := HomeOfObserver(); err == nil {
		t.Errorf("%s without a home", home)
	}
	if known := read.KnownObservers(); !reflect.DeepEqual(known, []string{named}) {
		t.Errorf("%v", known)
	}
}

// The help of a command has its own calls and what it does, each line whole, and nothing of other commands.
func TestHelpOfACommand(t *testing.T) {
	for command, due := range map[string][2]string{
		"sum":   {"usage: syncthing-audit sum DIR\n\n  sum ", "one after another\n\n"},
		"watch": {"usage: syncthing-audit watch CONFIG\n\n  watch ", "all is\n\n"},
		"part": {"usage: syncthing-audit part [--home DIR [--data DIR]] [--folder ID ..] [--names PREFIX] [--slice K/N] [--sign KEY] -o FILE\n" +
			"       syncthing-audit part (--begin [--rescan] | --end --tokens FILE ..) [--home DIR [--data DIR]] [--folder ID ..] -o FILE\n" +
			"       syncthing-audit part --about [--rescan] [--home DIR [--data DIR]] [--folder ID ..]\n\n  part ", "then check\n\n"},
	} {
		text := HelpOf(command)
		if !strings.HasPrefix(text, due[0]) || !strings.Contains(text, due[1]) || !strings.Contains(text, "\n\nExit status: ") {
			t.Errorf("%s: %s", command, text)
		}
	}
	if text := HelpOf("sum"); strings.Contains(text, "syncthing-audit find") || strings.Contains(text, "  find ") {
		t.Error(text)
	}
}
