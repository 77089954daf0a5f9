package worlds

import (
	"errors"
	"fmt"
	"os"
	"path/filepath"
	"reflect"
	"sort"
	"strings"
	"testing"

	"syncthing-audit/forecast"
)

// steps reads steps of a history: words between blanks, steps between semicolons. A word of two has a comma.
func steps(text string) [][]interface{} {
	var all [][]interface{}
	for _, step := range strings.Split(text, "; ") {
		var words []interface{}
		for _, word := range strings.Fields(step) {
			words = append(words, strings.ReplaceAll(word, ",", " "))
		}
		all = append(all, words)
	}
	return all
}

// standing tells what stands on a device's disk, with its time and mode, by name.
func standing(world forecast.World, device int) string {
	var told []string
	for _, name := range world.Names {
		if what := name.Disk[device]; what != nil {
			told = append(told, fmt.Sprintf("%s: %s %g %o", name.Name, wordsOf(what), float64(what.Time)/second, what.Mode))
		}
	}
	sort.Strings(told)
	return strings.Join(told, ", ")
}

// Each step changes a disk as it says. A directory in which something came or went has the time of that: half a step behind when devices ran last.
func TestStepsOnADisk(t *testing.T) {
	for history, due := range map[string]string{
		"alpha write a text":                                                          "a: file text 0 644",
		"alpha write a text 5":                                                        "a: file text 5 644",
		"alpha write a text 5.5":                                                      "a: file text 5 644",
		"alpha write d/e/a text 5":                                                    "d/e/a: file text 5 644, d/e: directory 1.0005e+06 755, d: directory 1.0005e+06 755",
		"alpha write a text 5; alpha rot a rot":                                       "a: file rot 5 644",
		"alpha write a text 5; alpha touch a 7":                                       "a: file text 7 644",
		"alpha write a text 5; alpha touch a":                                         "a: file text 0 644",
		"alpha write a text 5; alpha mode a 0600":                                     "a: file text 5 600",
		"alpha write a text 5; alpha write a other 6":                                 "a: file other 6 644",
		"alpha write a text 5; alpha directory a":                                     "a: directory 1.0005e+06 755",
		"alpha write a text 5; alpha link a to":                                       "a: symlink to 0 -1",
		"alpha write a text 5; alpha delete a":                                        "",
		"alpha delete a":                                                              "",
		"alpha write d/a text 5; alpha delete d":                                      "",
		"alpha write da text 5; alpha delete d":                                       "da: file text 5 644",
		"alpha write d/a text 5; alpha move d e":                                      "e/a: file text 5 644, e: directory 1.0005e+06 755",
		"alpha write d/a text 5; alpha move d/a b":                                    "b: file text 5 644, d: directory 1.0005e+06 755",
		"alpha write d/a text 5; alpha write d text 6":                                "d: file text 6 644",
		"beta write a text 5; beta mode a 0600; alpha copy a beta":                    "a: file text 5 600",
		"alpha write a old 4; beta write a text 5; alpha copy a beta":                 "a: file text 5 644",
		"alpha directory d; up alpha; alpha write d/a text 5":                         "d/a: file text 5 644, d: directory 1.0015e+06 755",
		"alpha write d/a text 5; up alpha; alpha write d/a other 6":                   "d/a: file other 6 644, d: directory 1.0015e+06 755",
		"alpha write d/a text 5; up alpha; alpha delete d/a":                          "d: directory 1.0015e+06 755",
		"alpha write d/a text 5; up alpha; alpha delete d/b":                          "d/a: file text 5 644, d: directory 1.0005e+06 755",
		"alpha write d/a text 5; up alpha; alpha rot d/a rot":                         "d/a: file rot 5 644, d: directory 1.0005e+06 755",
		"alpha write d/a text 5; up alpha; alpha move d/a d/b":                        "d/b: file text 5 644, d: directory 1.0015e+06 755",
		"alpha write d/a old 4; beta write d/a text 5; up alpha; alpha copy d/a beta": "d/a: file text 5 644, d: directory 1.0015e+06 755",
		"alpha link l to; alpha write l/a text 5; up alpha; alpha delete l/a":         "l: symlink to 0 -1",
		"alpha write a text 5; up alpha beta; beta delete a; up beta; up alpha beta":  "",
		"alpha write a text 5; up alpha beta":                                         "a: file text 5 644",
	} {
		world := &World{Devices: map[string]string{"alpha": "sendreceive", "beta": "sendonly"}, History: steps(history)}
		played, err := world.Play(forecast.V1_29)
		if err != nil {
			t.Errorf("%s: %v", history, err)
			continue
		}
		if found := standing(played, 0); found != due {
			t.Errorf("%s: %q, not %q", history, found, due)
		}
	}
}

// A file that isn't there, or has no world, isn't read.
func TestFilesWithoutAWorld(t *testing.T) {
	room := t.TempDir()
	if _, err := Read(filepath.Join(room, "none")); !errors.Is(err, os.ErrNotExist) {
		t.Error(err)
	}
	path := filepath.Join(room, "odd")
	if err := os.WriteFile(path, []byte("a world"), 0o600); err != nil {
		t.Fatal(err)
	}
	if _, err := Read(path); err == nil {
		t.Error("it is read")
	}
}

// A step that isn't one, or that nobody can take, is refused, with the step. Then nothing is foretold.
func TestStepsThatAreNone(t *testing.T) {
	for _, history := range []string{"alpha", "alpha write", "alpha write a", "alpha turn a", "gamma write a text", "al write a text", "zeta delete a", "alpha rot a text", "alpha touch a 5",
		"alpha mode a 0600", "alpha write a text; alpha mode a none", "alpha copy a beta", "up gamma", "up zeta", "up alpha; up al", "up alpha revert,gamma", "kinds", "down alpha"} {
		world := &World{Devices: map[string]string{"alpha": "sendreceive", "beta": "odd"}, History: steps(history)}
		played, err := world.Play(forecast.V1_29)
		last := world.History[len(world.History)-1]
		if err == nil || !strings.HasPrefix(err.Error(), fmt.Sprint(last)+": ") || len(played.Devices)+len(played.Names) > 0 {
			t.Errorf("%s: %v, %+v", history, err, played)
		}
		if ends, isAll, err := world.Foretold(forecast.V1_29); err == nil || isAll || ends != nil {
			t.Errorf("%s: %v, %v, %v", history, ends, isAll, err)
		}
	}
	for _, options := range []map[string]string{{"maxConflicts": "many"}, {"order": "random"}} {
		world := &World{Devices: map[string]string{"alpha": "sendreceive"}, Options: map[string]map[string]string{"alpha": options}}
		if played, err := world.Play(forecast.V1_29); err == nil || len(played.Devices) > 0 {
			t.Errorf("%v: %+v, %v", options, played, err)
		}
	}
}

// Devices have numbers by their names, the options that are said, and their kinds from where the history says so.
func TestDevicesOfAWorld(t *testing.T) {
	world := &World{Devices: map[string]string{"beta": "sendonly", "alpha": "receiveonly", "gamma": "sendreceive"}, History: steps("up alpha"),
		Options: map[string]map[string]string{"alpha": {"ignorePerms": "true", "ignoreDelete": "false"}, "gamma": {"maxConflicts": "-1", "ignoreDelete": "true", "ignorePerms": "false"}}}
	due := []forecast.Device{{Release: forecast.V1_19, Number: 1, MaxConflicts: 10, IgnorePermissions: true}, {Release: forecast.V1_19, Number: 2, MaxConflicts: 10},
		{Release: forecast.V1_19, Number: 3, MaxConflicts: -1, IgnoreDelete: true}}
	for _, isSaid := range []bool{false, true} {
		if isSaid {
			world.History = steps("kinds")
			due[0].Kind, due[1].Kind = forecast.ReceiveOnly, forecast.SendOnly
		}
		if played, err := world.Play(forecast.V1_19); err != nil || !reflect.DeepEqual(played.Devices, due) {
			t.Errorf("%+v, %v", played.Devices, err)
		}
	}
}

// A command is given to its device alone, behind what the devices do that run: a Revert or an Override.
func TestCommandsOfAHistory(t *testing.T) {
	const before = "alpha write a text 5; up alpha beta; kinds; beta write a local 9; "
	for history, due := range map[string][2]string{
		"up alpha beta":                {"text", "local"},
		"up alpha beta revert,beta":    {"text", "text"},
		"up beta revert,beta":          {"text", "local"},
		"up alpha beta override,alpha": {"text", "local"},
		"up alpha; up beta":            {"text", "local"},
	} {
		world := &World{Devices: map[string]string{"alpha": "sendonly", "beta": "receiveonly"}, History: steps(before + history)}
		played, err := world.Play(forecast.V1_29)
		if err != nil {
			t.Fatal(err)
		}
		if found := [2]string{textOf(played.At(0, "a").Content), textOf(played.At(1, "a").Content)}; found != due {
			t.Errorf("%s: %q, not %q", history, found, due)
		}
	}
}

// Ends are compared as texts, each once, whatever their order is and however devices with the same are written.
func TestEndsAsTexts(t *testing.T) {
	written := End{"alpha, beta": {"a": "file x", "copies of a": []string{"file y", "file z"}}}
	same := End{"beta": written["alpha, beta"], "alpha": written["alpha, beta"]}
	other := End{"alpha": {"a": "file x"}, "beta": {}}
	due := []string{`{"alpha":{"a":"file x","copies of a":["file y","file z"]},"beta":{"a":"file x","copies of a":["file y","file z"]}}`, `{"alpha":{"a":"file x"},"beta":{}}`}
	for _, ends := range [][]End{{written, other}, {other, same, written}, {same, other, other}} {
		if texts := Texts(ends); !reflect.DeepEqual(texts, due) {
			t.Errorf("%q", texts)
		}
	}
	if texts := Texts(nil); texts == nil || len(texts) > 0 {
		t.Errorf("%q", texts)
	}
}

// What stands on a disk is told by names, and of conflict copies, also of those that have their name already, what they have: each once, rising.
func TestNamesOfADisk(t *testing.T) {
	file := func(text string) forecast.Node { return forecast.Node{Type: forecast.File, Content: contentOf(text)} }
	const stamp = ".sync-conflict-20240102-030405-ABCDEFG"
	found := namesOf([]forecast.Place{{Name: "a.txt", Node: file("x")}, {Name: "a.txt", IsCopy: true, Node: file("z")}, {Name: "a" + stamp + ".txt", Node: file("y")},
		{Name: "a" + stamp + ".txt", IsCopy: true, Node: file("z")}, {Name: "b" + stamp, Node: file("y")}, {Name: "d.e/c" + stamp, Node: forecast.Node{Type: forecast.Symlink, Target: "to"}},
		{Name: "d.e", Node: forecast.Node{Type: forecast.Directory}}})
	due := map[string]interface{}{"a.txt": "file x", "copies of a.txt": []string{"file y", "file z"}, "copies of b": []string{"file y"}, "copies of d.e/c": []string{"symlink to"},
		"d.e": "directory"}
	if !reflect.DeepEqual(found, due) {
		t.Errorf("%v", found)
	}
}
