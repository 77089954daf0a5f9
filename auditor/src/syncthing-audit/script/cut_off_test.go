package script

import (
	"fmt"
	"math/rand"
	"os"
	"os/exec"
	"path/filepath"
	"strings"
	"testing"
	"time"

	"syncthing-audit/outlook"
	"syncthing-audit/part"
	"syncthing-audit/summary"
)

// cutOff gives a script that ends at its command of this number, before that or behind it.
func cutOff(t *testing.T, path string, number int, isBehind bool) string {
	text, err := os.ReadFile(path)
	if err != nil {
		t.Fatal(err)
	}
	counting := "count=0\n"
	for _, command := range []string{"mv", "cp", "touch", "mkdir", "rm"} {
		end := fmt.Sprintf("[ $count != %d ] || exit 9", number)
		first, last := end, ":"
		if isBehind {
			first, last = last, end
		}
		counting += command + "() { count=$((count + 1)); " + first + "; command " + command + ` "$@"; ` + last + "; }\n"
	}
	made := path + ".cut"
	if err := os.WriteFile(made, []byte(strings.Replace(string(text), "set -eu\n", "set -eu\n"+counting, 1)), 0o600); err != nil {
		t.Fatal(err)
	}
	return made
}

// A script that is cut off at any command, and is then run to its end, leads to the same.
func TestScriptsThatAreCutOff(t *testing.T) {
	name := part.Bytes("a/b")
	both := []outlook.Step{{Act: outlook.Save, Device: ids[0]}, {Act: outlook.Copy, Device: ids[0], From: ids[1], Over: true}, {Act: outlook.Touch, Device: ids[0]}}
	deletes := []outlook.Step{{Act: outlook.Delete, Device: ids[0]}}
	plans := []*outlook.Plan{{Names: []part.Bytes{name}, Count: 1, Steps: both}, {Names: []part.Bytes{"c"}, Count: 1, Steps: deletes}, {Names: []part.Bytes{"d"}, Count: 1, Steps: []outlook.Step{{Act: outlook.Copy, Device: ids[0], From: ids[1]}}}}
	scripts := Of(summaryOf(plans), time.Now())
	if len(scripts) != 1 {
		t.Fatal(len(scripts))
	}
	cuts := 0
	for number := 1; number <= 30; number++ {
		for _, isBehind := range []bool{false, true} {
			here := &disks{t, t.TempDir()}
			for _, device := range ids[:2] {
				run(t, "mkdir", "-p", here.at(device, ".stfolder"), here.at(device, "a"))
				run(t, "sh", "-c", `cd "$1"; printf '%s' "$2" > a/b; printf '%s' "$2" > c`, "sh", here.folder(device), "text of "+device)
			}
			run(t, "cp", here.at(ids[1], "c"), here.at(ids[1], "d"))
			path := here.filled(t, scripts[0], here.folder)
			err := exec.Command("sh", cutOff(t, path, number, isBehind)).Run()
			if err != nil {
				cuts++
			}
			run(t, "sh", path)
			made := bytesIn(t, here.room)
			for _, name := range []string{"a/b", "d"} {
				if text, err := os.ReadFile(here.at(ids[0], name)); err != nil || string(text) != "text of "+ids[1] {
					t.Errorf("cut off at command %d: %s is %q: %v", number, name, text, err)
				}
			}
			if !made["text of "+ids[0]] || isThere(here.at(ids[0], "c")) {
				t.Errorf("cut off at command %d: %v", number, made)
			}
		}
	}
	if cuts < 20 {
		t.Error(cuts)
	}
}

// A script that isn't filled in, or that finds something else than the answer says, ends with a reason and changes nothing more.
func TestWhatScriptsRefuse(t *testing.T) {
	copies := func(over bool) []*outlook.Plan {
		return []*outlook.Plan{{Names: []part.Bytes{"a/b"}, Count: 1, Steps: []outlook.Step{{Act: outlook.Copy, Device: ids[0], From: ids[1], Over: over}}}}
	}
	for _, row := range []struct {
		over   bool
		change string // of the script, by sed
		before string // in the room, by sh
		says   string
	}{
		{true, "s/^stopped=.*/stopped=no/", "", "stop Syncthing"},
		{true, "s/^aside=.*/aside=/", "", "for what is taken away"},
		{true, "s,^aside=.*,aside=$folder/x,", "", "outside"},
		{true, "s/^folder_1=.*/folder_1=/", "", "by a path from /"},
		{true, "s,^folder_1=.*,folder_1=/,", "", "no .stfolder"},
		{true, "s/^source_1=.*/source_1=elsewhere/", "", "HOST:/PATH"},
		{true, "s,^source_1=.*,source_1=/nowhere,", "", "no directory /nowhere"},
		{false, "", "", "where nothing was"},
		{true, "", "mv AAAAAAA/a z; ln -s ../z AAAAAAA/a", "is a symlink"},
		{true, "", "mv AAAAAAA/a z", "there is no directory"},
		{true, "", "rm BBBBBBB/a/b", ""},
	} {
		here := &disks{t, t.TempDir()}
		for _, device := range ids[:2] {
			run(t, "mkdir", "-p", here.at(device, ".stfolder"), here.at(device, "a"))
			run(t, "sh", "-c", `printf '%s' "$2" > "$1/a/b"`, "sh", here.folder(device), "text of "+device)
		}
		path := here.filled(t, Of(summaryOf(copies(row.over)), time.Now())[0], here.folder)
		run(t, "sed", "-i", strings.ReplaceAll(row.change, "$folder", here.folder(ids[0])), path)
		run(t, "sh", "-c", "cd \"$1\"; "+row.before, "sh", here.room)
		had := tree(t, here.folder(ids[0]), time.Now())
		said, err := exec.Command("sh", path).CombinedOutput()
		if err == nil || !strings.Contains(string(said), row.says) {
			t.Errorf("%s%s: %v: %s, not %s", row.change, row.before, err, said, row.says)
		}
		if now := tree(t, here.folder(ids[0]), time.Now()); now != had {
			t.Errorf("%s%s: there is now %s", row.change, row.before, now)
		}
	}
}

// A folder's directory is known by the marker that is configured on its device, whatever characters it has.
func TestScriptsOfAFolderWithAnotherMarker(t *testing.T) {
	deletes := []*outlook.Plan{{Names: []part.Bytes{"a"}, Count: 1, Steps: []outlook.Step{{Act: outlook.Delete, Device: ids[0]}}}}
	for _, marker := range []string{"my marker", "it's", "a/b", "\x1b[2J", ""} {
		told := summaryOf(deletes)
		told.Folders[0].Devices = []summary.Member{{Device: ids[1], Marker: "another"}, {Device: ids[0], Marker: marker}}
		one := Of(told, time.Now())[0]
		if strings.Contains(one.Text, "\x1b") {
			t.Errorf("%q stands there raw", marker)
		}
		if marker == "" {
			marker = ".stfolder"
		}
		here := &disks{t, t.TempDir()}
		run(t, "mkdir", "-p", here.at(ids[0], "a"), here.at(ids[0], "another"))
		path := here.filled(t, one, here.folder)
		if said, err := exec.Command("sh", path).CombinedOutput(); err == nil || !strings.Contains(string(said), "has no "+marker+",") {
			t.Errorf("%q: %v: %s", marker, err, said)
		}
		run(t, "mkdir", "-p", here.at(ids[0], marker))
		if run(t, "sh", path); isThere(here.at(ids[0], "a")) {
			t.Errorf("%q: nothing was done", marker)
		}
	}
}

// What stands on another machine comes by rsync, which is handed each name as one word.
func TestScriptsThatCopyFromAMachine(t *testing.T) {
	here := &disks{t, t.TempDir()}
	name := "it's\n$HOME"
	for _, device := range ids[:2] {
		run(t, "mkdir", "-p", here.at(device, ".stfolder"))
	}
	if err := os.WriteFile(here.at(ids[1], name), []byte("text"), 0o600); err != nil {
		t.Fatal(err)
	}
	bin := filepath.Join(here.room, "bin")
	run(t, "mkdir", bin)
	if err := os.WriteFile(filepath.Join(bin, "rsync"), []byte("#!/bin/sh\n[ \"$1 $2\" = '-a -s' ] && [ $# = 4 ] && cp -a \"${3#nas:}\" \"$4\"\n"), 0o700); err != nil {
		t.Fatal(err)
	}
	t.Setenv("PATH", bin+":"+os.Getenv("PATH"))
	plans := []*outlook.Plan{{Names: []part.Bytes{part.Bytes(name)}, Count: 1, Steps: []outlook.Step{{Act: outlook.Copy, Device: ids[0], From: ids[1]}}}}
	run(t, "sh", here.filled(t, Of(summaryOf(plans), time.Now())[0], func(device string) string { return "nas:" + here.folder(device) }))
	if text, err := os.ReadFile(here.at(ids[0], name)); err != nil || string(text) != "text" {
		t.Error(string(text), err)
	}
}

// A script says what none of them does, and shows nothing raw to a terminal.
func TestWhatScriptsSay(t *testing.T) {
	told := summaryOf(drawPlans(rand.New(rand.NewSource(1)), newDisks(t, rand.New(rand.NewSource(1)))))
	told.Folders[0].Outlook.WithoutSteps, told.Folders[0].Outlook.NotKnown, told.First = 3, 4, []summary.First{{}}
	told.Folders[0].Outlook.Plans[0].Count += 5
	scripts := Of(told, time.Now())
	for _, script := range scripts {
		for _, says := range []string{"for 3 names", "to 4 names", "be done before Syncthing starts: 1 line", "5 more names"} {
			if !strings.Contains(script.Text, says) {
				t.Errorf("%s doesn't say %q", script.Name, says)
			}
		}
		if at := strings.IndexFunc(script.Text, func(letter rune) bool { return letter < ' ' && letter != '\n' || letter == 0x7f || letter == '\ufffd' }); at >= 0 {
			t.Errorf("%s shows %q", script.Name, script.Text[at:at+20])
		}
		next := "are next"
		if script.Name[0] == scripts[len(scripts)-1].Name[0] {
			next = "Audit again, before Syncthing starts"
		}
		if !strings.Contains(script.Text, next) {
			t.Errorf("%s doesn't say that others %q", script.Name, next)
		}
	}
	if len(Of(summaryOf(nil), time.Now())) > 0 {
		t.Error("without steps there are scripts")
	}
}
