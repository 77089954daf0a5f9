package command

import (
	"io"
	"os"
	"path/filepath"
	"runtime"
	"runtime/debug"
	"strings"
	"testing"
	"time"

	"syncthing-audit/bep"
	"syncthing-audit/commandline"
	"syncthing-audit/exit"
	"syncthing-audit/fixture"
)

// What goes beside a command's words, and what it can't be without, is told by that command: whichever one of it is amiss.
func TestWordsThatDoNotGoTogether(t *testing.T) {
	const (
		find  = "'find' has --history DIR, one --folder ID, a name of that folder, and the directories to look in\n"
		page  = "--watch is of what nights left: no home and no part goes with it\n"
		shown = "--show reads a part and makes none: "
	)
	for words, told := range map[string]string{
		"find --folder docs name backups":                      find,
		"find --history kept name backups":                     find,
		"find --history kept --folder docs --folder b name x":  find,
		"find --history kept --folder docs name":               find,
		"find --history kept --folder docs --home x name x":    "find has no flag --home\n",
		"find --history kept --folder docs --names n name x":   "find has no flag --names\n",
		"find --history kept --folder docs --slice 1/2 name x": "find has no flag --slice\n",
		"watch":                              "'watch' has one file: the configuration\n",
		"watch a b":                          "'watch' has one file: the configuration\n",
		"watch a --home x":                   "watch has no flag --home\n",
		"watch a --folder x":                 "watch has no flag --folder\n",
		"watch a --names x":                  "watch has no flag --names\n",
		"watch a --slice 1/2":                "watch has no flag --slice\n",
		"sum":                                "'sum' has one directory, to which documents were exported\n",
		"sum a b":                            "'sum' has one directory, to which documents were exported\n",
		"report a":                           "'report' needs --html FILE: where the page goes\n",
		"report --html x --watch y a":        page,
		"report --html x --watch y --home a": page,
		"part a -o x":                        "\"a\" stands behind no flag: ",
		"part --home a --home b -o x":        "a part is made of one --home\n",
		"part --show a -o x":                 shown,
		"part --show a --begin":              shown,
	} {
		isWrongUse(t, words, told)
	}
}

// diskOf has the half of a device's part made of a folder, and gives the status and what is said. Nothing of it goes on behind that.
func diskOf(t *testing.T, folder string, more ...string) (int, string) {
	t.Helper()
	before := runtime.NumGoroutine()
	words := append([]string{"disk", "--after", bep.ID{7: 1}.String() + ":" + lookOfTest, "-o", filepath.Join(t.TempDir(), "part"), "docs=" + folder}, more...)
	var log strings.Builder
	status := Run(words, io.Discard, &log)
	for until := time.Now().Add(10 * time.Second); runtime.NumGoroutine() > before; time.Sleep(time.Millisecond) {
		if time.Now().After(until) {
			t.Fatalf("%d go on, and %d did", runtime.NumGoroutine(), before)
		}
	}
	return status, log.String()
}

// What a walk of disks tells: how much it has, that no name is as asked, and that it isn't known what is ignored.
func TestWhatAWalkOfDisksTells(t *testing.T) {
	folder := t.TempDir()
	for name, text := range map[string]string{".stfolder/x": "", "a": "text", "b": "more"} {
		if err := os.MkdirAll(filepath.Dir(filepath.Join(folder, name)), 0o700); err != nil {
			t.Fatal(err)
		}
		if err := os.WriteFile(filepath.Join(folder, name), []byte(text), 0o600); err != nil {
			t.Fatal(err)
		}
	}
	const none = ", on the disk: the part has none\n"
	for _, row := range []struct {
		ignores string
		more    []string
		told    string
		isNone  bool
	}{
		{"", nil, "syncthing-audit: 2 names, 8 bytes hashed\n", false}, {"", []string{"--names", "a"}, "syncthing-audit: 1 names, 4 bytes hashed\n", false},
		{"", []string{"--names", "c"}, "syncthing-audit: 0 names, 0 bytes hashed\n", true},
		{"#escape=|\n", nil, "syncthing-audit: it isn't known which names are ignored: folder docs: its .stignore: ", false},
	} {
		if err := os.WriteFile(filepath.Join(folder, ".stignore"), []byte(row.ignores), 0o600); err != nil {
			t.Fatal(err)
		}
		status, told := diskOf(t, folder, row.more...)
		if status != exit.Done || !strings.Contains(told, row.told) || strings.Contains(told, none) != row.isNone || strings.Contains(told, "isn't known") != (row.ignores != "") {
			t.Errorf("%q, %q: %d, %s", row.ignores, row.more, status, told)
		}
	}
	if status, told := diskOf(t, t.TempDir()); status != exit.Refused || !strings.Contains(told, "has no .stfolder") {
		t.Errorf("no folder: %d, %s", status, told)
	}
	var output strings.Builder
	if status := Run([]string{"disk", "--help"}, &output, io.Discard); status != exit.Done || output.String() != commandline.HelpOf("disk") {
		t.Errorf("%d, %s", status, output.String())
	}
}

// Without words, and with a word that is no command, all commands are told.
func TestNoCommand(t *testing.T) {
	for _, words := range [][]string{nil, {"jump"}, {"jump", "--help"}, {""}} {
		var log strings.Builder
		status := Run(words, io.Discard, &log)
		for name := range commands {
			if !strings.Contains(log.String(), name) {
				t.Errorf("%q: %s isn't told: %s", words, name, log.String())
			}
		}
		if status != exit.Usage {
			t.Errorf("%q: %d", words, status)
		}
	}
}

// A command that fails gives no status: that of its error counts.
func TestAnErrorHasNoStatusBesideIt(t *testing.T) {
	for name, run := range commands {
		for _, words := range [][]string{{"--nothing"}, {"--help"}, {"a", "--folder"}, {"a", "b", "c"}, nil} {
			if status, err := run(words, io.Discard, io.Discard); err != nil && status != 0 {
				t.Errorf("%s %q: %d, %v", name, words, status, err)
			}
		}
	}
}

// A document isn't printed for a person, who is told what to do in its place; behind a pipe it is, and into a directory nothing is printed.
func TestAnExportOnATerminal(t *testing.T) {
	screen, _ := fixture.Terminal(t)
	path := aPart(t)
	for _, row := range []struct {
		output io.Writer
		words  []string
		status int
		told   string
	}{
		{screen, []string{path}, exit.Usage, "a document is nothing to read on a terminal: "}, {screen, nil, exit.Usage, "no home and no part is given"},
		{io.Discard, []string{path}, exit.Done, ""}, {screen, []string{path, "--into", t.TempDir()}, exit.Done, ""},
	} {
		var log strings.Builder
		if status := Run(append([]string{"export"}, row.words...), row.output, &log); status != row.status || !strings.Contains(log.String(), row.told) {
			t.Errorf("%q: %d, %s", row.words, status, log.String())
		}
	}
}

// Once a part is shown its file is closed, and nothing reads on, also where nobody takes the lines.
func TestNothingIsOpenOnceAPartWasShown(t *testing.T) {
	defer debug.SetGCPercent(debug.SetGCPercent(-1)) // the collector closes files of which nobody knows any more
	path := aPart(t)
	isThat := func(opened string) bool { return opened == path }
	before := runtime.NumGoroutine()
	for _, output := range []io.Writer{io.Discard, fullOutput{}} {
		Run([]string{"part", "--show", path}, output, io.Discard)
		if count := fixture.CountOpened(t, isThat); count > 0 {
			t.Errorf("it is open %d times", count)
		}
	}
	for until := time.Now().Add(10 * time.Second); runtime.NumGoroutine() > before; time.Sleep(time.Millisecond) {
		if time.Now().After(until) {
			t.Fatalf("%d go on, and %d did", runtime.NumGoroutine(), before)
		}
	}
}

// fullOutput takes nothing.
type fullOutput struct{}

func (fullOutput) Write([]byte) (int, error) { return 0, io.ErrShortWrite }
