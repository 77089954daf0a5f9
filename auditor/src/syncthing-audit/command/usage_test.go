package command

import (
	"io"
	"os"
	"strings"
	"testing"

	"syncthing-audit/exit"
	"syncthing-audit/fault"
	"syncthing-audit/target"
)

// isWrongUse fails where these words aren't refused as wrong use, and told so.
func isWrongUse(t *testing.T, words, told string) {
	t.Helper()
	var log strings.Builder
	status := Run(strings.Split(words, " "), io.Discard, &log)
	if status != exit.Usage || !strings.HasPrefix(log.String(), "syncthing-audit: "+told) {
		t.Errorf("%s: %d, %s", words, status, log.String())
	}
}

// What is wrong with a flag is told by its name in the help, however it was written.
func TestWrongFlags(t *testing.T) {
	for words, told := range map[string]string{
		"check --folder":                   "--folder needs a word behind it",
		"part -o":                          "-o needs a word behind it",
		"check --fold docs x":              "there is no flag --fold",
		"check --rescan x":                 "check has no flag --rescan\n",
		"check -o a x":                     "check has no flag -o\n",
		"check -tokens=a x":                "check has no flag --tokens\n",
		"part --lines":                     "part has no flag --lines\n",
		"part -o x --still 3":              "--still is for --end, and for 'run'\n",
		"part --end --tokens x --still -1": "--still is at least 0\n",
		"check --still 3 x":                "check has no flag --still\n",
		"export --syncaudit x":             "export has no flag --syncaudit\n",
		"run x: --begin":                   "run has no flag --begin\n",
		"sum --leave-out none x":           "sum has no flag --leave-out\n",
		"part --line":                      "there is no flag --line\n",
		"part -x":                          "there is no flag -x\n",
		"part --about --leave-out ignored": "--leave-out is for 'check', 'run' and 'export', and for 'part --end' with ",
		"run x: --still soon":              "invalid value \"soon\" for flag --still: parse error",
		"check --leave-out all x":          "invalid value \"all\" for flag --leave-out: \"all\" is none of ",
		"check --lines=often x":            "invalid boolean value \"often\" for --lines: ",
		"check --folder  x":                "invalid value \"\" for flag --folder: empty",
		"part -o x --slice 0/7":            "invalid value \"0/7\" for flag --slice: a slice is K/N",
		"check --slice 8/7 x":              "invalid value \"8/7\" for flag --slice: there is no slice 8 of 7",
		"run x: --slice 3":                 "invalid value \"3\" for flag --slice: a slice is K/N",
		"export --slice a/b x":             "invalid value \"a/b\" for flag --slice: a slice is K/N",
		"part --begin --slice 1/0":         "invalid value \"1/0\" for flag --slice: a slice is K/N",
		"part --end --slice":               "--slice needs a word behind it",
		"part --home a --jobs none":        "invalid value \"none\" for flag --jobs: ",
		"part --data d -o x":               "invalid value \"d\" for flag --data: it stands behind the --home whose database is there",
		"check --data d --home a":          "invalid value \"d\" for flag --data: it stands behind the --home whose database is there",
		"check p --data d":                 "invalid value \"d\" for flag --data: it stands behind the --home whose database is there",
		"check --home a --data ":           "invalid value \"\" for flag --data: empty",
		"export --home a --home b --data c --data d --into x":          "invalid value \"d\" for flag --data: the database of b is named already",
		"part --map /a=/b --home a -o x":                               "invalid value \"/a=/b\" for flag --map: it stands behind the --home whose paths these are",
		"run --map /a=/b x:":                                           "invalid value \"/a=/b\" for flag --map: it stands behind the device whose paths these are",
		"check --home a --map /a":                                      "invalid value \"/a\" for flag --map: it is FROM=TO: ",
		"check --home a --map a=/b":                                    "invalid value \"a=/b\" for flag --map: a isn't absolute, and doesn't begin with ~",
		"export --home a --map /a=b":                                   "invalid value \"/a=b\" for flag --map: b isn't absolute",
		"check --home a --map /a=/b --home b --map /a=/b --map /a/=/c": "invalid value \"/a/=/c\" for flag --map: /a is named already",
		"run y:b x: --map /a=/b":                                       "--map behind \"x:\" says where paths of a home are: name that home, too, as x:DIR",
		"observe --map /a=/b":                                          "observe has no flag --map",
		"run --data d x:":                                              "invalid value \"d\" for flag --data: it stands behind the device whose database is there",
		"run x:a --data b --data c":                                    "invalid value \"c\" for flag --data: the database of x:a is named already",
		"run y:b x: --data d":                                          "--data behind \"x:\" says where the database of a home is: name that home, too, as x:DIR",
		"part --about --data d --home x":                               "invalid value \"d\" for flag --data: it stands behind the --home whose database is there",
	} {
		isWrongUse(t, words, told)
	}
}

// One document that was written is told as one.
func TestOneDocumentIsOne(t *testing.T) {
	var log strings.Builder
	if Run([]string{"export", "--into", t.TempDir(), aPart(t)}, io.Discard, &log); !strings.Contains(log.String(), "syncthing-audit: 1 document in ") {
		t.Error(log.String())
	}
}

// What can't be written is named as it was asked for; of the temporary directory it is said how another one is chosen.
func TestWhatIsNamedWhereThereIsNoRoom(t *testing.T) {
	file, err := os.OpenFile("/dev/full", os.O_WRONLY, 0)
	if err != nil {
		t.Fatal(err)
	}
	defer file.Close()
	for to, told := range map[io.Writer]string{
		fault.Writer{To: fault.InPlaceOf{Path: "one.part", File: file}}: "write one.part: no space left on device",
		fault.Writer{To: fault.Temporary{To: file}}:                     "write /dev/full: no space left on device (TMPDIR may name another directory)",
	} {
		if _, err := to.Write([]byte("new")); err == nil || err.Error() != told || exit.Of(err, io.Discard, io.Discard) != exit.Fault {
			t.Errorf("%v, not %s", err, told)
		}
	}
	to, err := target.Of("/proc/one.part")
	if err != nil {
		t.Fatal(err)
	}
	if err := to.Write(func(io.Writer) error { return nil }); err == nil || !strings.Contains(err.Error(), " /proc/one.part: ") {
		t.Error(err)
	}
}

// A part that can't be read is named once, as it was asked for.
func TestAPartThatIsNotThere(t *testing.T) {
	room := t.TempDir()
	for path, told := range map[string]string{room + "/no.part": "open " + room + "/no.part: no such file or directory\n", room: room + ": this is no part but a directory: "} {
		var log strings.Builder
		status := Run([]string{"export", path, "--into", room + "/new"}, io.Discard, &log)
		if status != exit.Refused || !strings.HasPrefix(log.String(), "syncthing-audit: "+told) {
			t.Errorf("%d: %s", status, log.String())
		}
	}
}
