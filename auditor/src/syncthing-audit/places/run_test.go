package places

import (
	"bytes"
	"encoding/json"
	"fmt"
	"os"
	"path/filepath"
	"strings"
	"testing"
	"time"

	"syncthing-audit/audit"
	"syncthing-audit/commandline"
	"syncthing-audit/exit"
	"syncthing-audit/looks"
	"syncthing-audit/part"
)

// sshOfTests answers in ssh's place with what a machine's files have: of each question what it writes, what it says and its status.
const sshOfTests = `#!/bin/sh
[ "$1" = -G ] && exit 0
while [ "$1" = -o ]; do shift 2; done
case "$2" in
*--about*) look=about ;;
*--begin*) look=begin ;;
*) look=end; cat > "ROOM/$1-tokens" ;;
esac
echo "$2" >> "ROOM/$1-asked"
[ -f "ROOM/$1-$look.says" ] && cat "ROOM/$1-$look.says" >&2
[ -f "ROOM/$1-$look.status" ] && exit "$(cat "ROOM/$1-$look.status")"
cat "ROOM/$1-$look"
`

// machines are two devices on machines of their own, of which each answers what its part is.
type machines struct {
	t     *testing.T
	room  string
	asked commandline.Options
}

var namesOfMachines = []string{"laptop", "nas"}

// idOfLook gives the id of a first look at a machine.
func idOfLook(place int) string { return strings.Repeat(fmt.Sprint(place+1), 32) }

// newMachines has two machines share the folder docs, in step.
func newMachines(t *testing.T) *machines {
	m := &machines{t: t, room: t.TempDir(), asked: commandline.Options{Parts: []string{"laptop:", "nas:/srv/home"}, Program: os.Getenv("SYNCAUDIT"), Jobs: 1}}
	if m.asked.Program == "" {
		t.Skip("SYNCAUDIT names no program")
	}
	m.write("bin/ssh", strings.ReplaceAll(sshOfTests, "ROOM", m.room))
	t.Setenv("PATH", filepath.Join(m.room, "bin")+":"+os.Getenv("PATH"))
	t.Setenv("HOME", filepath.Join(m.room, "home"))
	for place := range namesOfMachines {
		m.about(place, nil)
		m.look(place, "begin", nil)
		m.look(place, "end", nil)
	}
	return m
}

func (m *machines) write(name, text string) {
	path := filepath.Join(m.room, name)
	if err := os.MkdirAll(filepath.Dir(path), 0o700); err != nil {
		m.t.Fatal(err)
	}
	if err := os.WriteFile(path, []byte(text), 0o700); err != nil {
		m.t.Fatal(err)
	}
}

func (m *machines) read(name string) string {
	text, err := os.ReadFile(filepath.Join(m.room, name))
	if err != nil && !os.IsNotExist(err) {
		m.t.Fatal(err)
	}
	return string(text)
}

// head gives the head of what a machine says.
func (m *machines) head(place int) *part.Head {
	other := 1 - place
	folder := part.Folder{ID: "docs", Label: "Documents", Kind: "send-receive", Directory: fmt.Sprint("disk ", place), IndexID: uint64(place + 1), Max: 9, Options: &part.Options{MaxConflicts: 10},
		Sharing: []part.Sharing{{Device: idAt(byte(other + 1)), Name: namesOfMachines[other]}}, Views: []part.View{{Device: idAt(byte(other + 1)), IndexID: uint64(other + 1), Max: 9}}}
	return &part.Head{Version: part.VersionOfLooks, Device: idAt(byte(place + 1)), Name: namesOfMachines[place], Runs: "v1.29.5", Made: time.Unix(1700000000, 0).UTC(),
		Folders: []part.Folder{folder}, Others: []part.Other{}, Waits: true, Tells: true}
}

// about has a machine say what it shares, after a change.
func (m *machines) about(place int, change func(*part.Head)) {
	head := m.head(place)
	if change != nil {
		change(head)
	}
	text, err := json.Marshal(head)
	if err != nil {
		m.t.Fatal(err)
	}
	m.write(namesOfMachines[place]+"-about", string(text))
}

// look has a machine give a look, after a change.
func (m *machines) look(place int, which string, change func(*part.Head, *part.Name)) {
	head, look := m.head(place), &part.Look{Home: namesOfMachines[place], At: time.Unix(1700000000, 0).UTC()}
	record := part.Record{ModifiedS: 3, ModifiedBy: 1, Version: part.Version{{1, 2}}, Sequence: 4, Content: &part.Content{Size: 5, BlockSize: 131072, Hash: part.Hash{7}}}
	name := &part.Name{Name: "a", Own: &record, Views: []part.Seen{{Record: &record}}, Disk: &part.Node{ModifiedS: 3, Size: 5, Stamp: "1"}}
	if look.ID = idOfLook(place); which == "begin" {
		name.Disk.Contents = []part.Content{*record.Content}
	} else {
		look.ID, look.At, look.After = "", time.Unix(1700000009, 0).UTC(), map[string]string{idAt(1): idOfLook(0), idAt(2): idOfLook(1)}
		head.Folders[0].Rest = &part.Rest{State: part.RestIdle}
	}
	if head.Look = look; change != nil {
		change(head, name)
	}
	var text bytes.Buffer
	to, err := part.NewWriter(&text, head)
	if err != nil {
		m.t.Fatal(err)
	}
	for _, line := range []part.Line{{Begin: &part.Begin{Folder: "docs"}}, {Name: name}, {End: &part.End{Folder: "docs", Names: 1, Bytes: 5, Max: 9, Last: true}}} {
		if err := to.Take(line); err != nil {
			m.t.Fatal(err)
		}
	}
	if err := to.Close(); err != nil {
		m.t.Fatal(err)
	}
	m.write(namesOfMachines[place]+"-"+which, text.String())
}

// fail has a machine's command end with a status, and say why.
func (m *machines) fail(place int, which string, status int, says string) {
	m.write(fmt.Sprintf("%s-%s.status", namesOfMachines[place], which), fmt.Sprint(status))
	m.write(fmt.Sprintf("%s-%s.says", namesOfMachines[place], which), "syncthing-audit: "+says+"\n")
}

// run gives an answer, what is told on the way, and the status or the refusal.
func (m *machines) run() (answer, told string, status int, err error) {
	var output, log bytes.Buffer
	status, err = Run(m.asked, &output, &log)
	return output.String(), log.String(), status, err
}

// Two machines are asked, looked at twice and audited: the second look is given the tokens of all first ones, and each machine is kept as the device that it is.
func TestARunOfTwoMachines(t *testing.T) {
	m := newMachines(t)
	m.write("nas-about.says", "syncthing-audit: it is late\n")
	m.write("nas-begin.says", "syncthing-audit: the disk is slow\nsyncthing-audit: the first look was over 3 s ago\n")
	open := 0
	for night := 1; night < 3; night++ {
		answer, told, status, err := m.run()
		if now := countOfFiles(t); night == 1 {
			open = now
		} else if now > open {
			t.Errorf("%d files are left open", now-open)
		}
		if err != nil || status != exit.Done || !strings.HasPrefix(answer, "docs (Documents): in step") || !strings.Contains(answer, "1 name ") {
			t.Fatalf("night %d: status %d, %v: %s", night, status, err, answer)
		}
		due := "syncthing-audit: nas:/srv/home: it is late\nsyncthing-audit: nas:/srv/home: the disk is slow\n"
		if night == 1 {
			due += fmt.Sprintf("syncthing-audit: laptop: it is device %s, and is refused if it is another one next time (~/%s)\nsyncthing-audit: nas:/srv/home: it is device %s, and is refused if it is another one next time (~/%s)\n",
				idAt(1), nameOfKnown, idAt(2), nameOfKnown)
		}
		if told != due {
			t.Errorf("night %d: %q, not %q", night, told, due)
		}
		tokens := looks.Token(idAt(1), idOfLook(0)) + "\n" + looks.Token(idAt(2), idOfLook(1)) + "\n"
		if m.read("laptop-tokens") != tokens || m.read("nas-tokens") != tokens {
			t.Errorf("night %d: %q and %q are given, not %q", night, m.read("laptop-tokens"), m.read("nas-tokens"), tokens)
		}
	}
	if known := m.read("home/" + nameOfKnown); known != idAt(1)+" laptop:\n"+idAt(2)+" nas:/srv/home\n" {
		t.Errorf("%q", known)
	}
	asked := strings.Split(strings.TrimSpace(m.read("nas-asked")), "\n")
	const program, behind = `PATH="$PATH:$HOME/.local/bin" `, " --home /srv/home -o -"
	due := []string{program + "syncthing-audit part --about" + behind, program + "nice -n 19 syncthing-audit part --begin --heed-input" + behind,
		program + "syncthing-audit part --end --tokens - --leave-out absent" + behind}
	if strings.Join(asked, "|") != strings.Join(append(due, due...), "|") {
		t.Errorf("%q, not %q", asked, due)
	}
	if left, err := filepath.Glob(filepath.Join(os.TempDir(), "syncthing-audit*", "*.part")); err != nil || len(left) > 0 && strings.HasPrefix(left[0], m.room) {
		t.Errorf("%q is left", left)
	}
}

// What machines say before and after they are looked at may refuse a run, which says why, and of which one.
func TestARunThatIsRefused(t *testing.T) {
	for why, row := range map[string]struct {
		change func(*machines)
		due    string // what the refusal has, or what is told where one of several fails
		told   string
	}{
		"no machine":                    {func(m *machines) { m.asked.Parts = nil }, "no device is given", ""},
		"time that runs backwards":      {func(m *machines) { m.asked.Still = -1 }, "--still is at least 0", ""},
		"two forms":                     {func(m *machines) { m.asked.Lines, m.asked.JSON = true, true }, "two forms of the answer", ""},
		"a machine that is given twice": {func(m *machines) { m.asked.Parts[1] = "laptop:" }, `"laptop:" is given twice`, ""},
		"no program":                    {func(m *machines) { m.asked.Program = filepath.Join(m.room, "none") }, "none", ""},
		"known devices that are none":   {func(m *machines) { m.write("home/"+nameOfKnown, "laptop\n") }, "isn't a device id", ""},
		"it is off":                     {func(m *machines) { m.fail(1, "about", 255, "no route") }, "nas:/srv/home: its command ended with exit status 255: syncthing-audit: no route. See that the machine is on", ""},
		"it prints something":           {func(m *machines) { m.write("laptop-about", "Welcome") }, "laptop: this is no part: ", ""},
		"another one than before":       {func(m *machines) { m.write("home/"+nameOfKnown, idAt(3)+" laptop:\n") }, "refused: laptop says that it is device " + idAt(1), ""},
		"no device":                     {func(m *machines) { m.about(1, func(head *part.Head) { head.Device = strings.ToLower(head.Device) }) }, "isn't a device id as Syncthing writes it", ""},
		"a folder that none has":        {func(m *machines) { m.asked.Folders = []string{"pics"} }, "no folder here has the id pics", ""},
		"a folder that one lacks": {func(m *machines) {
			m.about(1, func(head *part.Head) { head.Others, head.Folders = []part.Other{{ID: "docs"}}, nil })
			m.asked.Folders, m.asked.Strict = []string{"docs"}, false
		}, "nas:/srv/home has none of the folders that are asked for", ""},
		"a device that isn't named": {func(m *machines) {
			m.about(1, func(head *part.Head) {
				head.Folders[0].Sharing = append(head.Folders[0].Sharing, part.Sharing{Device: idAt(3), Name: "phone"})
			})
		}, exit.ErrTold.Error(), "phone"},
		"nothing is shared": {func(m *machines) {
			for place := range namesOfMachines {
				m.about(place, func(head *part.Head) { head.Folders = nil })
			}
		}, audit.ErrNothing.Error(), ""},
		"all are away": {func(m *machines) {
			m.asked.Strict = false
			for place := range namesOfMachines {
				m.about(place, func(head *part.Head) { head.Others, head.Folders = []part.Other{{ID: "docs", Away: "gone"}}, nil })
			}
		}, audit.ErrNothing.Error(), "It is left out"},
		"one device at both":      {func(m *machines) { m.about(1, func(head *part.Head) { head.Device = idAt(1) }) }, "laptop: and nas:/srv/home are both of device laptop", ""},
		"a first look that fails": {func(m *machines) { m.fail(0, "begin", 1, "it is lost") }, "laptop: its command ended with exit status 1: syncthing-audit: it is lost", ""},
		"a history that is none": {func(m *machines) {
			m.write("history/letters", "x")
			m.asked.History = filepath.Join(m.room, "history")
		}, "letters is no file of a history", ""},
		"no room":                   {func(m *machines) { m.t.Setenv("TMPDIR", filepath.Join(m.room, "none")) }, "none", ""},
		"a first look that is none": {func(m *machines) { m.write("laptop-begin", "Welcome") }, "laptop: this is no part: ", ""},
		"a part without a look": {func(m *machines) {
			m.look(0, "begin", func(head *part.Head, _ *part.Name) { head.Version, head.Look = part.FirstVersion, nil })
		}, "laptop: its part isn't of a first look: is the program of this version there?", ""},
		"another device than before the look": {func(m *machines) {
			m.look(0, "begin", func(head *part.Head, _ *part.Name) { head.Device = idAt(3) })
		}, "and before the look it said " + idAt(1), ""},
		"a second look that fails":   {func(m *machines) { m.fail(1, "end", 1, "it is lost") }, "nas:/srv/home: its command ended with exit status 1: syncthing-audit: it is lost", ""},
		"a second look that is none": {func(m *machines) { m.write("laptop-end", "Welcome") }, "laptop:", ""},
		"all are off": {func(m *machines) {
			m.asked.Strict = false
			m.fail(0, "about", 255, "no route")
			m.fail(1, "about", 255, "no route")
		}, audit.ErrNothing.Error() + ": each device is left out", "nas:/srv/home: its command ended with exit status 255: syncthing-audit: no route"},
		"all fail in the first look": {func(m *machines) {
			m.asked.Strict = false
			m.fail(0, "begin", 1, "it is lost")
			m.fail(1, "begin", 1, "it is lost")
		}, "each device is left out", "It is left out"},
		"all fail in the second look": {func(m *machines) {
			m.asked.Strict = false
			m.fail(0, "end", 1, "it is lost")
			m.fail(1, "end", 1, "it is lost")
		}, "each device is left out", "It is left out"},
	} {
		t.Run(why, func(t *testing.T) {
			m := newMachines(t)
			m.t, m.asked.Strict = t, true
			row.change(m)
			answer, told, status, err := m.run()
			if err == nil || status != 0 || answer != "" || !strings.Contains(err.Error()+told, row.due) || !strings.Contains(told, row.told) { // of two that fail the first one is told
				t.Errorf("status %d, %v, %q, %q", status, err, told, answer)
			}
			if strings.Contains(fmt.Sprint(err), ".part") {
				t.Errorf("it names a file of its own: %v", err)
			}
		})
	}
}

// Where that is asked for, the others are audited without a machine that fails, which is told with its device; and an answer says so by its status.
func TestARunWithoutAMachine(t *testing.T) {
	for _, which := range []string{"about", "begin", "end"} {
		m := newMachines(t)
		m.write("home/"+nameOfKnown, idAt(2)+" nas:/srv/home\n")
		m.fail(1, which, 255, "no route")
		answer, told, status, err := m.run()
		if err != nil || status == exit.Done || strings.Count(told, "It is left out") != 1 || !strings.Contains(told, "nas:/srv/home: its command ended with exit status 255: syncthing-audit: no route") ||
			!strings.Contains(answer, "no route") {
			t.Errorf("%s: status %d, %v, %s, %s", which, status, err, told, answer)
		}
	}
}

// An older program can't say what it shares before it looks: that is told, and it is looked at all the same.
func TestARunOfAnOlderProgram(t *testing.T) {
	m := newMachines(t)
	m.fail(1, "about", exit.Usage, "flag provided but not defined: -about")
	answer, told, status, err := m.run()
	if err != nil || status != exit.Done || !strings.HasPrefix(answer, "docs (Documents): in step") || !strings.Contains(told, "nas:/srv/home: the syncthing-audit there is older, and doesn't say what is shared") {
		t.Errorf("status %d, %v, %s, %s", status, err, told, answer)
	}
}

// The answer is given in the form that was asked for; time goes by between the looks as it was asked.
func TestFormsOfARun(t *testing.T) {
	m := newMachines(t)
	m.asked.Lines, m.asked.Still, m.asked.HasStill = true, 0.3, true
	began := time.Now()
	answer, told, status, err := m.run()
	if err != nil || status != exit.Done || !strings.Contains(told, namesOfMachines[1]) || strings.HasPrefix(answer, "docs (Documents): in step") || time.Since(began) < 300*time.Millisecond {
		t.Errorf("status %d, %v, %s, %s", status, err, told, answer)
	}
	if asked := m.read("nas-asked"); !strings.Contains(asked, "part --end --tokens - --leave-out absent --still 0.3 ") {
		t.Errorf("%q", asked)
	}
	m.asked.Lines, m.asked.JSON, m.asked.Still = false, true, 0
	answer, _, status, err = m.run()
	if err != nil || status != exit.Done || !json.Valid([]byte(answer)) {
		t.Errorf("status %d, %v, %s", status, err, answer)
	}
	m.asked.JSON, m.asked.DryRun = false, true
	if answer, _, status, err = m.run(); err != nil || status != exit.Done || !strings.Contains(answer, "laptop.begin") || !strings.Contains(answer, "sleep 0\n") {
		t.Errorf("status %d, %v, %s", status, err, answer)
	}
}
