package places

import (
	"encoding/json"
	"fmt"
	"io"
	"os"
	"path/filepath"
	"strings"
	"testing"
	"time"

	"github.com/syncthing/syncthing/lib/protocol"
	"github.com/syncthing/syncthing/lib/tlsutil"
	"syncthing-audit/commandline"
	"syncthing-audit/device"
	"syncthing-audit/exit"
	"syncthing-audit/finding"
	"syncthing-audit/join"
	"syncthing-audit/looks"
	"syncthing-audit/part"
)

// The machine of a place stands before a colon that comes before any slash.
func TestMachinesOfPlaces(t *testing.T) {
	for word, due := range map[string]string{"laptop:": "laptop", "ann@laptop:home": "ann@laptop", "laptop:/srv/a:b": "laptop", "/srv/a:b": "", "./a:b": "", "laptop": "", "": ""} {
		if host := HostOf(word); host != due {
			t.Errorf("%q: %q, not %q", word, host, due)
		}
	}
}

// Words that name no place are refused, as are paths of a home, or its database, that isn't named.
func TestWordsThatNameNoPlace(t *testing.T) {
	room := t.TempDir()
	for place, row := range []struct {
		word, data string
		maps       device.Maps
		told       string
	}{
		{":", "", nil, `":" names no machine`}, {"-x:", "", nil, `"-x:" names no machine`}, {"laptop:", "data", nil, `--data behind "laptop:" says where`},
		{"laptop:", "", device.Maps{{From: "/a", To: "/b"}}, `--map behind "laptop:" says where`}, {"laptop:home", "data", device.Maps{{From: "/a", To: "/b"}}, ""},
		{room, "data", device.Maps{{From: "/a", To: "/b"}}, ""}, {"laptop:", "", nil, ""},
	} {
		_, err := placesOf(commandline.Options{Parts: []string{row.word}, Data: map[int]string{0: row.data}, Maps: map[int]device.Maps{0: row.maps}})
		if (err != nil) != (row.told != "") || err != nil && !strings.Contains(err.Error(), row.told) {
			t.Errorf("%d: %v", place, err)
		}
	}
}

// What is asked for goes to each command that it concerns, and to no other one.
func TestWhatIsAskedOfADevice(t *testing.T) {
	there := &place{self: "here", given: "home", home: "home", maps: device.Maps{{From: "/a", To: "/b"}}}
	for why, row := range map[string]struct {
		asked             commandline.Options
		about, begin, end string
	}{
		"nothing": {commandline.Options{}, "", "", ""},
		"a scan":  {commandline.Options{Rescan: true}, " --rescan", " --rescan", ""},
		"jobs":    {commandline.Options{Jobs: 3, HasJobs: true}, "", " --jobs 3", ""},
		"usual":   {commandline.Options{Jobs: 3}, "", "", ""},
	} {
		const of = " --home home --map /a=/b --paths -o -"
		due := "here part --about" + row.about + of + "|nice -n 19 here part --begin" + row.begin + of + "|here part --end --tokens - --leave-out absent" + row.end + of
		told := strings.Join(there.about(row.asked), " ") + "|" + strings.Join(there.begin(row.asked), " ") + "|" + strings.Join(there.end(row.asked), " ")
		if told != due {
			t.Errorf("%s: %q, not %q", why, told, due)
		}
	}
}

// All of what a failed command said is shown, up to twice as much as of a longer one is shown at each of its ends.
func TestHowMuchIsShown(t *testing.T) {
	text := strings.Repeat("a", mostShown) + strings.Repeat("b", mostShown)
	for _, most := range []string{"", "a", text} {
		if shown(most) != most {
			t.Errorf("%d bytes are cut", len(most))
		}
	}
	if told := shown(text[:mostShown] + "x" + text[mostShown:]); told != text[:mostShown]+" [1 bytes more] "+text[mostShown:] {
		t.Errorf("%q", told)
	}
}

// The second look waits from when the last of the first ones was over, and the cluster was still from then until the first of the second ones began.
func TestHowLongItWasStill(t *testing.T) {
	at := time.Unix(1700000000, 0)
	for _, order := range [][]int{{0, 1, 2}, {2, 1, 0}, {1, 2, 0}} {
		run := &running{began: at.Add(9 * time.Second)}
		for _, seconds := range order {
			run.places = append(run.places, &place{looked: at.Add(time.Duration(seconds) * time.Second)})
		}
		if last := run.lastLook(); !last.Equal(at.Add(2 * time.Second)) {
			t.Errorf("%v: %v", order, last)
		}
		answer := &finding.Answer{Folders: []*finding.Folder{{Live: finding.NewLive()}, {}}}
		if run.time(answer); *answer.Folders[0].Live.Seconds != 7 || answer.Folders[1].Live != nil {
			t.Errorf("%+v", answer.Folders[0].Live)
		}
	}
}

// A place that is left out is told with its device: as it said, or as it is kept, or by the key of a home here.
func TestPlacesThatAreLeftOut(t *testing.T) {
	said, kept, home := &place{given: "laptop:", host: "laptop", device: idAt(1)}, &place{given: "nas:b", host: "nas", home: "b"}, &place{given: "/none", home: "/none"}
	run := &running{places: []*place{said, kept, home, {given: "on:", host: "on"}}, known: &knownDevices{ids: map[string]string{"nas:b": idAt(2), "laptop:": idAt(3), "/none": idAt(4), ":/none": idAt(5), "": idAt(6)}}, log: io.Discard}
	for at := 0; at < 3; at++ {
		run.leaveOut(at, "first look", fmt.Errorf("why %d", at))
	}
	told := ""
	for _, left := range run.left() {
		told += left.Called + " " + left.Device + " " + left.Why + "|"
	}
	if told != "laptop "+idAt(1)+" why 0|nas:b "+idAt(2)+" why 1|/none  why 2|" || fmt.Sprint(run.present()) != "[3]" {
		t.Errorf("%q, %v", told, run.present())
	}
}

// A person is told each step; a machine's own words are told behind its name. What was opened for a look is closed behind it.
func TestStepsOfALook(t *testing.T) {
	m := newMachines(t)
	for _, which := range []string{"begin", "end"} {
		m.write("nas-"+which+".says", "syncthing-audit: slow\nunsaid\n")
	}
	there, err := placesOf(m.asked)
	if err != nil {
		t.Fatal(err)
	}
	var log, progress strings.Builder
	before := countOfFiles(t)
	for round := 0; round < 3; round++ {
		run := &running{asked: m.asked, places: there, room: t.TempDir(), log: &log, progress: &progress}
		if err := run.begin(1); err != nil {
			t.Fatal(err)
		}
		if err := run.end(1); err != nil {
			t.Fatal(err)
		}
		if about, err := os.Stat(run.file(1, "begin")); err != nil || about.Mode() != 0o600 {
			t.Errorf("%v, %v", about, err)
		}
	}
	if due := strings.Repeat("syncthing-audit: nas:/srv/home: slow\n", 6); log.String() != due {
		t.Errorf("%q, not %q", log.String(), due)
	}
	for _, which := range []string{"first", "second"} {
		if told := strings.Count(progress.String(), "syncthing-audit: nas:/srv/home: "+which+" look done in "); told != 3 {
			t.Errorf("%d of 3 are told: %q", told, progress.String())
		}
	}
	if after := countOfFiles(t); after > before {
		t.Errorf("%d files more are open than before", after-before)
	}
}

func countOfFiles(t *testing.T) int {
	open, err := os.ReadDir("/proc/self/fd")
	if err != nil {
		t.Skip(err)
	}
	return len(open)
}

// The answer names places, and how long the cluster was still by this machine's clock. Second looks are given a token of each device that keeps no files.
func TestWhatARunTells(t *testing.T) {
	m := newMachines(t)
	m.asked.Observers = []string{idAt(7)}
	answer, _, status, err := m.run()
	if err != nil || status != exit.Done || !strings.Contains(answer, "still for 0 s") {
		t.Errorf("status %d, %v: %s", status, err, answer)
	}
	if tokens := m.read("nas-tokens"); !strings.HasSuffix(tokens, looks.Token(idAt(7), strings.Repeat("0", 32))+"\n") || strings.Count(tokens, "\n") != 3 {
		t.Errorf("%q", tokens)
	}
	m.asked.Lines = true
	_, told, _, err := m.run()
	if err != nil || !strings.Contains(told, "device 1 is "+idAt(1)+" (laptop:)") || !strings.Contains(told, "device 2 is "+idAt(2)+" (nas:/srv/home)") {
		t.Errorf("%v: %s", err, told)
	}
	m.asked.Lines, m.asked.JSON = false, true
	answer, _, _, err = m.run()
	var said struct{ Devices []struct{ ID, From string } }
	if json.Unmarshal([]byte(answer), &said) != nil || strings.Contains(answer, "not_signed") || err != nil || fmt.Sprint(said.Devices) != fmt.Sprintf("[{%s laptop:} {%s nas:/srv/home}]", idAt(1), idAt(2)) {
		t.Errorf("%v: %s", err, answer)
	}
	m.asked.JSON = false
	text := m.read("laptop-end")
	m.write("laptop-end", text[:len(text)-9])
	if answer, _, status, err = m.run(); err == nil || status != 0 || answer != "" || !strings.Contains(err.Error(), "laptop:") || strings.Contains(err.Error(), ".part") {
		t.Errorf("status %d, %v: %s", status, err, answer)
	}
}

// A part of an older program, which doesn't say what else is shared, is taken for all that is where all folders were asked for.
func TestPartsOfAnOlderProgram(t *testing.T) {
	m := newMachines(t)
	for place := range namesOfMachines {
		for _, which := range []string{"begin", "end"} {
			m.look(place, which, func(head *part.Head, _ *part.Name) { head.Others = nil })
		}
	}
	answer, _, status, err := m.run()
	if err != nil || status != exit.Done {
		t.Errorf("of all folders: status %d, %v: %s", status, err, answer)
	}
	m.asked.Folders = []string{"docs"}
	if of, _, status, err := m.run(); err != nil || of == answer {
		t.Errorf("of one: status %d, %v: %s", status, err, of)
	}
}

// Where nobody knows where the user's files are, nobody is known: that refuses a run of other machines.
func TestARunWithoutAHome(t *testing.T) {
	m := newMachines(t)
	t.Setenv("HOME", "")
	t.Setenv("XDG_STATE_HOME", filepath.Join(m.room, "state"))
	if answer, _, status, err := m.run(); err == nil || status != 0 || answer != "" || m.read("nas-asked") != "" {
		t.Errorf("status %d, %v: %s", status, err, answer)
	}
}

// Nobody waits for a place that is left out.
func TestWhoIsLeftOutIsNotAwaited(t *testing.T) {
	log := &tellings{twice: make(chan bool)}
	run := &running{places: []*place{{given: "off:"}, {given: "slow:"}}, out: map[int]string{0: "off"}, log: log, patience: 20 * time.Millisecond}
	if err := run.all("first look", func(at int) error {
		<-log.twice
		return nil
	}); err != nil {
		t.Fatal(err)
	}
	for _, line := range log.lines {
		if !strings.HasPrefix(line, "syncthing-audit: first look: waiting for slow: for ") {
			t.Errorf("%q", line)
		}
	}
}

// A place of which each folder's directory is away is left out, and no other one.
func TestPlacesWhoseFoldersAreAway(t *testing.T) {
	docs := []part.Folder{{ID: "docs"}}
	for why, row := range map[string]struct {
		folders []part.Folder
		others  []part.Other
		isOut   bool
	}{
		"away": {nil, []part.Other{{ID: "docs", Away: "gone"}}, true}, "one of two": {docs, []part.Other{{ID: "pics", Away: "gone"}}, false}, "none": {nil, nil, false},
		"not away": {nil, []part.Other{{ID: "docs"}}, false}, "the second one": {nil, []part.Other{{ID: "docs"}, {ID: "pics", Away: "gone"}}, true},
	} {
		var log strings.Builder
		run := &running{places: []*place{{given: "nas:", host: "nas"}}, log: &log}
		run.leaveOutAway(0, &join.Device{Head: &part.Head{Folders: row.folders, Others: row.others}})
		if run.isOut(0) != row.isOut || strings.Count(log.String(), "asking what is shared: nas: ") != len(run.out) {
			t.Errorf("%s: %v, %q", why, run.out, log.String())
		}
	}
}

// The recipe has both looks at each place, and what joins them.
func TestTheWholeRecipe(t *testing.T) {
	var output strings.Builder
	asked := commandline.Options{DryRun: true, Still: 15, HasStill: true, Program: "audit"}
	if err := tellCommands(&output, []*place{{self: "here", home: "one"}, {self: "here", home: "a b"}}, asked); err != nil {
		t.Fatal(err)
	}
	const due = `# 'run' asks first what each device shares (part --about). With --strict it refuses by that before any file is hashed. Here 'check' does, at the end.
# The first looks, at once or one after another. Each tells its token on standard error.
nice -n 19 here part --begin --home one --paths -o - < /dev/null > one.begin 2> one.log
nice -n 19 here part --begin --home 'a b' --paths -o - < /dev/null > 'a b.begin' 2> 'a b.log'
# Once all are over: the tokens of all, one on a line.
grep -hE '^[0-9A-Z-]{63}:[0-9a-f]{32}$' one.log 'a b.log' > tokens
sleep 15
# The second looks. A device doesn't know whose looks are asked for, so each goes on without the tokens of others (--leave-out
# absent). 'check' leaves out a device that is missing, or that another one has no token of.
here part --end --tokens - --leave-out absent --still 15 --home one --paths -o - < tokens > one.end
here part --end --tokens - --leave-out absent --still 15 --home 'a b' --paths -o - < tokens > 'a b.end'
here check --syncaudit audit one.begin 'a b.begin' one.end 'a b.end'
`
	if output.String() != due {
		t.Errorf("%s", output.String())
	}
}

// What a command writes takes nothing's place, and a command that isn't there is told by its name.
func TestCommandsThatAreNotRun(t *testing.T) {
	path := filepath.Join(t.TempDir(), "part")
	there := standInForSSH(t, "echo part")
	for place, due := range []string{"", "file exists"} {
		_, err := there.run(there.about(commandline.Options{}), strings.NewReader(""), path, boundsOfAbout)
		if (err != nil) != (due != "") || err != nil && !strings.HasSuffix(err.Error(), due) {
			t.Errorf("%d: %v", place, err)
		}
	}
	if text, err := os.ReadFile(path); err != nil || string(text) != "part\n" {
		t.Errorf("%q, %v", text, err)
	}
	none := &place{given: "home", self: filepath.Join(filepath.Dir(path), "none")}
	if _, err := none.run(none.about(commandline.Options{}), strings.NewReader(""), path+"-", boundsOfAbout); err == nil || !strings.HasPrefix(err.Error(), "home: "+none.self+" can't be run: ") {
		t.Errorf("%v", err)
	}
}

// A home here that is left out is told with the device of its key.
func TestAHomeThatIsLeftOut(t *testing.T) {
	home := t.TempDir()
	certificate, err := tlsutil.NewCertificate(filepath.Join(home, "cert.pem"), filepath.Join(home, "key.pem"), "syncthing", 1)
	if err != nil {
		t.Fatal(err)
	}
	run := &running{places: []*place{{given: home, home: home}}, known: &knownDevices{ids: map[string]string{}}, log: io.Discard}
	run.leaveOut(0, "first look", io.ErrUnexpectedEOF)
	if left := run.left(); len(left) != 1 || left[0].Device != protocol.NewDeviceID(certificate.Certificate[0]).String() {
		t.Errorf("%+v", left)
	}
}
