package night

import (
	"errors"
	"fmt"
	"io"
	"os"
	"path/filepath"
	"reflect"
	"strings"
	"testing"
	"time"

	"github.com/syncthing/syncthing/lib/protocol"
	"syncthing-audit/choice"
	"syncthing-audit/commandline"
	"syncthing-audit/device"
	"syncthing-audit/exit"
	"syncthing-audit/part"
	"syncthing-audit/shell"
	"syncthing-audit/summary"
	"syncthing-audit/watch"
)

// room is a night in a directory of its own, with whoever is told, and what is printed.
type room struct {
	night
	directory   string
	output, log strings.Builder
}

// newRoom gives a night whose state, metrics and page are in a directory, and which tells into files there.
func newRoom(t *testing.T) *room {
	at := t.TempDir()
	r := &room{directory: at}
	in := func(name string) string { return filepath.Join(at, name) }
	r.night = night{home: at, began: time.Date(2026, 11, 30, 3, 0, 0, 0, time.UTC), output: &r.output, log: &r.log, config: &watch.Config{State: []watch.Place{{Path: "~/state"}},
		Metrics: []watch.Place{{Path: "~/metrics"}}, Page: []watch.Place{{Path: "~/page.html"}}, Ping: []watch.Command{{Command: "echo pinged >> " + in("pinged")}},
		Notify: []watch.Command{{Command: "echo \"$SUBJECT\" >> " + in("subject") + "; cat >> " + in("text")}}}}
	return r
}

// read gives what is in a file of the night; nothing where there is none.
func (r *room) read(name string) string {
	text, _ := os.ReadFile(filepath.Join(r.directory, name))
	return string(text)
}

// write makes a file of the night.
func (r *room) write(t *testing.T, name, text string) {
	path := filepath.Join(r.directory, name)
	err := os.MkdirAll(filepath.Dir(path), 0o700)
	if err == nil {
		err = os.WriteFile(path, []byte(text), 0o600)
	}
	if err != nil {
		t.Fatal(err)
	}
}

// A night that can't begin, or fails by a fault of this program, tells why to whoever is to know, and measures that there is no answer.
func TestNightsWithoutAnAnswer(t *testing.T) {
	for why, row := range map[string]struct {
		change        func(*room)
		subject, text string
	}{
		"another night goes on": {func(r *room) {
			state, err := watch.OpenState(filepath.Join(r.directory, "state"))
			if err != nil {
				t.Fatal(err)
			}
			t.Cleanup(state.Close)
		}, "no audit", "another night goes on: it has the lock of "},
		"there is no place": {func(r *room) { r.write(t, "state", "") }, "no audit", "what the last night left can't be read: "},
		"a fault":           {func(r *room) { r.config.Slices = []watch.Slices{{Count: 0}} }, "no answer, a fault of the nightly audit", "runtime error: integer divide by zero"},
	} {
		r := newRoom(t)
		row.change(r)
		if status := r.run(); status != exit.Refused {
			t.Errorf("%s: status %d", why, status)
		}
		if r.read("subject") != row.subject+"\n" || !strings.HasPrefix(r.read("text"), row.text) || !strings.HasPrefix(r.log.String(), "syncthing-audit: "+row.text) {
			t.Errorf("%s: %s%s%s", why, r.read("subject"), r.read("text"), r.log.String())
		}
		if why == "a fault" && (!strings.Contains(r.read("text"), "night.(*night).run") || strings.Count(r.read("text"), "\n") < 9) {
			t.Errorf("no traces: %s", r.read("text"))
		}
		if !strings.Contains(r.read("metrics"), "\nsyncthing_audit_status 2\n") || r.read("pinged") != "" || r.output.Len() > 0 {
			t.Errorf("%s: %s, %q, %q", why, r.read("metrics"), r.read("pinged"), r.output.String())
		}
	}
}

// Who can't be told of a night without an answer is told in the log.
func TestNobodyIsTold(t *testing.T) {
	r := newRoom(t)
	r.config.Notify[0].Command = "exit 7"
	r.write(t, "state", "")
	if status := r.run(); status != exit.Refused || !strings.HasSuffix(r.log.String(), "\nsyncthing-audit: <notify>: exit status 7\n") {
		t.Errorf("%d, %s", status, r.log.String())
	}
}

// What the night before left is told: that it is lost, or that it came to tell nothing. Where nothing can be kept no history is written, but that a budget chooses by.
func TestWhatTheNightBeforeLeft(t *testing.T) {
	lost, untold, unkept := "what the night before left is lost, so some of what is told below may have been told before: ",
		"the night before ended before it told what is new, or couldn't note that it had: all that lasts is told below",
		"nothing can be kept for the next night, so it isn't known what is new, and it is told again: "
	for left, row := range map[string]struct {
		news, faults []string
	}{
		"": {}, `{"month":"2026-11"}`: {}, `{`: {news: []string{lost}}, `{"month":"2026-11","untold":true}`: {news: []string{untold}}, "a directory": {news: []string{lost}, faults: []string{unkept}},
	} {
		r := newRoom(t)
		switch left {
		case "":
		case "a directory":
			r.write(t, "state/watch.json/x", "")
		default:
			r.write(t, "state/watch.json", left)
		}
		status := r.run()
		if isUnkept := len(row.faults) > 0; r.isUnkept != isUnkept || (status == exit.Done) == isUnkept || !begins(r.news, row.news) || !begins(r.faults[:len(row.faults)], row.faults) {
			t.Errorf("%s: status %d, %q, %q", left, status, r.news, r.faults)
		}
		for _, budget := range []int64{0, 5} {
			seen := ""
			r.audit("run", func(asked commandline.Options, _, _ io.Writer) (int, error) {
				seen = asked.History
				return exit.Done, nil
			}, commandline.Options{History: "history", Budget: budget})
			if isKept := seen == "history"; isKept != (!r.isUnkept || budget > 0) {
				t.Errorf("%s, with a budget of %d: the history is %q", left, budget, seen)
			}
		}
	}
}

// begins says whether each text begins with its begin.
func begins(texts, begins []string) bool {
	for place := range texts {
		if place >= len(begins) || !strings.HasPrefix(texts[place], begins[place]) {
			return false
		}
	}
	return len(texts) == len(begins)
}

// Each way to look at devices has an audit of its own, and devices that are asked over the wire have one of each folder.
func TestTheAuditsOfANight(t *testing.T) {
	for _, row := range []struct {
		devices, parts, observed int
		folders                  string
		names                    string
	}{
		{0, 0, 0, "docs", ""}, {1, 0, 0, "", "run"}, {2, 0, 0, "docs", "run"}, {0, 1, 0, "", "parts"}, {0, 0, 1, "docs pics", "observe docs|observe pics"}, {0, 0, 1, "", ""}, {1, 1, 1, "docs", "run|parts|observe docs"},
	} {
		r := newRoom(t)
		r.state = &watch.State{Limits: map[string]watch.Limits{}}
		for count := 0; count < row.devices; count++ {
			r.config.Devices = append(r.config.Devices, watch.Device{Place: "/nowhere"})
		}
		for count := 0; count < row.parts; count++ {
			r.config.Parts = append(r.config.Parts, watch.Parts{Directory: "/nowhere", Hours: 30})
		}
		for count := 0; count < row.observed; count++ {
			r.config.Observed = append(r.config.Observed, watch.Observed{ID: "odd", Address: "tcp://127.0.0.1:1"})
		}
		for _, id := range strings.Fields(row.folders) {
			r.config.Folders = append(r.config.Folders, watch.Folder{ID: id})
		}
		r.auditAll()
		names := []string{}
		for _, audit := range r.audits {
			names = append(names, audit.name)
			if audit.answer != nil || audit.status == exit.Done || audit.told == "" || !strings.Contains(r.log.String(), audit.told) {
				t.Errorf("%s: %+v", audit.name, audit)
			}
		}
		if strings.Join(names, "|") != row.names {
			t.Errorf("%+v: %q", row, names)
		}
	}
}

// What each audit is asked is what the configuration says: paths of this machine with its ~, those of another one as they are.
func TestWhatAnAuditIsAsked(t *testing.T) {
	r := newRoom(t)
	r.asked = commandline.Options{Program: "/bin/true", Jobs: 3, HasJobs: true, Still: 4, HasStill: true, Budget: 5}
	r.due = choice.Names{Slice: 2, Slices: 7}
	r.config.Folders = []watch.Folder{{ID: "docs"}, {ID: "pics"}}
	r.config.Devices = []watch.Device{{Place: "~/home", Data: "~/data"}, {Place: "nas:", Data: "~/data"}, {Place: "laptop:~/x", Paths: []watch.Path{{From: "/var", To: "/srv"}}}}
	r.config.Observed = []watch.Observed{{ID: "A", Address: "tcp://a:22000"}, {ID: "B", Address: "dynamic"}}
	to, err := device.ParseMap("/var=/srv")
	if err != nil {
		t.Fatal(err)
	}
	due := commandline.Options{Program: "/bin/true", Jobs: 3, HasJobs: true, Still: 4, HasStill: true, Names: r.due, LeaveOut: map[string]bool{}, Data: map[int]string{}, Maps: map[int]device.Maps{}}
	run := due
	run.History, run.Folders, run.Parts = filepath.Join(r.directory, "state/history of run"), []string{"docs", "pics"}, []string{filepath.Join(r.directory, "home"), "nas:", "laptop:~/x"}
	run.Data, run.Maps = map[int]string{0: filepath.Join(r.directory, "data"), 1: "~/data"}, map[int]device.Maps{0: {}, 1: {}, 2: {to}}
	if asked := r.optionsOfRun(); !reflect.DeepEqual(asked, run) {
		t.Errorf("%+v\nnot\n%+v", asked, run)
	}
	observe := due
	observe.History, observe.Folders, observe.Parts, observe.Budget = filepath.Join(r.directory, "state/history of observe"), []string{"pics"}, []string{"A@tcp://a:22000", "B@dynamic"}, 5
	if asked := r.optionsOfObserve("pics"); !reflect.DeepEqual(asked, observe) {
		t.Errorf("%+v\nnot\n%+v", asked, observe)
	}
}

// Parts are audited that are of tonight's names; old ones are told and audited, others are told, and one that can't be read is the audit's to tell.
func TestThePartsOfANight(t *testing.T) {
	r := newRoom(t)
	r.config.Parts = []watch.Parts{{Directory: "~/parts", Hours: 30, Signers: "~/signers"}}
	if err := os.Mkdir(filepath.Join(r.directory, "parts"), 0o700); err != nil {
		t.Fatal(err)
	}
	id := protocol.DeviceID{7: 1}.String()
	for name, head := range map[string]*part.Head{
		"new": {Name: "new", Made: r.began.Add(-30 * time.Hour)}, "old": {Name: "old\x1b", Made: r.began.Add(-31 * time.Hour)}, "unnamed": {Made: r.began.Add(-100 * time.Hour)},
		"ahead": {Name: "ahead", Made: r.began.Add(2 * time.Hour)}, "nearly": {Name: "nearly", Made: r.began.Add(part.MostAhead)},
		"slice": {Name: "slice", Made: r.began, Names: choice.Names{Slice: 1, Slices: 2}},
	} {
		head.Device, head.Folders, head.Others = id, []part.Folder{{ID: "docs", Kind: "send-receive", IndexID: 1}}, []part.Other{}
		head.Version = head.DueVersion()
		writePart(t, filepath.Join(r.directory, "parts", name+".part"), head, []part.Line{{Begin: &part.Begin{Folder: "docs"}}, {End: &part.End{Folder: "docs", Last: true}}})
	}
	r.write(t, "parts/damaged.part", "x")
	r.write(t, "parts/away.part/x", "")
	r.faults = []string{"a fault before"}
	asked, paths := r.optionsOfParts(), []string{}
	for _, path := range asked.Parts {
		paths = append(paths, filepath.Base(path))
	}
	if strings.Join(paths, " ") != "ahead.part damaged.part nearly.part new.part old.part unnamed.part" || asked.Signers != filepath.Join(r.directory, "signers") || asked.History != filepath.Join(r.directory, "state/history of parts") {
		t.Errorf("%q, %+v", paths, asked)
	}
	quoted := func(name string) string { return shell.Quoted(filepath.Join(r.directory, "parts", name)) }
	due := []string{"a fault before", quoted("away.part") + " is no file, so it isn't read",
		"the part of ahead says that it was made 2 hours from now, so how old it is isn't known: set the device's clock: " + quoted("ahead.part"), "the part of old? is 31 hours old: " + quoted("old.part"),
		"the part of slice has " + (choice.Names{Slice: 1, Slices: 2}).Words() + ", and tonight's audit is of " + (choice.Names{}).Words() + ": " + quoted("slice.part"),
		"the part of " + id + " is 100 hours old: " + quoted("unnamed.part")}
	if !reflect.DeepEqual(r.faults, due) {
		t.Errorf("%q\nnot\n%q", r.faults, due)
	}
}

// An audit's answer is kept with what is new in it, which the next night knows; of one without an answer the words are kept that say why.
func TestWhatIsKeptOfAnAudit(t *testing.T) {
	r := newRoom(t)
	r.state = &watch.State{Limits: map[string]watch.Limits{"other": {"x": 3}}}
	out := summary.LeftOut{Folder: "docs", Device: "nas", Kind: part.Absent, Why: "it is off"}
	answering := func(answer *summary.Summary, status int, err error) func(commandline.Options, io.Writer, io.Writer) (int, error) {
		return func(asked commandline.Options, output, log io.Writer) (int, error) {
			io.WriteString(output, "told\n")
			io.WriteString(log, "logged\n")
			asked.Take(answer)
			return status, err
		}
	}
	for _, name := range []string{"run", "parts"} {
		r.audit(name, answering(&summary.Summary{LeftOut: []summary.LeftOut{out}, Earlier: []summary.LeftOut{out}}, exit.Partial, nil), commandline.Options{})
	}
	r.audit("odd", answering(&summary.Summary{}, exit.Done, errors.New("it failed")), commandline.Options{})
	audits := []string{}
	for _, audit := range r.audits {
		audits = append(audits, fmt.Sprintf("%s %d %q %v", audit.name, audit.status, audit.told, audit.answer != nil))
	}
	if strings.Join(audits, "|") != `run 6 "told\n" true|parts 6 "told\n" true|odd 2 "told\nlogged\nsyncthing-audit: it failed\n" false` {
		t.Errorf("%q", audits)
	}
	if strings.Join(r.news, "|") != "left out: docs of nas: it is off|of another moment: docs of nas: it is off|left out: docs of nas: it is off" {
		t.Errorf("%q", r.news)
	}
	if len(r.state.Limits) != 3 || len(r.state.Limits["run"]) != 2 || len(r.state.Limits["other"]) != 1 || r.log.String() != "logged\nlogged\nlogged\nsyncthing-audit: it failed\n" {
		t.Errorf("%v, %q", r.state.Limits, r.log.String())
	}
	r.news = nil
	if r.audit("run", answering(&summary.Summary{LeftOut: []summary.LeftOut{out}}, exit.Partial, nil), commandline.Options{}); len(r.news) > 0 {
		t.Errorf("what the night before told is told again: %q", r.news)
	}
}

// A night that is asked for is made as its configuration says; one whose configuration is none tells that, to whom it names.
func TestANightThatIsAskedFor(t *testing.T) {
	r := newRoom(t)
	t.Setenv("HOME", r.directory)
	notify := `<notify command="echo &quot;$SUBJECT&quot; &gt;&gt; ` + filepath.Join(r.directory, "subject") + `; cat &gt;&gt; ` + filepath.Join(r.directory, "text") + `"/>`
	for text, told := range map[string]string{
		`<watch><parts directory="~/none"/>` + notify + `</watch>`: "",
		`<watch>` + notify + `</watch>`:                            "it names no <device>",
		`<watch><observed id="A" address="tcp://a:22000"/><folder id="docs"/><budget bytes="1"/>` + notify + `</watch>`: `<budget bytes="1">: `,
	} {
		r.write(t, "watch.xml", text)
		for _, name := range []string{"subject", "text"} {
			os.Remove(filepath.Join(r.directory, name))
		}
		var output, log strings.Builder
		status, err := Run(commandline.Options{Parts: []string{filepath.Join(r.directory, "watch.xml")}, Program: "/bin/true", Jobs: 1}, &output, &log)
		if err != nil || told != "" && status != exit.Refused || told == "" && status != exit.Usage {
			t.Errorf("%s: %d, %v", text, status, err)
		}
		if told != "" && (r.read("subject") != "no audit\n" || !strings.HasPrefix(r.read("text"), shell.Quoted(filepath.Join(r.directory, "watch.xml"))+": "+told) || output.Len() > 0) {
			t.Errorf("%s: %s%s", text, r.read("subject"), r.read("text"))
		}
		if told == "" && (!strings.HasPrefix(r.read("subject"), "no answer, status 3") || r.read(".local/state/syncthing-audit/watch/watch.json") == "") {
			t.Errorf("%s: %s%s", text, r.read("subject"), r.read("text"))
		}
	}
	if at := Directory(r.config, r.home); at != filepath.Join(r.directory, "state") {
		t.Error(at)
	}
	t.Setenv("HOME", "")
	if status, err := Run(commandline.Options{}, io.Discard, io.Discard); err == nil || status != 0 {
		t.Errorf("a user without a home has a night: %d, %v", status, err)
	}
}
