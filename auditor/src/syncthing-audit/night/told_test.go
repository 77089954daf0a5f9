package night

import (
	"encoding/json"
	"fmt"
	"os"
	"path/filepath"
	"strings"
	"testing"
	"time"

	"syncthing-audit/amount"
	"syncthing-audit/choice"
	"syncthing-audit/exit"
	"syncthing-audit/history"
	"syncthing-audit/page"
	"syncthing-audit/summary"
	"syncthing-audit/watch"
)

// answered gives an audit with this status and so many names.
func answered(name string, status int, wrong int64) audited {
	return audited{name: name, status: status, told: name + " is told\n", answer: &summary.Summary{Devices: []summary.Device{{ID: "A"}, {ID: name}},
		Folders: []*summary.Folder{{ID: "docs", Wrong: wrong, Bytes: 100e6}, {ID: "pics", Wrong: 1, Bytes: 20e6}},
		Since:   &history.Since{New: history.List{Count: 3}, Mended: history.List{Count: 4}}}}
}

// The status of a night is that of an audit without an answer, else the worst; a fault of the night itself is never 0. Its words say how all is.
func TestTheStatusOfANight(t *testing.T) {
	none := audited{name: "none", status: exit.Fault}
	for _, row := range []struct {
		audits []audited
		faults int
		status int
		words  string
	}{
		{nil, 0, exit.Done, "in step"},
		{[]audited{answered("a", exit.Done, 0)}, 0, exit.Done, "in step"},
		{[]audited{answered("a", exit.Done, 0), answered("b", exit.Partial, 0)}, 0, exit.Partial, "in step as far as audited"},
		{[]audited{answered("a", exit.Partial, 0), answered("b", exit.Done, 0)}, 0, exit.Partial, "in step as far as audited"},
		{[]audited{answered("a", exit.Partial, 0), answered("b", exit.NotSettled, 0), answered("c", exit.Partial, 0)}, 0, exit.NotSettled, "NOT in step"},
		{[]audited{answered("a", exit.NotSettled, 0), answered("b", exit.Done, 0)}, 1, exit.NotSettled, "NOT in step"},
		{[]audited{answered("a", exit.Done, 0)}, 1, exit.Refused, "in step, and the night itself has a fault"},
		{[]audited{answered("a", exit.Partial, 0)}, 1, exit.Partial, "in step as far as audited"},
		{[]audited{answered("a", exit.NotSettled, 0), none}, 0, exit.Fault, fmt.Sprintf("no answer, status %d", exit.Fault)},
		{[]audited{{name: "none", status: exit.Refused}}, 1, exit.Refused, "no answer, status 2"},
		{[]audited{{name: "none", status: exit.NotSettled}}, 0, exit.NotSettled, "no answer, status 1"},
	} {
		for _, due := range []choice.Names{{}, {Slice: 2, Slices: 3}} {
			n := &night{audits: row.audits, faults: make([]string, row.faults), due: due}
			words := row.words
			if due.IsOfSlice() {
				words += ", " + due.Words()
			}
			if status := n.status(); status != row.status || n.subject(status) != words {
				t.Errorf("%+v: status %d, %q", row, status, n.subject(status))
			}
		}
	}
}

// The text of a night has what is new, its faults and the answers, each with its name where there are several; in short it counts them all.
func TestTheTextOfANight(t *testing.T) {
	r := newRoom(t)
	r.audits = []audited{answered("a", exit.Done, 5)}
	if text := r.text(); text != "a is told\n" {
		t.Errorf("%q", text)
	}
	if answers := r.answers(); len(answers) != 1 || answers[0].Audit != "" || answers[0].Text != "a is told\n" || !answers[0].At.Equal(r.began) {
		t.Errorf("%+v", answers)
	}
	r.audits = append(r.audits, answered("b", exit.Partial, 6), audited{name: "none", status: exit.Refused, told: "why\n"})
	r.news, r.faults = []string{"it is new"}, []string{"it is odd"}
	if text := r.text(); text != "it is new\nit is odd\n\n== a\na is told\n\n== b\nb is told\n\n== none\nwhy\n" {
		t.Errorf("%q", text)
	}
	if text := (&night{audits: r.audits}).text(); text != "== a\na is told\n\n== b\nb is told\n\n== none\nwhy\n" {
		t.Errorf("%q", text)
	}
	short := r.inShort(exit.Refused)
	if short.Wrong != 13 || short.Bytes != 240e6 || short.New != 6 || short.Mended != 8 || short.Status != exit.Refused || short.Words != "no answer, status 2" || !short.At.Equal(r.began) {
		t.Errorf("%+v", short)
	}
	if answers := r.answers(); len(answers) != 3 || answers[1].Audit != "b" || answers[1].Status != exit.Partial || answers[2].Status != exit.Refused || !answers[2].Seen.IsZero() {
		t.Errorf("%+v", answers)
	}
	r.audits = r.audits[:2]
	r.audits[1].answer.Since.Emptied = []history.Emptied{{Files: 12}}
	if short := r.inShort(exit.Partial); short.Gone != 12 || short.Words != "12 FILES ARE GONE, else in step as far as audited" {
		t.Errorf("%+v", short)
	}
	if size := r.size(); size != "3 devices, "+amount.Bytes(240e6)+" read\n" {
		t.Errorf("%q", size)
	}
}

// tellAgain tells a night with one audit, in a room, in which so many nights were told before.
func (r *room) tellAgain(t *testing.T, audit audited) int {
	state, err := watch.OpenState(filepath.Join(r.directory, "state"))
	if err != nil {
		t.Fatal(err)
	}
	defer state.Close()
	r.state, r.audits = state, []audited{audit}
	state.Untold = true
	return r.tell()
}

// What lasts is told once a month; what is new, and why there is no answer, each time. A ping says that there was an answer. What couldn't be told is told again.
func TestWhatIsToldEachNight(t *testing.T) {
	r := newRoom(t)
	inStep, none := answered("a", exit.Done, 0), audited{name: "a", status: exit.Fault, told: "why\n"}
	for night, row := range []struct {
		audit         audited
		month         time.Month
		news, faults  []string
		isFailing     bool // whoever is told
		subject, told string
		status, pings int
		isUntold      bool
	}{
		{audit: inStep, month: 1, subject: "first night: in step\n", told: "2 devices, " + amount.Bytes(120e6) + " read\na is told\n", pings: 1},
		{audit: inStep, month: 1, pings: 1},
		{audit: inStep, month: 1, news: []string{"x"}, subject: "in step, with news\n", told: "x\n\na is told\n", pings: 1},
		{audit: inStep, month: 1, faults: []string{"y"}, subject: "in step, and the night itself has a fault\n", told: "y\n\na is told\n", status: exit.Refused, pings: 1},
		{audit: none, month: 1, subject: fmt.Sprintf("no answer, status %d\n", exit.Fault), told: "why\n", status: exit.Fault},
		{audit: inStep, month: 2, subject: "all is as before: in step\n", told: "2 devices, " + amount.Bytes(120e6) + " read\na is told\n", pings: 1},
		{audit: inStep, month: 2, pings: 1},
		{audit: inStep, month: 3, isFailing: true, status: exit.Refused, pings: 1, isUntold: true},
		{audit: inStep, month: 3, subject: "all is as before: in step\n", told: "2 devices, " + amount.Bytes(120e6) + " read\na is told\n", pings: 1},
		{audit: inStep, month: 4, news: []string{"x"}, subject: "in step, with news\n", told: "x\n\na is told\n", pings: 1},
		{audit: inStep, month: 4, pings: 1},
		{audit: answered("a", exit.NotSettled, 0), month: 4, isFailing: true, news: []string{"x"}, status: exit.NotSettled, pings: 1, isUntold: true},
	} {
		for _, name := range []string{"subject", "text", "pinged"} {
			os.Remove(filepath.Join(r.directory, name))
		}
		r.output.Reset()
		r.log.Reset()
		notify := r.config.Notify[0].Command
		if row.isFailing {
			r.config.Notify[0].Command = "exit 7"
		}
		r.began, r.news, r.faults = time.Date(2026, row.month, night+1, 3, 0, 0, 0, time.UTC), row.news, row.faults
		status := r.tellAgain(t, row.audit)
		r.config.Notify[0].Command = notify
		if status != row.status || r.read("subject") != row.subject || r.read("text") != row.told || strings.Count(r.read("pinged"), "\n") != row.pings || r.state.Untold != row.isUntold {
			t.Errorf("night %d: %d, %q, %q, %q, %v", night, status, r.read("subject"), r.read("text"), r.read("pinged"), r.state.Untold)
		}
		if !strings.HasSuffix(r.output.String(), row.audit.told) || (r.log.Len() > 0) != row.isFailing || row.isFailing && r.log.String() != "syncthing-audit: <notify>: exit status 7\n" {
			t.Errorf("night %d: %q, %q", night, r.output.String(), r.log.String())
		}
		var kept watch.State
		if err := json.Unmarshal([]byte(r.read("state/watch.json")), &kept); err != nil || kept.Untold != row.isUntold {
			t.Errorf("night %d: %+v, %v", night, kept, err)
		}
		if !strings.Contains(r.read("metrics"), fmt.Sprintf("\nsyncthing_audit_status %d\n", r.night.status())) || strings.Contains(r.read("metrics"), "syncthing_audit_names{") != (row.audit.answer != nil) ||
			!strings.Contains(r.read("page.html"), "<html") || modeOf(r, "metrics") != 0o644 || modeOf(r, "page.html") != 0o644 {
			t.Errorf("night %d: %s", night, r.read("metrics"))
		}
	}
}

// modeOf gives who may read a file of the night.
func modeOf(r *room, name string) os.FileMode {
	about, err := os.Stat(filepath.Join(r.directory, name))
	if err != nil {
		return 0
	}
	return about.Mode()
}

// What can't be written of a night is a fault of it, and all else is.
func TestWhatANightCannotWrite(t *testing.T) {
	for what, row := range map[string]struct {
		change func(*room)
		told   string
	}{
		"the metrics": {func(r *room) { r.config.Metrics[0].Path = "/nowhere/metrics" }, "the metrics can't be written: "},
		"the page":    {func(r *room) { r.config.Page[0].Path = "/nowhere/page.html" }, "the page can't be written: "},
		"no file":     {func(r *room) { r.config.Page[0].Path = "/dev/null" }, "the page can't be written: /dev/null is no file"},
		"its nights":  {func(r *room) { r.write(t, "state/nights.json/x", "") }, "the night can't be kept for the page: "},
		"lost nights": {func(r *room) { r.write(t, "state/nights.json", "{") }, "what earlier nights left for the page can't be read, and is lost: "},
		"the state":   {func(r *room) { r.write(t, "state/watch.json/x", "") }, ""},
		"a ping":      {func(r *room) { r.config.Ping[0].Command = "exit 7" }, ""},
	} {
		r := newRoom(t)
		row.change(r)
		status := r.tellAgain(t, answered("a", exit.Done, 0))
		if status != exit.Refused || !strings.Contains(r.output.String(), row.told) || !strings.HasSuffix(r.output.String(), "a is told\n") || (r.log.Len() > 0) != (row.told == "") {
			t.Errorf("%s: status %d, %s, %s", what, status, r.output.String(), r.log.String())
		}
		if kept, err := page.Read(filepath.Join(r.directory, "state")); what == "the metrics" && (err != nil || len(kept.Nights) != 1 || kept.Nights[0].Status != exit.Refused) {
			t.Errorf("%s: %+v, %v", what, kept, err)
		}
		if row.told != "" && (len(r.faults) == 0 || !strings.Contains(r.read("text"), row.told)) {
			t.Errorf("%s: %q, %s", what, r.faults, r.read("text"))
		}
	}
}
