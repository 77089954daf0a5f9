package watch

import (
	"bytes"
	"errors"
	"fmt"
	"io"
	"os"
	"path/filepath"
	"reflect"
	"strings"
	"testing"
	"time"

	"syncthing-audit/choice"
	"syncthing-audit/fixture"
	"syncthing-audit/history"
	"syncthing-audit/summary"
)

// All metrics of a night stand in Prometheus' format, rising, each with its help; what isn't known is absent.
func TestMetricsOfANight(t *testing.T) {
	at := func(second int64) time.Time { return time.Unix(second, 0) }
	answer := func(folder string) *summary.Summary {
		return &summary.Summary{LeftOut: make([]summary.LeftOut, 2), Folders: []*summary.Folder{{ID: folder, Wrong: 3, Names: 40}}, Devices: []summary.Device{{ID: "A", Name: "la\"p\\t\nop\xff", Read: at(50)}},
			Since: &history.Since{Count: 6, Emptied: []history.Emptied{{Folder: folder, Files: 12}}, Read: []history.Read{{Folder: folder, Device: "A", Files: 1, Oldest: at(7)}, {Folder: folder, Device: "B", Files: 0, Oldest: at(8)}},
				Waiting: []history.Waiting{{Folder: folder, Device: "A", Files: 9, Never: 5}, {Folder: folder, Device: "B", Files: 4}}}}
	}
	other := answer("pics")
	other.Since, other.Devices = nil, nil
	told := Measured{Status: 1, Ended: at(1700000000), Due: choice.Names{Slice: 2, Slices: 7}, Answers: []*summary.Summary{answer("docs"), other}}.Text()
	var expected strings.Builder
	for _, one := range [][3]string{
		{"status", "Exit status of the last night: 0 in step, 1 not, 6 in step as far as audited, else no answer.", " 1"},
		{"run_timestamp_seconds", "When the last night ended.", " 1700000000"},
		{"names_wrong", "Names that keep a folder from being in step.", `{folder="docs",slice="2/7"} 3` + "|" + `{folder="pics",slice="2/7"} 3`},
		{"names", "Names of a folder that were audited.", `{folder="docs",slice="2/7"} 40` + "|" + `{folder="pics",slice="2/7"} 40`},
		{"left_out", "Devices and folders that were left out.", " 4"},
		{"bytes_changed_everywhere", "Files whose bytes changed on all devices under one time.", " 6"},
		{"files_gone", "Files that went from all devices of a folder from which most went at once.", `{folder="docs"} 12`},
		{"slice", "Which slice of the names the last night was of.", `{of="7"} 2`},
		{"part_timestamp_seconds", "When a device's files were read last.", `{device="A",name="la\"p\\t\nop?"} 50`},
		{"oldest_read_timestamp_seconds", "When the file of a folder at a device was read whose last reading is the oldest.", `{folder="docs",device="A",name="la\"p\\t\nop?"} 7`},
		{"files_never_read", "Files of a folder at a device that were never read as they are recorded now.", `{folder="docs",device="A",name="la\"p\\t\nop?"} 5` + "|" + `{folder="docs",device="B",name=""} 0`},
	} {
		fmt.Fprintf(&expected, "# HELP syncthing_audit_%s %s\n# TYPE syncthing_audit_%s gauge\n", one[0], one[1], one[0])
		for _, value := range strings.Split(one[2], "|") {
			fmt.Fprintf(&expected, "syncthing_audit_%s%s\n", one[0], value)
		}
	}
	if told != expected.String() {
		t.Errorf("%s\nnot\n%s", told, expected.String())
	}
	none := Measured{Status: 3, Ended: at(9)}.Text()
	if strings.Count(none, "# TYPE") != 2 || !strings.Contains(none, "\nsyncthing_audit_status 3\n") || !strings.Contains(none, "\nsyncthing_audit_run_timestamp_seconds 9\n") {
		t.Error(none)
	}
}

// Night by night it is told what is left out and wasn't, once; parts of other moments on the second of such nights in a row; and that nothing is any more.
func TestNewsOfNights(t *testing.T) {
	out := func(folder, device, kind string) summary.LeftOut {
		return summary.LeftOut{Folder: folder, Device: device, Kind: kind, Why: "why " + kind}
	}
	absent, unshared, moment := out("docs", "nas", "absent"), out("pics", "", "unshared"), out("", "laptop", "moment")
	for _, row := range []struct {
		isOfParts bool
		nights    [][2][]summary.LeftOut // what is left out, and what is of another moment
		told      []string
	}{
		{false, [][2][]summary.LeftOut{{{absent}}, {{absent}}, {}, {}, {{absent}}}, []string{"left out: docs of nas: why absent", "", "no device and no folder is left out any more", "", "left out: docs of nas: why absent"}},
		{false, [][2][]summary.LeftOut{{{absent, unshared}}, {{unshared}}, {{unshared, absent}}}, []string{"left out: docs of nas: why absent|left out: pics: why unshared", "", "left out: docs of nas: why absent"}},
		{false, [][2][]summary.LeftOut{{nil, {moment}}, {nil, {moment}}}, []string{"of another moment: laptop: why moment", ""}},
		{true, [][2][]summary.LeftOut{{nil, {moment}}, {nil, {moment}}, {nil, {moment}}, {}}, []string{"", "of another moment: laptop: why moment", "", "no device and no folder is left out any more"}},
		{true, [][2][]summary.LeftOut{{nil, {moment}}, {}, {nil, {moment}}}, []string{"", "no device and no folder is left out any more", ""}},
		{true, [][2][]summary.LeftOut{{{absent}, {moment}}, {{absent}}}, []string{"left out: docs of nas: why absent", ""}},
	} {
		var before Limits
		for night, one := range row.nights {
			var told []string
			told, before = News(&summary.Summary{LeftOut: one[0], Earlier: one[1]}, row.isOfParts, before)
			if strings.Join(told, "|") != row.told[night] {
				t.Errorf("%v, night %d: %q, not %q", row.isOfParts, night, told, row.told[night])
			}
		}
	}
}

// Of many faults the first ten are told, and how many more there are; and why a history doesn't have all.
func TestNewsOfFaults(t *testing.T) {
	list := func(count int) history.List {
		made := history.List{Count: int64(count)}
		for number := 0; number < count && number < 12; number++ {
			made.First = append(made.First, history.Told{Folder: "docs", Name: "a", Device: "NAS", Reason: "other-bytes"})
		}
		return made
	}
	for count, more := range map[int]string{0: "", 1: "", 10: "", 11: "new: 1 more", 12: "new: 2 more", 99: "new: 89 more"} {
		told, _ := News(&summary.Summary{Since: &history.Since{New: list(count), Lasting: list(5), Unasked: list(5)}}, false, nil)
		expected := []string{}
		for number := 0; number < count && number < 10; number++ {
			expected = append(expected, "new: a in docs on NAS: other-bytes")
		}
		if more != "" {
			expected = append(expected, more)
		}
		if !reflect.DeepEqual(told, expected) {
			t.Errorf("%d: %q", count, told)
		}
	}
	told, _ := News(&summary.Summary{Since: &history.Since{Mended: list(1), Unkept: "no room"}}, false, nil)
	if !reflect.DeepEqual(told, []string{"mended: a in docs on NAS: other-bytes", "the history doesn't have all of this night: no room"}) {
		t.Errorf("%q", told)
	}
}

// What a night leaves is there for the next one, which waits for no other: two at once aren't. What is damaged is as nothing.
func TestWhatANightLeaves(t *testing.T) {
	room := filepath.Join(t.TempDir(), "new", "state")
	state, err := OpenState(room)
	if err != nil || state.Limits == nil || state.Untold || !state.IsFirst || state.Lost != nil {
		t.Fatal(state, err)
	}
	isLock := func(path string) bool { return filepath.Base(path) == nameOfLock }
	if _, err := OpenState(room); !errors.Is(err, ErrRuns) || fixture.CountOpened(t, isLock) != 1 {
		t.Errorf("two nights at once: %v", err)
	}
	state.Month, state.Untold, state.Limits["docs"] = "2026-11", true, Limits{"x": 2}
	if err := state.Save(); err != nil {
		t.Fatal(err)
	}
	state.Close()
	path := filepath.Join(room, nameOfState)
	if about, err := os.Stat(path); err != nil || about.Mode().Perm() != 0o600 {
		t.Errorf("%v, %v", about, err)
	}
	if about, err := os.Stat(filepath.Join(room, nameOfLock)); err != nil || about.Mode().Perm() != 0o600 {
		t.Errorf("%v, %v", about, err)
	}
	if about, err := os.Stat(room); err != nil || about.Mode().Perm() != 0o700 {
		t.Errorf("%v, %v", about, err)
	}
	again, err := OpenState(room)
	if err != nil || again.IsFirst || again.Lost != nil || again.Month != "2026-11" || !again.Untold || !reflect.DeepEqual(again.Limits, map[string]Limits{"docs": {"x": 2}}) {
		t.Errorf("%+v, %v", again, err)
	}
	again.Close()
	for _, damaged := range []string{"", "{", `{"month":7}`, `{"untold":true}x`} {
		if err := os.WriteFile(path, []byte(damaged), 0o600); err != nil {
			t.Fatal(err)
		}
		none, err := OpenState(room)
		if err != nil || none.Month != "" || none.Untold || none.Limits == nil || none.IsFirst || none.Lost == nil {
			t.Errorf("%q: %+v, %v", damaged, none, err)
		}
		none.Close()
	}
	if _, err := OpenState(path + "/x"); err == nil {
		t.Error("a file is a directory")
	}
	if err := WriteWhole(filepath.Join(room, "none", "x"), "x", 0o600); err == nil {
		t.Error("a file is written in no directory")
	}
}

// A file is written whole, for those who may read it, also in another one's place; where it can't be put, what was there stays. Nothing stays open.
func TestFilesThatAreWhole(t *testing.T) {
	room := t.TempDir()
	for _, mode := range []os.FileMode{0o600, 0o644} {
		before := fixture.CountOpened(t, fixture.Any)
		for _, text := range []string{"a", "", strings.Repeat("b", 1<<20)} {
			path := filepath.Join(room, "file")
			err := WriteWhole(path, text, mode)
			found, unread := os.ReadFile(path)
			about, unseen := os.Stat(path)
			if err != nil || unread != nil || unseen != nil || string(found) != text || about.Mode() != mode {
				t.Errorf("%d bytes for %v: %v, %v, %v", len(text), mode, err, unread, about)
			}
		}
		if after := fixture.CountOpened(t, fixture.Any); after > before { // an earlier test's may close meanwhile
			t.Errorf("%d files were open, and %d are", before, after)
		}
	}
	if err := os.MkdirAll(filepath.Join(room, "directory", "below"), 0o700); err != nil {
		t.Fatal(err)
	}
	if err := WriteWhole(filepath.Join(room, "directory"), "x", 0o600); err == nil {
		t.Error("a directory has become a file")
	}
	if entries, err := os.ReadDir(room); err != nil || len(entries) != 2 {
		t.Errorf("%v, %v", entries, err)
	}
}

// Whoever is to know of it is told by mail and by the commands, each of which is tried, with nothing that a terminal obeys in the subject.
func TestWhoIsTold(t *testing.T) {
	room := t.TempDir()
	sendmail := "#!/bin/sh\n{ echo \"$@\"; cat; } > " + room + "/mail.$(ls " + room + " | wc -l)\nexit $STATUS\n"
	if err := os.WriteFile(filepath.Join(room, "sendmail"), []byte(sendmail), 0o700); err != nil {
		t.Fatal(err)
	}
	t.Setenv("PATH", room+":/usr/bin:/bin")
	host, err := os.Hostname()
	if err != nil {
		t.Fatal(err)
	}
	config := &Config{Mail: []Mail{{To: "me"}}, Notify: []Command{{Command: "echo told; cat > " + room + "/notified; echo \"$SUBJECT\" >> " + room + "/notified; exit $STATUS"}},
		Ping: []Command{{Command: "echo pinged; exit $STATUS"}}}
	for _, status := range []string{"0", "3"} {
		t.Setenv("STATUS", status)
		var log bytes.Buffer
		errs, pings := config.Tell("one \x1bthing", "the text\n", &log), config.PingAll(&log)
		if status == "0" && (len(errs) > 0 || len(pings) > 0) || status != "0" && (fmt.Sprint(errs) != "[it can't be mailed: exit status 3 <notify>: exit status 3]" || fmt.Sprint(pings) != "[<ping>: exit status 3]") {
			t.Errorf("status %s: %v, %v", status, errs, pings)
		}
		mails, _ := filepath.Glob(filepath.Join(room, "mail.*"))
		notified, err := os.ReadFile(filepath.Join(room, "notified"))
		if len(mails) == 0 || err != nil || log.String() != "told\npinged\n" {
			t.Fatalf("%q, %v, %q", mails, err, log.String())
		}
		mailed, err := os.ReadFile(mails[0])
		subject := strings.TrimPrefix(strings.TrimSpace(string(notified)), "the text\n")
		expected := "-i -odi -t\nTo: me\nSubject: syncthing-audit on " + host + ": " + subject + "\nMIME-Version: 1.0\nContent-Type: text/plain; charset=utf-8\n\nthe text\n"
		if err != nil || string(mailed) != expected || !strings.HasPrefix(subject, "one ") || strings.Contains(subject, "\x1b") {
			t.Errorf("%q, not %q, %v", mailed, expected, err)
		}
		for _, one := range append(mails, filepath.Join(room, "notified")) {
			os.Remove(one)
		}
	}
	nobody := &Config{}
	if errs := append(nobody.Tell("x", "y", nil), nobody.PingAll(nil)...); len(errs) > 0 {
		t.Error(errs)
	}
}

// Who can't be told, as no shell and no sendmail is there, is said, and the others are tried.
func TestWhoCannotBeTold(t *testing.T) {
	for _, usual := range []string{"/usr/sbin/sendmail", "/usr/lib/sendmail"} {
		if _, err := os.Stat(usual); err == nil {
			t.Skip("it would be mailed")
		}
	}
	room := t.TempDir()
	t.Setenv("PATH", room)
	config := &Config{Mail: []Mail{{To: "me"}, {To: "you"}}, Notify: []Command{{Command: "true"}}, Ping: []Command{{Command: "true"}}}
	errs := append(config.Tell("x", "y", io.Discard), config.PingAll(io.Discard)...)
	if len(errs) != 4 || !strings.HasPrefix(errs[0].Error(), "it can't be mailed: ") || !strings.HasPrefix(errs[2].Error(), "<notify>: ") || !strings.HasPrefix(errs[3].Error(), "<ping>: ") {
		t.Errorf("%v", errs)
	}
	if err := os.WriteFile(filepath.Join(room, "sendmail"), []byte("#!/none\n"), 0o700); err != nil {
		t.Fatal(err)
	}
	if errs := config.Tell("x", "y", io.Discard); len(errs) != 3 {
		t.Errorf("a sendmail that can't be run: %v", errs)
	}
}

// The slice that is due goes on by one each day at its hour, and begins anew behind the last.
func TestWhichSliceIsDue(t *testing.T) {
	const day, hour = 86400, 3600
	for _, count := range []int{1, 2, 7} {
		for _, at := range []int{0, 3, 23} {
			config := &Config{Slices: []Slices{{Count: count, Hour: at}}}
			number := 0
			for second := int64(at) * hour; second < 20*day; second += hour {
				expected := choice.Names{}
				if count > 1 {
					expected = choice.Names{Slice: number/24%count + 1, Slices: count}
				}
				if is := config.Due(second); is != expected {
					t.Fatalf("of %d at %d, hour %d: %+v, not %+v", count, at, number, is, expected)
				}
				number++
			}
		}
	}
	if is := (&Config{}).Due(day); is != (choice.Names{}) {
		t.Errorf("%+v", is)
	}
	for path, is := range map[string]string{"~/a": "/home/a", "a": "a", "~": "~", "/~/a": "/~/a", "~b/a": "~b/a"} {
		if Expand("/home", path) != is {
			t.Errorf("%s: %s", path, Expand("/home", path))
		}
	}
}

// Each number is taken up to its ends, and none beyond; each word that is needed is.
func TestEndsOfAConfiguration(t *testing.T) {
	for _, row := range []struct{ was, is, told string }{
		{`count="7"`, `count="1"`, ""}, {`count="7"`, fmt.Sprintf(`count="%d"`, choice.MostSlices), ""}, {`count="7"`, `count="0"`, `count="0" isn't taken: slices are 1 to `},
		{`count="7"`, fmt.Sprintf(`count="%d"`, choice.MostSlices+1), "slices are 1 to"}, {`hour="3"`, `hour="0"`, ""}, {`hour="3"`, `hour="23"`, ""}, {`hour="3"`, `hour="24"`, "it is 0 to 23"},
		{`hour="3"`, `hour="-1"`, "it is 0 to 23"}, {`hours="8.5"`, `hours="0.1"`, ""}, {`hours="8.5"`, `hours="10000"`, ""}, {`hours="8.5"`, `hours="10001"`, `hours="10001" isn't taken: it is above 0, and at most 10000`},
		{`directory="~/parts" `, "", `<parts directory=".."> isn't given`}, {"</watch>", "</watch>\n<!-- all -->\n", ""},
		{`hours="8.5"`, `hours="-1"`, "isn't taken"}, {`hours="8.5"`, `hours="NaN"`, "isn't taken"},
		{`<budget bytes="20GB"/>`, `<budget bytes="20GB"/><budget bytes="1GB"/>`, "<budget> stands twice"}, {`<budget bytes="20GB"/>`, `<budget/>`, "<budget> says nothing"},
		{`<folder id="docs"/>`, "", "of <observed> devices each <folder> is to be named"}, {`<mail to="me"/>`, `<mail to="me"/><mail to="you"/>`, "<mail> stands twice"},
	} {
		_, err := parse([]byte(strings.Replace(all, row.was, row.is, 1)))
		if (err == nil) != (row.told == "") || err != nil && !strings.Contains(err.Error(), row.told) {
			t.Errorf("%s: %v", row.is, err)
		}
	}
	for text, told := range map[string]string{`<watch><device place="x"/><budget bytes="1GB"/></watch>`: "<budget> is for <observed> devices, and there are none", `<watch></watch>`: "it names no <device>, no <parts> and no <observed>", all + "<watch/>": "it goes on behind </watch>", all + "<": "XML syntax error"} {
		if _, err := parse([]byte(text)); err == nil || !strings.Contains(err.Error(), told) {
			t.Errorf("%v, not %s", err, told)
		}
	}
	path := filepath.Join(t.TempDir(), "watch.xml")
	if _, err := Read(path); err == nil {
		t.Error("what isn't there is read")
	}
	if err := os.WriteFile(path, []byte(all), 0o600); err != nil {
		t.Fatal(err)
	}
	if read, err := Read(path); err != nil || len(read.Devices) != 2 {
		t.Errorf("%+v, %v", read, err)
	}
}

// Each word that an element needs is refused where it is empty, also where another element of the kind has it.
func TestWordsThatAreNeeded(t *testing.T) {
	for _, row := range [][3]string{{`<device place="laptop:"`, `<device place=""`, `/><device place="server:"`}, {`<parts directory="~/parts"`, `<parts directory=""`}, {`<observed id="A"`, `<observed id=""`},
		{`address="tcp://a:22000"`, `address=""`, `/><observed id="B" address="tcp://b:22000"`}, {`<folder id="docs"`, `<folder id=""`, `/><folder id="pics"`}, {`<budget bytes="20GB"`, `<budget bytes=""`},
		{`<mail to="me"`, `<mail to=""`}, {`<state path="s"`, `<state path=""`}, {`<notify command="n"`, `<notify command=""`}} {
		for _, more := range []string{"", row[2]} {
			if _, err := parse([]byte(strings.Replace(all, row[0], row[1]+more, 1))); err == nil {
				t.Errorf("%s%s is taken", row[1], more)
			}
			if _, err := parse([]byte(strings.Replace(all, row[0], row[0]+more, 1))); err != nil {
				t.Errorf("%s%s: %v", row[0], more, err)
			}
		}
	}
}
