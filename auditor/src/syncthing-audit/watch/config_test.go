package watch

import (
	"fmt"
	"os"
	"path/filepath"
	"strings"
	"testing"
	"time"

	"syncthing-audit/choice"
	"syncthing-audit/history"
	"syncthing-audit/part"
	"syncthing-audit/summary"
)

// all is a configuration with each element that there is.
const all = `<watch><device place="laptop:"/><device place="~/home" data="~/data"><map from="~" to="/srv"/></device><parts directory="~/parts" hours="8.5" signers="s"/>` +
	`<observed id="A" address="tcp://a:22000"/><folder id="docs"/><slices count="7" hour="3"/><budget bytes="20GB"/><state path="s"/><metrics path="m"/><page path="p"/><mail to="me"/>` +
	`<notify command="n"/><ping command="p"/></watch>`

func TestAConfigurationIsRead(t *testing.T) {
	read, err := parse([]byte(all))
	if err != nil {
		t.Fatal(err)
	}
	if len(read.Devices) != 2 || read.Devices[1].Data != "~/data" || read.Parts[0].Hours != 8.5 || read.Observed[0].Address != "tcp://a:22000" ||
		read.Slices[0].Count != 7 || read.Budget[0].Bytes != "20GB" || read.Slices[0].Hour != 3 || read.Mail[0].To != "me" || read.Notify[0].Command != "n" || read.Ping[0].Command != "p" {
		t.Errorf("%+v", read)
	}
	if read, err = parse([]byte(`<watch><parts directory="a"/></watch>`)); err != nil || read.Parts[0].Hours != usualHours {
		t.Errorf("%+v, %v", read, err)
	}
	if path := Expand("/home/me", "~/a"); path != "/home/me/a" || Expand("/home/me", "laptop:a") != "laptop:a" {
		t.Error(path)
	}
}

// A file that is no configuration at all is refused in words that say so.
func TestWhatIsNoConfiguration(t *testing.T) {
	for _, text := range []string{"", "junk", "<!-- nothing -->", "<watch>", "<other/>"} {
		if _, err := parse([]byte(text)); err == nil || !strings.HasPrefix(err.Error(), "this is no configuration of 'watch', which begins with <watch> and ends with </watch>: ") {
			t.Errorf("%q: %v", text, err)
		}
	}
}

// Each word that isn't known is refused, wherever it stands: a word that is passed over leaves a device out.
func TestNoWordIsPassedOver(t *testing.T) {
	for _, name := range []string{"watch", "device", "map", "parts", "observed", "folder", "slices", "budget", "state", "metrics", "page", "mail", "notify", "ping"} {
		for _, text := range []string{strings.Replace(all, "<"+name, "<"+name+` odd="1"`, 1), strings.Replace(all, "<"+name, "<"+name+"s", 1)} {
			if _, err := parse([]byte(text)); err == nil {
				t.Errorf("it is read: %s", text)
			}
		}
	}
	inside := strings.Replace(all, `<folder id="docs"/>`, `<folder id="docs"><device place="x"/></folder>`, 1)
	if _, err := parse([]byte(inside)); err == nil || !strings.Contains(err.Error(), "<folder> has no element <device>") {
		t.Error(err)
	}
}

// Paths of a container that nobody can follow are refused as the configuration is read.
func TestMapsOfADevice(t *testing.T) {
	read, err := parse([]byte(all))
	if err != nil {
		t.Fatal(err)
	}
	maps, err := read.Devices[1].Maps()
	if path, is := maps.Path("~/docs"); err != nil || path != "/srv/docs" || !is {
		t.Errorf("%s, %v, %v", path, is, err)
	}
	for _, wrong := range []string{`from="" to="/a"`, `from="a" to="/a"`, `from="/a=b" to="/a"`, `from="/a" to="b"`, `from="/a" to="~/b"`, `from="/a"`, `to="/a"`,
		`from="/a" to="/b"/><map from="/a/" to="/c"`} {
		if _, err := parse([]byte(`<watch><device place="x"><map ` + wrong + `/></device></watch>`)); err == nil || !strings.Contains(err.Error(), "<map") {
			t.Errorf("%s: %v", wrong, err)
		}
	}
}

// The slice that is due moves on by one each day, at the hour that is given.
func TestTheSliceThatIsDue(t *testing.T) {
	config := &Config{Slices: []Slices{{Count: 7, Hour: 3}}}
	at := func(text string) choice.Names {
		when, err := time.Parse(time.RFC3339, text)
		if err != nil {
			t.Fatal(err)
		}
		return config.Due(when.Unix())
	}
	before, after, next := at("2026-11-29T02:59:59Z"), at("2026-11-29T03:00:00Z"), at("2026-11-30T02:59:59Z")
	if before == after || after != next || after.Slice != before.Slice%7+1 || after.Slices != 7 {
		t.Errorf("%v, %v, %v", before, after, next)
	}
	for _, one := range []*Config{{}, {Slices: []Slices{{Count: 1}}}} {
		if due := one.Due(1); !due.IsAll() {
			t.Error(due)
		}
	}
}

// What is left out is told once, and its end once. Parts of different moments are told the second night in a row.
func TestWhatIsLeftOutIsToldOnce(t *testing.T) {
	told := func(out, earlier bool) *summary.Summary {
		made := &summary.Summary{}
		if out {
			made.LeftOut = []summary.LeftOut{{Folder: "docs", Device: "phone\x1b", Kind: part.Absent, Why: "it is off\n"}}
		}
		if earlier {
			made.Earlier = []summary.LeftOut{{Folder: "docs", Device: "nas", Kind: part.Moment, Why: "change 9"}}
		}
		return made
	}
	for _, isOfParts := range []bool{true, false} {
		limits, seen := Limits(nil), []string{}
		for _, night := range []struct{ out, earlier bool }{{false, true}, {true, true}, {true, true}, {true, false}, {false, false}, {false, false}, {false, true}} {
			var lines []string
			lines, limits = News(told(night.out, night.earlier), isOfParts, limits)
			seen = append(seen, strings.Join(lines, "+"))
		}
		const out, moment, ended = `left out: docs of phone\x1b: it is off\x0a`, "of another moment: docs of nas: change 9", "no device and no folder is left out any more"
		expected := []string{moment, out, "", "", ended, "", moment}
		if isOfParts {
			expected = []string{"", out + "+" + moment, "", "", ended, "", ""}
		}
		if strings.Join(seen, "|") != strings.Join(expected, "|") {
			t.Errorf("%q\nnot\n%q", seen, expected)
		}
	}
}

// Faults that are new or mended are told, the first ones by name. What lasts isn't.
func TestFaultsAreNews(t *testing.T) {
	fault := history.Told{Folder: "docs", Name: "a b\x1b", Reason: "StoreDiffers"}
	since := &history.Since{New: history.List{Count: 1, First: []history.Told{fault}}, Lasting: history.List{Count: 9, First: []history.Told{fault}}}
	for count := 0; count < mostNews+2; count++ {
		since.Mended.First = append(since.Mended.First, fault)
		since.Mended.Count++
	}
	lines, _ := News(&summary.Summary{Since: since}, false, nil)
	if len(lines) != 1+mostNews+1 || lines[0] != `new: '[not-for-typing:a b\x1b]' in docs: StoreDiffers` || lines[len(lines)-1] != "mended: 2 more" {
		t.Errorf("%q", lines)
	}
	since.Deleted = history.List{Count: 1, First: []history.Told{fault}}
	since.Emptied = []history.Emptied{{Folder: "pics", Files: 2, Of: 2}, {Folder: "docs", Files: 7, Of: 9, IsNew: true}}
	lines, _ = News(&summary.Summary{Since: since}, false, nil)
	if !strings.HasPrefix(lines[0], "GONE: 7 of 9 files in docs went ") || !strings.HasSuffix(lines[0], "; if it was wanted: syncthing-audit wanted --history DIR --folder docs 0001-01-01T00:00:00Z") || lines[2] != `deleted since: '[not-for-typing:a b\x1b]' in docs: StoreDiffers` || len(lines) != 3+mostNews+1 {
		t.Errorf("%q", lines)
	}
	since.Unkept = "no space left"
	if lines, _ = News(&summary.Summary{Since: since}, false, nil); lines[len(lines)-1] != "the history doesn't have all of this night: no space left" {
		t.Errorf("%q", lines)
	}
}

// A value's labels are one word each for Prometheus, whatever a device is called. Folders of one id have one value. Where several audits of a night read one
// device, the times are no sums.
func TestMetricsAreThoseOfPrometheus(t *testing.T) {
	answer := &summary.Summary{Devices: []summary.Device{{ID: "A", Name: "a\"b\\c\nd\xff", Read: time.Unix(5, 0)}},
		Folders: []*summary.Folder{{ID: "default", Names: 2, Wrong: 1}, {ID: "default", Names: 3}},
		Since:   &history.Since{Read: []history.Read{{Folder: "default", Device: "A", Files: 1, Oldest: time.Unix(4, 0)}, {Folder: "none", Device: "A"}}}}
	other := &summary.Summary{Devices: []summary.Device{{ID: "A", Name: answer.Devices[0].Name, Read: time.Unix(3, 0)}},
		Since: &history.Since{Read: []history.Read{{Folder: "default", Device: "A", Files: 1, Oldest: time.Unix(6, 0)}}}}
	text := Measured{Status: 1, Ended: time.Unix(9, 0), Due: choice.Names{Slice: 3, Slices: 7}, Answers: []*summary.Summary{answer, other}}.Text()
	for _, line := range []string{"syncthing_audit_status 1", "syncthing_audit_run_timestamp_seconds 9", `syncthing_audit_names{folder="default",slice="3/7"} 5`,
		`syncthing_audit_names_wrong{folder="default",slice="3/7"} 1`, `syncthing_audit_slice{of="7"} 3`, `syncthing_audit_part_timestamp_seconds{device="A",name="a\"b\\c\nd?"} 5`,
		`syncthing_audit_oldest_read_timestamp_seconds{folder="default",device="A",name="a\"b\\c\nd?"} 4`} {
		if !strings.Contains(text, "\n"+line+"\n") {
			t.Errorf("no %s in\n%s", line, text)
		}
	}
	if empty := (Measured{Status: 2}).Text(); strings.Contains(empty, "names") || strings.Contains(empty, "left_out") || strings.Contains(text, `"none"`) {
		t.Errorf("what isn't known is told: %s", empty)
	}
}

// A word that isn't given is told, in whichever of several elements it lacks.
func TestWordsThatAreNotGiven(t *testing.T) {
	const observed, folder = `<observed id="A" address="tcp://a:22000"/>`, `<folder id="docs"/>`
	for _, row := range []struct{ was, is, told string }{
		{observed, `<observed id="" address="b"/>` + observed, `<observed id="..">`}, {observed, observed + `<observed id="" address="b"/>`, `<observed id="..">`},
		{observed, `<observed address="b"/>` + observed, `<observed id="..">`}, {observed, observed + `<observed address="b"/>`, `<observed id="..">`}, {observed, `<observed id="B"/>` + observed, `<observed address="..">`},
		{`<device place="laptop:"/>`, `<device data="x"/>`, `<device place="..">`}, {`<device place="laptop:"/>`, `<device place="laptop:"/><device data="x"/>`, `<device place="..">`},
		{`<parts directory="~/parts"`, `<parts`, `<parts directory="..">`},
		{observed, `<observed id="B" address=""/>` + observed, `<observed address="..">`}, {observed, observed + `<observed id="B"/>`, `<observed address="..">`},
		{folder, `<folder id=""/>` + folder, `<folder id="..">`}, {folder, folder + `<folder id=""/>`, `<folder id="..">`},
		{`<mail to="me"/>`, `<mail to=""/>`, `<mail to="..">`}, {`<mail to="me"/>`, `<mail to="me&#10;Bcc: you"/>`, `<mail to="..">`}, {`<mail to="me"/>`, `<mail to="me&#13;Bcc: you"/>`, `<mail to="..">`},
	} {
		_, err := parse([]byte(strings.Replace(all, row.was, row.is, 1)))
		if err == nil || !strings.Contains(err.Error(), row.told+" isn't given") && !strings.Contains(err.Error(), strings.Replace(row.told, "..", "", 1)+" is empty") {
			t.Errorf("%s: %v", row.is, err)
		}
	}
}

// One way to look at devices is enough, and all go together.
func TestWhichDevicesANightHas(t *testing.T) {
	ways := []string{`<device place="laptop:"/>`, `<parts directory="~/parts"/>`, `<observed id="A" address="tcp://a:22000"/>`}
	for chosen := 0; chosen < 1<<len(ways); chosen++ {
		text := `<watch><folder id="docs"/>`
		for place, way := range ways {
			if chosen>>place&1 == 1 {
				text += way
			}
		}
		if _, err := parse([]byte(text + `</watch>`)); (err == nil) != (chosen > 0) {
			t.Errorf("%s: %v", text, err)
		}
	}
}

// Hours are above 0, up to a limit; where none are given, the usual ones count.
func TestHoursOfParts(t *testing.T) {
	for hours, due := range map[string]float64{"": usualHours, ` hours="0.5"`: 0.5, ` hours="10000"`: 10000, ` hours="10000.5"`: 0, ` hours="-1"`: 0, ` hours="NaN"`: 0, ` hours="Inf"`: 0} {
		read, err := parse([]byte(`<watch><parts directory="a"` + hours + `/></watch>`))
		if (err == nil) != (due > 0) || err == nil && read.Parts[0].Hours != due {
			t.Errorf("%s: %+v, %v", hours, read.Parts, err)
		}
	}
}

// What was told before an update of this program isn't told again: by the same words it is known.
func TestWhatAnOlderProgramTold(t *testing.T) {
	out := []summary.LeftOut{{Folder: "docs", Device: "nas", Kind: part.Absent, Why: "it is off"}}
	before := Limits{"left out\x00docs\x00nas\x00absent": 4, "of another moment\x00docs\x00nas\x00absent": 1}
	if lines, now := News(&summary.Summary{LeftOut: out, Earlier: out}, true, before); len(now) != 2 || now["left out\x00docs\x00nas\x00absent"] != 5 ||
		fmt.Sprint(lines) != "[of another moment: docs of nas: it is off]" {
		t.Errorf("%q, %q", lines, now)
	}
}

// The values of a metric stand in the order of their labels.
func TestTheOrderOfValues(t *testing.T) {
	made, text := &metric{name: "m", help: "h", values: map[string]float64{}}, strings.Builder{}
	for letter := 'a'; letter <= 'z'; letter++ {
		made.values[`folder="`+string(letter)+`"`] = float64(letter)
	}
	made.write(&text)
	lines := strings.Split(strings.TrimSpace(text.String()), "\n")[2:]
	for place, line := range lines {
		if line != fmt.Sprintf(`syncthing_audit_m{folder="%c"} %d`, 'a'+place, 'a'+place) {
			t.Errorf("%d: %s", place, line)
		}
	}
	if len(lines) != 26 {
		t.Errorf("%d lines", len(lines))
	}
}

// A state whose lock can't be had is none.
func TestAStateWithoutALock(t *testing.T) {
	directory := t.TempDir()
	if err := os.Mkdir(filepath.Join(directory, nameOfLock), 0o700); err != nil {
		t.Fatal(err)
	}
	if state, err := OpenState(directory); err == nil || state != nil {
		t.Errorf("%v", state)
	}
}
