package night

import (
	"io"
	"os"
	"path/filepath"
	"strings"
	"testing"
	"time"

	"syncthing-audit/commandline"
	"syncthing-audit/exit"
	"syncthing-audit/summary"
	"syncthing-audit/watch"
)

// What is new is told before a ping is sent: one that hangs keeps nothing back.
func TestTellingGoesBeforeAPing(t *testing.T) {
	room := t.TempDir()
	state, err := watch.OpenState(room)
	if err != nil {
		t.Fatal(err)
	}
	defer state.Close()
	said := filepath.Join(room, "said")
	config := &watch.Config{State: []watch.Place{{Path: room}}, Notify: []watch.Command{{Command: "echo told >> " + said}}, Ping: []watch.Command{{Command: "echo pinged >> " + said}}}
	tonight := &night{config: config, began: time.Now(), output: io.Discard, log: io.Discard, state: state, news: []string{"it is new"},
		audits: []audited{{name: "run", told: "in step\n", answer: &summary.Summary{}}}}
	if status := tonight.tell(); status != exit.Done {
		t.Error(status)
	}
	if text, err := os.ReadFile(said); err != nil || string(text) != "told\npinged\n" {
		t.Errorf("%q, %v", text, err)
	}
}

// Parts are found whatever a directory is called, there and one below, and what isn't read is told.
func TestPartsOfADirectory(t *testing.T) {
	room := filepath.Join(t.TempDir(), "[a]*?")
	for _, name := range []string{"b.part", "device-b.part", "device/a.part", "device/a.part.sig", "device/below/c.part", "x.txt", "[b]/d.part", "odd.part/e.part"} {
		path := filepath.Join(room, name)
		if err := os.MkdirAll(filepath.Dir(path), 0o700); err != nil {
			t.Fatal(err)
		}
		if err := os.WriteFile(path, nil, 0o600); err != nil {
			t.Fatal(err)
		}
	}
	for link, target := range map[string]string{"link": "device", "gone.part": "nowhere", "loop": "loop"} {
		if err := os.Symlink(target, filepath.Join(room, link)); err != nil {
			t.Fatal(err)
		}
	}
	found := partsIn(room)
	told := strings.ReplaceAll(strings.Join(append(found.paths, found.others...), " "), room, "")
	if told != `/[b]/d.part /b.part /device-b.part /device/a.part /link/a.part '/gone.part' is no file, so it isn't read '/odd.part' is no file, so it isn't read` {
		t.Error(told)
	}
	if found := partsIn(filepath.Join(room, "none")); len(found.paths) > 0 || len(found.others) != 1 || !strings.Contains(found.others[0], "can't be read") {
		t.Errorf("%v", found)
	}
}

// A night without news says that all is as before, but for the first one: nobody knows how all was then. Where what the night before left is lost, that is news.
func TestTheSubjectOfACalmNight(t *testing.T) {
	room := t.TempDir()
	told := filepath.Join(room, "told")
	for _, row := range []struct{ left, subject string }{
		{"", "first night: in step"}, {`{"month":"2020-01"}`, "all is as before: in step"}, {`{"month":""}`, "all is as before: in step"}, {`{"month":"2020-01`, "in step, with news"},
	} {
		directory := filepath.Join(room, "state")
		if err := os.RemoveAll(directory); err != nil {
			t.Fatal(err)
		}
		if err := os.Mkdir(directory, 0o700); err != nil {
			t.Fatal(err)
		}
		if row.left != "" {
			if err := os.WriteFile(filepath.Join(directory, "watch.json"), []byte(row.left), 0o600); err != nil {
				t.Fatal(err)
			}
		}
		config := &watch.Config{State: []watch.Place{{Path: directory}}, Notify: []watch.Command{{Command: "echo $SUBJECT > " + told}}}
		tonight := &night{config: config, began: time.Now(), output: io.Discard, log: io.Discard}
		tonight.run()
		if text, err := os.ReadFile(told); err != nil || string(text) != row.subject+"\n" {
			t.Errorf("after %q: %q, %v", row.left, text, err)
		}
	}
}

// A budget is of observed devices alone, in the units of --budget.
func TestTheBudgetOfANight(t *testing.T) {
	for text, bytes := range map[string]int64{"20GB": 20e9, "1.5MB": 1.5e6} {
		config := &watch.Config{Devices: []watch.Device{{Place: "a:"}}, Observed: []watch.Observed{{ID: "A"}}, Budget: []watch.Budget{{Bytes: text}}}
		tonight := &night{config: config, home: t.TempDir()}
		if err := readBudget(config, &tonight.asked); err != nil || tonight.optionsOfObserve("docs").Budget != bytes || tonight.optionsOfRun().Budget != 0 {
			t.Errorf("%s: %v, %d, %d", text, err, tonight.optionsOfObserve("docs").Budget, tonight.optionsOfRun().Budget)
		}
	}
	for _, text := range []string{"20", "20 GB", "-1GB", "0GB", "x"} {
		if err := readBudget(&watch.Config{Budget: []watch.Budget{{Bytes: text}}}, &commandline.Options{}); err == nil || !strings.Contains(err.Error(), "<budget bytes=") {
			t.Errorf("%s: %v", text, err)
		}
	}
}
