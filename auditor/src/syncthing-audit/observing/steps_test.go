package observing

import (
	"errors"
	"fmt"
	"io"
	"os"
	"path/filepath"
	"strings"
	"testing"
	"time"

	"syncthing-audit/exit"
	"syncthing-audit/fixture"
	"syncthing-audit/fixture/stranger"
	"syncthing-audit/observe"
)

// Where a run's own files can't be read or written it is told, whichever they are. An answer that came is told all the same.
func TestFilesOfARunThatFail(t *testing.T) {
	hurry(t)
	for why, row := range map[string]struct {
		before  func(w *world) error // before the run
		between func(w *world)       // between the looks
		words   []string
		isTold  bool // whether there is an answer
	}{
		"no key":               {before: func(w *world) error { return os.Remove(w.asked.Homes[0] + "/key.pem") }, words: []string{"'syncthing-audit observe --init' makes it"}},
		"no program":           {before: func(w *world) error { w.asked.Program = "/nowhere/syncaudit"; return nil }, words: []string{"/nowhere/syncaudit"}},
		"damaged addresses":    {before: func(w *world) error { return os.WriteFile(w.asked.Homes[0]+"/addresses.json", []byte("{"), 0o600) }, words: []string{"refused: the addresses that are kept in", "is damaged"}},
		"a file for the parts": {before: func(w *world) error { w.asked.Into = w.asked.Homes[0] + "/cert.pem"; return nil }, words: []string{"cert.pem"}},
		"a directory for a part": {before: func(w *world) error {
			w.asked.Into = filepath.Join(filepath.Dir(w.asked.Homes[0]), "into")
			return os.MkdirAll(filepath.Join(w.asked.Into, w.devices[0].ID.String()[:7]+".part"), 0o700)
		}, words: []string{"is a directory: name a file"}},
		"a full device for a part": {before: func(w *world) error {
			w.asked.Into = filepath.Join(filepath.Dir(w.asked.Homes[0]), "into")
			if err := os.Mkdir(w.asked.Into, 0o700); err != nil {
				return err
			}
			return os.Symlink("/dev/full", filepath.Join(w.asked.Into, w.devices[0].ID.String()[:7]+".part"))
		}, words: []string{"no space left on device"}},
		"no place for addresses": {between: func(w *world) { _ = os.Mkdir(w.asked.Homes[0]+"/addresses.json", 0o700) }, words: []string{"addresses.json"}, isTold: true},
		"no place for indexes":   {between: func(w *world) { _ = os.RemoveAll(w.asked.Homes[0] + "/indexes") }, words: []string{"no such file"}, isTold: true},
		"no place for files":     {before: func(w *world) error { t.Setenv("TMPDIR", "/nowhere"); return nil }, words: []string{"/nowhere"}},
		"no place for files beside parts": {before: func(w *world) error {
			w.asked.Into = filepath.Join(filepath.Dir(w.asked.Homes[0]), "into")
			t.Setenv("TMPDIR", "/nowhere")
			return nil
		}, words: []string{"/nowhere"}},
		"another run": {before: func(w *world) error {
			w.expect("the first run", exit.Partial, inStep)
			paths, err := filepath.Glob(w.asked.Homes[0] + "/indexes/*")
			if err != nil || len(paths) != 1 {
				return fmt.Errorf("%v, %v", paths, err)
			}
			kept, err := observe.OpenKept(paths[0])
			if err == nil {
				t.Cleanup(kept.Close)
			}
			return err
		}, words: []string{"another run of 'observe' looks at this device", "no device could be looked at"}},
		"a history of another": {before: func(w *world) error { w.asked.History = w.asked.Homes[0] + "/cert.pem"; return nil }, words: []string{"cert.pem"}},
	} {
		here := newWorld(t, 1, map[string]string{"a": "text"})
		if row.before != nil {
			if err := row.before(here); err != nil {
				t.Fatal(err)
			}
		}
		looks := 0
		here.devices[0].Change(func(state *stranger.State) {
			state.Closes = func(int) bool {
				if looks++; looks == 2 && row.between != nil {
					row.between(here)
				}
				return false
			}
		})
		if told := here.expect(why, exit.Refused, row.words...); strings.Contains(told, inStep) != row.isTold {
			t.Errorf("%s: %s", why, told)
		}
	}
	damaged := newWorld(t, 1, map[string]string{"a": "text"})
	damaged.expect("the first run", exit.Partial, inStep)
	paths, err := filepath.Glob(damaged.asked.Homes[0] + "/indexes/*/last/CURRENT")
	if err != nil || len(paths) != 1 {
		t.Fatal(paths, err)
	}
	if err := os.WriteFile(paths[0], []byte("odd\n"), 0o600); err != nil {
		t.Fatal(err)
	}
	damaged.expect("a damaged index", exit.Partial, inStep, "what the last run kept of folder docs at "+damaged.devices[0].ID.String()+" is damaged, and isn't used")
	if _, err := Run(damaged.asked, full{}, io.Discard); err == nil {
		t.Error("an answer is told where nothing can be")
	}
	here := newWorld(t, 0, nil)
	here.asked.Init = true
	for _, home := range []string{"/cert.pem/below/new", "/cert.pem"} {
		had := here.asked.Homes[0]
		here.asked.Homes[0] += home
		here.expect(home, exit.Refused, "cert.pem")
		here.asked.Homes[0] = had
	}
}

// full takes nothing.
type full struct{}

func (full) Write([]byte) (int, error) { return 0, errors.New("no room") }

// A second look that comes at once isn't announced; a scan is.
func TestStepsThatAreTold(t *testing.T) {
	here := newWorld(t, 1, map[string]string{"a": "text"})
	here.withPages()
	here.asked.Rescan = true
	var progress written
	meeting := here.meeting("")
	meeting.progress, meeting.addresses[0].where = &progress, here.devices[0].Address
	if err := meeting.listen(); err != nil {
		t.Fatal(err)
	}
	defer meeting.close()
	if err := meeting.look(); err != nil {
		t.Fatal(err)
	}
	if bytes := meeting.toRead(); bytes != 4 {
		t.Errorf("%d bytes are to be read", bytes)
	}
	if told := progress.String(); told != "syncthing-audit: scanning folder docs\nsyncthing-audit: connecting to 1 device\nsyncthing-audit: first look\n" {
		t.Errorf("%q", told)
	}
}

// Looks that go on are made by the clock, each as the first one.
func TestLooksByTheClock(t *testing.T) {
	had := systemClock
	defer func() { systemClock = had }()
	now, waited := time.Unix(1_000_000, 0), 0
	systemClock = clock{now: func() time.Time { return now }, wait: func(until time.Time) bool {
		waited++
		now = until
		return waited < 3
	}}
	here := newWorld(t, 1, map[string]string{"a": "text"})
	here.asked.Every = time.Hour
	told := here.expect("three looks", exit.Partial, "a look at 1970-01-12 13:46:40 UTC", "a look at 1970-01-12 15:46:40 UTC")
	if strings.Count(told, inStep) != 3 {
		t.Error(told)
	}
	for _, left := range []time.Duration{-time.Hour, 20 * time.Millisecond} {
		if until := time.Now().Add(left); !had.wait(until) || time.Now().Before(until) {
			t.Errorf("it doesn't wait %v", left)
		}
	}
}

// A person sees on a terminal how far the run is; a log that is none says nothing of it.
func TestStepsOnATerminal(t *testing.T) {
	here := newWorld(t, 2, map[string]string{"a": strings.Repeat("a", 3_000_000)})
	here.asked.Still = 0.05
	terminal, from := fixture.Terminal(t)
	seen := make(chan string)
	go func() {
		var text strings.Builder
		room := make([]byte, 4096)
		for !strings.Contains(text.String(), "the end") {
			count, err := from.Read(room)
			if err != nil {
				break
			}
			text.Write(room[:count])
		}
		seen <- text.String()
	}()
	var output strings.Builder
	status, err := Run(here.asked, &output, terminal)
	_, _ = terminal.WriteString("the end\n")
	told := <-seen
	if err != nil || status != exit.Partial {
		t.Fatal(status, err, told)
	}
	for _, due := range []string{"connecting to 2 devices", "first look", "read 6 MB; second look in 0 s"} {
		if !strings.Contains(told, "syncthing-audit: "+due) {
			t.Errorf("%q isn't told: %q", due, told)
		}
	}
	here.asked.Still = 0
	if told := here.expect("no terminal", exit.Partial); strings.Contains(told, "first look") {
		t.Error(told)
	}
}
