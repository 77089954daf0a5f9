package observing

import (
	"errors"
	"io"
	"path/filepath"
	"strings"
	"testing"

	"syncthing-audit/exit"
	"syncthing-audit/fixture/stranger"
)

// asksFor takes of which files the devices were asked for bytes since it was called last, and in which look.
func (w *world) asksFor() string {
	names := map[string]bool{}
	for _, device := range w.devices {
		device.Change(func(state *stranger.State) {
			for place := range state.Asked {
				names[strings.TrimPrefix(place, "docs/")] = true
			}
			state.Asked = map[string]int{}
		})
	}
	told := []string{}
	for _, name := range []string{"a", "b", "c"} {
		if names[name] {
			told = append(told, name)
		}
	}
	return strings.Join(told, " ")
}

// With a budget the looks ask for files by turns. What waits is told of each device, by a history in the observer's home; a person is told it alone.
func TestLooksByTurns(t *testing.T) {
	here := newWorld(t, 2, map[string]string{"a": strings.Repeat("a", 1000), "b": strings.Repeat("b", 1000), "c": strings.Repeat("c", 1000)})
	here.asked.Budget = 2000 // of both devices together
	for place, due := range []string{"a", "b", "c", "a"} {
		words := []string{"not read this time: docs on device a (", "not read this time: docs on device b ("}
		if place < 2 {
			words = append(words, "never yet")
		}
		here.expect(due, exit.Partial, words...)
		if found := here.asksFor(); found != due {
			t.Errorf("look %d asks for %q, not %q", place, found, due)
		}
	}
	if told := here.expect("what waits longest", exit.Partial); strings.Contains(told, "never yet") || !strings.Contains(told, "the one that waits longest was read ") {
		t.Error(told)
	}
	here.asked.Lines = true
	if told := here.expect("lines", exit.Partial); strings.Contains(told, "not read this time") {
		t.Error(told)
	}
	here.asked.Lines, here.asked.JSON = false, true
	if told := here.expect("JSON", exit.Partial, `"not_read_yet":[{"folder":"docs"`); strings.Contains(told, "not read this time") {
		t.Error(told)
	}
	here.asked.JSON, here.asked.Budget = false, 1<<20
	if told := here.expect("all", exit.Partial, "all files were read this time"); strings.Contains(told, "not read this time") {
		t.Error(told)
	}
	here.devices[1].Change(func(state *stranger.State) { state.Hidden["docs"] = true })
	here.asked.Budget = 1000
	here.expect("a device that isn't looked at", exit.Partial, "not read this time: docs on device a (")
	here.asked.History = filepath.Join(here.asked.Homes[0], "cert.pem")
	here.expect("a history that is none", exit.Refused, "cert.pem")
}

// What a look found on a disk isn't forgotten by the next ones, which don't read it: it counts as wrong until it is read and right.
func TestRotThatIsNotReadAgain(t *testing.T) {
	here := newWorld(t, 2, map[string]string{"a": strings.Repeat("a", 1000), "b": strings.Repeat("b", 1000), "c": strings.Repeat("c", 1000)})
	here.devices[1].Change(func(state *stranger.State) { state.Disk["docs/c"] = "rot" + strings.Repeat("c", 997) })
	readAll := func(words ...string) {
		here.asked.Budget = 1 << 20
		if here.expect("all is read", exit.NotSettled, append(words, "NOT in step, 1 name is wrong;", "other bytes on the disk")...); here.asksFor() != "a b c" {
			t.Error("not all was asked for")
		}
		here.asked.Budget = 2000 // as much as the name takes: it comes in its turn, which is the last one
	}
	readAll()
	here.expect("not read", exit.NotSettled, "NOT in step, 1 name is wrong, of which 1 was found so before and isn't read again;", "  c in docs on device b: found with other bytes on 20", "1 wasn't read again\n")
	here.asked.Lines = true
	here.expect("lines", exit.NotSettled, "not settled, as found before and not read again\n", "\nnot read again: StoreDiffers docs c on ")
	here.asked.Lines = false
	readAll("  lasts: c in docs on device b (StoreDiffers")
	here.devices[1].Change(func(state *stranger.State) { state.Disk["docs/c"] = strings.Repeat("c", 1000) })
	here.asked.JSON = true
	here.expect("JSON", exit.NotSettled, `"verdict":"not-in-step"`, `"names_wrong":1,"names_not_read_again":1`, `"not_read_again":{"count":1,"first":[{"folder":"docs","name":"c"`)
	here.asked.JSON, here.asked.Records, here.asked.Budget, here.asked.History = false, true, 0, filepath.Join(here.asked.Homes[0], nameOfHistory)
	here.expect("records alone", exit.NotSettled, "isn't read again")
	here.asked.Records, here.asked.Budget = false, 4001 // more than twice what it takes, so that it comes first
	here.expect("it is read", exit.Partial, inStep, "  mended: c in docs on device b (StoreDiffers")
}

// deaf takes what is written to it until it comes to some words.
type deaf struct{ to string }

func (d deaf) Write(text []byte) (int, error) {
	if strings.Contains(string(text), d.to) {
		return 0, errors.New("no room")
	}
	return len(text), nil
}

// Where it can't be told what waits, or that nothing does, the run fails.
func TestWhatWaitsCannotBeTold(t *testing.T) {
	here := newWorld(t, 1, map[string]string{"a": "some", "b": "text"})
	for words, bytes := range map[string]int64{"not read this time": 1, "all files were read this time": 1 << 20} {
		here.asked.Budget = bytes
		if _, err := Run(here.asked, deaf{words}, io.Discard); err == nil || !strings.Contains(err.Error(), "no room") {
			t.Errorf("%s: %v", words, err)
		}
	}
}

// A history that is kept of looks without a budget has no turns, and nothing waits.
func TestAHistoryWithoutABudget(t *testing.T) {
	here := newWorld(t, 1, map[string]string{"a": "text"})
	here.asked.History = filepath.Join(here.asked.Homes[0], "own")
	for _, why := range []string{"the first look", "the next one"} {
		if told := here.expect(why, exit.Partial, inStep); strings.Contains(told, "read this time") || here.asksFor() != "a" {
			t.Errorf("%s: %s", why, told)
		}
	}
}

// Where it can't be chosen what is asked for, no connection stays open.
func TestNoConnectionsWithoutAChoice(t *testing.T) {
	here := newWorld(t, 2, map[string]string{"a": "text"})
	sockets := countSockets(t)
	here.asked.Budget, here.asked.History = 1, filepath.Join(here.asked.Homes[0], "cert.pem")
	here.expect("a history that is none", exit.Refused, "cert.pem")
	awaitSockets(t, sockets)
}
