package main

import (
	"bytes"
	"encoding/json"
	"errors"
	"os"
	"os/exec"
	"path/filepath"
	"strings"
	"testing"
	"time"

	"github.com/syncthing/syncthing/lib/protocol"
	"syncthing-audit/fixture"
	"syncthing-audit/fixture/stranger"
	"syncthing-audit/part"
	"syncthing-audit/wire"
)

// full takes nothing.
type full struct{}

func (full) Write([]byte) (int, error) { return 0, errors.New("no room") }

// A device is asked for all of its names and what stands there, and then for what came since: nothing. What it can't be asked for is told without bytes.
func TestADeviceIsAskedOverTheWire(t *testing.T) {
	directory := filepath.Join(t.TempDir(), "observer")
	call := func(words ...string) (string, error) {
		var output bytes.Buffer
		err := run(append([]string{directory}, words...), &output)
		return strings.TrimSpace(output.String()), err
	}
	told, err := call()
	if err != nil {
		t.Fatal(err)
	}
	observer, err := protocol.DeviceIDFromString(told)
	if err != nil {
		t.Fatal(err)
	}
	if err := run([]string{directory}, full{}); err == nil {
		t.Error("an id is told where nothing can be")
	}
	if again, err := call(); err != nil || again != told {
		t.Errorf("%s, not %s: %v", again, told, err)
	}
	records := []protocol.FileInfo{stranger.Record("b", "text", 1), stranger.Record("z//odd", "text", 2), stranger.Record("a", "text", 3), stranger.Record("c", "gone", 4)}
	device := stranger.New(t, observer, stranger.State{IndexID: 42, Records: map[string][]protocol.FileInfo{"docs": records}, Disk: map[string]string{"docs/a": "text", "docs/b": "rot!"}})
	device.Change(func(state *stranger.State) {
		state.Asks = 2
		state.Closes = func(connection int) bool {
			if connection == 2 { // for what came since
				state.Records["docs"] = append(state.Records["docs"], stranger.Record("new", "text", 5))
			}
			return false
		}
	})
	if told, err = call("docs", device.ID.String(), device.Address); err != nil {
		t.Fatal(err)
	}
	var said struct {
		Version   string      `json:"version"`
		Folder    wire.Folder `json:"folder"`
		IndexID   string      `json:"index_id"`
		Highest   int64       `json:"highest"`
		Names     []name      `json:"names"`
		Asked     *int        `json:"asked"`
		SinceThen *int        `json:"since_then"`
	}
	if err := json.Unmarshal([]byte(told), &said); err != nil {
		t.Fatal(err)
	}
	if said.Version != "v1.29.5" || said.Folder.ID != "docs" || said.IndexID != "42" || said.Highest != 4 || said.Asked == nil || *said.Asked != 4 || said.SinceThen == nil || *said.SinceThen != 1 {
		t.Errorf("%s", told)
	}
	states := []string{}
	for _, found := range said.Names {
		states = append(states, string(found.Name)+" "+string(found.State))
		if is := found.Content != nil && found.Content.Size == 4 && found.Content.Hash != (part.Hash{}); is != (found.State == wire.Same || found.State == wire.Differs) {
			t.Errorf("%s: %+v", found.Name, found.Content)
		}
		if (found.Own != nil) != (found.Name != "z//odd") || (found.Out != nil) != (found.Name == "z//odd") || (found.Differ != nil) != (found.State == wire.Differs) {
			t.Errorf("%+v", found)
		}
	}
	if due := "a same|b differs|c missing|z//odd "; strings.Join(states, "|") != due {
		t.Errorf("%q, not %q", states, due)
	}
	for why, words := range map[string][]string{"two words": {"docs"}, "three words": {"docs", device.ID.String()}, "five words": {"docs", device.ID.String(), device.Address, "more"},
		"no device id": {"docs", "odd", device.Address}, "another folder": {"pics", device.ID.String(), device.Address}, "another device": {"docs", observer.String(), device.Address}} {
		if told, err := call(words...); err == nil || told != "" || errors.As(err, new(wire.Refusal)) != strings.HasPrefix(why, "another") {
			t.Errorf("%s: %s, %v", why, told, err)
		}
	}
	before := fixture.CountOpened(t, fixture.Any)
	for number := 1; number <= 2; number++ {
		count, due := 0, number // the device's own, who is asked under its lock
		last := func(int) bool { count++; return count == due }
		for why, change := range map[string]func(*stranger.State){"closed at once": func(state *stranger.State) { state.Closes = last }, "ended within its index": func(state *stranger.State) { state.Ahead, state.Ends = 1, func(int) bool { return true } },
			"ended within its bytes": func(state *stranger.State) { state.Ends = func(int) bool { return true } }} {
			device.Change(func(state *stranger.State) {
				count, state.Closes, state.Ends, state.Ahead = 0, nil, nil, 0
				change(state)
			})
			if told, err := call("docs", device.ID.String(), device.Address); err == nil || told != "" {
				t.Errorf("connection %d is %s: %s", number, why, told)
			}
		}
	}
	device.Change(func(state *stranger.State) {
		count := 0
		state.Ahead, state.Closes = 0, nil
		state.Ends = func(int) bool {
			if count++; count == 2 {
				state.Ahead = 1
			}
			return count == 2
		}
	})
	if told, err := call("docs", device.ID.String(), device.Address); err == nil || told != "" {
		t.Errorf("a second index that isn't whole: %s", told)
	}
	device.Change(func(state *stranger.State) { state.Ahead, state.Ends = 0, nil })
	if _, err := call("docs", device.ID.String(), device.Address); err != nil {
		t.Error(err)
	}
	for tries := 0; fixture.CountOpened(t, fixture.Any) > before; tries++ {
		if tries == 2000 {
			t.Fatal("a connection stays open")
		}
		time.Sleep(10 * time.Millisecond)
	}
	if err := run([]string{filepath.Join(directory, "cert.pem")}, &bytes.Buffer{}); err == nil {
		t.Error("a key is made in a file")
	}
}

// words is the variable that has a process be called as the command is.
const words = "OVERWIRE_WORDS"

// The command prints what it was asked for, or why it can't, with a status of its own.
func TestTheCommand(t *testing.T) {
	if given, is := os.LookupEnv(words); is {
		os.Args = append([]string{"overwire"}, strings.Fields(given)...)
		main()
		return
	}
	for given, row := range map[string]struct {
		status int
		told   string
	}{"": {2, "overwire: usage: overwire DIRECTORY"}, filepath.Join(t.TempDir(), "observer"): {0, "-"}} {
		command := exec.Command(os.Args[0], "-test.run", "^TestTheCommand$")
		command.Env = append(os.Environ(), words+"="+given)
		told, _ := command.CombinedOutput()
		if status := command.ProcessState.ExitCode(); status != row.status || !strings.Contains(string(told), row.told) {
			t.Errorf("%q: %d, %s", given, status, told)
		}
	}
}
