package observing

import (
	"os"
	"path/filepath"
	"strings"
	"testing"
	"time"

	"github.com/syncthing/syncthing/lib/protocol"
	"syncthing-audit/ask"
	"syncthing-audit/exit"
	"syncthing-audit/fixture/stranger"
	"syncthing-audit/observe"
)

// The time between the looks is that of the observer's own clock. A part that can't be read is told by what its device was given as.
func TestAnswersOfPartsOfARun(t *testing.T) {
	here := newWorld(t, 1, map[string]string{"a": "text"})
	meeting, program := here.meeting(""), ask.Program{Path: here.asked.Program}
	meeting.room, meeting.asked.Lines = t.TempDir(), true
	meeting.addresses[0].where, meeting.addresses[0].given = here.devices[0].Address, "the laptop"
	if err := program.Find(); err != nil {
		t.Fatal(err)
	}
	if err := meeting.listen(); err != nil {
		t.Fatal(err)
	}
	defer meeting.close()
	if err := meeting.look(); err != nil {
		t.Fatal(err)
	}
	files, err := meeting.write()
	if err != nil || len(files) != 1 {
		t.Fatal(files, err)
	}
	for due, between := range map[string]time.Duration{"still: docs 7.000 s,": 7 * time.Second, "still: docs 0.250 s,": time.Second / 4} {
		meeting.second = meeting.first.Add(between)
		var output strings.Builder
		if status, err := meeting.answer(program, files, &output); status != exit.Partial || err != nil || !strings.Contains(output.String(), due) {
			t.Errorf("%v between the looks: %d, %v: %s", between, status, err, output.String())
		}
	}
	for path := range files {
		if err := os.Remove(path); err != nil {
			t.Fatal(err)
		}
		var output strings.Builder
		status, err := meeting.answer(program, files, &output)
		if status != 0 || err == nil || !strings.Contains(err.Error(), "the laptop") || strings.Contains(err.Error(), path) || output.Len() > 0 {
			t.Errorf("a part that is gone: %d, %v: %s", status, err, output.String())
		}
	}
}

// Where a device's index can't be read any more, no command for a walk is told, and none is awaited.
func TestAWalkWithoutAnIndex(t *testing.T) {
	here := newWorld(t, 1, map[string]string{"a": "text"})
	meeting := here.meeting("")
	meeting.addresses[0].where = here.devices[0].Address
	if err := meeting.listen(); err != nil {
		t.Fatal(err)
	}
	defer meeting.close()
	if err := meeting.look(); err != nil {
		t.Fatal(err)
	}
	var log strings.Builder
	meeting.log, meeting.asked.Disks = &log, map[int]string{0: "/nowhere/disks.part"}
	meeting.keptOf(here.devices[0].ID, "docs").Close()
	if err := meeting.tellCommand(0); err == nil || log.Len() > 0 {
		t.Fatalf("%v: %s", err, log.String())
	}
	if err := meeting.waitForDisks(); err == nil {
		t.Error("it goes on")
	}
}

// Each device has a file of its own, also where somebody made an id that begins as another one's.
func TestWhichFilesPartsHave(t *testing.T) {
	first, alike, other := protocol.DeviceID{0: 1, 7: 1}, protocol.DeviceID{0: 1, 7: 2}, protocol.DeviceID{0: 9}
	for _, row := range []struct {
		of   protocol.DeviceID
		all  []protocol.DeviceID
		name string
	}{
		{first, []protocol.DeviceID{first}, first.String()[:7] + ".part"}, {first, []protocol.DeviceID{other, first}, first.String()[:7] + ".part"},
		{first, []protocol.DeviceID{other, first, alike}, first.String() + ".part"}, {alike, []protocol.DeviceID{first, alike}, alike.String() + ".part"},
	} {
		devices := []*observe.Device{}
		for _, id := range row.all {
			devices = append(devices, &observe.Device{ID: id})
		}
		if name := fileOf(row.of, devices); name != row.name {
			t.Errorf("%s of %v", name, row.all)
		}
	}
}

// What a device says of its folder and its devices costs its own part alone, also where no part has such. The other device is answered for.
func TestALiarOfWhichThereIsNoPart(t *testing.T) {
	here := newWorld(t, 2, map[string]string{"a": "text"})
	lie := func(change func(state *stranger.State)) {
		here.devices[1].Change(func(state *stranger.State) {
			state.IndexID, state.Others = 2, nil
			change(state)
		})
	}
	another := func(number int) protocol.Device {
		return protocol.Device{ID: protocol.DeviceID{9, byte(number), byte(number >> 8)}, Name: strings.Repeat("n", 1000), IndexID: 7, MaxSequence: 1}
	}
	for why, change := range map[string]func(state *stranger.State){
		"an index without an id": func(state *stranger.State) { state.IndexID = 0 },
		"a device twice":         func(state *stranger.State) { state.Others = []protocol.Device{another(1), another(1)} },
		"very many devices": func(state *stranger.State) {
			for number := 0; number < 1500; number++ {
				state.Others = append(state.Others, another(number))
			}
		},
		"names without an end": func(state *stranger.State) {
			for number := 0; number < 900; number++ {
				device := another(number)
				device.Name = strings.Repeat("\x01", 1000)
				state.Others = append(state.Others, device)
			}
			for _, folder := range []string{"more", "pics", "zoo"} {
				state.Records[folder] = state.Records["docs"]
			}
		},
	} {
		lie(change)
		here.expect(why, exit.Partial, "docs: in step as far as seen over the wire", "on device a")
	}
}

// Parts of some devices alone have the status of a part.
func TestPartsOfSomeDevices(t *testing.T) {
	here := newWorld(t, 2, map[string]string{"a": "text"})
	here.asked.Into = filepath.Join(t.TempDir(), "both")
	here.expect("both", exit.Done)
	here.asked.Into = filepath.Join(t.TempDir(), "one")
	here.devices[1].Change(func(state *stranger.State) { state.IndexID = 0 })
	here.expect("one", exit.Partial)
	if parts, err := os.ReadDir(here.asked.Into); err != nil || len(parts) != 1 {
		t.Errorf("%v, %v", parts, err)
	}
}

// Of very many devices that aren't asked a few are named.
func TestManyDevicesThatAreNotAsked(t *testing.T) {
	here := newWorld(t, 1, map[string]string{"a": "text"})
	here.devices[0].Change(func(state *stranger.State) {
		for number := 0; number < 100; number++ {
			state.Others = append(state.Others, protocol.Device{ID: protocol.DeviceID{9, byte(number)}, Name: "known"})
		}
	})
	here.asked.Strict = true
	here.expect("strict", exit.Refused, ", 90 more share the folder, and aren't asked")
}
