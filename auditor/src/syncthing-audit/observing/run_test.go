package observing

import (
	"errors"
	"fmt"
	"os"
	"path/filepath"
	"regexp"
	"sort"
	"strings"
	"testing"
	"time"

	"github.com/syncthing/syncthing/lib/protocol"
	"syncthing-audit/commandline"
	"syncthing-audit/exit"
	"syncthing-audit/fixture"
	"syncthing-audit/fixture/stranger"
	"syncthing-audit/part"
	"syncthing-audit/wire"
)

// world has devices that share the folder 'docs', and an observer that asks them.
type world struct {
	t        *testing.T
	observer protocol.DeviceID
	asked    commandline.Options
	devices  []*stranger.Device
	room     string // where runs make their files
}

// newWorld makes an observer with as many devices, each of which has these files, by name.
func newWorld(t *testing.T, count int, files map[string]string) *world {
	t.Helper()
	fixture.UseAuditor(t)
	here := &world{t: t, room: t.TempDir()}
	t.Setenv("TMPDIR", here.room)
	here.asked = commandline.Options{Homes: []string{filepath.Join(t.TempDir(), "new", "observer")}, LeaveOut: map[string]bool{}, Jobs: 1, Program: os.Getenv("SYNCAUDIT")}
	here.asked.Init = true
	status, output, log, err := here.run()
	here.asked.Init = false
	if status != exit.Done || err != nil || !strings.Contains(log, "this is the observer's device id") {
		t.Fatal(status, err, log)
	}
	if here.observer, err = protocol.DeviceIDFromString(strings.TrimSpace(output)); err != nil {
		t.Fatal(err)
	}
	for number := 0; number < count; number++ {
		here.devices = append(here.devices, stranger.New(t, here.observer, stateOf(number, files)))
	}
	for _, device := range here.devices {
		others := here.othersOf(device, int64(len(files)))
		device.Change(func(state *stranger.State) { state.Others = others })
		here.asked.Parts = append(here.asked.Parts, device.ID.String()+"@tcp://"+device.Address)
	}
	return here
}

// stateOf gives what a device has: the same records as the others, in its own order.
func stateOf(number int, files map[string]string) stranger.State {
	state := stranger.State{Name: "device " + string(rune('a'+number)), IndexID: protocol.IndexID(number + 1), Disk: map[string]string{}, Hidden: map[string]bool{}, Sealed: map[string]bool{}}
	records := []protocol.FileInfo{}
	for name, text := range files {
		record := stranger.Record(name, text, int64(len(records)+1))
		record.Version.Counters[0].Value = 1
		records = append(records, record)
		state.Disk["docs/"+name] = text
	}
	state.Records = map[string][]protocol.FileInfo{"docs": records}
	return state
}

// othersOf gives what a device says of the others: it has all up to a sequence.
func (w *world) othersOf(device *stranger.Device, sequence int64) (others []protocol.Device) {
	for number, other := range w.devices {
		if other != device {
			others = append(others, protocol.Device{ID: other.ID, Name: "known", IndexID: protocol.IndexID(number + 1), MaxSequence: sequence})
		}
	}
	return others
}

// run looks at all devices, and gives the status and all that is told.
func (w *world) run() (int, string, string, error) {
	var output, log strings.Builder
	status, err := Run(w.asked, &output, &log)
	return status, output.String(), log.String(), err
}

// expect runs, and checks the status, which is a refusal where it is Refused, and that these words are told. Nothing of the run stays but in its home. What
// fails before there is an answer has no status of one.
func (w *world) expect(why string, due int, words ...string) string {
	w.t.Helper()
	before := fixture.CountOpened(w.t, w.isOfRun)
	status, output, log, err := w.run()
	if err != nil {
		if output == "" && status != exit.Done {
			w.t.Errorf("%s: status %d without an answer", why, status)
		}
		status = exit.Refused
	}
	told := fmt.Sprint(output, log, err)
	for _, word := range words {
		if !strings.Contains(told, word) {
			w.t.Errorf("%s: %q isn't told", why, word)
		}
	}
	if status != due || w.t.Failed() {
		w.t.Fatalf("%s: %d, not %d: %s", why, status, due, told)
	}
	if left, err := os.ReadDir(w.room); err != nil || len(left) > 0 {
		w.t.Errorf("%s: %v is left, %v", why, left, err)
	}
	if after := fixture.CountOpened(w.t, w.isOfRun); after != before {
		w.t.Errorf("%s: %d files are open, and %d before", why, after, before)
	}
	return told
}

// isOfRun says whether a run makes the file of this path.
func (w *world) isOfRun(path string) bool {
	return strings.HasPrefix(path, w.room) || strings.HasPrefix(path, filepath.Dir(w.asked.Homes[0]))
}

const (
	inStep = "in step as far as seen over the wire"
	absent = part.Absent
)

// Devices are asked where they are said to be, and then where they were. What differs is told, and the names of devices and folders are.
func TestDevicesAreAsked(t *testing.T) {
	here := newWorld(t, 2, map[string]string{"a": "text", "b": "more"})
	here.expect("in step", exit.Partial, inStep, "docs: ", "still for 0 s: 2 names (0 deleted), 16 bytes hashed on device a, device b")
	given := here.asked.Parts
	here.asked.Parts, here.asked.Folders = nil, []string{"docs"}
	here.expect("where they were", exit.Partial, inStep)
	here.asked.Folders = []string{"none"}
	here.expect("a folder that was never asked for", exit.Refused, "no device is given")
	here.asked.Folders = nil
	here.devices[1].Change(func(state *stranger.State) { state.Disk["docs/a"] = "rot!" })
	here.expect("rot", exit.NotSettled, "NOT in step, 1 name is wrong", "device b: other bytes on the disk")
	here.asked.Records = true
	here.expect("records alone", exit.Partial, "0 bytes hashed")
	here.asked.Records, here.asked.Lines = false, true
	told := here.expect("lines", exit.NotSettled, "StoreDiffers docs a on ", fmt.Sprintf(" is %[1]s (%[1]s)\n", here.devices[0].ID))
	if strings.Contains(told, here.room) {
		t.Errorf("a file of the run is told: %s", told)
	}
	here.asked.Lines, here.asked.Parts, here.asked.Strict = false, given[:1], true
	here.expect("a device that isn't asked", exit.Refused, fmt.Sprintf("refused: known (%s) share the folder, and aren't asked: name them", here.devices[1].ID))
	here.asked.LeaveOut[absent] = true
	here.expect("a device that is left out", exit.Partial, "left out: docs of known: it shares the folder", here.devices[1].ID.String())
}

// A device that can't be looked at costs its own part alone, if that is asked for. Why is told.
func TestDevicesThatCannotBeLookedAt(t *testing.T) {
	hurry(t)
	here := newWorld(t, 3, map[string]string{"a": "text"})
	sockets := countSockets(t)
	here.asked.Strict = true
	only := func(count int) func(int) bool { return func(connection int) bool { return connection <= count } }
	close := func(which func(connection int) bool) {
		here.devices[2].Change(func(state *stranger.State) { state.Closes = which })
	}
	close(only(mostTries - 1))
	here.expect("busy", exit.Partial, inStep, "hashed on device a, device b, device c")
	close(func(int) bool { return true })
	here.expect("too busy", exit.Refused, "not connected", "refused: not all devices could be asked: --leave-out absent leaves out those that couldn't")
	here.asked.LeaveOut[absent] = true
	here.expect("left out", exit.Partial, here.asked.Parts[2]+": not connected: ", "hashed on device a, device b")
	here.devices[2].Change(func(state *stranger.State) { state.Closes = nil; state.Hidden["docs"] = true })
	here.expect("not shared", exit.Partial, here.asked.Parts[2]+": not connected: "+string(wire.NotShared))
	here.devices[2].Change(func(state *stranger.State) { state.Hidden, state.Sealed["docs"] = map[string]bool{}, true })
	here.expect("encrypted there", exit.Partial, here.asked.Parts[2]+": first look: folder \"docs\": "+string(wire.EncryptedFolder))
	awaitSockets(t, sockets)
	here.asked.Parts = here.asked.Parts[2:]
	here.expect("none else", exit.Refused, "no device could be looked at")
	close(func(int) bool { return true })
	here.expect("none at all", exit.Refused, "no device could be looked at")
}

// countSockets says how many sockets this process has.
func countSockets(t *testing.T) int {
	return fixture.CountOpened(t, func(path string) bool { return strings.HasPrefix(path, "socket:") })
}

// awaitSockets waits until no more than so many are open: each end of a connection closes its own.
func awaitSockets(t *testing.T, most int) {
	t.Helper()
	for tries := 0; countSockets(t) > most; tries++ {
		if tries == 2000 {
			t.Fatalf("%d sockets are open, and %d were before", countSockets(t), most)
		}
		time.Sleep(10 * time.Millisecond)
	}
}

// hurry has a test wait for little time where a run waits for devices.
func hurry(t *testing.T) {
	pause, announce, wait, connect := pauseOfTries, timeToAnnounce, timeBetweenWaits, timeToConnect
	pauseOfTries, timeToAnnounce, timeBetweenWaits, timeToConnect = time.Millisecond, 50*time.Millisecond, time.Millisecond, 50*time.Millisecond
	t.Cleanup(func() { pauseOfTries, timeToAnnounce, timeBetweenWaits, timeToConnect = pause, announce, wait, connect })
}

// Each file of parts is named by its device. They are all that is made then.
func TestPartsOverTheWire(t *testing.T) {
	here := newWorld(t, 2, map[string]string{"a": "text"})
	here.asked.Into, here.asked.Program = filepath.Join(t.TempDir(), "new", "parts"), "/nowhere"
	if told := here.expect("parts", exit.Done); told != "<nil>" {
		t.Errorf("%q is told", told)
	}
	var due, names []string
	for _, device := range here.devices {
		due = append(due, device.ID.String()[:7]+".part")
	}
	entries, err := os.ReadDir(here.asked.Into)
	for _, entry := range entries {
		names = append(names, entry.Name())
	}
	if sort.Strings(due); err != nil || strings.Join(due, " ") != strings.Join(names, " ") {
		t.Errorf("%v, not %v: %v", names, due, err)
	}
	for _, directory := range []string{here.asked.Into, filepath.Dir(here.asked.Homes[0])} { // nobody else may look into them
		if about, err := os.Stat(directory); err != nil || about.Mode().Perm() != 0o700 {
			t.Errorf("%s: %v, %v", directory, about.Mode(), err)
		}
	}
	for _, device := range here.devices {
		path := filepath.Join(here.asked.Into, device.ID.String()[:7]+".part")
		if id, err := readHalf(path, device.ID, ""); id != "" || !errors.Is(err, errOtherHalf) || !strings.HasSuffix(err.Error(), ": it is no part of disks alone") {
			t.Errorf("a whole part in place of one of disks: %s, %v", id, err)
		}
		file, err := os.Open(path)
		if err != nil {
			t.Fatal(err)
		}
		reader, err := part.NewReader(file)
		if err != nil || reader.Head().Device != device.ID.String() || len(reader.Head().Look.After) != 2 {
			t.Errorf("%v", err)
		}
		file.Close()
	}
	if err := os.Mkdir(filepath.Join(filepath.Dir(here.asked.Into), ".stfolder"), 0o700); err != nil {
		t.Fatal(err)
	}
	here.expect("in a folder", exit.Refused, "would be in the Syncthing folder")
}

// A device that fails on the way is left out of that look's answer alone: at the next one it is asked for again, and missing from the start it is refused.
func TestWhatALookLeavesOut(t *testing.T) {
	hurry(t)
	here := newWorld(t, 2, map[string]string{"a": "text"})
	here.asked.Strict = true
	here.devices[1].Change(func(state *stranger.State) { state.Closes = func(connection int) bool { return connection > 1 } })
	here.expect("gone between the looks", exit.Partial, here.asked.Parts[1]+": second look: ", "hashed on device a;", "left out: ")
	here.expect("gone from the start", exit.Refused, here.asked.Parts[1]+": not connected: ", "not all devices could be asked")
}

// A device that says it shares a folder with a device without an id costs its own part alone.
func TestADeviceThatNamesNobody(t *testing.T) {
	here := newWorld(t, 2, map[string]string{"a": "text"})
	pages := here.withPages()
	here.devices[1].Change(func(state *stranger.State) { state.Others = append(state.Others, protocol.Device{Name: "nobody"}) })
	here.expect("nobody", exit.Partial, here.asked.Parts[1]+": not connected: "+string(wire.BadMessage)+": its ClusterConfig: a device without an id", "hashed on device a;")
	if pages[0].takeScanned() != "" {
		t.Error("a scan is asked for")
	}
}

// Devices are told in the order of their ids, those that are asked as well as those that aren't.
func TestTheOrderOfDevices(t *testing.T) {
	here := newWorld(t, 5, map[string]string{"a": "text"})
	all := []string{}
	for _, device := range here.devices {
		all = append(all, device.ID.String())
	}
	sort.Strings(all)
	ids := func(pattern, told string) string {
		found := []string{}
		for _, words := range regexp.MustCompile(pattern).FindAllStringSubmatch(told, -1) {
			found = append(found, words[1])
		}
		return strings.Join(found, " ")
	}
	here.asked.Lines = true
	if told := here.expect("all are asked", exit.Partial); ids(` is ([A-Z0-9-]{63}) \(`, told) != strings.Join(all, " ") {
		t.Errorf("not in the order %v: %s", all, told)
	}
	here.asked.Lines, here.asked.Strict = false, true
	first := strings.SplitN(here.asked.Parts[0], "@", 2)[0]
	here.asked.Parts = here.asked.Parts[:1]
	others := strings.ReplaceAll(strings.TrimSpace(strings.ReplaceAll(strings.Join(all, " "), first, "")), "  ", " ")
	if told := here.expect("one is asked", exit.Refused, "share the folder, and aren't asked"); ids(`known \(([A-Z0-9-]{63})\)`, told) != others {
		t.Errorf("not in the order %v: %s", others, told)
	}
}
