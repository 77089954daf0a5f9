package observe

import (
	"context"
	"errors"
	"fmt"
	"os"
	"path/filepath"
	"reflect"
	"strings"
	"testing"

	"github.com/syncthing/syncthing/lib/protocol"
	"syncthing-audit/message"
	"syncthing-audit/part"
	"syncthing-audit/wire"
)

// cutFile gives a record of a file of so many bytes in blocks of a size, as it is sent.
func cutFile(name string, sequence uint64, size, blockSize int64) []byte {
	text := message.AppendNumber(message.AppendText(nil, 1, []byte(name)), 3, uint64(size))
	text = message.AppendText(text, 9, message.AppendText(nil, 1, message.AppendNumber(message.AppendNumber(nil, 1, 1), 2, 1)))
	text = message.AppendNumber(message.AppendNumber(message.AppendNumber(text, 10, sequence), 12, 1), 13, uint64(blockSize))
	for offset := int64(0); offset < size; offset += blockSize {
		length := size - offset
		if length > blockSize {
			length = blockSize
		}
		block := message.AppendNumber(message.AppendNumber(nil, 1, uint64(offset)), 2, uint64(length))
		text = message.AppendText(text, 16, message.AppendText(block, 3, make([]byte, 32)))
	}
	return text
}

// A walk of disks is told the sizes of blocks that its files are cut into otherwise than by their length, rising, of all folders: where one block or
// another makes a difference.
func TestTheOtherSizesOfBlocks(t *testing.T) {
	const kilo = int64(1 << 10)
	for why, row := range map[string]struct {
		size, blockSize int64
		is              bool
	}{
		"as its length says":                {300 * kilo, 128 * kilo, false},
		"fewer blocks":                      {300 * kilo, 256 * kilo, true},
		"one block, where there'd be two":   {200 * kilo, 256 * kilo, true},
		"one block in either size":          {100 * kilo, 256 * kilo, false},
		"as long as the block":              {128 * kilo, 256 * kilo, false},
		"one byte longer":                   {128*kilo + 1, 256 * kilo, true},
		"no size that Syncthing cuts into":  {900 * kilo, 300 * kilo, false},
		"much larger blocks of a long file": {3000 * kilo, 1024 * kilo, true},
	} {
		device := seen(t, map[string][]byte{"a": cutFile("a", 1, row.size, row.blockSize), "d": fileOf("d", 2, false, message.AppendNumber(nil, 6, 1)...)})
		expected := []int64{}
		if row.is {
			expected = append(expected, row.blockSize)
		}
		if sizes, err := device.OtherBlockSizes(); err != nil || !reflect.DeepEqual(sizes, expected) {
			t.Errorf("%s: %v, not %v: %v", why, sizes, expected, err)
		}
	}
	two := seen(t, map[string][]byte{"a": cutFile("a", 1, 3000*kilo, 1024*kilo), "b": cutFile("b", 2, 3000*kilo, 512*kilo)})
	two.Folders = append(two.Folders, seenIn(t, "photos", map[string][]byte{"c": cutFile("c", 1, 3000*kilo, 256*kilo), "d": cutFile("d", 2, 3000*kilo, 512*kilo)}))
	if sizes, err := two.OtherBlockSizes(); err != nil || !reflect.DeepEqual(sizes, []int64{256 * kilo, 512 * kilo, 1024 * kilo}) {
		t.Errorf("%v, %v", sizes, err)
	}
	two.Folders[1].index.Close()
	if _, err := two.OtherBlockSizes(); err == nil {
		t.Error("an index that can't be read has sizes")
	}
}

// Each state that is found becomes one thing that a part says, with its reason.
func TestEachStateThatIsFound(t *testing.T) {
	for state, told := range map[wire.State]string{wire.Same: "file", wire.Differs: "file", wire.Present: "file", wire.Missing: "nothing", wire.Ignored: part.Ignored + ": " + part.WhyIgnored,
		wire.Failed:   part.Unreadable + ": asked over the wire, the device fails to read it",
		wire.NotKnown: part.Unknown + ": asked over the wire, the device doesn't tell how long the file is, or the file changed while it was read"} {
		found, is := diskOf(protocol.DeviceID{1}, "a", wire.Found{State: state}), "nothing"
		if found.Node != nil {
			is = "file"
		}
		if found.Out != nil {
			is = found.Out.Kind + ": " + found.Out.Why
		}
		if is != told || found.Node != nil && found.Out != nil {
			t.Errorf("%s: %s", state, is)
		}
	}
	version := [][2]uint64{{1, 1}}
	for why, row := range map[string]struct {
		record       *part.Record
		isOut, local bool
	}{"none": {nil, false, false}, "a record": {&part.Record{Version: version}, false, false}, "an invalid one": {&part.Record{Version: version, Invalid: true}, true, false},
		"a local change": {&part.Record{Invalid: true}, false, true}, "no version": {&part.Record{}, false, false}} {
		if out := outOfInvalid(row.record); (out != nil) != row.isOut || out != nil && out.Kind != part.Unknown || row.record != nil && isLocalChange(row.record) != row.local {
			t.Errorf("%s: %+v", why, out)
		}
	}
}

// A second look at another device is refused. A folder that isn't shared any more, or is paused by then, is out with its reason, and nothing of it is left.
func TestASecondLookWithoutAFolder(t *testing.T) {
	device := seen(t, nil)
	if err := device.End(context.Background(), &wire.Connection{Device: protocol.DeviceID{5}}); err == nil || !strings.HasPrefix(err.Error(), "another device, ") || len(device.Folders) != 1 {
		t.Error(err)
	}
	for _, why := range []error{nil, wire.Paused} {
		device, told := seen(t, nil), wire.NotShared
		connection := &wire.Connection{Device: device.ID, Out: map[string]error{}}
		if why != nil {
			connection.Out["docs"], told = why, wire.Paused
		}
		room := device.Folders[0].disks.directory
		if err := device.End(context.Background(), connection); !errors.Is(err, wire.NotShared) || !errors.Is(device.Out["docs"], told) || len(device.Folders) > 0 {
			t.Errorf("%v, %v", err, device.Out)
		}
		if !strings.HasPrefix(fmt.Sprint(device.Out["docs"]), "at the second look: ") || device.again.IsZero() {
			t.Error(device.Out["docs"])
		}
		if _, err := os.Stat(room); !errors.Is(err, os.ErrNotExist) {
			t.Errorf("what was found stays: %v", err)
		}
	}
}

// An address is kept for as many devices as there are, and for no more; one that isn't known takes none away.
func TestHowManyAddressesAreKept(t *testing.T) {
	addresses, err := OpenAddresses(t.TempDir())
	if err != nil {
		t.Fatal(err)
	}
	for number := 0; number < mostAddresses+2; number++ {
		addresses.Add("docs", fmt.Sprint(number), "host:1")
	}
	addresses.Add("docs", "0", "")
	if len(addresses.Devices) != mostAddresses || len(addresses.Of([]string{"docs"})) != mostAddresses || addresses.Devices["0"] != "host:1" {
		t.Errorf("%d, %q", len(addresses.Devices), addresses.Devices["0"])
	}
	if err := addresses.Keep(); err != nil {
		t.Fatal(err)
	}
	addresses.path = filepath.Join(t.TempDir(), "none", "x")
	if addresses.Keep() == nil {
		t.Error("addresses are kept in no directory")
	}
}

// What is kept of a device can be opened by one run alone, and what can't be is told with its place.
func TestWhatCannotBeKept(t *testing.T) {
	room := t.TempDir()
	if err := os.WriteFile(filepath.Join(room, "file"), nil, 0o600); err != nil {
		t.Fatal(err)
	}
	if _, err := OpenKept(filepath.Join(room, "file", "x")); err == nil {
		t.Error("something is kept below a file")
	}
	for _, name := range []string{nameOfLast, nameOfLock} {
		place := filepath.Join(room, "in "+name)
		if err := os.Mkdir(place, 0o700); err != nil {
			t.Fatal(err)
		}
		if err := os.Symlink("/nowhere/x", filepath.Join(place, name)); err != nil {
			t.Fatal(err)
		}
		if _, err := OpenKept(place); err == nil || !strings.Contains(err.Error(), place) {
			t.Errorf("%s: %v", name, err)
		}
	}
	kept, err := OpenKept(filepath.Join(room, "good"))
	if err != nil {
		t.Fatal(err)
	}
	if err := kept.Finish(); err != nil {
		t.Fatal(err)
	}
	entries, err := os.ReadDir(filepath.Join(room, "good"))
	if err != nil || len(entries) != 2 || entries[0].Name() != nameOfLast || entries[1].Name() != nameOfLock {
		t.Errorf("%v, %v", entries, err)
	}
	again, err := OpenKept(filepath.Join(room, "good"))
	if err != nil {
		t.Fatal(err)
	}
	again.Close()
}
