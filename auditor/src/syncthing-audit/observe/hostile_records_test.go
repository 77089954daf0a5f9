package observe

import (
	"bytes"
	"fmt"
	"io"
	"math"
	"math/rand"
	"strings"
	"testing"

	"github.com/syncthing/syncthing/lib/protocol"
	"syncthing-audit/device"
	hashing "syncthing-audit/disk"
	"syncthing-audit/limits"
	"syncthing-audit/message"
	"syncthing-audit/part"
	"syncthing-audit/wire"
)

// hostileName gives a name as a device may send it: outside the folder, too, of no letters, in another form of Unicode, or too long.
func hostileName(draw *rand.Rand, number int) string {
	names := []string{"", "/", "a/", "/a", "..", "../a", "a/../b", "a//b", ".", "a\x00b", "a\nb", "\x1b[2J", "\xff\xfe", "é", "e\u0301", "a\\b", "~", "\U0010ffff", "\U0010ffff/" + fmt.Sprint(number),
		"n" + fmt.Sprint(number), strings.Repeat("l", limits.MostNameBytes), strings.Repeat("l", limits.MostNameBytes+1), strings.Repeat("l", part.MostNameBytes+1), ".stfolder", ".syncthing.a.tmp"}
	name := names[draw.Intn(len(names))]
	if draw.Intn(2) == 0 {
		name += fmt.Sprint(number)
	}
	return name
}

// hostileRecord gives a record that a device may send, whether Syncthing has such or not.
func hostileRecord(draw *rand.Rand, number int) []byte {
	numbers := []uint64{0, 1, 2, 3, 4, 5, 1000, 131072, 131073, 1 << 24, 1 << 31, 1<<32 - 1, 1 << 40, math.MaxInt64, 1 << 63, math.MaxUint64, math.MaxUint64 - 5}
	odd := func(usual uint64) uint64 {
		if draw.Intn(6) > 0 {
			return usual
		}
		return numbers[draw.Intn(len(numbers))]
	}
	text := message.AppendText(nil, message.FileName, []byte(hostileName(draw, number)))
	kind := odd(uint64(draw.Intn(2)))
	size := odd(uint64(draw.Intn(3)) * 131072)
	text = message.AppendNumber(text, message.FileType, kind)
	if kind == 0 {
		text = message.AppendNumber(text, message.FileSize, size)
		text = message.AppendNumber(text, message.FileBlockSize, odd(131072))
	}
	text = message.AppendNumber(text, message.FilePermissions, odd(0o644))
	text = message.AppendNumber(text, message.FileModifiedS, odd(1700000000))
	text = message.AppendNumber(text, message.FileModifiedNs, odd(5))
	text = message.AppendNumber(text, message.FileModifiedBy, odd(7))
	for flag := message.FileDeleted; flag <= message.FileNoPermissions; flag++ { // and FileInvalid
		if draw.Intn(8) == 0 {
			text = message.AppendNumber(text, flag, 1)
		}
	}
	text = message.AppendText(text, message.FileVersion, hostileVersion(draw, odd))
	text = message.AppendNumber(text, message.FileSequence, uint64(number))
	for offset := uint64(0); kind == 0 && (offset == 0 || offset < size) && offset < 1<<20; offset += 131072 {
		block := message.AppendNumber(message.AppendNumber(nil, message.BlockOffset, odd(offset)), message.BlockSize, odd(least(131072, size-offset)))
		text = message.AppendText(text, message.FileBlock, message.AppendText(block, message.BlockHash, make([]byte, odd(32)%100)))
	}
	if draw.Intn(6) == 0 {
		text = message.AppendText(text, message.FileTarget, []byte(hostileName(draw, number)))
	}
	return text
}

// hostileVersion gives a version: mostly of one counter, else of none, of several of one device, of devices in any order, or of more than a document has.
func hostileVersion(draw *rand.Rand, odd func(usual uint64) uint64) (version []byte) {
	count, isOfOne := 1, draw.Intn(8) == 0
	if draw.Intn(4) == 0 {
		count = draw.Intn(limits.MostCounters + 3)
	}
	for ; count > 0; count-- {
		device := uint64(count)
		if isOfOne {
			device = odd(7)
		}
		counter := message.AppendNumber(nil, message.CounterID, device)
		version = message.AppendText(version, message.VersionCounter, message.AppendNumber(counter, message.CounterValue, odd(1)))
	}
	return version
}

func least(a, b uint64) uint64 {
	if a < b {
		return a
	}
	return b
}

// foundOf gives what a look finds of a name whose device answers what it likes.
func foundOf(draw *rand.Rand, entry device.Entry) wire.Found {
	states := []wire.State{wire.Missing, wire.Ignored, wire.Failed, wire.NotKnown, wire.Same}
	state := states[draw.Intn(len(states))]
	if state != wire.Same {
		return wire.Found{State: state}
	}
	found := wire.Found{State: wire.Present, Size: int64(draw.Intn(300000)), BlockSize: protocol.MinBlockSize}
	if record := entry.Record; record != nil && record.Content != nil {
		found.State, found.BlockSize = wire.Same, record.Content.BlockSize
		if draw.Intn(2) == 0 {
			found.Size = record.Content.Size
		}
	}
	found.Blocks = make([][32]byte, part.CountOfBlocks(found.Size, found.BlockSize))
	for place := range found.Blocks {
		found.Blocks[place][0] = byte(draw.Intn(2))
	}
	if found.State == wire.Same {
		if found.Differ = hashing.Compare(entry.Blocks, found.Blocks); found.Differ != nil || found.Size != entry.Record.Content.Size {
			found.State = wire.Differs
		}
	}
	return found
}

// Whatever records a device sends, and whatever it answers to what it is asked of them, the part that the observer writes of it is read: else one device
// would cost the answer about all.
func TestWhateverADeviceSendsItsPartIsRead(t *testing.T) {
	for seed := int64(0); seed < 60; seed++ {
		draw := rand.New(rand.NewSource(seed))
		made := seen(t, nil)
		folder := made.Folders[0]
		for number := 1; number < 60; number++ {
			index := folder.index
			if draw.Intn(10) == 0 {
				index = folder.since
			}
			if err := index.Put(hostileRecord(draw, number)); err != nil {
				t.Fatal(err)
			}
		}
		folder.since.Highest = 60
		if err := folder.count(); err != nil {
			t.Fatal(err)
		}
		err := folder.index.Each(func(entry device.Entry) error {
			return folder.disks.put(entry.Name, diskOf(folder.of, entry.Name, foundOf(draw, entry)))
		})
		var text bytes.Buffer
		if err == nil {
			err = made.Write(&text, asked, protocol.DeviceID{0: 9, 7: 1}, strings.Repeat("0", 32), []*Device{made})
		}
		if err != nil {
			t.Fatalf("%d: %v", seed, err)
		}
		read, err := part.NewReader(&text)
		for err == nil {
			_, err = read.Next()
		}
		if err != io.EOF {
			t.Errorf("%d: %v", seed, err)
		}
	}
}
