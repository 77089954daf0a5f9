package bep

import (
	"math/rand"
	"strings"
	"testing"
	"time"

	"github.com/syncthing/syncthing/lib/fs"
	"github.com/syncthing/syncthing/lib/protocol"
)

// The numbers are Syncthing's own.
func TestNumbers(t *testing.T) {
	for of, numbers := range map[string][2]int{"file": {File, int(protocol.FileInfoTypeFile)}, "directory": {Directory, int(protocol.FileInfoTypeDirectory)},
		"symlink": {Symlink, int(protocol.FileInfoTypeSymlink)}, "least block": {MinBlockSize, protocol.MinBlockSize},
		"largest block": {MaxBlockSize, protocol.MaxBlockSize}} {
		if numbers[0] != numbers[1] {
			t.Errorf("%s: %d, and Syncthing has %d", of, numbers[0], numbers[1])
		}
	}
	is := map[int64]bool{}
	for _, size := range protocol.BlockSizes {
		is[int64(size)] = true
		for _, next := range []int64{int64(size) * 2000, int64(size)*2000 - 1, int64(size)*2000 + 1, int64(size)} {
			if own := BlockSize(next); own != int64(protocol.BlockSize(next)) {
				t.Errorf("a file of %d bytes has blocks of %d, and Syncthing cuts it into %d", next, own, protocol.BlockSize(next))
			}
		}
	}
	for size := int64(0); size <= 64<<20; size += 64 << 10 {
		if IsBlockSize(size) != is[size] {
			t.Errorf("a block of %d: %v", size, IsBlockSize(size))
		}
	}
}

// Device ids are read and written as Syncthing does it, and what it takes for none is none.
func TestDeviceIDs(t *testing.T) {
	random := rand.New(rand.NewSource(1))
	for round := 0; round < 200; round++ {
		var id protocol.DeviceID
		random.Read(id[:])
		text := id.String()
		changed := []byte(text)
		changed[random.Intn(len(changed))] = "ABC2345018-= éz"[random.Intn(14)]
		for _, next := range []string{text, strings.ToLower(text), strings.ReplaceAll(text, "-", ""), strings.ReplaceAll(text, "-", " "), string(changed),
			text[:random.Intn(len(text))], strings.ReplaceAll(text, "O", "0")} {
			due, failure := protocol.DeviceIDFromString(next)
			read, err := ReadID(next)
			if next == "" || due == (protocol.DeviceID{}) && failure == nil { // the id of nobody, which Syncthing writes as no text
				continue
			}
			if (err == nil) != (failure == nil) || err == nil && protocol.DeviceID(read) != due {
				t.Errorf("%q: %v, and Syncthing says %v", next, err, failure)
			}
		}
		if ID(id).String() != text || ID(id).Short() != uint64(id.Short()) {
			t.Errorf("%s: %s, %d", text, ID(id), ID(id).Short())
		}
	}
	if _, err := ReadID(""); err == nil {
		t.Error("no text at all is an id")
	}
}

// Names and times are what they are to Syncthing.
func TestNamesAndTimes(t *testing.T) {
	for _, name := range []string{".stfolder", ".stfolder/a", ".stfolders", "a/.stfolder", ".stignore", ".stignore2", ".stversions/a/b", ".stversions", "a",
		".syncthing.a.tmp", "a/.syncthing.b", "a/~syncthing~b.tmp", ".syncthing", ".syncthing.a/b", "~syncthing~"} {
		if IsInternal(name) != fs.IsInternal(name) || IsTemporary(name) != fs.IsTemporary(name) {
			t.Errorf("%s: internal %v, temporary %v", name, IsInternal(name), IsTemporary(name))
		}
	}
	first := time.Unix(1000, 5)
	for _, other := range []time.Time{first, first.Add(1), first.Add(-1), first.Add(time.Second), first.Add(time.Second - 1), first.Add(-time.Second)} {
		for _, window := range []time.Duration{0, 1, 2, time.Second} {
			if IsTimeEqual(first, other, window) != protocol.ModTimeEqual(first, other, window) {
				t.Errorf("%v and %v within %v: %v", first, other, window, IsTimeEqual(first, other, window))
			}
		}
	}
}

// Why a text is no device id is told with the text, and with the digit that is none.
func TestWhyATextIsNoDeviceID(t *testing.T) {
	odd := strings.Repeat("A", 51) + "!"
	for text, told := range map[string]string{
		odd: `"` + odd + `" is no device id: illegal base32 data`, "!" + strings.Repeat("A", 55): `is no device id: it has the digit '!'`,
		strings.Repeat("A", 55) + "!": "a check digit is wrong", "AAA": `"AAA" is no device id: it has 3 digits`,
	} {
		if id, err := ReadID(text); err == nil || !strings.Contains(err.Error(), told) || id != (ID{}) {
			t.Errorf("%s: %v", text, err)
		}
	}
}
