package command

import (
	"crypto/sha256"
	"errors"
	"fmt"
	"io"
	"math/rand"
	"os"
	"path/filepath"
	"strings"
	"testing"

	"github.com/syncthing/syncthing/lib/protocol"
	"syncthing-audit/adapt"
	"syncthing-audit/fixture"
	"syncthing-audit/part"
	"syncthing-audit/shell"
)

// homeOf makes a home with the folder docs, in whose index these are the other device's entries, and one of its own.
func homeOf(t *testing.T, name string, entries []protocol.FileInfo) string {
	home := fixture.NewHome(t, name)
	home.Fill(t, home.Dir, []protocol.FileInfo{{Name: "own", Type: protocol.FileInfoTypeDirectory, ModifiedBy: 1,
		Version: protocol.Vector{Counters: []protocol.Counter{{ID: 1, Value: 1}}}}}, entries)
	return home.Dir
}

// partOf makes the part of a home, and reads it back: what is written is read.
func partOf(t *testing.T, why, home string) (map[part.Bytes]*part.Name, *part.Head) {
	path := filepath.Join(t.TempDir(), "a.part")
	if _, err := runPart([]string{"--home", home, "-o", path}, io.Discard, io.Discard); err != nil {
		t.Fatalf("%s: the part isn't made: %v", why, err)
	}
	file, err := os.Open(path)
	if err != nil {
		t.Fatal(err)
	}
	defer file.Close()
	read, err := part.NewReader(file)
	names := map[part.Bytes]*part.Name{}
	for err == nil {
		var line part.Line
		if line, err = read.Next(); line.Name != nil {
			names[line.Name.Name] = line.Name
		}
	}
	if !errors.Is(err, io.EOF) {
		t.Fatalf("%s: what was written isn't read: %v", why, err)
	}
	return names, read.Head()
}

// oddNames are names that another device may put into its index.
var oddNames = []string{"a", "a/b", "", "..", "a//b", "\xff", strings.Repeat("\xff", 255), strings.Repeat("\xff", 256), strings.Repeat("\xff", 300) + "z",
	strings.Repeat("x", 1024), strings.Repeat("x", 1025), strings.Repeat("y", 4096), strings.Repeat("y", 4097), strings.Repeat("\x01", 4096),
	strings.Repeat("\"", 60000), strings.Repeat("n", 1<<20), strings.Repeat("m", 1400000), strings.Repeat("\xfe", 1<<21), "line\nbreak", "\x1b[2J", "nul\x00"}

// oddEntry gives an entry as another device may tell it.
func oddEntry(random *rand.Rand, name string, sequence int64) protocol.FileInfo {
	hash := sha256.Sum256([]byte(name))
	sizes := []int64{0, 1, 5, protocol.MinBlockSize + 1, -1, 1 << 40, 1 << 62}
	entry := protocol.FileInfo{Name: name, Sequence: sequence, Size: sizes[random.Intn(len(sizes))], ModifiedS: random.Int63() - random.Int63(),
		ModifiedNs: random.Intn(2000000000) - 1000, ModifiedBy: protocol.ShortID(random.Intn(2)), Type: protocol.FileInfoType(random.Intn(6)),
		Deleted: random.Intn(4) == 0, RawInvalid: random.Intn(4) == 0, RawBlockSize: []int{0, protocol.MinBlockSize, 7, 1 << 30}[random.Intn(4)],
		LocalFlags: []uint32{0, 0, protocol.FlagLocalIgnored, 1 << 20}[random.Intn(4)], Permissions: random.Uint32(), NoPermissions: random.Intn(2) == 0}
	for count := random.Intn(20); count > 0; count-- {
		entry.Version.Counters = append(entry.Version.Counters, protocol.Counter{ID: protocol.ShortID(random.Intn(30)), Value: random.Uint64() >> random.Intn(64)})
	}
	for count := random.Intn(3); count > 0; count-- {
		entry.Blocks = append(entry.Blocks, protocol.BlockInfo{Size: int(entry.Size), Hash: hash[:random.Intn(33)]})
	}
	if random.Intn(2) == 0 {
		adapt.SetText(&entry.SymlinkTarget, strings.Repeat("t\x02", []int{0, 1, 512, 513, 800000}[random.Intn(5)]))
	}
	return entry
}

// Whatever another device tells of its files, the part that is written of it can be read.
func TestWhatIsWrittenIsRead(t *testing.T) {
	random := rand.New(rand.NewSource(1))
	for turn := 0; turn < 4; turn++ {
		entries := []protocol.FileInfo{}
		for place, name := range oddNames {
			entries = append(entries, oddEntry(random, name, int64(place+1)))
		}
		for count := 0; count < 60; count++ {
			length := random.Intn([]int{8, 300, 1200, 5000}[random.Intn(4)])
			name := make([]byte, length)
			for place := range name {
				name[place] = byte(random.Intn([]int{256, 3}[random.Intn(2)]))
			}
			entries = append(entries, oddEntry(random, string(name), int64(len(entries)+1)))
		}
		names, _ := partOf(t, fmt.Sprint("turn ", turn), homeOf(t, strings.Repeat("é", []int{1, 512, 513, 3 << 20}[turn]), entries))
		if len(names) < 20 {
			t.Errorf("only %d names are told", len(names))
		}
	}
}

// A name that is too long is left out by its hash, which is the same on each device, and is told as such. All others stay readable.
func TestANameThatIsTooLong(t *testing.T) {
	long := strings.Repeat("n", 1400000)
	entries := []protocol.FileInfo{}
	for place, name := range []string{"a", long, strings.Repeat("\xff", 300)} {
		entries = append(entries, protocol.FileInfo{Name: name, Type: protocol.FileInfoTypeDirectory, Sequence: int64(place + 1), ModifiedBy: 9,
			Version: protocol.Vector{Counters: []protocol.Counter{{ID: 9, Value: 1}}}})
	}
	names, head := partOf(t, "a long name", homeOf(t, strings.Repeat("d", 5000), entries))
	for _, name := range []string{long, strings.Repeat("\xff", 300)} {
		hash := part.HiddenLongName("docs", name).Bytes()
		told := names[hash]
		if told == nil || len(told.Out) != 1 || told.Out[0].Kind != part.OddName || len(told.Views) > 0 {
			t.Errorf("%.5q: %+v", name, told)
		}
		if path := shell.Path(string(hash)); len(path) != len("[name of hash ]")+32 || !strings.HasPrefix(path, "[name of hash ") {
			t.Error(path)
		}
	}
	if len(names) != 4 || names["a"] == nil || len(names["a"].Views) != 1 {
		t.Errorf("%d names", len(names))
	}
	if of := head.Folders[0]; len(of.Label) != 1027 || len(of.Sharing[0].Name) != 1027 {
		t.Errorf("%d bytes, %d bytes", len(of.Label), len(of.Sharing[0].Name))
	}
}
