package disk

import (
	"bytes"
	"context"
	"crypto/sha256"
	"errors"
	"os"
	"path/filepath"
	"reflect"
	"testing"
	"time"

	"github.com/syncthing/syncthing/lib/fs"
	"github.com/syncthing/syncthing/lib/protocol"
	"github.com/syncthing/syncthing/lib/scanner"
	"syncthing-audit/adapt"
	"syncthing-audit/part"
)

// nodeAt gives the node of a file as it is found.
func nodeAt(t *testing.T, path string) *part.Node {
	info, err := os.Stat(path)
	if err != nil {
		t.Fatal(err)
	}
	return &part.Node{Size: info.Size(), ModifiedS: info.ModTime().Unix(), ModifiedNs: info.ModTime().Nanosecond()}
}

// scanned gives the block hashes that Syncthing's own scanner makes.
func scanned(t *testing.T, data []byte, blockSize int) [][32]byte {
	blocks, err := scanner.Blocks(context.Background(), bytes.NewReader(data), blockSize, int64(len(data)), nil, false)
	if err != nil {
		t.Fatal(err)
	}
	var hashes [][32]byte
	for _, one := range blocks {
		var hash [32]byte
		copy(hash[:], one.Hash)
		hashes = append(hashes, hash)
	}
	return hashes
}

// The hashes are those of Syncthing's own scanner, for each block size, also across the pieces that workers hash.
func TestContents(t *testing.T) {
	room := t.TempDir()
	pool := NewPool(3)
	defer pool.Close()
	const small = protocol.MinBlockSize
	cases := []struct {
		bytes int
		sizes []int64
	}{
		{0, []int64{small}}, {1, []int64{small, 4 * small}}, {small, []int64{small, 2 * small}}, {small + 1, []int64{small, 2 * small}},
		{9*small + 7, []int64{2 * small, small, 4 * small}}, {pieceBytes + 5, []int64{protocol.MaxBlockSize, 4 * small}},
	}
	for _, one := range cases {
		data := make([]byte, one.bytes)
		for place := 0; place < len(data); place += 1000 {
			data[place] = byte(place / 1000)
		}
		path := filepath.Join(room, "file")
		if err := os.WriteFile(path, data, 0o600); err != nil {
			t.Fatal(err)
		}
		file := File{Disk: adapt.Directory(fs.NewFilesystem(fs.FilesystemTypeBasic, room)), Name: "file", Stamp: StampAt(path), Node: nodeAt(t, path),
			BlockSizes: one.sizes, Keep: true}
		found, _, kept, err := pool.Begin(file).Wait()
		if err != nil || !bytes.Equal(kept, data) {
			t.Errorf("%d bytes: %v, %d kept", one.bytes, err, len(kept))
			continue
		}
		for place, size := range one.sizes {
			expected := part.Content{Size: int64(one.bytes), BlockSize: size, Hash: HashOf(scanned(t, data, int(size)))}
			if found[place] != expected {
				t.Errorf("%d bytes in blocks of %d: %v", one.bytes, size, found[place])
			}
		}
	}
}

// What is written to a file once its bytes were taken is seen, also where its size and time are put back.
func TestAFileThatIsWrittenMeanwhile(t *testing.T) {
	room := t.TempDir()
	path := filepath.Join(room, "file")
	for _, bytes := range []int{100, pieceBytes + 100} {
		for isWritten, text := range map[bool]string{false: "", true: "other"} {
			if err := os.WriteFile(path, make([]byte, bytes), 0o600); err != nil {
				t.Fatal(err)
			}
			pool, node := NewPool(1), nodeAt(t, path)
			job := pool.Begin(File{Disk: adapt.Directory(fs.NewFilesystem(fs.FilesystemTypeBasic, room)), Name: "file", Stamp: StampAt(path), Node: node, BlockSizes: []int64{protocol.MinBlockSize}})
			for pool.Hashed() < int64(bytes) {
				time.Sleep(time.Millisecond)
			}
			file, err := os.OpenFile(path, os.O_WRONLY, 0)
			if err == nil && isWritten {
				_, err = file.WriteAt([]byte(text), 1)
				os.Chtimes(path, time.Unix(node.ModifiedS, int64(node.ModifiedNs)), time.Unix(node.ModifiedS, int64(node.ModifiedNs)))
			}
			if err != nil || file.Close() != nil {
				t.Fatal(err)
			}
			if _, _, _, err := job.Wait(); errors.Is(err, ErrChanged) != isWritten {
				t.Errorf("%d bytes, written %v: %v", bytes, isWritten, err)
			}
			pool.Close()
		}
	}
}

func TestFilesThatChange(t *testing.T) {
	room := t.TempDir()
	path := filepath.Join(room, "file")
	pool := NewPool(1)
	defer pool.Close()
	if err := os.WriteFile(path, make([]byte, 100), 0o600); err != nil {
		t.Fatal(err)
	}
	cases := []struct {
		why    string
		change func(*part.Node)
	}{
		{"it is shorter", func(n *part.Node) { n.Size++ }},
		{"it is longer", func(n *part.Node) { n.Size-- }},
		{"it has another time", func(n *part.Node) { n.ModifiedNs ^= 1 }},
	}
	for _, one := range cases {
		node := nodeAt(t, path)
		one.change(node)
		file := File{Disk: adapt.Directory(fs.NewFilesystem(fs.FilesystemTypeBasic, room)), Name: "file", Stamp: StampAt(path), Node: node,
			BlockSizes: []int64{protocol.MinBlockSize}}
		if _, _, _, err := pool.Begin(file).Wait(); !errors.Is(err, ErrChanged) {
			t.Errorf("%s: %v", one.why, err)
		}
	}
}

// What stands behind 4 GiB of a file is read from its place, also where a machine's numbers have 32 bits.
func TestBytesBehindFourGiga(t *testing.T) {
	path := filepath.Join(t.TempDir(), "file")
	made, err := os.Create(path)
	if err != nil {
		t.Fatal(err)
	}
	const last, text = int64(1 << 32), "the end"
	_, err = made.WriteAt([]byte(text), last)
	made.Close()
	if err != nil {
		t.Skip("no file is as long here: ", err)
	}
	node := nodeAt(t, path)
	job := &Job{file: File{Disk: adapt.Directory(fs.NewFilesystem(fs.FilesystemTypeBasic, filepath.Dir(path))), Name: "file", Stamp: StampAt(path), Node: node,
		BlockSizes: []int64{pieceBytes}, Longest: node.Size}, hashes: make([][][][32]byte, 1)}
	pool := NewPool(1)
	defer pool.Close()
	if err := pool.hash(job, job.pieceAt(last)); err != nil {
		t.Fatal(err)
	}
	hashes := job.hashesOf(0)
	if node.Size != last+int64(len(text)) || hashes[len(hashes)-1] != sha256.Sum256([]byte(text)) || pool.Hashed() != int64(len(text)) {
		t.Errorf("%d bytes, %x", node.Size, hashes[len(hashes)-1])
	}
}

func TestBlocksThatDiffer(t *testing.T) {
	hashes := func(text string) [][32]byte {
		var made [][32]byte
		for _, one := range []byte(text) {
			made = append(made, [32]byte{one})
		}
		return made
	}
	cases := []struct {
		recorded, found string
		count           int64
		ranges          [][2]int64
	}{
		{"abc", "abc", 0, nil}, {"abc", "axc", 1, [][2]int64{{1, 1}}}, {"abcde", "axxdx", 3, [][2]int64{{1, 2}, {4, 4}}},
		{"ab", "abc", 1, [][2]int64{{2, 2}}}, {"abc", "a", 2, [][2]int64{{1, 2}}},
	}
	for _, one := range cases {
		made := Compare(hashes(one.recorded), hashes(one.found))
		if made == nil {
			made = &part.Differ{}
		}
		if made.Count != one.count || !reflect.DeepEqual(made.Ranges, one.ranges) {
			t.Errorf("%s, %s: %+v", one.recorded, one.found, made)
		}
	}
}

// Of rot in many blocks all are counted, and no more are listed than a part has.
func TestManyBlocksThatDiffer(t *testing.T) {
	recorded := make([][32]byte, 300)
	found := make([][32]byte, len(recorded))
	for place := 0; place < len(found); place += 2 {
		found[place][0] = 1
	}
	made := Compare(recorded, found)
	if made.Count != 150 || len(made.Ranges) != part.MostRanges || made.Unlisted() != 150-part.MostRanges {
		t.Errorf("%d blocks, %d ranges, %d unlisted", made.Count, len(made.Ranges), made.Unlisted())
	}
}
