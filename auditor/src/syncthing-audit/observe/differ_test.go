package observe

import (
	"fmt"
	"testing"

	"github.com/syncthing/syncthing/lib/protocol"
	"syncthing-audit/part"
)

// Of what a walk found those files are asked for again that have other bytes under the recorded time and size, and not very many.
func TestWhatIsAskedForAfterAWalk(t *testing.T) {
	records := map[string][]byte{}
	for at, name := range []string{"rot", "same", "edited", "longer", "moved", "out", "cut otherwise"} {
		records[name] = fileOf(name, uint64(at+1), true)
	}
	folder := seenIn(t, "docs", records)
	recorded := map[string]part.Hash{}
	for name := range records {
		entry, _, err := folder.index.Get(name)
		if err != nil {
			t.Fatal(err)
		}
		recorded[name] = entry.Record.Content.Hash
	}
	found := func(name string, change func(*part.Name)) *part.Name {
		file := &part.Name{Name: part.Bytes(name), Disk: &part.Node{Size: 3, Contents: []part.Content{{Size: 3, BlockSize: protocol.MinBlockSize, Hash: part.Hash{9}}}}}
		change(file)
		return file
	}
	walked := &Walked{Folder: "docs"}
	for _, name := range []*part.Name{
		found("rot", func(*part.Name) {}), found("same", func(n *part.Name) { n.Disk.Contents[0].Hash = recorded["same"] }), found("edited", func(n *part.Name) { n.Disk.ModifiedS = 7 }),
		found("longer", func(n *part.Name) { n.Disk.Size = 4 }), found("moved", func(n *part.Name) { n.Moved = []string{part.MovedDisk} }),
		found("out", func(n *part.Name) { n.Out = []part.LeftOut{{Kind: part.Unreadable}} }), found("cut otherwise", func(n *part.Name) { n.Disk.Contents[0].BlockSize *= 2 }),
		found("new", func(*part.Name) {}), {Name: "missing"},
	} {
		if err := walked.Walk(folder, name); err != nil {
			t.Fatal(err)
		}
	}
	if len(walked.found) != 1 || walked.found["rot"].Hash != (part.Hash{9}) {
		t.Errorf("%v", walked.found)
	}
	many, all := map[string][]byte{}, &Walked{Folder: "docs"}
	for at := 0; at < mostDiffering+5; at++ {
		name := fmt.Sprintf("%06d", at)
		many[name] = fileOf(name, uint64(at+1), true)
	}
	folder = seenIn(t, "docs", many)
	for name := range many {
		if err := all.Walk(folder, found(name, func(*part.Name) {})); err != nil {
			t.Fatal(err)
		}
	}
	if len(all.found) != mostDiffering {
		t.Errorf("%d files", len(all.found))
	}
	folder.index.Close()
	if err := walked.Walk(folder, found("rot", func(*part.Name) {})); err == nil {
		t.Error("a file is looked up in an index that is closed")
	}
	large, names := &Walked{Folder: "docs"}, []string{"half", "other half", "small"}
	sizes := map[string]int64{"half": mostBytesOfDiffering / 2, "other half": mostBytesOfDiffering / 2, "small": 1}
	folder = seenIn(t, "docs", map[string][]byte{"half": cutFile("half", 1, sizes["half"], 16<<20), "other half": cutFile("other half", 2, sizes["other half"], 16<<20), "small": cutFile("small", 3, 1, protocol.MinBlockSize)})
	for _, name := range names { // these two are as many bytes as there may be
		entry, _, err := folder.index.Get(name)
		if err != nil || entry.Record == nil || entry.Record.Content == nil {
			t.Fatal(name, entry.Out, err)
		}
		content := part.Content{Size: sizes[name], BlockSize: entry.Record.Content.BlockSize, Hash: part.Hash{9}}
		if err := large.Walk(folder, &part.Name{Name: part.Bytes(name), Disk: &part.Node{Size: sizes[name], ModifiedS: entry.Record.ModifiedS, Contents: []part.Content{content}}}); err != nil {
			t.Fatal(err)
		}
	}
	if _, is := large.found["small"]; is || len(large.found) != 2 || large.bytes != mostBytesOfDiffering {
		t.Errorf("%v, %d bytes", large.found, large.bytes)
	}
}
