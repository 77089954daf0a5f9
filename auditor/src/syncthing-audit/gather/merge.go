package gather

import (
	"errors"
	"fmt"

	"github.com/syncthing/syncthing/lib/fs"
	"github.com/syncthing/syncthing/lib/ignore"
	"github.com/syncthing/syncthing/lib/protocol"
	"golang.org/x/exp/slices"
	"syncthing-audit/adapt"
	"syncthing-audit/device"
	"syncthing-audit/disk"
	"syncthing-audit/limits"
	"syncthing-audit/part"
	"syncthing-audit/stignore"
)

// merge joins a folder's index, views and disk by name.
type merge struct {
	device   *Device
	patterns *ignore.Matcher
	walker   *disk.Walker
	hashed   disk.File               // has the folder once more, for another look at what was hashed: the walk goes on meanwhile, with another directory open
	entries  []*puller[device.Entry] // the readings of the index: its own, then the views
	nodes    *puller[disk.Found]
	to       *disk.Queue
	folder   string
	hidden   []hidden
	held     part.Held // in which directories these stand
	toIgnore stignore.ToIgnore
}

// errStopped says that nobody wants the names any more.
var errStopped = errors.New("stopped")

// newMerge begins to read a folder.
func newMerge(of *Device, folder Folder, about *part.Folder, patterns *ignore.Matcher, to *disk.Queue) *merge {
	m := &merge{device: of, patterns: patterns, to: to, walker: of.walker(folder), hashed: disk.File{Disk: adapt.Directory(folder.Disk())}, folder: about.ID}
	m.entries = append(m.entries, pull(func(take func(device.Entry) bool) error { return folder.Own(of.Names, take) }))
	for _, view := range about.Views {
		view := view
		m.entries = append(m.entries, pull(func(take func(device.Entry) bool) error { return folder.View(view, of.Names, take) }))
	}
	m.nodes = pull(func(take func(disk.Found) bool) error {
		m.walker.Take = func(found disk.Found) error {
			if !take(found) {
				return errStopped
			}
			return nil
		}
		return m.walker.Walk()
	})
	return m
}

// run puts all names into the queue.
func (m *merge) run() error {
	defer func() {
		m.nodes.close()
		for _, entry := range m.entries {
			entry.close()
		}
	}()
	for {
		name, is := m.least()
		if err := m.failure(); err != nil {
			return err
		}
		if !is {
			if !m.sendHidden() {
				return errStopped
			}
			return nil
		}
		if !m.put(name) {
			return errStopped
		}
	}
}

// tellEnd writes what was counted on the way. Where some names alone were read, it isn't known where a link leads, and what is below a directory.
func (m *merge) tellEnd(end *part.End) {
	end.Temporary = &m.walker.Temporary
	m.held.Tell(end)
	if m.device.Names.IsAll() {
		m.toIgnore.End()
		linked := m.walker.Linked()
		end.Linked, end.ToIgnore = &linked, m.toIgnore.Names
	}
}

// failure gives the error of a reading that ended too early, if there was one. A name that comes after it isn't told without what that reading has.
func (m *merge) failure() error {
	for _, entries := range m.entries {
		if err := entries.failure(); err != nil {
			return err
		}
	}
	return m.nodes.failure()
}

// least gives the least name that is still to come.
func (m *merge) least() (string, bool) {
	name, is := "", false
	take := func(next string) {
		if !is || next < name {
			name, is = next, true
		}
	}
	for _, entry := range m.entries {
		if next := entry.peek(); next != nil {
			take(next.Name)
		}
	}
	if next := m.nodes.peek(); next != nil {
		take(next.Name)
	}
	return name, is
}

// put puts all that is said of a name into the queue, and has its file hashed. It says whether more names are wanted.
func (m *merge) put(name string) bool {
	line := &part.Name{Name: part.Bytes(name)}
	recorded := m.takeEntries(line)
	isIndexed := line.Own != nil || len(line.Views) > 0 || len(line.Out) > 0
	stamp := m.takeNode(line)
	if m.device.Look != nil {
		line.Receiving = m.walker.StampOf(fs.TempName(name))
	}
	matched := m.patterns.Match(name)
	isMatched := matched.IsIgnored()
	if !isMatched {
		notIgnoredNow(line)
	}
	switch {
	case isMatched && !m.isTaken(line.Own):
		line.Out = append(line.Out, ignored(line))
		if !isIndexed && line.Disk != nil && len(line.Out) == 1 {
			m.hide(line, matched.IsDeletable())
			return true
		}
	case isMatched:
		m.toIgnore.TakeDirectory(name)
	case line.Own != nil && !line.Own.Deleted && line.Disk != nil:
		m.toIgnore.TakeOther(name)
	}
	return m.send(line, recorded, stamp)
}

// notIgnoredNow says of a name that .stignore doesn't keep out what the index alone says.
func notIgnoredNow(line *part.Name) {
	for place := range line.Out {
		if out := &line.Out[place]; out.Kind == part.Ignored && out.Why == part.WhyIgnored {
			out.Why = part.WhyIgnoredBefore
		}
	}
}

// takeEntries adds what the index and the views have of a name. It gives the block hashes that the own record has.
func (m *merge) takeEntries(line *part.Name) [][32]byte {
	var recorded [][32]byte
	for place, entries := range m.entries {
		entry := entries.peek()
		if entry == nil || entry.Name != string(line.Name) {
			continue
		}
		entries.take()
		if entry.Out != nil {
			line.Out = append(line.Out, *entry.Out)
			continue
		}
		if place > 0 {
			hashList(entry, line.Own, recorded)
		}
		m.addRecord(line, place, entry)
		if place == 0 && entry.Record.Content != nil {
			recorded = entry.Blocks
		}
	}
	return recorded
}

// hashList gives an entry of a view the hash of its list of blocks. Where the own record has the same list, it has the hash, too.
func hashList(entry *device.Entry, own *part.Record, recorded [][32]byte) {
	content := entry.Record.Content
	switch {
	case content == nil:
	case recorded != nil && slices.Equal(recorded, entry.Blocks):
		content.Hash = own.Content.Hash
	default:
		content.Hash = disk.HashOf(entry.Blocks)
	}
}

// takeNode adds what stands on the disk under a name. It gives the stamp that it had when it was found.
func (m *merge) takeNode(line *part.Name) disk.Stamp {
	found := m.nodes.peek()
	if found == nil || found.Name != string(line.Name) {
		return disk.Stamp{}
	}
	m.nodes.take()
	line.Disk = found.Node
	if found.Out != nil {
		line.Out = append(line.Out, *found.Out)
	}
	return found.Stamp
}

// isTaken says whether .stignore doesn't keep a name out of the folder though a pattern ignores it. Where a pattern takes in what is below a directory that
// another pattern ignores, Syncthing takes the directory, too, once something below it is taken: the index has a record of it then.
func (m *merge) isTaken(own *part.Record) bool {
	return own != nil && !own.Deleted && own.Type == int(protocol.FileInfoTypeDirectory) && !m.patterns.SkipIgnoredDirs()
}

// addRecord adds a record to a name: the own one, or one of a view.
func (m *merge) addRecord(line *part.Name, place int, entry *device.Entry) {
	if m.device.Bytes {
		entry.Record.Blocks = entry.Blocks
		if content := entry.Record.Content; content != nil && !fitsBytes(content.Size, content.BlockSize) {
			line.Out = append(line.Out, tooLarge(content.Size))
		}
	}
	if place == 0 {
		line.Own = entry.Record
		return
	}
	line.Views = append(line.Views, part.Seen{View: place - 1, Record: entry.Record})
}

// fitsBytes says whether a document with bytes has files such as this. One block is the same in each block size.
func fitsBytes(size, blockSize int64) bool {
	return size <= limits.MostFileBytes && (size <= protocol.MinBlockSize || blockSize == int64(protocol.BlockSize(size)))
}

func tooLarge(size int64) part.LeftOut {
	why := fmt.Sprintf("a document with bytes has files of at most %d bytes, in blocks of the size for their length", limits.MostFileBytes)
	return part.LeftOut{Kind: part.Large, Why: why, Bytes: size}
}

// sizeOf gives the bytes of a name's file on the disk, or as it is recorded.
func sizeOf(line *part.Name) int64 {
	switch {
	case line.Disk != nil:
		return line.Disk.Size
	case line.Own != nil && line.Own.Content != nil:
		return line.Own.Content.Size
	}
	return 0
}

// send puts a name into the queue, and has its file hashed. The file had this stamp when it was found.
func (m *merge) send(line *part.Name, recorded [][32]byte, stamp disk.Stamp) bool {
	if part.IsLongName(string(line.Name)) {
		m.hideLong(line)
		return true
	}
	node := line.Disk
	if node != nil && m.device.Bytes && node.Size > limits.MostFileBytes && len(line.Out) == 0 {
		line.Out = append(line.Out, tooLarge(node.Size))
	}
	pending := &disk.Pending{Line: line, Weight: disk.WeightOfName}
	isHashed := node != nil && node.Type == int(protocol.FileInfoTypeFile) && line.IsToldHere() && !m.device.isSecondLook()
	file := disk.File{}
	if isHashed {
		file = disk.File{Disk: m.hashed.Disk, Name: string(line.Name), Stamp: stamp, Node: node, BlockSizes: blockSizes(line),
			Longest: longest(line), Recorded: recorded, Keep: m.device.Bytes}
		if recorded != nil {
			file.List = &line.Own.Content.Hash
		}
		pending.Weight += len(recorded)
		for _, size := range file.BlockSizes {
			pending.Weight += int(part.CountOfBlocks(file.Length(), size))
		}
		if file.Keep {
			pending.Weight += int(node.Size / 32)
		}
	}
	if !m.to.Reserve(pending.Weight) {
		return false
	}
	if isHashed {
		pending.Job = m.device.Pool.Begin(file)
	}
	m.to.Put(pending)
	return true
}

// longest gives the size of the longest record of a name; 0 where none has a size.
func longest(line *part.Name) int64 {
	most := int64(0)
	take := func(record *part.Record) {
		if record != nil && record.Content != nil && record.Content.Size > most {
			most = record.Content.Size
		}
	}
	take(line.Own)
	for _, seen := range line.Views {
		take(seen.Record)
	}
	return most
}

// blockSizes gives in which ways a file on the disk is cut. The first one is that of the own record or, without a record,
// the one for its size. The records in views that have its size may add others.
func blockSizes(line *part.Name) []int64 {
	size := line.Disk.Size
	first := int64(protocol.BlockSize(size))
	if line.Own != nil && line.Own.Content != nil {
		first = line.Own.Content.BlockSize
	}
	sizes := []int64{first}
	for _, seen := range line.Views {
		content := seen.Record.Content
		if content != nil && content.Size == size && !slices.Contains(sizes, content.BlockSize) && (size > first || size > content.BlockSize) {
			sizes = append(sizes, content.BlockSize)
		}
	}
	return sizes
}
