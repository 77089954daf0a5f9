package diskhalf

import (
	"errors"
	"fmt"

	"golang.org/x/exp/slices"
	"syncthing-audit/bep"
	"syncthing-audit/disk"
	"syncthing-audit/part"
)

const typeOfDirectory = bep.Directory

// write gives the lines of all folders to take.
func (m *maker) write(take part.Sink) error {
	for place, folder := range m.folders {
		if err := take(part.Line{Begin: &part.Begin{Folder: folder.ID}}); err != nil {
			return err
		}
		end := &part.End{Folder: folder.ID, Last: place == len(m.folders)-1}
		if err := m.names(folder, end, take); err != nil {
			return err
		}
		if err := take(part.Line{End: end}); err != nil {
			return err
		}
	}
	return nil
}

// errStopped says that nobody wants the names any more.
var errStopped = errors.New("stopped")

// names gives the names of a folder. One routine finds them and has their files hashed; this one waits for the hashes, in the order of names.
func (m *maker) names(folder *folder, end *part.End, take part.Sink) error {
	found, walking := disk.NewQueue(), &walking{maker: m, folder: folder, walker: m.walker(folder)}
	walking.to = found
	go func() { found.End(walking.run()) }()
	defer found.Stop()
	isOver, err := found.Drain(folder.hiddenPath(m.asked.Paths), end, take)
	if isOver {
		walking.tellEnd(end)
	}
	return err
}

// hiddenPath gives the path that isn't told, unless the paths of this machine are.
func (f *folder) hiddenPath(areTold bool) string {
	if areTold {
		return ""
	}
	return f.files.URI()
}

// walking is the second walk of a folder.
type walking struct {
	*maker
	folder *folder
	walker *disk.Walker
	to     *disk.Queue
	hidden []hiddenName
	held   part.Held // in which directories names stand that .stignore ignores
}

// run puts all names into the queue: those that are told by a hash behind all others.
func (w *walking) run() error {
	w.walker.Take = w.take
	if err := w.walker.Walk(); err != nil {
		return err
	}
	sortHidden(w.hidden)
	for _, name := range w.hidden {
		if !w.put(&disk.Pending{Line: name.line, Weight: disk.WeightOfName}) {
			return errStopped
		}
	}
	return nil
}

// put puts a name into the queue, and says whether it is wanted.
func (w *walking) put(pending *disk.Pending) bool {
	if !w.to.Reserve(pending.Weight) {
		return false
	}
	w.to.Put(pending)
	return true
}

// take puts what was found under a name into the queue, and has its file hashed.
func (w *walking) take(found disk.Found) error {
	line := &part.Name{Name: part.Bytes(found.Name), Disk: found.Node}
	if found.Out != nil {
		line.Out = append(line.Out, *found.Out)
	}
	switch {
	case part.IsLongName(found.Name):
		w.hideLong(line)
		return nil
	case w.folder.isHidden(found):
		w.hide(line)
		return nil
	}
	pending := &disk.Pending{Line: line, Weight: disk.WeightOfName}
	isHashed := found.Node != nil && found.Node.Type == bep.File && len(line.Out) == 0
	file := disk.File{}
	if isHashed {
		file = disk.File{Disk: w.walker.Disk, Name: found.Name, Stamp: found.Stamp, Node: found.Node, BlockSizes: w.blockSizes(found.Node.Size), Longest: found.Node.Size}
		for _, size := range file.BlockSizes {
			pending.Weight += int(part.CountOfBlocks(file.Length(), size))
		}
	}
	if !w.to.Reserve(pending.Weight) {
		return errStopped
	}
	if isHashed {
		pending.Job = w.pool.Begin(file)
	}
	w.to.Put(pending)
	return nil
}

// blockSizes gives into which blocks a file is cut: those for its size, and those that were asked for. A file of one block is the same in all of them.
func (w *walking) blockSizes(size int64) []int64 {
	usual := bep.BlockSize(size)
	sizes := []int64{usual}
	for _, other := range w.asked.BlockSizes {
		if !slices.Contains(sizes, other) && size > usual {
			sizes = append(sizes, other)
		}
	}
	return sizes
}

// hide keeps back a name that .stignore ignores until all others are told. Of a name of which nothing can be told it keeps nothing but that.
func (w *walking) hide(line *part.Name) {
	size := int64(0)
	if line.Disk != nil {
		size = line.Disk.Size
	}
	patterns := w.folder.patterns
	w.held.Take(string(line.Name), size, patterns.IsDeletable(string(line.Name)), patterns.IsIgnored)
	hash := part.HiddenName(w.folder.ID, string(line.Name))
	w.hidden = append(w.hidden, hiddenName{hash, &part.Name{Name: hash.Bytes(), Disk: &part.Node{Size: size},
		Out: []part.LeftOut{{Kind: part.Ignored, Why: part.WhyIgnored, Bytes: size}}}})
}

// hideLong does so with a name that is too long to be told.
func (w *walking) hideLong(line *part.Name) {
	hash := part.HiddenLongName(w.folder.ID, string(line.Name))
	w.hidden = append(w.hidden, hiddenName{hash, &part.Name{Name: hash.Bytes(),
		Out: []part.LeftOut{{Kind: part.OddName, Why: fmt.Sprintf("its name has %d bytes: a part tells at most %d", len(line.Name), part.MostNameBytes)}}}})
}

// tellEnd writes what was counted on the way. Where some names alone were read, it isn't known where a link leads.
func (w *walking) tellEnd(end *part.End) {
	end.Temporary = &w.walker.Temporary
	w.held.Tell(end)
	if w.asked.Names.IsAll() && disk.TellsLinks {
		linked := w.walker.Linked()
		end.Linked = &linked
	}
}
