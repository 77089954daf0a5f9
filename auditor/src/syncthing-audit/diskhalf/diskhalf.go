// Package diskhalf makes the half of a device's part that is of its disks alone: it walks folders and hashes their files. It needs no index and none of
// Syncthing's packages, so it builds for systems that have none of these here.
package diskhalf

import (
	"bytes"
	"crypto/rand"
	"encoding/hex"
	"errors"
	"fmt"
	"io"
	"io/fs"
	"os"
	"runtime"
	"sort"
	"time"

	"syncthing-audit/choice"
	"syncthing-audit/directory"
	"syncthing-audit/disk"
	"syncthing-audit/glance"
	"syncthing-audit/part"
	"syncthing-audit/shell"
	"syncthing-audit/stignore"
)

// Asked says of what a part is to be.
type Asked struct {
	Device     string // its id
	Folders    []Folder
	After      string // the id of the observer's first looks
	BlockSizes []int64
	Marker     string // what stands in each folder's directory while its disk is there
	Config     string // Syncthing's config.xml there; nothing where it isn't read
	Paths      bool   // whether the part has the paths of this machine, too
	choice.Names
}

// Folder is a folder with its directory.
type Folder struct{ ID, Directory string }

// Told is what a person is told of a part that was made.
type Told struct {
	Names, Bytes   int64
	Moved, Damaged int64
	Unknown        []string // why it isn't known what a folder's .stignore means, in words
}

// maker makes a part.
type maker struct {
	asked   Asked
	pool    *disk.Pool
	folders []*folder
	told    Told
	config  *configuration // nothing where it isn't read
}

// folder is a folder that is walked.
type folder struct {
	Folder
	files    *directory.Plain
	about    part.Folder
	patterns *stignore.Patterns // none where they aren't known: nothing is ignored then
}

// Write writes a part. Each name is looked at twice: before any file is hashed, and once its own file is. What changed between is told as moved.
func Write(to io.Writer, asked Asked, pool *disk.Pool) (*Told, error) {
	m := &maker{asked: asked, pool: pool}
	if asked.Config != "" {
		var err error
		if m.config, err = readConfiguration(asked.Config); err != nil {
			return nil, fmt.Errorf("refused: %w", err)
		}
	}
	sort.Slice(m.asked.Folders, func(a, b int) bool { return m.asked.Folders[a].ID < m.asked.Folders[b].ID })
	for _, folder := range m.asked.Folders {
		opened, err := m.open(folder)
		if err != nil {
			return nil, fmt.Errorf("refused: folder %s: %w", shell.Quoted(folder.ID), err)
		}
		m.folders = append(m.folders, opened)
	}
	glanced, drop, err := m.glance()
	defer drop()
	if err != nil {
		return nil, err
	}
	head, err := m.head()
	if err != nil {
		return nil, err
	}
	writer, err := part.NewWriter(to, head)
	if err != nil {
		return nil, err
	}
	if err := m.write(glanced.Compare(m.count(writer.Take))); err != nil {
		return nil, err
	}
	return &m.told, writer.Close()
}

// open opens a folder, and reads its .stignore. Where its disk isn't mounted, say, all of its names would be missing.
func (m *maker) open(asked Folder) (*folder, error) {
	files, err := directory.Open(asked.Directory)
	if err != nil {
		return nil, err
	}
	if _, err := files.Lstat(m.asked.Marker); errors.Is(err, fs.ErrNotExist) {
		return nil, fmt.Errorf("%s has no %s, without which Syncthing takes no directory for a folder's: is it another directory, or a disk that isn't mounted? "+
			"--marker says what Syncthing's own configuration calls the marker, if that is something else", shell.Quoted(asked.Directory), shell.Quoted(m.asked.Marker))
	} else if err != nil {
		return nil, err
	}
	opened := &folder{Folder: asked, files: files}
	place, err := directory.Place(asked.Directory)
	if err != nil {
		return nil, err
	}
	opened.about = part.Folder{ID: asked.ID, Directory: place, Marker: part.MarkerOf(m.asked.Marker), Sharing: []part.Sharing{}, Views: []part.View{},
		Ignores: &part.Ignores{Lines: []string{}, FoldCase: stignore.FoldsCase(runtime.GOOS)}}
	if m.asked.Paths {
		opened.about.Path = files.URI()
	}
	if m.config != nil {
		if err := m.config.tell(&opened.about, m.asked.Marker); err != nil {
			return nil, err
		}
	}
	if !m.asked.Paths {
		opened.about.Options = opened.about.Options.WithoutPath()
	}
	opened.readPatterns()
	if opened.patterns == nil {
		m.told.Unknown = append(m.told.Unknown, "folder "+asked.ID+": "+opened.about.Ignores.Unknown)
		opened.patterns = &stignore.Patterns{}
	}
	return opened, nil
}

// readPatterns reads the folder's .stignore; or says why it isn't known what it means.
func (f *folder) readPatterns() {
	ignores := f.about.Ignores
	lines, err := stignore.Read(f.files.URI())
	if err == nil {
		f.patterns, err = stignore.Parse(lines, ignores.FoldCase)
	}
	if err != nil {
		ignores.Unknown = "its .stignore: " + err.Error()
		return
	}
	ignores.Lines = append(ignores.Lines, lines...)
}

// walker gives what walks the folder.
func (m *maker) walker(folder *folder) *disk.Walker {
	return &disk.Walker{Disk: folder.files, Folder: folder.ID, Names: m.asked.Names, Stamps: true}
}

// glance walks all folders for the first time. What it gives back in the second place takes away what it kept.
func (m *maker) glance() (*glance.Glance, func(), error) {
	taken, paths := &glance.Glance{}, []string{}
	drop := func() {
		taken.Close()
		for _, path := range paths {
			os.Remove(path)
		}
	}
	for _, folder := range m.folders {
		file, err := os.CreateTemp("", "syncthing-audit-disk-")
		if err != nil {
			return taken, drop, err
		}
		taken.Folders, paths = append(taken.Folders, file), append(paths, file.Name())
		if err := m.glanceAt(folder, file); err != nil {
			return taken, drop, fmt.Errorf("folder %s: %w", shell.Quoted(folder.ID), err)
		}
	}
	return taken, drop, nil
}

// glanceAt walks a folder for the first time.
func (m *maker) glanceAt(folder *folder, file *os.File) error {
	to, walker := glance.NewWriter(file), m.walker(folder)
	walker.Take = func(found disk.Found) error {
		if folder.isHidden(found) {
			return nil
		}
		return to.Take(found, folder.patterns.IsIgnored(found.Name))
	}
	if err := walker.Walk(); err != nil {
		return err
	}
	if err := to.Flush(); err != nil {
		return err
	}
	_, err := file.Seek(0, io.SeekStart)
	return err
}

// isHidden says whether a part has a hash in place of a name, since .stignore keeps it out of the folder whatever the index says.
func (f *folder) isHidden(found disk.Found) bool {
	return f.patterns.IsIgnored(found.Name) && !f.mayBeTaken(found.Node)
}

// mayBeTaken says whether what is ignored may be the folder's all the same. The index says it: it has the directories above names that a pattern takes in.
func (f *folder) mayBeTaken(node *part.Node) bool {
	return f.patterns.TakesIgnored() && node != nil && node.Type == typeOfDirectory
}

// head gives the head of the part. Its id is drawn once the first walk is over.
func (m *maker) head() (*part.Head, error) {
	id := make([]byte, 16)
	if _, err := rand.Read(id); err != nil {
		return nil, err
	}
	head := &part.Head{Device: m.asked.Device, Made: time.Now().UTC().Truncate(time.Second), Names: m.asked.Names,
		Half: part.NewHalf(hex.EncodeToString(id), m.asked.After, runtime.GOOS, m.asked.BlockSizes)}
	for _, folder := range m.folders {
		if m.config != nil {
			folder.about.Rest = m.config.rest(folder.ID)
		}
		head.Folders = append(head.Folders, folder.about)
	}
	head.Version = head.DueVersion()
	return head, nil
}

// count counts what is written.
func (m *maker) count(sink part.Sink) part.Sink {
	return func(line part.Line) error {
		if line.Name != nil {
			m.told.Names++
			if len(line.Name.Moved) > 0 {
				m.told.Moved++
			}
			if line.Name.IsDamaged() {
				m.told.Damaged++
			}
			if line.Name.Disk != nil && len(line.Name.Disk.Contents) > 0 {
				m.told.Bytes += line.Name.Disk.Size - line.Name.Disk.Unread
			}
			line.Name = withoutStamp(line.Name)
		}
		return sink(line)
	}
}

// withoutStamp gives a name as a part has it: stamps say nothing on another machine.
func withoutStamp(name *part.Name) *part.Name {
	if name.Disk == nil || name.Disk.Stamp == "" {
		return name
	}
	copied, node := *name, *name.Disk
	node.Stamp = ""
	copied.Disk = &node
	return &copied
}

// hiddenName is a name that a part tells by a hash.
type hiddenName struct {
	hash part.Hidden
	line *part.Name
}

// sortHidden puts such names into the order of a part.
func sortHidden(all []hiddenName) {
	sort.Slice(all, func(a, b int) bool { return bytes.Compare(all[a].hash[:], all[b].hash[:]) < 0 })
}
