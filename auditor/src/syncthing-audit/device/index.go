package device

import (
	"errors"
	"fmt"
	"math"
	"strings"

	"github.com/syncthing/syncthing/lib/config"
	"github.com/syncthing/syncthing/lib/db"
	"github.com/syncthing/syncthing/lib/fs"
	"github.com/syncthing/syncthing/lib/protocol"
	"syncthing-audit/adapt"
	"syncthing-audit/choice"
	"syncthing-audit/directory"
	"syncthing-audit/limits"
	"syncthing-audit/part"
)

// Index is what a device's index has of one folder, at one moment.
type Index struct {
	Config    config.FolderConfiguration
	home      *Home
	directory string
	files     *db.FileSet
	snapshot  *db.Snapshot
}

// Index opens a folder's index. What Syncthing's packages panic with is the error.
func (h *Home) Index(folder config.FolderConfiguration) (index *Index, err error) {
	defer recovered(folder.ID, &err)
	folder.CaseSensitiveFS = true // names come from the directory itself
	if err := CheckPath(folder); err != nil {
		return nil, err
	}
	place, err := directory.Place(adapt.Filesystem(folder.Filesystem, nil).URI())
	if err != nil {
		return nil, fmt.Errorf("folder %s: %w", folder.ID, err)
	}
	files, err := db.NewFileSet(folder.ID, h.index)
	if err != nil {
		return nil, err
	}
	snapshot, err := files.Snapshot()
	if err != nil {
		return nil, err
	}
	return &Index{folder, h, place, files, snapshot}, nil
}

// CheckPath says what is wrong with a folder's directory: its disk isn't mounted, say.
func CheckPath(folder config.FolderConfiguration) error {
	if err := folder.CheckPath(); err != nil {
		return pathFault(folder, err)
	}
	return nil
}

// Away says of a folder that its directory isn't there, since its disk was taken away, say; nothing where it is.
func Away(folder config.FolderConfiguration) string {
	return lacking(folder, folder.CheckPath())
}

// AwayWithoutPath says the same without the directory's path.
func AwayWithoutPath(folder config.FolderConfiguration) string {
	return lackingAt("", folder, folder.CheckPath())
}

// IsUnmarked says whether a folder's directory has no marker, and yet something stands in it: its disk is probably there. An empty one is that of a disk
// that isn't mounted.
func IsUnmarked(folder config.FolderConfiguration) bool {
	if !errors.Is(folder.CheckPath(), config.ErrMarkerMissing) {
		return false
	}
	names, err := adapt.Filesystem(folder.Filesystem, nil).DirNames(".")
	return err == nil && len(names) > 0
}

// lacking says what isn't there of a folder's directory by what Syncthing says of it; nothing where that says something else.
func lacking(folder config.FolderConfiguration, err error) string {
	path := adapt.Filesystem(folder.Filesystem, nil).URI()
	if strings.HasPrefix(folder.Path, "~") {
		path += " (" + folder.Path + " in config.xml, and ~ is that of the user who runs this)"
	}
	return lackingAt(path, folder, err)
}

// lackingAt says so of a directory at this path, which is told where there is one.
func lackingAt(path string, folder config.FolderConfiguration, err error) string {
	switch {
	case errors.Is(err, config.ErrMarkerMissing) && path == "":
		return "its directory has no " + folder.MarkerName + ", by which Syncthing knows the folder"
	case errors.Is(err, config.ErrPathMissing) && path == "":
		return "its directory isn't there"
	case errors.Is(err, config.ErrMarkerMissing):
		return fmt.Sprintf("%s has no %s, by which Syncthing knows the folder", path, folder.MarkerName)
	case errors.Is(err, config.ErrPathMissing):
		return "there is no " + path
	}
	return ""
}

// pathFault says what is to be seen to where a folder's directory isn't as Syncthing wants it.
func pathFault(folder config.FolderConfiguration, err error) error {
	what := lacking(folder, err)
	if what == "" {
		return fmt.Errorf("folder %s: %s: %w", folder.ID, adapt.Filesystem(folder.Filesystem, nil).URI(), err)
	}
	toDo := "is its disk mounted?"
	if errors.Is(err, config.ErrPathMissing) {
		toDo += " If Syncthing runs in a container, " + part.MapIt + "."
	}
	if IsUnmarked(folder) {
		toDo = part.MarkAgain + "."
	}
	if errors.Is(err, config.ErrMarkerMissing) {
		toDo += " Without the marker Syncthing stops the folder, too."
	}
	return fmt.Errorf("folder %s: %s: %s --folder chooses other folders", folder.ID, what, toDo)
}

// recovered makes an error of what Syncthing's packages panic with, such as a list of blocks that the index lacks.
func recovered(folder string, err *error) {
	if reason := recover(); reason != nil {
		*err = fmt.Errorf("folder %s: its index can't be read: %v", folder, reason)
	}
}

// Close gives the index back.
func (i *Index) Close() { i.snapshot.Release() }

// Disk gives the folder's files, with their times as Syncthing sees them.
func (i *Index) Disk() fs.Filesystem {
	if !i.home.times {
		return adapt.NewBeneath(adapt.Filesystem(i.Config.Filesystem, nil))
	}
	return adapt.Filesystem(i.Config.Filesystem, i.files)
}

// Max gives the greatest sequence of the device's own index.
func (i *Index) Max() int64 { return i.snapshot.Sequence(protocol.LocalDeviceID) }

// Check says whether the index is still as it was when it was opened. That of a home whose Syncthing may run is read from
// its copy alone.
func (i *Index) Check() error {
	if i.home.isLive {
		return nil
	}
	return i.home.checkUnchanged()
}

// Bytes gives the bytes of all files of these names that the device's own index has. Of all names its counts say it, in which Syncthing gives
// directories and symlinks a size, too.
func (i *Index) Bytes(names choice.Names) (int64, error) {
	if names.IsAll() {
		size := i.snapshot.LocalSize()
		return size.Bytes - protocol.SyntheticDirectorySize*(int64(size.Directories)+int64(size.Symlinks)), nil
	}
	sum := int64(0)
	err := i.Own(names, func(entry Entry) bool {
		if record := entry.Record; record != nil && !record.Deleted && record.Content != nil {
			sum = part.Sum(sum, record.Content.Size)
		}
		return true
	})
	return sum, err
}

// names gives how many names the device's own index has, by its counts.
func (i *Index) names() int64 {
	size := i.snapshot.LocalSize()
	return int64(size.Files) + int64(size.Directories) + int64(size.Symlinks) + int64(size.Deleted)
}

// Folder gives what a part's head says of the folder. A view that was never filled isn't told.
func (i *Index) Folder() part.Folder {
	folder := part.Folder{ID: i.Config.ID, Label: limits.Cut(i.Config.Label), Kind: kindOf(i.Config.Type), Path: adapt.Filesystem(i.Config.Filesystem, nil).URI(),
		Directory: i.directory, Marker: part.MarkerOf(i.Config.MarkerName), IndexID: uint64(i.files.IndexID(protocol.LocalDeviceID)), Max: i.Max(),
		IgnoresPermissions: i.Config.IgnorePerms, TimeWindow: timeWindowOf(i.Config), ScansAttributes: i.home.attributes[i.Config.ID], Sharing: i.home.Sharing(i.Config), Views: []part.View{},
		Paused: i.Config.Paused, PausedDevices: i.home.pausedOf(i.Config), Writers: i.home.writersOf(i.Config.ID),
		Indexed: i.names(), Options: i.home.optionsOf(i.Config)}
	folder.Options.IgnoresCase = directory.IgnoresCase(folder.Path, i.Config.MarkerName)
	for _, other := range i.Config.Devices {
		if other.DeviceID == i.home.ID {
			continue
		}
		view := part.View{Device: other.DeviceID.String(), IndexID: uint64(i.files.IndexID(other.DeviceID)), Max: i.snapshot.Sequence(other.DeviceID)}
		if view.IndexID != 0 || view.Max != 0 {
			folder.Views = append(folder.Views, view)
		}
	}
	return folder
}

// optionsOf gives what else of a folder's configuration decides to which end its names come.
func (h *Home) optionsOf(folder config.FolderConfiguration) *part.Options {
	return &part.Options{MaxConflicts: folder.MaxConflicts, IgnoresDeletions: folder.IgnoreDelete,
		Versions: part.VersionsOf(folder.Versioning.Type, h.placeOfVersions(folder), folder.Versioning.Params)}
}

// timeWindowOf gives by how many seconds less the times of a file may differ that Syncthing takes for one.
func timeWindowOf(folder config.FolderConfiguration) int64 {
	window := int64(folder.RawModTimeWindowS)
	switch {
	case window < 0:
		return 0
	case window > math.MaxInt32:
		return math.MaxInt32
	}
	return window
}

// kindOf gives the document's word for a folder's type.
func kindOf(kind config.FolderType) string {
	switch kind {
	case config.FolderTypeSendOnly:
		return "send-only"
	case config.FolderTypeReceiveOnly:
		return "receive-only"
	case config.FolderTypeReceiveEncrypted:
		return "encrypted"
	default:
		return "send-receive"
	}
}

// Own gives the device's own entries of these names, rising by name.
func (i *Index) Own(names choice.Names, take func(Entry) bool) error {
	return i.entries(protocol.LocalDeviceID, names, i.Max(), ownEntry, take)
}

// View gives the entries that the device knows of another one, rising by name. They lack the hash of their lists of blocks: who has the own record knows it
// already, mostly.
func (i *Index) View(of part.View, names choice.Names, take func(Entry) bool) error {
	id, err := protocol.DeviceIDFromString(of.Device)
	if err != nil {
		return err
	}
	return i.entries(id, names, of.Max, viewedEntry, take)
}
