// Package disk reads what stands in a folder's directory, in the order of names, and hashes files.
package disk

import (
	"fmt"
	"os"
	"sort"
	"strings"
	"time"

	"syncthing-audit/bep"
	"syncthing-audit/choice"
	"syncthing-audit/directory"
	"syncthing-audit/limits"
	"syncthing-audit/part"
)

// Found is what stands under a name: a node, or why there is none, or both.
type Found struct {
	Name  string
	Node  *part.Node
	Out   *part.LeftOut
	Stamp Stamp // of a file, for its hashing
}

// Walker reads the nodes of a folder, without the bytes of files.
type Walker struct {
	Disk   directory.Directory // gives times as Syncthing sees them
	Folder string              // its id
	Names  choice.Names        // those that are read
	Stamps bool                // stand in the nodes, too
	Take   func(Found) error

	links     links
	Temporary part.Count // names that were met and passed over, since Syncthing takes them for its temporary files
}

// Walk reads all names, rising byte by byte as the names of an index do.
func (w *Walker) Walk() error { return w.walk(".") }

// walk reads what stands in a directory and below it. Symlinks aren't followed. What stands below a directory has names
// with a slash behind the directory's own, and others may stand between the two.
func (w *Walker) walk(directory string) error {
	names, err := w.Disk.DirNames(directory)
	if err != nil {
		if directory == "." {
			return fmt.Errorf("%s: %w", w.Disk.URI(), err)
		}
		why := outOf("the directory", err)
		why.Below = true
		return w.Take(Found{Name: directory + "/", Out: why})
	}
	sort.Strings(names)
	below := []string{} // directories that were met, each with its slash, whose names are still to come
	for _, name := range names {
		for len(below) > 0 && below[0] < name {
			if err := w.walk(joined(directory, below[0])); err != nil {
				return err
			}
			below = below[1:]
		}
		isDirectory, err := w.visit(joined(directory, name))
		if err != nil {
			return err
		}
		if isDirectory {
			below = insert(below, name+"/")
		}
	}
	for _, name := range below {
		if err := w.walk(joined(directory, name)); err != nil {
			return err
		}
	}
	return nil
}

// joined gives the name of what stands in a directory; of a directory it may have its slash.
func joined(directory, name string) string {
	name = strings.TrimSuffix(name, "/")
	if directory == "." {
		return name
	}
	return directory + "/" + name
}

// insert puts a name into its place.
func insert(names []string, name string) []string {
	at := sort.SearchStrings(names, name)
	names = append(names, "")
	copy(names[at+1:], names[at:])
	names[at] = name
	return names
}

// visit reads what stands under a name, and says whether names below it are to be read. What Syncthing keeps for itself
// is passed over, as its scanner does. So are its temporary files. A user's file may have such a name, too, so they are counted.
func (w *Walker) visit(name string) (bool, error) {
	if bep.IsInternal(name) {
		return false, nil
	}
	info, err := w.Disk.Lstat(name)
	if err != nil {
		return false, w.Take(Found{Name: name, Out: outOf("it", err)})
	}
	switch {
	case !w.Names.Has(w.Folder, name):
	case bep.IsTemporary(name):
		w.Temporary.Add(1, bytesOf(info))
	default:
		if err := w.Take(w.found(name, info)); err != nil {
			return false, err
		}
	}
	return info.IsDir() && w.Names.MayHold(name), nil
}

// bytesOf gives the bytes of a file; a directory has none.
func bytesOf(info directory.Info) int64 {
	if !info.IsRegular() {
		return 0
	}
	return info.Size()
}

// found reads a node, and says why a document has none such.
func (w *Walker) found(name string, info directory.Info) Found {
	found := Found{Name: name}
	out := func(kind, why string) Found {
		found.Out = &part.LeftOut{Kind: kind, Why: why, Bytes: info.Size()}
		return found
	}
	if err := limits.CheckName(name); err != nil {
		return out(part.OddName, err.Error())
	}
	modified := info.ModTime()
	node := &part.Node{ModifiedS: modified.Unix(), ModifiedNs: modified.Nanosecond(), Permissions: info.Permissions()}
	switch {
	case info.IsSymlink() && !directory.HasSymlinks:
		return out(part.Special, "it is a symlink or a junction, which Syncthing passes over on this system")
	case info.IsSymlink():
		target, err := w.Disk.ReadSymlink(name)
		if err != nil {
			return Found{Name: name, Out: outOf("its target", err)}
		}
		if err := limits.CheckTarget(target); err != nil {
			return out(part.OddTarget, err.Error())
		}
		node.Type, node.Target = bep.Symlink, target
	case info.IsDir():
		node.Type = bep.Directory
	case info.IsRegular() && isTimeCut(w.Disk, name):
		return out(part.Unreadable, "a 32-bit program can't read its time, which isn't between December 1901 and January 2038")
	case info.IsRegular():
		node.Type, node.Size = bep.File, info.Size()
	default:
		return out(part.Special, "it is no file, directory or symlink")
	}
	if w.Stamps || info.IsRegular() {
		found.Stamp, node.Link = w.stamp(info.About())
	}
	if w.Stamps {
		node.Stamp = found.Stamp.String()
	}
	found.Node = node
	return found
}

// StampOf gives the text of the stamp of what stands under a name. Where the disk fails to give it, that is another one each time: nobody knows that nothing changed.
func (w *Walker) StampOf(name string) string {
	about, err := w.Disk.About(name)
	if IsDamage(err) {
		return fmt.Sprintf("not known at %d", time.Now().UnixNano())
	}
	if err != nil {
		return ""
	}
	return stampOf(about).String()
}

// stamp gives the stamp of what was found, and which file with several names it is. It counts the links that the file has.
func (w *Walker) stamp(about os.FileInfo) (Stamp, int64) {
	if w.links == nil {
		w.links = links{}
	}
	return stampOf(about), w.links.add(about)
}

// Linked counts the names of files that have links elsewhere, outside the names that were walked.
func (w *Walker) Linked() part.Count { return w.links.elsewhere() }

// PathOf gives the path of a name.
func (w *Walker) PathOf(name string) string { return pathOf(w.Disk, name) }
