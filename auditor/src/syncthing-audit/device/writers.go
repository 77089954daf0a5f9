package device

import (
	"path/filepath"
	"sort"
	"strings"

	"github.com/syncthing/syncthing/lib/config"
	"github.com/syncthing/syncthing/lib/fs"
	"github.com/syncthing/syncthing/lib/ignore"
	"syncthing-audit/adapt"
	"syncthing-audit/shell"
)

// writersOf says what else of the device's Syncthing writes into a folder's directory, in words: another folder, which is at it, in it or
// above it, or the old versions of a folder, or Syncthing's own data. By themselves old versions are in .stversions, which no folder has.
func (h *Home) writersOf(folder string) []string {
	h.written.Do(func() { h.writers = h.allWriters() })
	return h.writers[folder]
}

// allWriters says so of all folders, by their ids.
func (h *Home) allWriters() map[string][]string {
	places := newPlaces(h.Config.Folders)
	for place, folder := range h.Config.Folders {
		places.each(places.real[place], func(outer int) {
			if outer != place {
				places.note(outer, place, "folder ")
				places.note(place, outer, "folder ")
			}
		})
		if versions := h.versionsOf(folder); versions != "" {
			places.each(realPath(versions), func(outer int) { places.note(outer, place, "the old versions of ") })
		}
	}
	words := places.words()
	h.addOwnData(places, words)
	return words
}

// places are the directories of a home's folders. Each is looked up, and each folder's patterns are read, once.
type places struct {
	folders  []config.FolderConfiguration
	real     []string         // without symlinks
	at       map[string][]int // which folders are at a directory
	patterns map[int]*ignore.Matcher
	notes    []map[int]map[string]bool // what each folder writes into another one's directory
}

func newPlaces(folders []config.FolderConfiguration) *places {
	p := &places{folders: folders, at: map[string][]int{}, patterns: map[int]*ignore.Matcher{}}
	for place, folder := range folders {
		real := realPath(adapt.Filesystem(folder.Filesystem, nil).URI())
		p.real, p.at[real] = append(p.real, real), append(p.at[real], place)
		p.notes = append(p.notes, map[int]map[string]bool{})
	}
	return p
}

// each calls of each folder that has what is at a path, or below it.
func (p *places) each(path string, call func(folder int)) {
	for above := path; ; above = filepath.Dir(above) {
		for _, writer := range p.at[above] {
			if p.isTaken(writer, path) {
				call(writer)
			}
		}
		if above == filepath.Dir(above) {
			return
		}
	}
}

// isTaken says whether what is at a path in a folder's directory is the folder's. Where its patterns can't be read nobody knows, so it may be.
func (p *places) isTaken(folder int, path string) bool {
	name, err := filepath.Rel(p.real[folder], path)
	if err != nil || name == "." || fs.IsInternal(name) {
		return err == nil && name == "."
	}
	patterns, is := p.patterns[folder]
	if !is {
		if patterns, err = patternsIn(adapt.Filesystem(p.folders[folder].Filesystem, nil)); err != nil {
			patterns = nil
		}
		p.patterns[folder] = patterns
	}
	return patterns == nil || !patterns.Match(name).IsIgnored()
}

// note notes what one folder writes into another one's directory; nothing of a paused one.
func (p *places) note(into, of int, what string) {
	if p.folders[of].Paused {
		return
	}
	if p.notes[into][of] == nil {
		p.notes[into][of] = map[string]bool{}
	}
	p.notes[into][of][what] = true
}

// words gives what writes into each folder's directory, in the order of the folders.
func (p *places) words() map[string][]string {
	words := map[string][]string{}
	for into, notes := range p.notes {
		order := []int{}
		for of := range notes {
			order = append(order, of)
		}
		sort.Ints(order)
		for _, of := range order {
			for _, what := range []string{"folder ", "the old versions of "} {
				if notes[of][what] {
					words[p.folders[into].ID] = append(words[p.folders[into].ID], what+shell.Folder(p.folders[of].ID, p.folders[of].Label))
				}
			}
		}
	}
	return words
}

// versionsOf gives where a folder's old versions are kept and cleaned, where it isn't their usual place; nothing where that isn't so. A
// command that keeps them cleans nothing by itself.
func (h *Home) versionsOf(folder config.FolderConfiguration) string {
	path := h.placeOfVersions(folder)
	switch {
	case folder.Versioning.Type == "" || folder.Versioning.Type == "external" || path == "":
		return ""
	case filepath.IsAbs(path):
		return path
	}
	return filepath.Join(adapt.Filesystem(folder.Filesystem, nil).URI(), path)
}

// placeOfVersions gives the place that is configured for a folder's old versions, from the folder's directory; nothing where none is. 1.19 takes a tilde for
// a name.
func (h *Home) placeOfVersions(folder config.FolderConfiguration) string {
	path := folder.Versioning.FSPath
	if strings.HasPrefix(path, "~") && !strings.HasPrefix(h.Syncthing, "v1.19.") {
		if expanded, err := fs.ExpandTilde(path); err == nil {
			return expanded
		}
	}
	return path
}

// realPath gives a path without symlinks, as far as what it leads to is there.
func realPath(path string) string {
	real, err := filepath.EvalSymlinks(path)
	switch above := filepath.Dir(path); {
	case err == nil:
		return real
	case above == path:
		return path
	default:
		return filepath.Join(realPath(above), filepath.Base(path))
	}
}
