package device

import (
	"errors"
	"fmt"
	"path/filepath"
	"strings"

	"github.com/syncthing/syncthing/lib/config"
	"syncthing-audit/shell"
)

// Map says where something stands on this machine that a home's configuration has elsewhere, as where Syncthing runs in a container: what is at From,
// or below it, is at To. From may begin with ~, as the configuration has it: that is the home of the user in the container.
type Map struct{ From, To string }

// Maps are those of one home. Without any, each path is as the configuration has it.
type Maps []Map

// ParseMap reads FROM=TO.
func ParseMap(word string) (Map, error) {
	from, to, is := strings.Cut(word, "=")
	switch {
	case !is:
		return Map{}, errors.New("it is FROM=TO: a path as config.xml has it, and where that is on this machine")
	case !filepath.IsAbs(from) && from != "~" && !strings.HasPrefix(from, "~/"):
		return Map{}, fmt.Errorf("%s isn't absolute, and doesn't begin with ~", shell.Quoted(from))
	case !filepath.IsAbs(to):
		return Map{}, fmt.Errorf("%s isn't absolute", shell.Quoted(to))
	}
	return Map{filepath.Clean(from), filepath.Clean(to)}, nil
}

// Word gives the map as FROM=TO.
func (m Map) Word() string { return m.From + "=" + m.To }

// Add adds a map, unless there is another one for the same path.
func (m *Maps) Add(added Map) error {
	for _, had := range *m {
		if had.From == added.From {
			return fmt.Errorf("%s is named already", shell.Quoted(added.From))
		}
	}
	*m = append(*m, added)
	return nil
}

// Path gives where a path of the configuration is on this machine. Where maps overlap, the longest one has it. A path that none of them has isn't known.
func (m Maps) Path(path string) (string, bool) {
	if len(m) == 0 {
		return path, true
	}
	clean, found, length := filepath.Clean(path), "", -1
	for _, given := range m {
		rest := strings.TrimPrefix(clean, strings.TrimSuffix(given.From, "/"))
		isBelow := len(rest) < len(clean) || given.From == "/" && filepath.IsAbs(clean)
		if isBelow && (rest == "" || rest[0] == '/') && len(given.From) > length {
			found, length = filepath.Join(given.To, rest), len(given.From)
		}
	}
	return found, length >= 0
}

// apply puts the paths of this machine into a home's configuration. A folder whose path no map has is refused: on this machine that path may be another
// folder's.
func (m Maps) apply(dir string, to *config.Configuration) error {
	for at := range to.Folders {
		folder := &to.Folders[at]
		path, is := m.Path(folder.Path)
		if !is {
			return fmt.Errorf("refused: %s: folder %s is at %s in config.xml, and no --map has that: say where it is on this machine, as --map %s=DIR", dir,
				shell.Folder(folder.ID, folder.Label), shell.Path(folder.Path), shell.Path(folder.Path))
		}
		folder.Path = path
		if path, is := m.Path(folder.Versioning.FSPath); is && folder.Versioning.FSPath != "" {
			folder.Versioning.FSPath = path
		}
	}
	return nil
}
