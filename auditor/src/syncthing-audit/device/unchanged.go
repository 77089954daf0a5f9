package device

import (
	"fmt"
	"os"
)

// listing is what the files of an index look like from outside.
type listing map[string]string

// listingOf lists the files of an index.
func listingOf(database string) (listing, error) {
	entries, err := os.ReadDir(database)
	if err != nil {
		return nil, err
	}
	listed := listing{}
	for _, entry := range entries {
		info, err := entry.Info()
		if err != nil {
			return nil, err
		}
		listed[entry.Name()] = fmt.Sprint(info.Size(), info.ModTime())
	}
	return listed, nil
}

// checkUnchanged says which file of the home's index isn't as it was before it was copied: Syncthing was started since. It opens the index before it
// looks at any folder, and LevelDB then begins a manifest and a log with other numbers. So where none differs once a folder's last file was hashed,
// no Syncthing changed the folder meanwhile.
func (h *Home) checkUnchanged() error {
	now, err := listingOf(h.database())
	if err != nil {
		return err
	}
	for name, said := range h.before {
		if now[name] != said {
			return h.changed(name)
		}
	}
	if len(now) != len(h.before) {
		return h.changed("other files")
	}
	return nil
}

// changed says that the index changed.
func (h *Home) changed(what string) error {
	return fmt.Errorf("refused: %s: its index changed while it was read (%s): Syncthing was started there. Stop it, and begin anew", h.Dir, what)
}
