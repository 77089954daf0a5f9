package device

import (
	"os"
	"path/filepath"
	"strconv"

	"syncthing-audit/shell"
)

// addOwnData says which of Syncthing's own data stand in which folder, to what else writes there.
func (h *Home) addOwnData(all *places, words map[string][]string) {
	for _, place := range h.ownData() {
		path, err := filepath.Abs(place)
		if err != nil {
			continue
		}
		all.each(realPath(path), func(outer int) {
			id := h.Config.Folders[outer].ID
			words[id] = append(words[id], "Syncthing's own "+shell.Quoted(filepath.Base(path)))
		})
	}
}

// ownData gives what Syncthing writes for itself: its index, which changes all the time; its configuration; the keys of sessions, at a login; a log,
// where it is asked for; and its program, at an upgrade.
func (h *Home) ownData() []string {
	paths := []string{h.database()}
	for _, name := range []string{"config.xml", "csrftokens.txt", "syncthing.log"} {
		paths = append(paths, filepath.Join(h.Dir, name))
	}
	if program := h.program(); program != "" {
		paths = append(paths, program)
	}
	return paths
}

// program gives the program that runs on the home's index, as far as it is seen; of a stopped device it isn't known.
func (h *Home) program() string {
	if !h.isLive {
		return ""
	}
	lock := filepath.Join(realPath(h.database()), nameOfLock)
	processes, _ := filepath.Glob("/proc/[0-9]*")
	for _, process := range processes {
		number, err := strconv.Atoi(filepath.Base(process))
		if err != nil || !HasOpen(number, func(target string) bool { return target == lock }) {
			continue
		}
		if program, err := os.Readlink(filepath.Join(process, "exe")); err == nil {
			return program
		}
	}
	return ""
}
