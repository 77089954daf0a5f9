package history

import (
	"errors"
	"fmt"
	"os"
	"path/filepath"
	"regexp"
	"syscall"

	"syncthing-audit/shell"
)

// ofLevelDB are the names that LevelDB gives its files.
var ofLevelDB = regexp.MustCompile(`^(CURRENT(\.bak|\.\d+)?|LOCK|LOG(\.old)?|MANIFEST-\d+|\d+\.(log|ldb|sst|tmp))$`)

// CheckThere says why there is no history in a directory, in which nothing is made then.
func CheckThere(directory string) error {
	_, err := os.Stat(filepath.Join(directory, "CURRENT"))
	return err
}

// checkDirectory says why a directory isn't one in which LevelDB may read and write. Another user could put symlinks there, which it follows, and it
// waits at a pipe for ever. What stands there, and what comes to stand there, nobody else may read: it has the names of files.
func checkDirectory(directory string) error {
	about, err := os.Stat(directory)
	if err != nil {
		return err
	}
	if said, is := about.Sys().(*syscall.Stat_t); is && int(said.Uid) != os.Geteuid() {
		return errors.New("it belongs to another user, who may put symlinks into it: name a directory of your own")
	}
	entries, err := os.ReadDir(directory)
	if err != nil {
		return err
	}
	for _, entry := range entries {
		if !entry.Type().IsRegular() && !entry.IsDir() {
			return fmt.Errorf("%s is no file, so this is no history: name a directory of its own", shell.Path(entry.Name()))
		}
		if !entry.IsDir() && !ofLevelDB.MatchString(entry.Name()) {
			return fmt.Errorf("%s is no file of a history, so this is none: name a directory of its own", shell.Path(entry.Name()))
		}
	}
	for _, entry := range entries {
		if entry.IsDir() {
			continue
		}
		// Another run that has the history open may take a file away.
		if err := os.Chmod(filepath.Join(directory, entry.Name()), 0o600); err != nil && !os.IsNotExist(err) {
			return err
		}
	}
	syscall.Umask(0o077)
	return nil
}
