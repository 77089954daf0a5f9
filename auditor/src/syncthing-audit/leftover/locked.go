package leftover

import (
	"errors"
	"os"
	"path/filepath"
	"strings"
	"syscall"
)

// Names of what this program has a lock on as long as it needs it. What has such a name and no lock is left of a run that was killed. Programs
// of 0.13.0 and before make other names, and lock nothing.
const (
	prefixOfDirectory = "syncthing-audit-locked-"
	prefixOfFile      = ".syncthing-audit-locked-"
)

// mostTries is how often something is made anew that another run took away, or that isn't seen to be there.
const mostTries = 100

var errTaken = errors.New("what was just made for this run alone isn't there any more, time and again: see what takes it away, or name another place by TMPDIR")

// locks are the open directories that hold the locks, by their paths.
var locks = map[string]*os.File{}

// Directory makes a directory in that place, to be gone in the end. It is locked: where the program is killed, the next one takes it away.
func Directory() (string, error) {
	mutex.Lock()
	defer mutex.Unlock()
	return makeLocked(Place(), prefixOfDirectory)
}

// makeLocked makes such a directory, and takes away what killed runs left beside it.
func makeLocked(place, prefix string) (string, error) {
	sweep(place, prefix)
	for try := 0; try < mostTries; try++ {
		path, err := os.MkdirTemp(place, prefix)
		if err != nil {
			return "", err
		}
		paths[path] = struct{}{}
		if lock, isMine := lockOf(path); isMine {
			locks[path] = lock
			return path, nil
		}
		// A run that started took it for one without a maker, or it can't be seen that none did.
		os.Remove(path)
		delete(paths, path)
	}
	return "", errTaken
}

// lockOf locks what was just made at a path, and says whether it is there still. Where a file system has no locks there is none, and nobody takes
// anything away for want of one.
func lockOf(path string) (*os.File, bool) {
	lock, err := os.OpenFile(path, os.O_RDONLY|syscall.O_NOFOLLOW, 0)
	if err != nil {
		return nil, !os.IsNotExist(err)
	}
	err = syscall.Flock(int(lock.Fd()), syscall.LOCK_EX|syscall.LOCK_NB)
	if err == nil && isAt(lock, path) {
		return lock, true
	}
	lock.Close()
	return nil, err != nil && err != syscall.EWOULDBLOCK
}

// isAt says whether an open file or directory is at a path.
func isAt(file *os.File, path string) bool {
	about, err := file.Stat()
	if err != nil {
		return false
	}
	there, err := os.Lstat(path)
	return err == nil && os.SameFile(about, there)
}

// sweep takes away what killed runs of this user left in a directory: what has such a name, and a lock that is free.
func sweep(directory, prefix string) {
	entries, _ := os.ReadDir(directory) // where it can't be read, nothing is taken away
	for _, entry := range entries {
		if strings.HasPrefix(entry.Name(), prefix) {
			sweepOne(filepath.Join(directory, entry.Name()))
		}
	}
}

func sweepOne(path string) {
	file, err := os.OpenFile(path, os.O_RDONLY|syscall.O_NOFOLLOW|syscall.O_NONBLOCK, 0)
	if err != nil {
		return
	}
	defer file.Close()
	about, err := file.Stat()
	if err != nil || !(about.IsDir() || about.Mode().IsRegular()) {
		return
	}
	if owner, is := about.Sys().(*syscall.Stat_t); !is || int(owner.Uid) != os.Geteuid() {
		return
	}
	if syscall.Flock(int(file.Fd()), syscall.LOCK_EX|syscall.LOCK_NB) == nil && isAt(file, path) {
		removeWhole(path)
	}
}

// unlock gives a lock back.
func unlock(path string) {
	if lock := locks[path]; lock != nil {
		lock.Close()
		delete(locks, path)
	}
}
