package device

import (
	"errors"
	"fmt"
	"io"
	"os"
	"path/filepath"
	"strconv"
	"strings"
	"syscall"

	"syncthing-audit/regular"
)

// nameOfLock is the file of an index on which a running Syncthing has a lock alone.
const nameOfLock = "LOCK"

// errHeld says that a Syncthing has it.
var errHeld = errors.New("its index is locked")

// lockShared takes a shared lock on the file that a running Syncthing holds alone. While it is held, no Syncthing can
// start on that home; closing the file gives it back.
func lockShared(home, database string) (*os.File, error) {
	file, _, err := regular.Open(filepath.Join(database, nameOfLock))
	if err != nil {
		return nil, err
	}
	err = syscall.Flock(int(file.Fd()), syscall.LOCK_SH|syscall.LOCK_NB)
	if err == nil {
		return file, nil
	}
	file.Close()
	if errors.Is(err, syscall.EWOULDBLOCK) {
		return nil, fmt.Errorf("refused: Syncthing runs on %s (%w). Stop it, which pausing it or its "+
			"folders doesn't do; or give --home a copy of the home that was made while it was stopped", home, errHeld)
	}
	return nil, fmt.Errorf("refused: %s: its index can't be locked: %w", home, err)
}

// IsHeld says whether a Syncthing runs on the index in a directory, by its lock. The lock is tried, since /proc/locks shows other device numbers than
// files of btrfs have, and no locks from outside a container. A Syncthing that starts at that very moment fails, and its monitor starts it again
// after a second.
func IsHeld(dir string) bool {
	lock, err := lockShared(dir, filepath.Join(dir, databaseName))
	if err == nil {
		lock.Close()
	}
	return errors.Is(err, errHeld)
}

// IsStopped says whether no Syncthing runs on a home's index, as its lock shows. Where the lock can't be tried, that isn't known.
func IsStopped(dir, data string) bool {
	lock, err := lockShared(dir, (&Home{Dir: dir, data: data}).database())
	if err != nil {
		return false
	}
	lock.Close()
	return true
}

// CheckRuns refuses a home on whose index no Syncthing runs.
func CheckRuns(dir, data string) error {
	home := &Home{Dir: dir, data: data}
	if err := CheckIndex(dir, data); err != nil {
		return err
	}
	if !IsHeld(home.dataDirectory()) {
		return fmt.Errorf("refused: no Syncthing runs on %s: none holds the lock of %s", dir, home.database())
	}
	return nil
}

// HoldsIndex says whether a process is seen to have the lock of an index open.
func HoldsIndex(process int) bool {
	return HasOpen(process, func(target string) bool { return strings.HasSuffix(target, "/"+databaseName+"/"+nameOfLock) })
}

// HasOpen says whether a process is seen to have something open. Only its user and root see that.
func HasOpen(process int, is func(target string) bool) bool {
	directory := filepath.Join("/proc", strconv.Itoa(process), "fd")
	entries, _ := os.ReadDir(directory)
	for _, entry := range entries {
		if target, err := os.Readlink(filepath.Join(directory, entry.Name())); err == nil && is(target) {
			return true
		}
	}
	return false
}

// copyFiles copies the files of one directory, and none of its subdirectories, to another.
func copyFiles(from, to string) error {
	entries, err := os.ReadDir(from)
	if err != nil {
		return err
	}
	for _, entry := range entries {
		if !entry.Type().IsRegular() {
			continue
		}
		if err := copyFile(filepath.Join(from, entry.Name()), filepath.Join(to, entry.Name())); err != nil {
			return err
		}
	}
	return nil
}

// copyFile copies a file's bytes to a new file.
func copyFile(from, to string) error {
	source, _, err := regular.Open(from)
	if err != nil {
		return err
	}
	defer source.Close()
	file, err := os.OpenFile(to, os.O_WRONLY|os.O_CREATE|os.O_EXCL, 0o600)
	if err != nil {
		return err
	}
	if _, err := io.Copy(file, source); err != nil {
		file.Close()
		return err
	}
	return file.Close()
}
