package device

import (
	"errors"
	"fmt"
	"os"
	"path/filepath"
	"strconv"

	"github.com/syncthing/syncthing/lib/db/backend"
	"golang.org/x/sys/unix"
	"syncthing-audit/leftover"
)

// roomFor makes the temporary directory for the copy of an index, where there is room for it.
func roomFor(database string) (string, error) {
	needed, err := bytesFor(database)
	if err != nil {
		return "", err
	}
	free, err := freeIn(leftover.Place())
	if err == nil && free < needed {
		err = fmt.Errorf("it takes %.1f MB, and %.1f MB is free there", megabytes(needed), megabytes(free))
	}
	if err != nil {
		return "", notCopied(err)
	}
	place, err := leftover.Directory()
	if err != nil {
		return "", notCopied(err)
	}
	return place, nil
}

// bytesFor gives the bytes that a copy of an index takes. On opening it LevelDB writes what its logs have into tables, before they go.
func bytesFor(database string) (int64, error) {
	entries, err := os.ReadDir(database)
	if err != nil {
		return 0, err
	}
	sum := int64(0)
	for _, entry := range entries {
		info, err := entry.Info()
		if errors.Is(err, os.ErrNotExist) {
			continue // a running Syncthing took it away
		}
		if err != nil {
			return 0, err
		}
		sum += info.Size()
		if filepath.Ext(entry.Name()) == ".log" {
			sum += info.Size()
		}
	}
	return sum, nil
}

// mostOfSmall is how many bytes an index has at most that Syncthing opens as a small one.
const mostOfSmall = 200 << 20

// tuningFor says how Syncthing opens an index of this size. Its own look at that (TuningAuto) leaves the directory open.
func tuningFor(database string) backend.Tuning {
	if bytes, err := bytesFor(database); err == nil && bytes > mostOfSmall && strconv.IntSize == 64 {
		return backend.TuningLarge
	}
	return backend.TuningSmall
}

// unknown is what counts as free where a file system doesn't say it.
const unknown = 1 << 62

// freeIn gives the bytes that a user may still write into a directory's file system. One without a size of its own says nothing.
func freeIn(directory string) (int64, error) {
	var said unix.Statfs_t
	if err := unix.Statfs(directory, &said); err != nil {
		return 0, &os.PathError{Op: "statfs", Path: directory, Err: err}
	}
	if said.Blocks == 0 {
		return unknown, nil
	}
	return int64(said.Bavail) * int64(said.Bsize), nil
}

// megabytes gives bytes in a unit that a person reads.
func megabytes(bytes int64) float64 { return float64(bytes) / 1e6 }

// notCopied says what can be done where the temporary directory has no room, or isn't there.
func notCopied(err error) error {
	return fmt.Errorf("refused: the index can't be copied to %s (TMPDIR may name another directory): %w", leftover.Place(), err)
}
