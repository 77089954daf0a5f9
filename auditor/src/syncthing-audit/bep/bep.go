// Package bep has what the Block Exchange Protocol and Syncthing say of names, files and device ids, as far as programs need it that are built
// without Syncthing's own packages, which other systems than Linux lack here. Tests compare it with these packages.
package bep

import (
	"path"
	"strings"
	"time"
)

// What a record is of (BEP, 'Fields (FileInfo)').
const (
	File      = 0
	Directory = 1
	Symlink   = 4
)

// How files are cut into blocks (BEP, 'Selection of Block Size').
const (
	MinBlockSize  = 128 << 10
	MaxBlockSize  = 16 << 20
	blocksOfAFile = 2000
)

// BlockSize gives the size of the blocks into which a new file of this size is cut.
func BlockSize(size int64) int64 {
	length := int64(MinBlockSize)
	for length < MaxBlockSize && size >= blocksOfAFile*length {
		length *= 2
	}
	return length
}

// IsBlockSize says whether Syncthing cuts files into blocks of this size.
func IsBlockSize(size int64) bool {
	return MinBlockSize <= size && size <= MaxBlockSize && size&(size-1) == 0
}

// IsTimeEqual says whether Syncthing takes two times of a file for one: they differ by less than the folder's window, or not at all.
func IsTimeEqual(time, other time.Time, window time.Duration) bool {
	difference := time.Sub(other)
	if difference < 0 {
		difference = -difference
	}
	return time.Equal(other) || difference < window
}

// IsInternal says whether a name is one that Syncthing keeps for itself in a folder.
func IsInternal(name string) bool {
	first, _, _ := strings.Cut(name, "/")
	return first == ".stfolder" || first == ".stignore" || first == ".stversions"
}

// IsTemporary says whether Syncthing takes a name for that of a temporary file of its own.
func IsTemporary(name string) bool {
	base := path.Base(name)
	return strings.HasPrefix(base, ".syncthing.") || strings.HasPrefix(base, "~syncthing~")
}
