package disk

import (
	"crypto/sha256"
	"errors"
	"fmt"
	"io"
	"os"
	"path/filepath"
	"strings"
	"sync"
	"syscall"

	"syncthing-audit/bep"
	"syncthing-audit/directory"
	"syncthing-audit/part"
)

const (
	// pieceBytes is how much of a file one worker hashes: a multiple of each block size.
	pieceBytes = bep.MaxBlockSize
	// readBytes is how much is read at once: it divides each block size.
	readBytes = bep.MinBlockSize
)

// ErrChanged says that a file isn't what it was when it was found.
var ErrChanged = errors.New("it changed while it was read")

// File is a file to be hashed: how it was found, and how it is to be cut into blocks.
type File struct {
	Disk       directory.Directory // gives times as Syncthing sees them
	Name       string
	Stamp      Stamp // as it was when it was found
	Node       *part.Node
	BlockSizes []int64
	Longest    int64      // the size of the longest record of the name
	Recorded   [][32]byte // the own record's block hashes, to be compared with those of the first block size; or none
	List       *part.Hash // the SHA-256 of these, where it is known
	Keep       bool       // the bytes, too
}

// Job is a file that is being hashed.
type Job struct {
	file   File
	pieces sync.WaitGroup
	hashes [][][][32]byte // for each block size those of each piece's blocks
	block  [1][32]byte    // the hash of the one block of a file that is read at once
	list   part.Hash      // of that
	data   []byte
	mutex  sync.Mutex
	err    error
}

// piece is what one worker hashes of a file.
type piece struct {
	offset, length int64
	hashes         [][][32]byte // for each block size those of its blocks
}

// pieceAt gives a piece room for its hashes once it is begun. So a file that is said to be very long takes room for what is read of it alone.
func (j *Job) pieceAt(offset int64) piece {
	next := piece{offset: offset, length: j.file.Length() - offset}
	if next.length > pieceBytes {
		next.length = pieceBytes
	}
	for place, size := range j.file.BlockSizes {
		room := make([][32]byte, part.CountOfBlocks(next.length, size))
		next.hashes = append(next.hashes, room)
		j.hashes[place] = append(j.hashes[place], room)
	}
	return next
}

// hashesOf gives the hashes of all blocks of a size.
func (j *Job) hashesOf(place int) [][32]byte {
	switch {
	case j.file.isWhole():
		return j.block[:]
	case len(j.hashes[place]) == 1:
		return j.hashes[place][0]
	}
	hashes := [][32]byte{}
	for _, hash := range j.hashes[place] {
		hashes = append(hashes, hash...)
	}
	return hashes
}

// hashOf gives the SHA-256 of the hashes of all blocks of a size.
func (j *Job) hashOf(place int) part.Hash {
	if j.file.isWhole() {
		return j.list
	}
	return j.file.listOf(j.hashesOf(place))
}

func (j *Job) fail(err error) {
	j.mutex.Lock()
	defer j.mutex.Unlock()
	if j.err == nil {
		j.err = err
	}
}

func (j *Job) hasFailed() bool {
	j.mutex.Lock()
	defer j.mutex.Unlock()
	return j.err != nil
}

// hash hashes one piece of a file.
func (p *Pool) hash(job *Job, piece piece) error {
	if p.skips.Load() {
		return nil
	}
	file, err := job.file.open()
	if err != nil {
		return err
	}
	defer file.Close()
	letGo(file, piece.offset, piece.length)
	cuts := make([]*cutter, len(job.file.BlockSizes))
	for place, size := range job.file.BlockSizes {
		cuts[place] = &cutter{sum: NewSum(), size: size, hashes: piece.hashes[place]}
	}
	if err := p.read(file, job, piece.offset, piece.length, cuts); err != nil {
		return err
	}
	for _, cut := range cuts {
		cut.end()
	}
	return nil
}

// path gives where the file is.
func (f *File) path() string { return pathOf(f.Disk, f.Name) }

// pathOf gives the path of a name. A path that Windows takes by the letter has backslashes.
func pathOf(in directory.Directory, name string) string {
	return strings.TrimSuffix(in.URI(), string(filepath.Separator)) + string(filepath.Separator) + filepath.FromSlash(name)
}

// open opens the very file that was found, as it was then. Where a directory above it was renamed, its name leads to another one, which may have the
// same size and time. Whether it stays as it is until it was read is looked at in the end (check).
func (f *File) open() (file directory.File, err error) {
	file, err = f.Disk.OpenToRead(f.Name)
	switch {
	case errors.Is(err, os.ErrNotExist) || errors.Is(err, syscall.ENOTDIR) || errors.Is(err, syscall.ELOOP):
		return file, ErrChanged
	case err != nil:
		return file, unread(err)
	}
	about, err := file.Stat()
	if err != nil {
		err = unread(err)
	} else if stampOf(about) != f.Stamp || !about.Mode().IsRegular() {
		err = ErrChanged
	}
	if err != nil {
		file.Close()
	}
	return file, err
}

// unread says why a file can't be read.
func unread(err error) error { return fmt.Errorf("it can't be read: %w", err) }

// readAt reads as many bytes of a file. One that ends before them has changed.
func readAt(file directory.File, to []byte, offset int64) error {
	_, err := file.ReadAt(to, offset)
	switch {
	case errors.Is(err, io.EOF):
		return ErrChanged
	case err != nil:
		return unread(err)
	}
	return nil
}

// read reads a piece of a file, and gives its bytes to all cutters.
func (p *Pool) read(file directory.File, job *Job, offset, length int64, cuts []*cutter) error {
	buffer := buffers.Get().(*[readBytes]byte)
	defer buffers.Put(buffer)
	for done := int64(0); done < length; {
		next := buffer[:]
		if left := length - done; left < readBytes {
			next = buffer[:left]
		}
		if err := readAt(file, next, offset+done); err != nil {
			return err
		}
		p.hashing <- struct{}{}
		for _, cut := range cuts {
			cut.write(next)
		}
		<-p.hashing
		if job.data != nil {
			copy(job.data[offset+done:], next)
		}
		done += int64(len(next))
		p.hashed.Add(int64(len(next)))
	}
	return nil
}

var buffers = sync.Pool{New: func() interface{} { return new([readBytes]byte) }}

// Wait gives the file's contents, one for each block size, and which blocks differ from the record.
func (j *Job) Wait() ([]part.Content, *part.Differ, []byte, error) {
	j.pieces.Wait()
	if j.err == nil {
		j.err = j.check()
	}
	if j.err != nil {
		return nil, nil, nil, j.err
	}
	if j.file.isCut() {
		j.file.Node.Unread = j.file.Node.Size - j.file.Length()
		var differ *part.Differ
		if j.file.Recorded != nil {
			differ = CompareBegin(j.file.Recorded, j.hashesOf(0), part.CountOfBlocks(j.file.Node.Size, j.file.BlockSizes[0]))
		}
		return j.file.cutContents(), differ, nil, nil
	}
	contents := make([]part.Content, len(j.file.BlockSizes))
	for place, size := range j.file.BlockSizes {
		contents[place] = part.Content{Size: j.file.Node.Size, BlockSize: size, Hash: j.hashOf(place)}
	}
	var differ *part.Differ
	if j.file.Recorded != nil {
		differ = Compare(j.file.Recorded, j.hashesOf(0))
	}
	return contents, differ, j.data, nil
}

// check says whether the file that was found is at its path still, as it was then: so nothing was written to it while it was read.
func (j *Job) check() error {
	after, err := j.file.Disk.Lstat(j.file.Name)
	if IsDamage(err) {
		return unread(err)
	}
	if err != nil || !after.IsRegular() || after.Size() != j.file.Node.Size ||
		after.ModTime().Unix() != j.file.Node.ModifiedS || after.ModTime().Nanosecond() != j.file.Node.ModifiedNs || stampOf(after.About()) != j.file.Stamp {
		return ErrChanged
	}
	return nil
}

// HashOf gives the SHA-256 of block hashes, one after another.
func HashOf(hashes [][32]byte) part.Hash {
	if len(hashes) == 1 { // as most files have one
		return sha256.Sum256(hashes[0][:])
	}
	sum := sha256.New()
	for place := range hashes {
		sum.Write(hashes[place][:])
	}
	var hash part.Hash
	sum.Sum(hash[:0])
	return hash
}
