package damage

import (
	"crypto/sha256"
	"sync"

	"github.com/syncthing/syncthing/lib/protocol"
	"syncthing-audit/part"
)

// mostBlocks is of how many blocks a file may be that is compared with zeros: some terabytes, in Syncthing's largest blocks.
const mostBlocks = 1 << 18

// hasZeros says whether the first block that differs is all zeros on the disk. It wasn't when it was recorded, and had bytes then.
func hasZeros(disk *part.Node, content *part.Content) bool {
	return disk.Differ != nil && len(disk.Contents) > 0 && content.Size > 0 && isZeroBlock(disk.Differ.First.Found, disk.Differ, disk.Size, content.BlockSize)
}

// hadZeros says whether the first block that differs is recorded as all zeros.
func hadZeros(disk *part.Node, content *part.Content) bool {
	return disk.Differ != nil && isZeroBlock(disk.Differ.First.Recorded, disk.Differ, content.Size, content.BlockSize)
}

// isZeroBlock says whether the first block that differs has the hash of zeros, in a file of this size.
func isZeroBlock(hash *part.Hash, differ *part.Differ, size, blockSize int64) bool {
	if hash == nil || differ.First.Found == nil || differ.First.Recorded == nil || len(differ.Ranges) == 0 || !isSyncthings(blockSize) {
		return false
	}
	length := size - differ.Ranges[0][0]*blockSize
	if length > blockSize {
		length = blockSize
	}
	return length > 0 && *hash == hashOfZeros(length)
}

// isSyncthings says whether Syncthing has blocks of this size.
func isSyncthings(blockSize int64) bool {
	return blockSize >= protocol.MinBlockSize && blockSize <= protocol.MaxBlockSize
}

// isZeros says whether a content is that of zeros alone.
func isZeros(content part.Content) bool {
	if content.Size == 0 || !isSyncthings(content.BlockSize) {
		return false
	}
	count := part.CountOfBlocks(content.Size, content.BlockSize)
	if count > mostBlocks {
		return false
	}
	all, block := sha256.New(), hashOfZeros(content.BlockSize)
	for place := int64(1); place < count; place++ {
		all.Write(block[:])
	}
	last := hashOfZeros(content.Size - (count-1)*content.BlockSize)
	all.Write(last[:])
	return content.Hash == *(*part.Hash)(all.Sum(nil))
}

// hashesOfZeros has the SHA-256 of so many zeros: most blocks are of few lengths.
var hashesOfZeros sync.Map

func hashOfZeros(length int64) part.Hash {
	if found, is := hashesOfZeros.Load(length); is {
		return found.(part.Hash)
	}
	hash := part.Hash(sha256.Sum256(make([]byte, length)))
	hashesOfZeros.Store(length, hash)
	return hash
}
