package disk

import (
	"bytes"
	"crypto/sha256"
	"errors"

	"syncthing-audit/part"
)

// Lose says of a name that the disk fails to give its file's bytes. In place of these the file gets contents that no record of
// the name has, so that whatever is due there, the file isn't that.
func (j *Job) Lose(line *part.Name, err error) {
	line.Disk.Lost = why(err)
	for _, size := range j.file.BlockSizes {
		line.Disk.Contents = append(line.Disk.Contents, part.Content{Size: j.file.Node.Size, BlockSize: size,
			Hash: sha256.Sum256([]byte("the disk doesn't give " + string(line.Name)))})
	}
	if j.file.Keep {
		line.Disk.Data = bytesOfNobody(line, j.file.Node.Size, j.file.BlockSizes[0])
	}
}

// why gives what the system says.
func why(err error) string {
	if inner := errors.Unwrap(err); inner != nil {
		err = inner
	}
	return err.Error()
}

// bytesOfNobody gives so many bytes, whose first block no record of the name has. Of 256 blocks with another first byte one is
// none of theirs.
func bytesOfNobody(line *part.Name, size, blockSize int64) []byte {
	data := bytes.Repeat([]byte("lost\n"), int(size/5)+1)[:size]
	first := data
	if size > blockSize {
		first = data[:blockSize]
	}
	for next := 0; next < 256; next++ {
		data[0] = byte(next)
		if !isRecorded(line, sha256.Sum256(first)) {
			break
		}
	}
	return data
}

// isRecorded says whether a record of a name has a first block with this hash.
func isRecorded(line *part.Name, hash [32]byte) bool {
	has := func(record *part.Record) bool {
		return record != nil && len(record.Blocks) > 0 && record.Blocks[0] == hash
	}
	for _, seen := range line.Views {
		if has(seen.Record) {
			return true
		}
	}
	return has(line.Own)
}
