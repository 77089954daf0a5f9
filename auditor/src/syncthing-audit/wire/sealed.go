package wire

import (
	"context"
	"crypto/sha256"
	"sync"

	"github.com/syncthing/syncthing/lib/protocol"
	"syncthing-audit/device"
	"syncthing-audit/disk"
	"syncthing-audit/limits"
	"syncthing-audit/message"
	"syncthing-audit/request"
	"syncthing-audit/secret"
)

// sealed stands in an index in place of what is encrypted of a record that can't be opened.
const sealed = "\x00sealed"

const whySealed = "its record there isn't encrypted with this password: it may be a change that was made on that device"

// open gives a record of an untrusted device as those with the password have it, with the sequence that the device gave it. One that can't be opened
// says so, under its own name if that can be read.
func (t *taker) open(entry protocol.FileInfo, text []byte) (string, []byte) {
	name, err := t.key.Name(entry.Name)
	if err != nil {
		return entry.Name, message.AppendText(append([]byte{}, text...), message.FileEncrypted, []byte(sealed))
	}
	if record := t.opened(name, entry.Encrypted); record != nil {
		record = message.AppendNumber(record, message.FileSequence, uint64(entry.Sequence))
		if entry.RawInvalid {
			record = message.AppendNumber(record, message.FileInvalid, 1)
		}
		return name, record
	}
	record := message.AppendText(append([]byte{}, text...), message.FileName, []byte(name))
	return name, message.AppendText(record, message.FileEncrypted, []byte(sealed))
}

// opened gives the record of a name that was encrypted; nothing where it isn't one of this name.
func (t *taker) opened(name string, data []byte) []byte {
	plain, err := t.key.OfFile(name).Open(data)
	if err != nil || limits.CheckName(name) != nil {
		return nil
	}
	if read, err := entryIn(plain, t.limits.Name); err != nil || read.Name != name {
		return nil
	}
	return plain
}

// lookSealed finds what stands where a file is recorded that is encrypted there. Each block says by itself whether it is one that was encrypted with the
// password; so other bytes are seen, and where a file is cut. What stands behind its end isn't.
func (a *asker) lookSealed(ctx context.Context, entry device.Entry) (Found, error) {
	if entry.Record == nil || entry.Record.Type != int(protocol.FileInfoTypeFile) {
		return Found{State: Missing}, nil // a directory or a symlink is a directory there; what else stands there isn't seen
	}
	name := a.of.key.Encrypted(entry.Name)
	if entry.Record.Deleted || entry.Record.Content == nil {
		state, err := a.probe(ctx, name)
		if state == Present {
			state = NotKnown
		}
		return Found{State: state}, err
	}
	content := entry.Record.Content
	found := Found{State: Same, Size: content.Size, BlockSize: content.BlockSize, Sealed: true, Blocks: make([][32]byte, len(entry.Blocks))}
	state, err := a.sealedBlocks(ctx, name, a.of.key.OfFile(entry.Name), &found)
	if err != nil || state != Same {
		return Found{State: state}, err
	}
	if found.Differ = disk.Compare(entry.Blocks, found.Blocks); found.Differ != nil {
		found.State = Differs
	}
	return found, nil
}

// sealedBlocks asks for all blocks of an encrypted file, and hashes what is in them. Of one that wasn't encrypted with the password it is the hash of
// what stands there.
func (a *asker) sealedBlocks(ctx context.Context, name string, key *secret.Key, to *Found) (State, error) {
	states, errs := make([]State, len(to.Blocks)), make([]error, len(to.Blocks))
	var all sync.WaitGroup
	for place := range to.Blocks {
		size := min(to.BlockSize, to.Size-int64(place)*to.BlockSize)
		offset := int64(place) * (to.BlockSize + secret.Overhead)
		asked := request.ForBlock(name, offset, int32(max(size, secret.LeastBlock)+secret.Overhead))
		all.Add(1)
		a.room.enter(asked)
		go func(place int) {
			defer all.Done()
			defer a.room.leave(asked)
			said, err := a.of.over.ask(ctx, a.of.ID, asked)
			states[place], errs[place] = stateOf(said), err
			data := said.data
			if opened, err := key.Open(data); err == nil && int64(len(opened)) >= size {
				data = opened[:size]
			}
			to.Blocks[place] = sha256.Sum256(data)
		}(place)
	}
	all.Wait()
	for place := range states {
		if errs[place] != nil || states[place] != Same {
			return states[place], errs[place]
		}
	}
	return Same, nil
}

func max(a, b int64) int64 {
	if a > b {
		return a
	}
	return b
}
