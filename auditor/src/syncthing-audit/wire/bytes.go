package wire

import (
	"context"
	"crypto/sha256"
	"sync"

	"github.com/syncthing/syncthing/lib/protocol"
	"syncthing-audit/device"
	"syncthing-audit/disk"
	"syncthing-audit/limits"
	"syncthing-audit/part"
	"syncthing-audit/request"
)

// farBehind is a pebibyte: behind the end of each file.
const farBehind = 1 << 50

// State is what the observer finds where a file is recorded.
type State string

const (
	Same     State = "same"      // exactly the recorded bytes
	Differs  State = "differs"   // other bytes, or more or fewer of them
	Missing  State = "missing"   // no regular file; what else stands there isn't seen
	Present  State = "present"   // a regular file, where none is recorded
	Ignored  State = "ignored"   // .stignore there ignores the name, and the device gives none of it
	Failed   State = "failed"    // the device fails to read it
	NotKnown State = "not known" // the device answers, and not so that its length is known
)

// Found is what the observer finds of a name. Of what isn't the same, differs or is present there is its state alone.
type Found struct {
	State     State
	Size      int64      // how many bytes the file has
	BlockSize int64      // by the record or, without one of a file, the one for the size
	Blocks    [][32]byte // hashes of the file's blocks
	Unread    int64      // bytes at the end of a file that is very much longer than its record, which weren't read
	Differ    *part.Differ
	Sealed    bool // it is encrypted there: behind the recorded end nothing is seen, and other bytes aren't those of any file
}

// Read gives how many of a file's bytes were read.
func (f *Found) Read() int64 { return f.Size - f.Unread }

// Bytes asks a device for the bytes of all recorded files that are wanted, and calls take with what is found of each, in the order of names. Where a
// record has no file, or isn't one that a document has, it asks whether there is one. Names that no document has aren't asked for.
func (s *Shared) Bytes(ctx context.Context, index *Index, isWanted func(device.Entry) (bool, error), take func(entry device.Entry, found Found) error) error {
	ctx, cancel := context.WithCancel(ctx)
	defer cancel()
	defer s.over.keepPace("answers", s.over.limits.BytesWhole, func() gave { return s.over.answers })()
	asker := &asker{of: s, room: newRoom(), turns: newTurns()}
	results := make(chan looking, mostRequests)
	failed := make(chan error, 1)
	go func() {
		defer close(results)
		failed <- index.Each(func(entry device.Entry) error {
			if is, err := isWanted(entry); err != nil || !is || entry.Record == nil && limits.CheckName(entry.Name) != nil {
				return err
			}
			return asker.begin(ctx, entry, results)
		})
	}()
	for result := range results {
		seen := <-result.seen
		if seen.err != nil {
			return seen.err
		}
		if err := take(result.entry, seen.found); err != nil {
			return err
		}
		asker.turns.leave(len(result.entry.Blocks))
	}
	return <-failed
}

// asker asks a device about a folder, with as many requests at once as there is room for.
type asker struct {
	of    *Shared
	room  *room
	turns *turns
}

// looked is what was found of a name, or why nothing was.
type looked struct {
	found Found
	err   error
}

// looking is a name that is looked at.
type looking struct {
	entry device.Entry
	seen  chan looked
}

// begin begins to look at a name, once few wait for their turn: so what is found takes little room.
func (a *asker) begin(ctx context.Context, entry device.Entry, results chan<- looking) error {
	if err := a.turns.enter(ctx, len(entry.Blocks)); err != nil {
		return err
	}
	result := looking{entry, make(chan looked, 1)}
	select {
	case results <- result:
	case <-ctx.Done():
		return ctx.Err()
	}
	go func() {
		found, err := a.look(ctx, entry)
		result.seen <- looked{found, err}
	}()
	return nil
}

// look finds what stands where a file is recorded: first its length, since bytes behind a file's end are made up.
func (a *asker) look(ctx context.Context, entry device.Entry) (Found, error) {
	if a.of.key != nil {
		return a.lookSealed(ctx, entry)
	}
	if entry.Record == nil || entry.Record.Deleted || entry.Record.Content == nil {
		return a.lookWhereNone(ctx, entry.Name)
	}
	content := entry.Record.Content
	found, err := a.read(ctx, entry.Name, content.Size, content.BlockSize)
	if err != nil || found.State != Same {
		return found, err
	}
	if found.Unread > 0 {
		found.Differ = disk.CompareBegin(entry.Blocks, found.Blocks, part.CountOfBlocks(found.Size, content.BlockSize))
	} else {
		found.Differ = disk.Compare(entry.Blocks, found.Blocks)
	}
	if found.Differ != nil || found.Size != content.Size {
		found.State = Differs
	}
	return found, nil
}

// lookWhereNone finds what stands where no file is recorded.
func (a *asker) lookWhereNone(ctx context.Context, name string) (Found, error) {
	state, err := a.probe(ctx, name)
	if err != nil || state != Present {
		return Found{State: state}, err
	}
	found, err := a.read(ctx, name, 0, 0)
	if found.State == Same {
		found.State = Present
	}
	return found, err
}

// read finds a file's length, about the recorded one, and then its bytes, in blocks of this size or, without one, of the one for its length.
func (a *asker) read(ctx context.Context, name string, recorded, blockSize int64) (Found, error) {
	size, state, err := a.length(ctx, name, recorded)
	if err != nil || state != Same {
		return Found{State: state}, err
	}
	if blockSize == 0 {
		blockSize = int64(protocol.BlockSize(size))
	}
	toRead := size
	if size-recorded > disk.MostBeyond {
		toRead = recorded
	}
	found, err := a.blocks(ctx, name, toRead, blockSize)
	if err != nil || found.State != Same {
		return found, err
	}
	again, state, err := a.length(ctx, name, size)
	if err == nil && (state != Same || again != size) {
		return Found{State: NotKnown}, nil // it changed while it was read
	}
	found.Size, found.Unread = size, size-toRead
	return found, err
}

// blocks asks for so many of a file's bytes.
func (a *asker) blocks(ctx context.Context, name string, most, blockSize int64) (Found, error) {
	found := Found{State: Same, BlockSize: blockSize}
	if most == 0 { // no byte is to be asked for
		found.Blocks = [][32]byte{sha256.Sum256(nil)}
		return found, nil
	}
	found.Blocks = make([][32]byte, part.CountOfBlocks(most, blockSize))
	states, errs := make([]State, len(found.Blocks)), make([]error, len(found.Blocks))
	var all sync.WaitGroup
	for place := range found.Blocks {
		offset := int64(place) * blockSize
		asked := request.ForBlock(name, offset, int32(min(blockSize, most-offset)))
		all.Add(1)
		a.room.enter(asked) // here, so that no more wait of a large file than there is room for
		go func(place int) {
			defer all.Done()
			defer a.room.leave(asked)
			said, err := a.of.over.ask(ctx, a.of.ID, asked)
			states[place], errs[place] = stateOf(said), err
			found.Blocks[place] = sha256.Sum256(said.data)
		}(place)
	}
	all.Wait()
	for place := range states {
		if errs[place] != nil || states[place] != Same {
			return Found{State: states[place]}, errs[place]
		}
	}
	return found, nil
}

// length finds how many bytes a file has: those that are recorded, mostly.
func (a *asker) length(ctx context.Context, name string, recorded int64) (size int64, state State, err error) {
	isWithin, state, err := a.upTo(ctx, name, recorded)
	if err != nil || state != Same {
		return size, state, err
	}
	low, high := int64(-1), recorded // over low bytes, at most high
	if !isWithin {
		if low, high, state, err = a.above(ctx, name, recorded); err != nil || state != Same {
			return size, state, err
		}
	} else if recorded > 0 {
		if isWithin, state, err = a.upTo(ctx, name, recorded-1); err != nil || state != Same {
			return size, state, err
		}
		if !isWithin {
			return recorded, Same, nil
		}
		high = recorded - 1
	}
	return a.halve(ctx, name, low, high)
}

// above finds a length that a file that is longer than its record doesn't go over. A device that says of all lengths that the file goes over
// them has no file there, or doesn't answer such requests.
func (a *asker) above(ctx context.Context, name string, low int64) (over, atMost int64, state State, err error) {
	isWithin, state, err := a.upTo(ctx, name, farBehind)
	if err != nil || state != Same {
		return over, atMost, state, err
	}
	if !isWithin {
		state, err := a.probe(ctx, name)
		if state == Present {
			state = NotKnown // a device that knows no weak hashes
		}
		return over, atMost, state, err
	}
	for step := int64(1); low+step < farBehind; step *= 4 {
		high := low + step
		if isWithin, state, err = a.upTo(ctx, name, high); err != nil || state != Same || isWithin {
			return low, high, state, err
		}
		low = high
	}
	return low, farBehind, Same, nil
}

// probe says whether a regular file stands at a name, by its first byte, which is made up if the file is empty.
func (a *asker) probe(ctx context.Context, name string) (State, error) {
	said, err := a.ask(ctx, request.ForBlock(name, 0, 1))
	if err != nil {
		return "", err
	}
	if state := stateOf(said); state != Same {
		return state, nil
	}
	return Present, nil
}

// halve finds a length between two.
func (a *asker) halve(ctx context.Context, name string, low, high int64) (size int64, state State, err error) {
	for high-low > 1 {
		middle := low + (high-low)/2
		isWithin, state, err := a.upTo(ctx, name, middle)
		if err != nil || state != Same {
			return size, state, err
		}
		if isWithin {
			high = middle
		} else {
			low = middle
		}
	}
	return high, Same, nil
}

// upTo says whether a file has at most so many bytes.
func (a *asker) upTo(ctx context.Context, name string, length int64) (bool, State, error) {
	asked, err := request.ForLength(name, length)
	if err != nil {
		return false, "", err
	}
	said, err := a.ask(ctx, asked)
	if err != nil {
		return false, "", err
	}
	switch state := stateOf(said); state {
	case Same:
		return true, Same, nil
	case Missing: // the file goes over that, or there is none
		return false, Same, nil
	default:
		return false, state, nil
	}
}

// ask sends a request once there is room for it.
func (a *asker) ask(ctx context.Context, asked request.Request) (response, error) {
	a.room.enter(asked)
	defer a.room.leave(asked)
	return a.of.over.ask(ctx, a.of.ID, asked)
}

// stateOf says what an answer means.
func stateOf(said response) State {
	switch said.code {
	case codeNone:
		return Same
	case codeNoSuchFile:
		return Missing
	case codeInvalidFile:
		return Ignored
	}
	return Failed
}

// min gives the smaller number.
func min(a, b int64) int64 {
	if a < b {
		return a
	}
	return b
}
