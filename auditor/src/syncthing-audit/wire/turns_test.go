package wire

import (
	"context"
	"strings"
	"testing"
	"time"

	entries "syncthing-audit/device"
	"syncthing-audit/message"
	"syncthing-audit/request"
)

// answerLate answers requests once no more come for a while, and gives of how many files there were some at once at most.
func (f *fake) answerLate() (most int) {
	heard := make(chan []byte)
	go func() {
		defer close(heard)
		for {
			what, text, err := readFrame(f.stream, 1<<20, func() {})
			if err != nil {
				return
			}
			if what == kindRequest {
				heard <- text
			}
		}
	}()
	for waiting, isOver := [][]byte{}, false; !isOver; waiting = nil {
		names := map[string]bool{}
		for isQuiet := false; !isQuiet && !isOver; {
			select {
			case text, is := <-heard:
				isOver = !is
				waiting = append(waiting, text)
				_ = message.Each(text, func(field message.Field) error {
					if field.Number == request.FieldOfName {
						names[string(field.Text)] = true
					}
					return nil
				})
			case <-time.After(200 * time.Millisecond):
				isQuiet = true
			}
		}
		if len(names) > most {
			most = len(names)
		}
		for at := 0; at < len(waiting) && !isOver; at++ {
			f.answer(waiting[at])
		}
	}
	return most
}

// Files with so many blocks that memory hasn't room for all wait for their turn, however long a device takes to answer; one with more goes alone.
func TestFilesWithManyBlocks(t *testing.T) {
	defer func(before int) { mostBlocks = before }(mostBlocks)
	mostBlocks = 4
	observer, most := newObserver(t), 0
	device := newFake(t, serving(observer, func(f *fake) { most = f.answerLate() }))
	device.recorded, device.disk = map[string]string{}, map[string]string{}
	index := NewIndex(42)
	for at, blocks := range []int{2, 2, 2, 9, 2, 2, 2, 2} {
		name, data := string(rune('a'+at)), strings.Repeat("x", blocks*block)
		device.recorded[name], device.disk[name] = data, data
		if err := take(index, file{name: name, data: data, sequence: uint64(at + 1)}); err != nil {
			t.Fatal(err)
		}
	}
	connection, err := dial(observer, device, nil, short())
	if err != nil {
		t.Fatal(err)
	}
	found := 0
	err = connection.Folders[0].Bytes(context.Background(), index, all, func(_ entries.Entry, is Found) error {
		if is.State == Same {
			found++
		}
		return nil
	})
	connection.Close()
	if <-device.over; err != nil || found != 8 || most > 2 {
		t.Errorf("%d files are the same, %v; of %d some requests were made at once", found, err, most)
	}
}

// Who wants a file no longer doesn't wait for its turn.
func TestATurnThatNobodyWaitsFor(t *testing.T) {
	turns := newTurns()
	ctx, cancel := context.WithCancel(context.Background())
	if err := turns.enter(ctx, mostBlocks+1); err != nil {
		t.Fatal(err)
	}
	cancel()
	if err := turns.enter(ctx, 1); err != context.Canceled {
		t.Error(err)
	}
	turns.leave(mostBlocks + 1)
	if err := turns.enter(ctx, mostBlocks); err != nil {
		t.Error(err)
	}
}
