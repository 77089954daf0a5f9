package history

import (
	"io"
	"sync"

	"golang.org/x/exp/slices"
	"syncthing-audit/part"
)

// Tee gives the lines of a part on, and keeps what they say was read. Where that can't be kept, the lines are given on all the same.
type Tee struct {
	part.Stream
	taken *taking
	watch *Watch
	err   error
	ended bool
}

// Tee keeps what a part says was read, when it was made, while somebody goes through its lines. The watch sees the names.
func (h *History) Tee(stream part.Stream, watch *Watch) *Tee {
	head, now := stream.Head(), h.now()
	at := head.Made
	if at.After(now) { // a clock that is wrong, or a lie
		at = now
	}
	return &Tee{Stream: stream, taken: h.taking(head, at, now), watch: watch}
}

// Next gives the next line.
func (t *Tee) Next() (part.Line, error) {
	line, err := t.Stream.Next()
	switch {
	case t.err != nil || t.ended:
	case err == io.EOF:
		t.ended = true
		t.err = t.taken.end()
		t.taken.release()
	case err == nil:
		t.err = t.taken.take(line)
		t.watch.take(t.taken.folder, line.Name, t.Head())
	}
	return line, err
}

// Choose says which folders are read, where the stream can leave out others.
func (t *Tee) Choose(isChosen func(id string) bool) {
	if chooser, is := t.Stream.(interface{ Choose(func(string) bool) }); is {
		chooser.Choose(isChosen)
	}
}

// End keeps what was read up to now, and says what couldn't be kept.
func (t *Tee) End() error {
	if !t.ended && t.err == nil {
		t.ended = true
		t.err = t.taken.end()
		t.taken.release()
	}
	return t.err
}

// Watch sees which of the names that were at fault before are looked at now.
type Watch struct {
	mutex   sync.Mutex
	unclear map[place]bool     // names that were at fault: whether a device leaves one out, or it moved there
	unread  map[at]bool        // of these names those whose bytes weren't asked for
	there   map[place][]uint64 // devices on which something stands at such a name, or is recorded
}

// place is a name in a folder.
type place struct{ folder, name string }

// Watch gives a watch over all names that were at fault.
func (h *History) Watch() (*Watch, error) {
	watch := &Watch{unclear: map[place]bool{}, unread: map[at]bool{}, there: map[place][]uint64{}}
	err := h.each([]byte{ofFault}, func(key, _ []byte) error {
		folder, name, _, _, err := readName(key)
		watch.unclear[place{folder, name}] = false
		return err
	})
	return watch, err
}

// WasAtFault says whether something was wrong with a name before.
func (w *Watch) WasAtFault(folder, name string) bool {
	w.mutex.Lock()
	defer w.mutex.Unlock()
	_, is := w.unclear[place{folder, name}]
	return is
}

func (w *Watch) take(folder string, line *part.Name, head *part.Head) {
	if line == nil {
		return
	}
	w.mutex.Lock()
	defer w.mutex.Unlock()
	name := place{folder, string(line.Name)}
	if _, is := w.unclear[name]; !is {
		return
	}
	if len(line.Out) > 0 || len(line.Moved) > 0 || isUnclearOverWire(head, line) {
		w.unclear[name] = true
		if isUnreadOverWire(head, line) {
			w.unread[at{name, head.Number()}] = true
		}
	}
	if line.Disk != nil || line.Own != nil && !line.Own.Deleted {
		w.there[name] = append(w.there[name], head.Number())
	}
}

// IsThere says whether a device has something at a name that was at fault, or any one where none is named.
func (w *Watch) IsThere(folder, name string, device uint64) bool {
	w.mutex.Lock()
	defer w.mutex.Unlock()
	at := w.there[place{folder, name}]
	return slices.Contains(at, device) || device == 0 && len(at) > 0
}

// IsUnread says whether the bytes that a fault is of weren't asked for.
func (w *Watch) IsUnread(fault Fault) bool {
	w.mutex.Lock()
	defer w.mutex.Unlock()
	return w.unread[atOf(fault)]
}

// IsClear says whether no device left a name out or had it in motion.
func (w *Watch) IsClear(folder, name string) bool {
	w.mutex.Lock()
	defer w.mutex.Unlock()
	return !w.unclear[place{folder, name}]
}
