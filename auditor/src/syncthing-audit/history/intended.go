package history

import (
	"encoding/json"
	"errors"
	"time"

	"syncthing-audit/part"
)

// ErrNotEmptied is that no audit which a history keeps found at a time that most files of a folder are gone, or that this isn't told any more.
var ErrNotEmptied = errors.New("no audit of that time found that most files of the folder are gone, or it isn't told any more")

// Intend notes that somebody wanted the files gone which an audit found gone: that isn't told again. It gives what it was. The audit is named by its second, so
// what another one finds is told all the same. What the files had stays known.
func (h *History) Intend(folder string, found time.Time) (*Emptied, error) {
	at, of, err := h.emptiedAt(folder, found)
	if err != nil {
		return nil, err
	}
	emptied := &Emptied{Folder: folder, Since: of.Since, Found: at, Of: of.Of}
	if err := h.addGone(emptied); err != nil {
		return nil, err
	}
	of.Intended = true
	text, err := json.Marshal(of)
	if err != nil {
		return nil, err
	}
	marks := &writes{to: h.db}
	if err := marks.put(keyOfEmptied(folder, at), text); err != nil {
		return nil, err
	}
	return emptied, marks.end()
}

// emptiedAt gives what the audit of a second found, where nobody wanted that yet.
func (h *History) emptiedAt(folder string, second time.Time) (found time.Time, emptied emptiedValue, err error) {
	err = h.eachEmptied(folder, func(at time.Time, of emptiedValue) {
		if at.Unix() == second.Unix() && !of.Intended {
			found, emptied = at, of
		}
	})
	if err == nil && found.IsZero() {
		err = ErrNotEmptied
	}
	return found, emptied, err
}

// intended gives the audits that found what somebody wanted to go.
func (h *History) intended(folder string) (times []time.Time, err error) {
	err = h.eachEmptied(folder, func(at time.Time, of emptiedValue) {
		if of.Intended {
			times = append(times, at)
		}
	})
	return times, err // in a statement of its own: in one with the call, Go may read times before that
}

func (h *History) eachEmptied(folder string, take func(time.Time, emptiedValue)) error {
	prefix := keyOfEmptieds(folder)
	return h.each(prefix, func(key, value []byte) error {
		of, at, err := readEmptied(key, value, prefix)
		if err == nil {
			take(at, of)
		}
		return err
	})
}

// addGone adds the files that were found gone then, and are so on some device still.
func (h *History) addGone(to *Emptied) error {
	last := ""
	return h.each(keyOfAllGone(to.Folder), func(key, value []byte) error {
		of, err := readGone(value)
		if err != nil || !of.taken.Equal(to.Found) {
			return err
		}
		_, name, _, _, err := readName(key)
		if err != nil || to.Files > 0 && name == last {
			return err
		}
		last = name
		if to.Files++; to.Files <= MostListed {
			to.First = append(to.First, part.Bytes(name))
		}
		return nil
	})
}

// intendedAt gives the audit whose finding somebody wanted that a name is of: since then it only went from devices that weren't asked, and had it with the same
// bytes. What was there again in between went by another deletion.
func (e *emptying) intendedAt(name *goneName) time.Time {
	for _, at := range e.wanted {
		contents, isLater := map[part.Content]bool{}, false
		for _, of := range name.at {
			if of.taken.Equal(at) {
				contents[of.before.Content] = true
			}
		}
		for _, of := range name.at {
			isLater = isLater || !of.taken.Equal(at) && (!of.before.At.Before(at) || !contents[of.before.Content])
		}
		if len(contents) > 0 && !isLater {
			return at
		}
	}
	return time.Time{}
}
