package history

import (
	"errors"
	"os"
	"path/filepath"
	"testing"

	"syncthing-audit/choice"
	"syncthing-audit/part"
)

// A value or a key that isn't of the format makes each question fail that comes to it, whatever else it finds.
func TestOddValuesOfAHistory(t *testing.T) {
	device := part.Number(ids[0])
	every := func(string) []uint64 { return []uint64{device, part.Number(ids[1])} }
	audit := Audited{At: night(2), Folders: map[string][]uint64{"docs": {device}}, Names: func(string, string) bool { return true }}
	for what, row := range map[string]struct {
		key  []byte
		asks func(*History) error
	}{
		"a change":          {keyOfChange("docs", "a", device), func(h *History) error { return h.EachChanged(every, func(Spread, bool) error { return nil }) }},
		"another's change":  {keyOfChange("docs", "a", 99), func(h *History) error { return ignored(h.EachChanged(every, func(Spread, bool) error { return nil })) }},
		"a reading":         {keyOfReading("docs", device, "a"), func(h *History) error { return h.Take(aFile("a").partOf(0, choice.Names{}), night(1)) }},
		"a reading passed":  {keyOfReading("docs", device, "0"), func(h *History) error { return h.Take(aFile("a").partOf(0, choice.Names{}), night(1)) }},
		"a fault":           {keyOfFault(Fault{"docs", "a", device, "x"}), func(h *History) error { _, err := h.Since(audit); return err }},
		"a fault of no key": {[]byte{ofFault, 'x'}, func(h *History) error { _, err := h.Keep(night(2), nil, func(Fault) bool { return true }); return err }},
		"a watch":           {[]byte{ofFault, 'x'}, func(h *History) error { _, err := h.Watch(); return err }},
		"a change of none":  {[]byte{ofChange, 'x'}, func(h *History) error { return h.EachChanged(every, func(Spread, bool) error { return nil }) }},
	} {
		history := opened(t)
		if err := history.db.Put(row.key, []byte("odd"), nil); err != nil {
			t.Fatal(err)
		}
		if err := row.asks(history); !errors.Is(err, errValue) && !errors.Is(err, errKey) {
			t.Errorf("%s: %v", what, err)
		}
	}
}

// ignored gives an error of the format where there is none, and none where there is one.
func ignored(err error) error {
	if err == nil {
		return errValue
	}
	return nil
}

// aFile gives a device with one file.
func aFile(name string) device { return device{name: {bytes: 'a', recorded: 'a'}} }

// A line that can't be kept is told at the end of the part, though all lines are given on and later ones could be kept.
func TestALineThatCannotBeKept(t *testing.T) {
	history := opened(t)
	if err := history.db.Put(keyOfReading("docs", part.Number(ids[0]), "a"), []byte("odd"), nil); err != nil {
		t.Fatal(err)
	}
	watch, err := history.Watch()
	if err != nil {
		t.Fatal(err)
	}
	files := device{"a": {bytes: 'a'}, "b": {bytes: 'b'}, "c": {bytes: 'c'}}
	tee, names := history.Tee(files.partOf(0, choice.Names{}), watch), 0
	for line, err := tee.Next(); err == nil; line, err = tee.Next() {
		if line.Name != nil {
			names++
		}
	}
	for again := 0; again < 2; again++ {
		if err := tee.End(); !errors.Is(err, errValue) || names != 3 {
			t.Errorf("%d names, %v", names, err)
		}
	}
}

// A fault of bytes that were recorded, whose value is none, makes the audit fail, too, once all devices have the bytes.
func TestAnOddFaultOfRecordedBytes(t *testing.T) {
	history := opened(t)
	for day, bytes := range []byte{'a', 'b'} {
		history.mustTake(t, day, device{"x": {bytes: bytes, recorded: bytes}}, device{"x": {bytes: bytes, recorded: bytes}})
	}
	numbers := []uint64{part.Number(ids[0]), part.Number(ids[1])}
	audit := Audited{At: night(2), Folders: map[string][]uint64{"docs": numbers}, Names: func(string, string) bool { return true }}
	if since, err := history.Since(audit); err != nil || since.Count != 1 {
		t.Fatalf("%+v, %v", since, err)
	}
	if err := history.db.Put(keyOfFault(Fault{"docs", "x", numbers[0], ChangedAndRecorded}), []byte("odd"), nil); err != nil {
		t.Fatal(err)
	}
	audit.At, audit.Found = night(3), nil
	if _, err := history.addedOnly(audit); !errors.Is(err, errValue) {
		t.Errorf("%v", err)
	}
}

// addedOnly adds the files whose bytes changed, and nothing else.
func (h *History) addedOnly(audit Audited) (*Since, error) {
	since := &Since{}
	return since, h.addChanged(since, &audit)
}

// What goes through a history lets go of it, whether it comes to its end or not.
func TestNothingGoesOnInAHistory(t *testing.T) {
	history := opened(t)
	files := device{"a": {bytes: 'a', recorded: 'a'}, "b": {bytes: 'b'}}
	device := part.Number(ids[0])
	audit := Audited{At: night(2), Folders: map[string][]uint64{"docs": {device}}, Sharing: map[string][]uint64{"docs": {part.Number(ids[1])}}, Names: func(string, string) bool { return true }}
	for what, does := range map[string]func() error{
		"a part": func() error { return history.Take(files.partOf(0, choice.Names{}), night(1)) },
		"two folders": func() error {
			stream := files.partOf(0, choice.Names{})
			stream.lines = append(stream.lines, part.Line{Begin: &part.Begin{Folder: "pics"}}, part.Line{End: &part.End{Folder: "pics", Last: true}})
			return history.Take(stream, night(1))
		},
		"a part in all": func() error { return teeOf(history, files, 99) },
		"half a part":   func() error { return teeOf(history, files, 2) },
		"an audit":      func() error { _, err := history.Since(audit); return err },
		"readings":      func() error { _, err := history.last("docs", "a"); return err },
		"asked for":     func() error { return putAsked(history, 0, 2) },
	} {
		if err := does(); err != nil {
			t.Errorf("%s: %v", what, err)
		}
		if alive, err := history.db.GetProperty("leveldb.aliveiters"); alive != "0" || err != nil {
			t.Errorf("%s: %s go on, %v", what, alive, err)
		}
	}
}

// teeOf goes through so many lines of a part, and ends.
func teeOf(history *History, files device, count int) error {
	watch, err := history.Watch()
	if err != nil {
		return err
	}
	tee := history.Tee(files.partOf(0, choice.Names{}), watch)
	for ; count > 0 && err == nil; count-- {
		_, err = tee.Next()
	}
	return tee.End()
}

// A part that came to its end is kept: its end is asked for again, and nothing is written then. A history that can't be closed says so.
func TestWhatIsEndedTwice(t *testing.T) {
	for closes, how := range []func(*History) error{func(h *History) error { return h.db.Close() }, func(h *History) error { return h.files.Close() }} {
		history, err := Open(t.TempDir())
		if err != nil {
			t.Fatal(err)
		}
		watch, err := history.Watch()
		if err != nil {
			t.Fatal(err)
		}
		tee := history.Tee(aFile("a").partOf(0, choice.Names{}), watch)
		for err == nil {
			_, err = tee.Next()
		}
		if err := how(history); err != nil {
			t.Fatal(err)
		}
		if err := tee.End(); err != nil {
			t.Errorf("%d: %v", closes, err)
		}
		if err := history.Close(); err == nil {
			t.Errorf("%d: it is closed again", closes)
		}
	}
}

// What a part read that was made later than now was read now; bytes that stay as they are were changed on no device.
func TestAPartOfALaterTime(t *testing.T) {
	history := opened(t)
	watch, err := history.Watch()
	if err != nil {
		t.Fatal(err)
	}
	for _, made := range []int{20000, 10, 11} {
		stream := aFile("a").partOf(0, choice.Names{})
		stream.head.Made = night(made)
		tee := history.Tee(stream, watch)
		for err = nil; err == nil; {
			_, err = tee.Next()
		}
		if err := tee.End(); err != nil {
			t.Fatal(err)
		}
		due := night(10000) // a later reading stays
		if readings, err := history.last("docs", "a"); err != nil || len(readings) != 1 || !readings[0].At.Equal(due) {
			t.Errorf("made at night %d: %+v, %v", made, readings, err)
		}
		if is, err := history.db.Has(keyOfTaken("docs", "a", part.Number(ids[0])), nil); is || err != nil {
			t.Errorf("made at night %d: its bytes changed: %v", made, err)
		}
	}
	history.mustTake(t, 10001, aFile("a"))
	if is, err := history.db.Has(keyOfTaken("docs", "a", part.Number(ids[0])), nil); is || err != nil {
		t.Errorf("its bytes changed: %v", err)
	}
}

// Each file of a history becomes its user's alone as it is opened, whoever might read it before.
func TestFilesOfAHistoryThatOthersMayRead(t *testing.T) {
	room := t.TempDir()
	for turn := 0; turn < 2; turn++ {
		history, err := Open(room)
		if err != nil {
			t.Fatal(err)
		}
		entries, err := os.ReadDir(room)
		if err != nil || len(entries) < 3 {
			t.Fatal(entries, err)
		}
		for _, entry := range entries {
			if about, err := entry.Info(); err != nil || about.Mode() != 0o600 {
				t.Errorf("turn %d: %s: %v, %v", turn, entry.Name(), about.Mode(), err)
			}
		}
		if err := history.Close(); err != nil {
			t.Fatal(err)
		}
		for _, entry := range entries {
			_ = os.Chmod(filepath.Join(room, entry.Name()), 0o644)
		}
	}
}
