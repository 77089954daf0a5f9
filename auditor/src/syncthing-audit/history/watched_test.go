package history

import (
	"encoding/json"
	"errors"
	"strings"
	"testing"

	"syncthing-audit/choice"
	"syncthing-audit/part"
)

// A watch knows the names that were at fault before, and which of these a device left out or had in motion since. It knows nothing of others.
func TestAWatchOverNamesThatWereAtFault(t *testing.T) {
	history := opened(t)
	if _, err := history.Keep(night(1), named("a b c d"), func(Fault) bool { return true }); err != nil {
		t.Fatal(err)
	}
	watch, err := history.Watch()
	if err != nil {
		t.Fatal(err)
	}
	folder, head := named("a")[0].Folder, &part.Head{}
	out := func(name string) *part.Name {
		return &part.Name{Name: part.Bytes(name), Out: []part.LeftOut{{Kind: part.Unreadable}}}
	}
	watch.take(folder, nil, head)
	watch.take(folder, &part.Name{Name: "a"}, head)
	watch.take(folder, out("b"), head)
	watch.take(folder, &part.Name{Name: "b"}, head) // another device has it
	watch.take(folder, &part.Name{Name: "c", Moved: []string{part.MovedDisk}}, head)
	watch.take("pics", out("d"), head)
	watch.take(folder, out("e"), head)
	for name, due := range map[string]struct{ was, isClear bool }{"a": {true, true}, "b": {true, false}, "c": {true, false}, "d": {true, true}, "e": {false, true}, "f": {false, true}} {
		if watch.WasAtFault(folder, name) != due.was || watch.IsClear(folder, name) != due.isClear {
			t.Errorf("%s: %v, %v", name, watch.WasAtFault(folder, name), watch.IsClear(folder, name))
		}
	}
	if watch.WasAtFault("pics", "a") {
		t.Error("a name of another folder was at fault")
	}
}

// What was read of a part is kept also where nobody read it to its end, and once.
func TestATeeThatEndsEarly(t *testing.T) {
	for taken := 0; taken <= 4; taken++ {
		history := opened(t)
		watch, err := history.Watch()
		if err != nil {
			t.Fatal(err)
		}
		stream := device{"a": {bytes: 'a'}, "b": {bytes: 'b'}}.partOf(0, choice.Names{})
		stream.head.Made = night(2)
		tee := history.Tee(stream, watch)
		for line := 0; line < taken; line++ {
			if _, err := tee.Next(); err != nil {
				t.Fatal(err)
			}
		}
		if first, again := tee.End(), tee.End(); first != nil || again != nil {
			t.Errorf("%d lines: %v, %v", taken, first, again)
		}
		kept := 0
		for _, reading := range history.readings(t, 0) {
			if kept++; !reading.At.Equal(night(2)) {
				t.Errorf("%+v", reading)
			}
		}
		if due := map[int]int{2: 1, 3: 2, 4: 2}[taken]; kept != due {
			t.Errorf("%d lines: %d names are kept, not %d", taken, kept, due)
		}
		if drained(t, tee); tee.End() != nil || len(history.readings(t, 0)) != kept {
			t.Errorf("%d lines: behind the end %d names are kept, not %d", taken, len(history.readings(t, 0)), kept)
		}
	}
}

// Where nothing can be kept, each list is there and is empty, and why stands beside them.
func TestWhatIsSaidWhereNothingIsKept(t *testing.T) {
	text, err := json.Marshal(NotKept(errors.New("the disk is full")))
	if err != nil || strings.Contains(string(text), "null") || !strings.Contains(string(text), "the disk is full") {
		t.Errorf("%s, %v", text, err)
	}
}

// What waits to be written is written once it is too much for memory, and all of it at the end.
func TestWhatWaitsToBeWritten(t *testing.T) {
	history := opened(t)
	waiting, value := writes{to: history.db}, make([]byte, mostWaiting/4)
	has := func(key string) bool {
		is, err := history.db.Has([]byte(key), nil)
		if err != nil {
			t.Fatal(err)
		}
		return is
	}
	for place, key := range []string{"1", "2", "3"} {
		if err := waiting.put([]byte(key), value); err != nil || has(key) {
			t.Fatalf("%d: %v", place, err)
		}
	}
	if err := waiting.put([]byte("4"), value); err != nil || !has("1") || !has("4") || waiting.batch.Len() != 0 {
		t.Errorf("%v: %d wait", err, waiting.batch.Len())
	}
	if err := waiting.remove([]byte("1")); err != nil || !has("1") || waiting.batch.Len() != 1 {
		t.Errorf("%v: %d wait", err, waiting.batch.Len())
	}
	if err := waiting.end(); err != nil || has("1") || !has("2") {
		t.Errorf("%v", err)
	}
}
