package wire

import (
	"errors"
	"testing"
	"time"
)

// listener is a connection that hears messages as a test has it.
func listener(limits Limits) *Connection {
	connection := &Connection{limits: limits, waiting: map[int32]chan response{}, news: make(chan struct{}, 1), ended: make(chan struct{})}
	for _, id := range []string{"docs", "pics"} {
		shared := &Shared{Folder: Folder{ID: id}, over: connection}
		shared.taker = taker{folder: id, limits: &connection.limits, spent: &connection.spent, index: NewIndex(42)}
		connection.Folders = append(connection.Folders, shared)
	}
	return connection
}

// A message of an index that is taken is news, and the device was heard with it; one that isn't is neither, and counts all the same.
func TestWhatIsTakenOfAnIndex(t *testing.T) {
	connection := listener(Limits{Index: 1000, Records: 10, Name: 10})
	long := time.Now().Add(-time.Hour)
	for _, row := range []struct {
		text     []byte
		isUpdate bool
		err      error
		highest  [2]int64
	}{
		{indexOf("docs", file{name: "a", sequence: 3}), false, nil, [2]int64{3, 0}}, {indexOf("docs", file{name: "b", sequence: 4}), true, nil, [2]int64{4, 0}},
		{indexOf("pics", file{name: "a", sequence: 9}), true, nil, [2]int64{4, 9}}, {indexOf("docs", file{name: "c", sequence: 1}), false, nil, [2]int64{1, 9}},
		{indexOf("docs", file{name: "d", sequence: 1}), true, SequenceFalls, [2]int64{1, 9}}, {indexOf("none", file{name: "d", sequence: 1}), true, nil, [2]int64{1, 9}},
		{[]byte{0xff}, true, BadMessage, [2]int64{1, 9}},
	} {
		before := connection.spent.bytes
		connection.heard = long
		for place := 0; place < 2; place++ { // news that nobody has taken yet are enough
			if place == 1 && (row.isUpdate || row.err != nil) {
				break
			}
			if err := connection.takeIndex(row.text, row.isUpdate); !errors.Is(err, row.err) {
				t.Errorf("%q: %v", row.text, err)
			}
		}
		isNews := len(connection.news) == 1
		if isNews {
			<-connection.news
		}
		isTaken := row.err == nil && string(row.text[2:6]) != "none"
		if isNews != isTaken || connection.heard.After(long) != isTaken {
			t.Errorf("%q: news %v, heard %v", row.text, isNews, connection.heard)
		}
		if counted := connection.spent.bytes > before; counted != (row.err != BadMessage) {
			t.Errorf("%q: %d bytes, and %d before", row.text, connection.spent.bytes, before)
		}
		if highest := [2]int64{connection.Folders[0].taker.index.Highest, connection.Folders[1].taker.index.Highest}; highest != row.highest {
			t.Errorf("%q: up to %v, not %v", row.text, highest, row.highest)
		}
	}
}

// An answer goes to the one who asked, and counts as given; one that nobody waits for is nothing.
func TestWhatIsTakenOfAnAnswer(t *testing.T) {
	connection := listener(Usual)
	waiting := make(chan response, 1)
	connection.waiting[5] = waiting
	for _, row := range []struct {
		text    []byte
		err     error
		isTaken bool
	}{{[]byte{0xff}, BadMessage, false}, {responseOf(6, codeNone, "abc"), nil, false}, {responseOf(5, codeInvalidFile, "abc"), nil, true}, {responseOf(5, codeNone, "abc"), nil, false}} {
		if err := connection.takeResponse(row.text); !errors.Is(err, row.err) {
			t.Errorf("%q: %v", row.text, err)
		}
		if (len(waiting) == 1) != row.isTaken {
			t.Errorf("%q: it is given: %v", row.text, !row.isTaken)
		}
		if row.isTaken {
			if said := <-waiting; said.code != codeInvalidFile || string(said.data) != "abc" || len(connection.waiting) != 0 {
				t.Errorf("%+v, %d wait", said, len(connection.waiting))
			}
		}
	}
	if connection.answers != (gave{1, 3}) {
		t.Errorf("%+v is given", connection.answers)
	}
}

// Of folders that were observed each is found by its id, and no other one.
func TestFoldersOfAConnection(t *testing.T) {
	connection := listener(Usual)
	for _, id := range []string{"", "a", "docs", "docs2", "pics", "z"} {
		if found := connection.Shared(id); (found != nil) != (id == "docs" || id == "pics") || found != nil && found.ID != id {
			t.Errorf("%q: %v", id, found)
		}
	}
}

// A folder is out for the reason that says most: of several, that of the first one that is shared at all.
func TestWhyNoFolderIsObserved(t *testing.T) {
	for due, out := range map[error]map[string]error{
		NotShared: {"a": NotShared, "b": NotShared}, Paused: {"a": NotShared, "b": Paused, "c": OtherType, "d": NotShared}, OtherType: {"b": OtherType, "c": Paused},
	} {
		if err := (&Connection{Out: out}).whyNone(); err != due {
			t.Errorf("%v: %v", out, err)
		}
	}
	if err := (&Connection{}).whyNone(); err != NotShared {
		t.Error(err)
	}
}
