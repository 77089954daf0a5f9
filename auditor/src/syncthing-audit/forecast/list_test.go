package forecast

import (
	"math/rand"
	"testing"

	"github.com/syncthing/syncthing/lib/db"
	"github.com/syncthing/syncthing/lib/db/backend"
	"github.com/syncthing/syncthing/lib/events"
	"github.com/syncthing/syncthing/lib/protocol"
	"syncthing-audit/adapt"
)

// A real index takes the same records in the same order, and has the same one prevail, from the same devices, and the same need.
func TestListsAreThoseOfARealIndex(t *testing.T) {
	random := rand.New(rand.NewSource(4))
	needed := 0
	for range [60]int{} {
		m := newMachine(make([]Device, 4))
		m.sizes = append(m.sizes, 1, 2, 2)
		m.names = append(m.names, name{parent: -1})
		s := &state{machine: m}
		index := indexOf(t)
		for range [12]int{} {
			j := random.Intn(len(m.devices))
			entry, of := drawn(m, random)
			if j > 0 && entry.flag != Valid {
				entry.flag, of.LocalFlags, of.RawInvalid = Invalid, 0, true
			} else if j == 0 && entry.flag == Invalid {
				entry.flag, of.RawInvalid = Valid, false
			}
			s.put(0, j, 0, entry)
			index.Update(deviceOf(j), []protocol.FileInfo{of})
			needed += isAsTheIndex(t, s, index)
		}
	}
	if needed < 50 {
		t.Fatal("too little was needed", needed)
	}
}

func indexOf(t *testing.T) *db.FileSet {
	low, err := db.NewLowlevel(backend.OpenMemory(), events.NoopLogger)
	if err != nil {
		t.Fatal(err)
	}
	index, err := db.NewFileSet("docs", low)
	if err != nil {
		t.Fatal(err)
	}
	return index
}

func deviceOf(j int) protocol.DeviceID {
	if j == 0 {
		return protocol.LocalDeviceID
	}
	return protocol.NewDeviceID([]byte{byte(j)})
}

// isAsTheIndex compares a state with a real index, and gives how many names the latter needs.
func isAsTheIndex(t *testing.T, s *state, index *db.FileSet) int {
	t.Helper()
	snapshot, err := index.Snapshot()
	if err != nil {
		t.Fatal(err)
	}
	defer snapshot.Release()
	due, _ := snapshot.GetGlobal("a")
	found, have := s.global(0, 0)
	if !protocolVector(s.vectors[found.version]).Equal(due.Version) || found.deleted != due.Deleted || found.time != due.ModifiedS {
		t.Fatal(due, found)
	}
	var from uint32
	for _, device := range snapshot.Availability("a") {
		for j := range s.devices {
			if device == deviceOf(j) {
				from |= 1 << j
			}
		}
	}
	if from != have {
		t.Fatal(from, have)
	}
	needed := 0
	adapt.Have(snapshot.WithNeed, protocol.LocalDeviceID, func(protocol.FileInfo) bool {
		needed++
		return true
	})
	if (needed > 0) != s.need(0, 0).isThere() {
		t.Fatal(needed, due, found)
	}
	return needed
}
