package join

import (
	"fmt"
	"math/rand"
	"testing"

	"github.com/syncthing/syncthing/lib/db"
	"github.com/syncthing/syncthing/lib/db/backend"
	"github.com/syncthing/syncthing/lib/events"
	"github.com/syncthing/syncthing/lib/protocol"
	"syncthing-audit/adapt"
	"syncthing-audit/part"
)

// own gives what a device has of a name that it records at this version.
func own(change func(*part.Record), version ...[2]uint64) *part.Name {
	record := &part.Record{ModifiedS: 10, ModifiedNs: 5, ModifiedBy: 2, Version: version, Content: &part.Content{Size: 1, BlockSize: 131072}}
	change(record)
	return &part.Name{Own: record}
}

func same(*part.Record) {}

// The rules, each deciding where those before it don't. By whom a name was modified decides nothing.
func TestWhoWins(t *testing.T) {
	for _, one := range []struct {
		why   string
		at    []*part.Name
		place int // -1 for none
	}{
		{"nobody has it", []*part.Name{nil, {}}, -1},
		{"an invalid record doesn't count", []*part.Name{own(func(one *part.Record) { one.Invalid = true }, [2]uint64{1, 9}), own(same, [2]uint64{1, 1})}, 1},
		{"the version above, though its time is earlier", []*part.Name{own(same, [2]uint64{1, 1}),
			own(func(one *part.Record) { one.ModifiedS = 1 }, [2]uint64{1, 1}, [2]uint64{2, 1})}, 1},
		{"a deletion above", []*part.Name{own(same, [2]uint64{1, 1}), own(func(one *part.Record) { one.Deleted = true }, [2]uint64{1, 2})}, 1},
		{"what isn't deleted", []*part.Name{own(func(one *part.Record) { one.Deleted, one.ModifiedS = true, 99 }, [2]uint64{1, 1}),
			own(same, [2]uint64{2, 1})}, 1},
		{"the later second", []*part.Name{own(same, [2]uint64{1, 1}), own(func(one *part.Record) { one.ModifiedS, one.ModifiedNs = 11, 0 }, [2]uint64{2, 1})}, 1},
		{"the later nanosecond", []*part.Name{own(same, [2]uint64{1, 1}), own(func(one *part.Record) { one.ModifiedNs, one.ModifiedBy = 6, 9 }, [2]uint64{2, 1})}, 1},
		{"the version that goes first", []*part.Name{own(func(one *part.Record) { one.ModifiedBy = 1 }, [2]uint64{2, 9}), own(same, [2]uint64{1, 1})}, 1},
		{"under one version, the first device", []*part.Name{own(func(one *part.Record) { one.ModifiedBy = 9 }, [2]uint64{1, 1}), own(same, [2]uint64{1, 1})}, 0},
	} {
		var expected *part.Record
		if one.place >= 0 {
			expected = one.at[one.place].Own
		}
		if winner := (&Row{Name: "a", At: one.at}).Winner(OfAll); winner != expected {
			t.Errorf("%s: %+v", one.why, winner)
		}
	}
	row := &Row{At: []*part.Name{own(same, [2]uint64{1, 1}), own(same, [2]uint64{1, 2})}}
	if row.Winner(func(member int) bool { return member == 0 }) != row.At[0].Own {
		t.Error("a record wins that isn't of these members")
	}
}

// manyNames is of how many random names Syncthing's own database is asked.
const manyNames = 3000

// What wins is what Syncthing's own database has as global, whichever record came first. Of three records, each may win against the next in a circle
// where one is on top of another: what Syncthing has then depends on which came first.
func TestTheWinnerIsSyncthingsGlobal(t *testing.T) {
	for seed := int64(1); seed <= 2; seed++ {
		random, decided, byVersion := rand.New(rand.NewSource(seed)), 0, 0
		rows := []*Row{}
		for turn := 0; turn < manyNames; turn++ {
			rows = append(rows, randomRow(random, 4))
		}
		for number, global := range globalsOf(t, random, rows) {
			row, winner := rows[number], rows[number].Winner(OfAll)
			if isCircle(row) {
				continue
			}
			if (global == nil) != (winner == nil) || winner != nil && !vectorOf(winner.Version).Equal(global.Version) {
				t.Fatalf("seed %d, name %d: %+v, and Syncthing has %+v of%s", seed, number, winner, global, told(row))
			}
			if winner != nil {
				decided++
				if isByVersion(row, winner) {
					byVersion++
				}
			}
		}
		if decided < manyNames/2 || byVersion < manyNames/50 {
			t.Errorf("seed %d: only %d names were decided, and %d by versions alone", seed, decided, byVersion)
		}
	}
}

// globalsOf gives what Syncthing's own database has as global of each row, once its devices came one after another; nothing where that isn't valid.
func globalsOf(t *testing.T, random *rand.Rand, rows []*Row) []*protocol.FileInfo {
	set, devices := emptyIndex(t), []protocol.DeviceID{protocol.LocalDeviceID, {7: 1}, {7: 2}, {7: 3}}
	for _, place := range random.Perm(len(devices)) {
		batch := []protocol.FileInfo{}
		for number, row := range rows {
			if at := row.At[place]; at != nil {
				batch = append(batch, infoOf(fmt.Sprint(number), at.Own))
			}
		}
		set.Update(devices[place], batch)
	}
	snapshot, err := set.Snapshot()
	if err != nil {
		t.Fatal(err)
	}
	defer snapshot.Release()
	made := make([]*protocol.FileInfo, len(rows))
	for number := range rows {
		if global, isThere := snapshot.GetGlobal(fmt.Sprint(number)); isThere && !global.IsInvalid() {
			made[number] = &global
		}
	}
	return made
}

// emptyIndex gives an index of Syncthing's own, in memory.
func emptyIndex(t *testing.T) *db.FileSet {
	index, err := db.NewLowlevel(backend.OpenMemory(), events.NoopLogger)
	if err != nil {
		t.Fatal(err)
	}
	t.Cleanup(func() { index.Close() })
	set, err := db.NewFileSet("docs", index)
	if err != nil {
		t.Fatal(err)
	}
	return set
}

// randomRow gives a name at so many devices: few times and few versions, so that all cases come.
func randomRow(random *rand.Rand, devices int) *Row {
	row := &Row{At: make([]*part.Name, devices)}
	for place := range row.At {
		if random.Intn(5) == 0 {
			continue
		}
		var version [][2]uint64
		for id := uint64(1); id <= 3; id++ {
			if value := uint64(random.Intn(3)); value > 0 {
				version = append(version, [2]uint64{id, value})
			}
		}
		row.At[place] = own(func(one *part.Record) {
			one.ModifiedS, one.ModifiedNs, one.ModifiedBy = int64(random.Intn(2)), random.Intn(2), uint64(random.Intn(3))
			one.Deleted, one.Invalid = random.Intn(4) == 0, random.Intn(8) == 0
			if one.Invalid { // so Syncthing sends a local change to others
				one.Version = nil
			}
		}, version...)
		alike(row, place)
	}
	return row
}

// alike gives a record what another one under its version says: so it is of devices that took it from one another.
func alike(row *Row, place int) {
	mine := row.At[place].Own
	for _, at := range row.At[:place] {
		if at != nil && ClaimOf(at.Own).IsOfOneVersion(ClaimOf(mine)) {
			invalid := mine.Invalid
			*mine = *at.Own
			mine.Invalid = invalid
		}
	}
}

// infoOf gives an entry of an index, as Syncthing has it.
func infoOf(name string, record *part.Record) protocol.FileInfo {
	made := protocol.FileInfo{Name: name, Size: 1, ModifiedS: record.ModifiedS, ModifiedBy: protocol.ShortID(record.ModifiedBy), Version: vectorOf(record.Version),
		Deleted: record.Deleted, RawInvalid: record.Invalid}
	adapt.SetNumber(&made.ModifiedNs, record.ModifiedNs)
	return made
}

func vectorOf(version [][2]uint64) (made protocol.Vector) {
	for _, one := range version {
		made.Counters = append(made.Counters, protocol.Counter{ID: protocol.ShortID(one[0]), Value: one[1]})
	}
	return made
}

// isCircle says whether what wins depends on which of a row's records came first: one is on top of another, which goes before a third, which goes before
// the first one.
func isCircle(row *Row) bool {
	for _, one := range row.claims() {
		for _, two := range row.claims() {
			for _, three := range row.claims() {
				if one.IsBelow(two) && one.Wins(three) && three.Wins(two) {
					return true
				}
			}
		}
	}
	return false
}

// isByVersion says whether another record was as good as the winner but for its version.
func isByVersion(row *Row, winner *part.Record) bool {
	first := ClaimOf(winner)
	for _, one := range row.claims() {
		if !one.IsBelow(first) && !one.IsOfOneVersion(first) && one.Deleted == first.Deleted && one.Seconds == first.Seconds && one.Nanoseconds == first.Nanoseconds {
			return true
		}
	}
	return false
}

func (r *Row) claims() []Claim {
	made := []Claim{}
	for _, at := range r.At {
		if at != nil && !at.Own.Invalid {
			made = append(made, ClaimOf(at.Own))
		}
	}
	return made
}

func told(row *Row) string {
	text := ""
	for place, at := range row.At {
		if at != nil {
			text += fmt.Sprintf(" %d: %+v", place, *at.Own)
		}
	}
	return text
}

// IsOfOneVersion says whether two claims have one version. Syncthing never exchanges such ones, whatever else they say.
func (c Claim) IsOfOneVersion(other Claim) bool {
	return c.Version.IsAtMost(other.Version) && other.Version.IsAtMost(c.Version)
}
