package part

import (
	"math"
	"math/rand"
	"testing"

	"github.com/syncthing/syncthing/lib/protocol"
)

// A version counts changes of the devices whose value isn't 0.
func TestWhoseChangesAVersionCounts(t *testing.T) {
	for _, one := range []struct {
		why     string
		version Version
		own     bool
	}{
		{"none", nil, false},
		{"of the device alone", Version{{2, 5}}, true},
		{"of another one", Version{{1, 5}}, false},
		{"of both", Version{{1, 1}, {2, 1}}, true},
		{"a value of 0 is none", Version{{1, 0}, {2, 0}}, false},
	} {
		if own := one.version.Counts(2); own != one.own {
			t.Errorf("%s: %t", one.why, own)
		}
	}
}

// What Syncthing keeps at equal times is what its own Compare says of two concurrent versions.
func TestWhichVersionGoesFirst(t *testing.T) {
	versions := []Version{{{1, 5}}, {{2, 5}}, {{1, 5}, {2, 1}}, {{1, 4}, {2, 9}}, {{1, 4}, {3, 1}}, {{3, 7}}, {{1, 0}, {3, 8}}, {{2, 5}, {3, 1}}, {{math.MaxUint64, 3}}}
	concurrent := 0
	for _, one := range versions {
		for _, other := range versions {
			compared := vector(one).Compare(vector(other))
			if compared != protocol.ConcurrentGreater && compared != protocol.ConcurrentLesser {
				continue
			}
			concurrent++
			if one.GoesFirst(other) != (compared == protocol.ConcurrentGreater) {
				t.Errorf("%v and %v: %v", one, other, compared)
			}
		}
	}
	if concurrent < 30 {
		t.Errorf("only %d pairs are concurrent", concurrent)
	}
}

// vector gives a version as Syncthing's own packages have it.
func vector(version Version) (made protocol.Vector) {
	for _, one := range version {
		made.Counters = append(made.Counters, protocol.Counter{ID: protocol.ShortID(one[0]), Value: one[1]})
	}
	return made
}

// Of any two versions this package says what Syncthing's own Compare says.
func TestVersionsCompareAsSyncthingsDo(t *testing.T) {
	random, seen := rand.New(rand.NewSource(1)), map[protocol.Ordering]int{}
	for turn := 0; turn < 50000; turn++ {
		one, other := versionBy(random), versionBy(random)
		compared := vector(one).Compare(vector(other))
		seen[compared]++
		if one.IsAtMost(other) != (compared == protocol.Equal || compared == protocol.Lesser) {
			t.Fatalf("%v and %v: %v, and at most: %t", one, other, compared, one.IsAtMost(other))
		}
		isConcurrent := compared == protocol.ConcurrentGreater || compared == protocol.ConcurrentLesser
		if isConcurrent && one.GoesFirst(other) != (compared == protocol.ConcurrentGreater) {
			t.Fatalf("%v and %v: %v, and goes first: %t", one, other, compared, one.GoesFirst(other))
		}
	}
	for _, ordering := range []protocol.Ordering{protocol.Equal, protocol.Greater, protocol.Lesser, protocol.ConcurrentGreater, protocol.ConcurrentLesser} {
		if seen[ordering] < 500 {
			t.Errorf("ordering %v came only %d times", ordering, seen[ordering])
		}
	}
}

// versionBy gives a version as Syncthing has one: its ids rise, and a value may be 0.
func versionBy(random *rand.Rand) Version {
	var made [][2]uint64
	for _, id := range []uint64{0, 1, 2, math.MaxUint64 - 1, math.MaxUint64} {
		if value := uint64(random.Intn(4)); random.Intn(2) == 0 {
			if value == 3 {
				value = math.MaxUint64
			}
			made = append(made, [2]uint64{id, value})
		}
	}
	return made
}
