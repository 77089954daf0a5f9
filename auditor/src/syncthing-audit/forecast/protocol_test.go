package forecast

import (
	"math/rand"
	"reflect"
	"testing"
	"time"

	"github.com/syncthing/syncthing/lib/protocol"
	"syncthing-audit/adapt"
)

// vectorOf draws a version vector.
func vectorOf(random *rand.Rand) []Counter {
	var vector []Counter
	for device := uint64(1); device < 5; device++ {
		if random.Intn(2) == 0 {
			vector = append(vector, Counter{device, uint64(1 + random.Intn(3))})
		}
	}
	return vector
}

// protocolVector gives a vector as Syncthing has it.
func protocolVector(of []Counter) protocol.Vector {
	vector := protocol.Vector{}
	for _, counter := range of {
		vector.Counters = append(vector.Counters, protocol.Counter{ID: protocol.ShortID(counter.Device), Value: counter.Value})
	}
	return vector
}

var orders = map[protocol.Ordering]int{protocol.Equal: equal, protocol.Greater: greater, protocol.Lesser: lesser,
	protocol.ConcurrentLesser: concurrentLesser, protocol.ConcurrentGreater: concurrentGreater}

// Vectors compare, merge and drop counters as Syncthing's do.
func TestVectors(t *testing.T) {
	random := rand.New(rand.NewSource(1))
	for range [5000]int{} {
		a, b := vectorOf(random), vectorOf(random)
		if found, due := compareVectors(a, b), orders[protocolVector(a).Compare(protocolVector(b))]; found != due {
			t.Fatal(a, b, found, due)
		}
		if found, due := keyOf(merged(a, b)), protocolVector(a).Merge(protocolVector(b)); !protocolVector(merged(a, b)).Equal(due) {
			t.Fatal(a, b, found, due)
		}
		if found, due := protocolVector(ofDevice(a, 2)), protocolVector(a).DropOthers(2); !found.Equal(due) {
			t.Fatal(a, found, due)
		}
	}
}

// A raised vector is greater, by the counter of the device that changed something.
func TestRaisedVectors(t *testing.T) {
	random := rand.New(rand.NewSource(2))
	for range [1000]int{} {
		a := vectorOf(random)
		device := uint64(1 + random.Intn(5))
		once := raised(a, device)
		twice := raised(once, device)
		if compareVectors(once, a) != greater || compareVectors(twice, once) != greater || counterOf(once, device) < presentTime {
			t.Fatal(a, device, once, twice)
		}
	}
}

// drawn draws a record, and the same as Syncthing has it.
func drawn(m *machine, random *rand.Rand) (record, protocol.FileInfo) {
	types := map[Type]protocol.FileInfoType{File: protocol.FileInfoTypeFile, Directory: protocol.FileInfoTypeDirectory, Symlink: protocol.FileInfoTypeSymlink}
	vector := vectorOf(random)
	entry := record{kind: Type(1 + random.Intn(3)), deleted: random.Intn(3) == 0, flag: Flag(random.Intn(4)), version: m.vectorNumber(vector),
		time: int64(random.Intn(3)), mode: int32(random.Intn(3)) - 1}
	of := protocol.FileInfo{Name: "a", Type: types[entry.kind], Deleted: entry.deleted, Version: protocolVector(vector), ModifiedS: entry.time,
		NoPermissions: entry.mode == NoMode, RawInvalid: entry.flag == Invalid}
	if entry.mode != NoMode {
		of.Permissions = uint32(entry.mode)
	}
	switch entry.flag {
	case LocalChange:
		of.LocalFlags = protocol.FlagLocalReceiveOnly
	case MustBeHashed:
		of.LocalFlags = protocol.FlagLocalMustRescan
	}
	if entry.kind == Symlink {
		entry.target = int32(random.Intn(2))
		adapt.SetText(&of.SymlinkTarget, string(rune('a'+entry.target)))
	}
	if entry.kind == File && !entry.deleted {
		entry.content = int32(1 + random.Intn(3))
		of.Size = m.sizes[entry.content]
		of.Blocks = []protocol.BlockInfo{{Hash: []byte{byte(entry.content)}}}
	}
	return entry, of
}

// isEquivalentTo calls Syncthing's IsEquivalentOptional, which takes one value of options in 1.29, and several in 1.19.
func isEquivalentTo(of, other protocol.FileInfo, ignored comparison, flags uint32) bool {
	method := reflect.ValueOf(of).MethodByName("IsEquivalentOptional")
	window := time.Duration(ignored.window) * time.Second
	in := []reflect.Value{reflect.ValueOf(other)}
	if method.Type().NumIn() == 2 {
		options := reflect.New(method.Type().In(1)).Elem()
		for field, value := range map[string]interface{}{"ModTimeWindow": window, "IgnorePerms": ignored.permissions, "IgnoreBlocks": ignored.bytes,
			"IgnoreFlags": flags, "IgnoreOwnership": true, "IgnoreXattrs": true} {
			options.FieldByName(field).Set(reflect.ValueOf(value))
		}
		in = append(in, options)
	} else {
		for _, value := range []interface{}{window, ignored.permissions, ignored.bytes, flags} {
			in = append(in, reflect.ValueOf(value))
		}
	}
	return method.Call(in)[0].Bool()
}

// Records are equivalent as Syncthing's are, whatever is left out of the comparison.
func TestEquivalentRecords(t *testing.T) {
	random := rand.New(rand.NewSource(3))
	m := newMachine([]Device{{}})
	m.sizes = append(m.sizes, 1, 2, 2)
	same := 0
	for range [20000]int{} {
		a, of := drawn(m, random)
		b, other := drawn(m, random)
		ignored := comparison{permissions: random.Intn(2) == 0, bytes: random.Intn(2) == 0, localChange: random.Intn(2) == 0, allFlags: random.Intn(4) == 0,
			window: int64(random.Intn(2)) * 2}
		flags := uint32(0)
		if ignored.localChange {
			flags = protocol.FlagLocalReceiveOnly
		}
		if ignored.allFlags {
			flags = protocol.LocalAllFlags
			of.RawInvalid, other.RawInvalid = false, false // local flags alone are masked, and own records have no other
		}
		found, due := m.isEquivalent(&a, &b, ignored), isEquivalentTo(of, other, ignored, flags)
		if found != due {
			t.Fatal(of, other, ignored, found, due)
		}
		if found {
			same++
		}
	}
	if same < 20 {
		t.Fatal("too few were equivalent", same)
	}
}
