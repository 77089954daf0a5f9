package history

import (
	"errors"
	"fmt"
	"math"
	"math/rand"
	"reflect"
	"testing"
	"time"

	"github.com/syndtr/goleveldb/leveldb"
)

// pair is a folder at a device.
type pair struct {
	folder string
	device uint64
}

// askedNames are names of which some begin with others, or with what a key has.
var askedNames = []string{"", "\x01", "a", "a/b", "aa", "b", "b\xff", "c", "~", "\xff"}

// keptOfAsked reads all that is kept of a device in a folder.
func keptOfAsked(t *testing.T, history *History, of pair) map[string]AskedFor {
	reader, found := history.AskedReader(of.folder, of.device), map[string]AskedFor{}
	defer reader.Release()
	for _, name := range askedNames[1:] {
		asked, is, err := reader.Of(name)
		if err != nil || !is && asked != (AskedFor{}) {
			t.Fatalf("%q: %+v, %v", name, asked, err)
		}
		if is {
			found[name] = asked
		}
	}
	return found
}

// What was asked for is what was put or left as it was at the last look to its end; what a look passes over is forgotten. Devices and folders are apart.
func TestWhatWasAskedFor(t *testing.T) {
	for seed := int64(0); seed < 40; seed++ {
		random, history := rand.New(rand.NewSource(seed)), opened(t)
		history.now = func() time.Time { return time.Unix(math.MaxInt64, 0) } // no time is to come
		kept := map[pair]map[string]AskedFor{}
		pairs := []pair{{"docs", 1}, {"docs", 2}, {"docs\x01", 1}, {"doc", 1}}
		for _, of := range pairs {
			kept[of] = map[string]AskedFor{}
		}
		for look := 0; look < 8; look++ {
			of := pairs[random.Intn(len(pairs))]
			writer, after := history.AskedWriter(of.folder, of.device), map[string]AskedFor{}
			for _, name := range askedNames[1:] {
				var err error
				switch random.Intn(4) {
				case 0: // it is passed over
				case 1:
					if had, is := kept[of][name]; is {
						after[name] = had
					}
					err = writer.Stay(name)
				default:
					after[name] = AskedFor{At: random.Int63() - random.Int63(), Sequence: random.Int63n(1 << 40)}
					err = writer.Put(name, after[name])
				}
				if err != nil {
					t.Fatal(err)
				}
			}
			if isEnded := random.Intn(4) > 0; isEnded {
				if err := writer.End(); err != nil {
					t.Fatal(err)
				}
				kept[of] = after
			}
			writer.Release()
			for _, of := range pairs {
				if found := keptOfAsked(t, history, of); !reflect.DeepEqual(found, kept[of]) {
					t.Fatalf("%d, look %d: %v at %+v, not %v", seed, look, found, of, kept[of])
				}
			}
		}
	}
}

// A reader may be asked for any names that rise, and gives each that is there.
func TestReadingWhatWasAskedFor(t *testing.T) {
	history := opened(t)
	writer := history.AskedWriter("docs", 1)
	for place := 0; place < 9; place += 2 {
		if err := writer.Put(fmt.Sprint("n", place), AskedFor{At: int64(place), Sequence: 7}); err != nil {
			t.Fatal(err)
		}
	}
	if err := writer.End(); err != nil {
		t.Fatal(err)
	}
	writer.Release()
	for choice := 0; choice < 1<<10; choice++ {
		reader := history.AskedReader("docs", 1)
		for place := 0; place < 10; place++ {
			if choice&(1<<place) == 0 {
				continue
			}
			if asked, is, err := reader.Of(fmt.Sprint("n", place)); err != nil || is != (place%2 == 0) || is && asked != (AskedFor{int64(place), 7}) {
				t.Fatalf("%b, %d: %+v, %v, %v", choice, place, asked, is, err)
			}
		}
		reader.Release()
	}
}

// What isn't of the format is told, and isn't taken for what was never asked for.
func TestAskedForInAnotherFormat(t *testing.T) {
	for _, value := range []string{"", "x", "0123456789abcde", "0123456789abcdefg"} {
		history := opened(t)
		if err := history.db.Put(keyOfAsked("docs", 1, "a"), []byte(value), nil); err != nil {
			t.Fatal(err)
		}
		reader := history.AskedReader("docs", 1)
		if asked, is, err := reader.Of("a"); err == nil || is {
			t.Errorf("%q: %+v, %v", value, asked, is)
		}
		reader.Release()
	}
}

// A reader that was let go reads no more.
func TestAReaderThatIsReleased(t *testing.T) {
	history := opened(t)
	writer := history.AskedWriter("docs", 1)
	for _, name := range askedNames[1:] {
		if err := writer.Put(name, AskedFor{}); err != nil {
			t.Fatal(err)
		}
	}
	if err := writer.End(); err != nil {
		t.Fatal(err)
	}
	writer.Release()
	reader := history.AskedReader("docs", 1)
	if reader.Release(); reader.all.Next() || !errors.Is(reader.all.Error(), leveldb.ErrIterReleased) {
		t.Error(reader.all.Error())
	}
}
