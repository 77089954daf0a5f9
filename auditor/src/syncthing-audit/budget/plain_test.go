package budget

import (
	"context"
	"fmt"
	"math/rand"
	"path/filepath"
	"reflect"
	"sort"
	"testing"
	"time"

	"syncthing-audit/choice"
	"syncthing-audit/history"
	"syncthing-audit/message"
	"syncthing-audit/wire"
)

// drawn is a file in a place, as a plain reading sees it.
type drawn struct {
	size, sequence int64
	asked          *history.AskedFor // nothing where it never was
}

// waits gives since when the file waits; 0 where its record was never read.
func (d drawn) waits() int64 {
	if d.asked == nil || d.asked.Sequence != d.sequence {
		return 0
	}
	return d.asked.At
}

// hasBytes says whether there is anything to ask for.
func (d drawn) hasBytes() bool { return d.size > 0 }

// drawnPlace is a place with its files.
type drawnPlace struct {
	Place
	files map[string]drawn
}

// drawPlaces draws folders at devices, and keeps in a history what was asked for. One name is deleted in each.
func drawPlaces(t *testing.T, random *rand.Rand, to *history.History) []drawnPlace {
	places := []drawnPlace{}
	for _, id := range []string{"pics", "docs"} {
		for device := uint64(0); device < 3; device++ {
			place := drawnPlace{Place{id, device, wire.NewIndex(device + 1), choice.Names{Prefix: []string{"", "b"}[random.Intn(2)]}}, map[string]drawn{}}
			writer := to.AskedWriter(id, device)
			for number, name := range []string{"a", "b", "b/c", "b/d", "e"} {
				file := drawn{size: random.Int63n(5), sequence: int64(number + 1)}
				if random.Intn(2) == 0 {
					file.asked = &history.AskedFor{At: 1 + random.Int63n(3), Sequence: file.sequence - random.Int63n(2)}
					if err := writer.Put(name, *file.asked); err != nil {
						t.Fatal(err)
					}
				}
				if random.Intn(4) == 0 {
					continue // it isn't recorded any more
				}
				if err := place.Index.Put(fileOf(name, file.size, file.sequence)); err != nil {
					t.Fatal(err)
				}
				place.files[name] = file
			}
			if err := place.Index.Put(message.AppendNumber(fileOf("gone", 9, 99), 6, 1)); err != nil {
				t.Fatal(err)
			}
			if err := writer.End(); err != nil {
				t.Fatal(err)
			}
			writer.Release()
			places = append(places, place)
		}
	}
	return places
}

// chosenPlainly says which names are asked for, slowly: those that wait longest, of faults first for half of the bytes. Before them comes the large fault
// that waits longest, unless it was asked for at the last look.
func chosenPlainly(places []drawnPlace, bytes int64, isFault func(folder, name string) bool) map[string]bool {
	type waiting struct {
		key       string
		at, bytes int64
		isFlaw    bool
	}
	all, half := map[string]*waiting{}, bytes/2
	for _, place := range places {
		for name, file := range place.files {
			if !file.hasBytes() || !place.Names.Has(place.Folder, name) {
				continue
			}
			key := place.Folder + " " + name
			if all[key] == nil {
				all[key] = &waiting{key: key, at: file.waits()}
			}
			if file.waits() < all[key].at {
				all[key].at = file.waits()
			}
			all[key].bytes += file.size
			all[key].isFlaw = isFault(place.Folder, name)
		}
	}
	chosen, queues := map[string]bool{}, map[bool][]*waiting{}
	var large *waiting
	last := int64(0)
	for _, name := range all {
		if name.at > last {
			last = name.at
		}
		isLarge := name.isFlaw && name.bytes > bytes/2 && name.bytes < bytes
		if isLarge && (large == nil || name.at < large.at || name.at == large.at && name.key < large.key) {
			large = name
		}
	}
	if large != nil && (large.at == 0 || large.at < last) {
		chosen[large.key] = true
		bytes -= large.bytes
	}
	for _, name := range all {
		if !chosen[name.key] {
			isFirst := name.isFlaw && name.bytes <= half
			queues[isFirst] = append(queues[isFirst], name)
		}
	}
	take := func(queue []*waiting, most int64) (spent int64) {
		sort.Slice(queue, func(a, b int) bool {
			return queue[a].at < queue[b].at || queue[a].at == queue[b].at && queue[a].key < queue[b].key
		})
		for _, name := range queue {
			if spent >= most {
				break
			}
			chosen[name.key] = true
			spent += name.bytes
		}
		if spent > most {
			spent = most
		}
		return spent
	}
	take(queues[false], bytes-take(queues[true], bytes/2))
	return chosen
}

// A plan asks for the names that a plain reading chooses, tells what waits beside them, and keeps in the history what was asked for of whom.
func TestPlansByAPlainReading(t *testing.T) {
	for seed := int64(0); seed < 30; seed++ {
		random := rand.New(rand.NewSource(seed))
		kept, err := history.Open(filepath.Join(t.TempDir(), "history"))
		if err != nil {
			t.Fatal(err)
		}
		drawnPlaces := drawPlaces(t, random, kept)
		places := []Place{}
		for _, place := range drawnPlaces {
			places = append(places, place.Place)
		}
		flaws := map[string]bool{}
		for _, name := range []string{"docs a", "docs b/c", "pics b", "pics e"} {
			flaws[name] = random.Intn(2) == 0
		}
		isFault := func(folder, name string) bool { return flaws[folder+" "+name] }
		bytes := random.Int63n(40)
		plan, err := Make(context.Background(), kept, places, Asked{Bytes: bytes, IsFault: isFault, Room: t.TempDir()})
		if err != nil {
			t.Fatal(err)
		}
		due := chosenPlainly(drawnPlaces, bytes, isFault)
		waiting := []history.Waiting{}
		for _, place := range drawnPlaces {
			of := history.Waiting{Folder: place.Folder, Number: place.Device}
			for name, file := range place.files {
				has, err := plan.Has(place.Folder, name)
				if err != nil || has != due[place.Folder+" "+name] {
					t.Fatalf("seed %d: %s %s is asked for: %v, %v", seed, place.Folder, name, has, err)
				}
				if !has && file.hasBytes() && place.Names.Has(place.Folder, name) {
					addWaiting(&of, file)
				}
			}
			if of.Files > 0 {
				waiting = append(waiting, of)
			}
		}
		if !reflect.DeepEqual(plan.Waiting, waiting) {
			t.Errorf("seed %d: %+v waits, not %+v", seed, plan.Waiting, waiting)
		}
		isOf := func(folder string, device uint64) bool { return folder == "docs" || device == 1 }
		if err := plan.Keep(kept, 77, isOf); err != nil {
			t.Fatal(err)
		}
		checkAsked(t, fmt.Sprintf("seed %d", seed), kept, drawnPlaces, due, isOf)
		plan.Close()
		kept.Close()
	}
}

// addWaiting counts a file that waits.
func addWaiting(of *history.Waiting, file drawn) {
	of.Files++
	of.Bytes += file.size
	if file.waits() == 0 {
		of.Never++
		of.NeverBytes += file.size
	} else if at := time.Unix(file.waits(), 0).UTC(); of.Oldest == nil || at.Before(*of.Oldest) {
		of.Oldest = &at
	}
}

// checkAsked compares what a history has once a plan is kept: of those devices what was asked for, and of the others what it had.
func checkAsked(t *testing.T, why string, kept *history.History, places []drawnPlace, chosen map[string]bool, isOf func(string, uint64) bool) {
	t.Helper()
	for _, place := range places {
		reader := kept.AskedReader(place.Folder, place.Device)
		for _, name := range []string{"a", "b", "b/c", "b/d", "e", "gone"} {
			found, is, err := reader.Of(name)
			file, isRecorded := place.files[name]
			due := file.asked
			if isOf(place.Folder, place.Device) {
				if chosen[place.Folder+" "+name] {
					due = &history.AskedFor{At: 77, Sequence: file.sequence}
				}
				if !file.hasBytes() || !place.Names.Has(place.Folder, name) {
					due = nil
				}
			} else if !isRecorded {
				continue // what it had isn't known here
			}
			if err != nil || is != (due != nil) || is && found != *due {
				t.Fatalf("%s: %s %s at %d: %+v, %v, not %+v: %v", why, place.Folder, name, place.Device, found, is, due, err)
			}
		}
		reader.Release()
	}
}
