package forecast

import (
	"fmt"
	"math/rand"
	"reflect"
	"sort"
	"strings"
	"testing"
)

// small gives random worlds of which all orders are tried, with what is foretold of them.
func small(t *testing.T, take func(seed int64, world World, answer Answer)) {
	tried := 0
	for seed := int64(0); seed < 400; seed++ {
		world := randomWorld(rand.New(rand.NewSource(seed)))
		if answer := New(Budget{States: 60}).OfGroup(world.Devices, world.Copied().Names); answer.IsAll {
			tried++
			take(seed, world, answer)
		}
	}
	if tried < 80 {
		t.Errorf("%d worlds were tried", tried)
	}
}

// turned gives the world with its devices in another order.
func (w World) turned(order []int) World {
	turned := World{}
	for _, i := range order {
		device := w.Devices[i]
		apart := device.Apart
		device.Apart = 0
		for at, j := range order {
			if apart.Has(j) {
				device.Apart |= 1 << at
			}
		}
		turned.Devices = append(turned.Devices, device)
	}
	for _, name := range w.Names {
		other := Name{Name: name.Name}
		for _, i := range order {
			views := []*Record{}
			for _, j := range order {
				views = append(views, name.Views[i][j])
			}
			other.Own, other.Disk, other.Views = append(other.Own, name.Own[i]), append(other.Disk, name.Disk[i]), append(other.Views, views)
		}
		turned.Names = append(turned.Names, other)
	}
	return turned
}

// textsOfEnds gives what stands on the disks at each end, by devices in this order.
func textsOfEnds(answer Answer, order []int) []string {
	var texts []string
	for _, end := range answer.Ends {
		text := make([]string, len(order))
		for at, i := range order {
			for _, place := range end.Disks[at] {
				text[i] += fmt.Sprint(place.Name, place.IsCopy, place.Node.Type, place.Node.Content, place.Node.Target, "; ")
			}
		}
		texts = append(texts, strings.Join(text, "| "))
	}
	sort.Strings(texts)
	return texts
}

// What comes of a world doesn't depend on the order in which its devices are named.
func TestTheOrderOfDevicesMakesNoDifference(t *testing.T) {
	small(t, func(seed int64, world World, answer Answer) {
		order := rand.New(rand.NewSource(seed)).Perm(len(world.Devices))
		turned := world.turned(order)
		other := New(Budget{States: 500}).OfGroup(turned.Devices, turned.Names)
		if due, found := textsOfEnds(answer, []int{0, 1, 2}[:len(order)]), textsOfEnds(other, order); !reflect.DeepEqual(due, found) {
			t.Errorf("seed %d: by devices %v it comes to %q, not %q", seed, order, found, due)
		}
	})
}

// Where nothing happens any more, nothing does when the devices go on. In which order they heard of three versions of a name no world says, so of such names
// nothing is asked.
func TestAnEndRests(t *testing.T) {
	small(t, func(seed int64, world World, _ Answer) {
		all := []int{0, 1, 2}[:len(world.Devices)]
		end := Settle(world, all, 1000)
		again := Settle(end, all, 2000)
		for _, name := range end.Names {
			versions := map[string]bool{}
			for i := range end.Devices {
				for _, entry := range append([]*Record{name.Own[i]}, name.Views[i]...) {
					if entry != nil {
						versions[fmt.Sprint(entry.Version)] = true
					}
				}
			}
			if now := again.find(name.Name); len(versions) < 3 && !reflect.DeepEqual(now.Disk, name.Disk) {
				t.Errorf("seed %d: %s goes on: %v, %v", seed, name.Name, now.Disk, name.Disk)
			}
		}
	})
}

// Nothing stands at an end that stood nowhere and was recorded nowhere.
func TestNothingIsInvented(t *testing.T) {
	small(t, func(seed int64, world World, answer Answer) {
		known := map[string]bool{"": true}
		for _, name := range world.Names {
			for i := range world.Devices {
				for _, entry := range append([]*Record{name.Own[i]}, name.Views[i]...) {
					if entry != nil {
						known[entry.Content.Hash], known[entry.Target] = true, true
					}
				}
				if what := name.Disk[i]; what != nil {
					known[what.Content.Hash], known[what.Target] = true, true
				}
			}
		}
		for _, end := range answer.Ends {
			for _, disk := range end.Disks {
				for _, place := range disk {
					if !known[place.Node.Content.Hash] || !known[place.Node.Target] {
						t.Errorf("seed %d: %+v", seed, place)
					}
				}
			}
		}
	})
}
