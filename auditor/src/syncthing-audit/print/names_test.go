package print

import (
	"fmt"
	"math/rand"
	"reflect"
	"sort"
	"strings"
	"testing"
)

// Names of devices are told as they stand, or rising; those of one name stay in their order.
func TestNamesOfDevices(t *testing.T) {
	random := rand.New(rand.NewSource(1))
	called := Names(func(device string) string { return device[1:] })
	for try := 0; try < 200; try++ {
		var ids, names []string
		for count := random.Intn(6); count > 0; count-- {
			ids = append(ids, fmt.Sprint(count, string(rune('a'+random.Intn(4)))))
			names = append(names, ids[len(ids)-1][1:])
		}
		given := append([]string{}, ids...)
		rising := called.Rising(ids)
		if told := called.AsTheyStand(ids); told != strings.Join(names, ", ") {
			t.Fatalf("%s of %s", told, ids)
		}
		sort.Strings(names)
		if told := called.All(ids); told != strings.Join(names, ", ") || strings.Join(called.Each(rising), ", ") != told || strings.Join(given, " ") != strings.Join(ids, " ") {
			t.Fatalf("%s, %s of %s", told, rising, ids)
		}
		for place := 1; place < len(rising); place++ { // the ids' numbers fall
			if rising[place-1][1:] == rising[place][1:] && rising[place-1] < rising[place] {
				t.Fatalf("%s of %s", rising, ids)
			}
		}
	}
}

// What is told of devices is told once, in the order in which it comes first, with each device once; of all of them without any.
func TestWhatIsToldOfDevices(t *testing.T) {
	random := rand.New(rand.NewSource(2))
	for try := 0; try < 200; try++ {
		said, order, devices := Places{}, []string{}, map[string]map[string]bool{}
		for count := random.Intn(9); count > 0; count-- {
			told, device := string(rune('a'+random.Intn(3))), []string{"", "X", "Y", "Z"}[random.Intn(4)]
			if said.Add(told, device); devices[told] == nil {
				order, devices[told] = append(order, told), map[string]bool{}
			}
			devices[told][device] = true
		}
		var is, due []string
		said.Each(strings.ToLower, func(told, devices string) { is = append(is, told+": "+devices) })
		for _, told := range order {
			var rising []string
			for _, device := range []string{"X", "Y", "Z"} {
				if devices[told][device] {
					rising = append(rising, strings.ToLower(device))
				}
			}
			due = append(due, told+": "+strings.Join(rising, ", "))
		}
		if !reflect.DeepEqual(is, due) {
			t.Fatalf("%q, not %q", is, due)
		}
	}
}
