package spill

import (
	"os"
	"strings"
	"testing"
)

// thing is what the lists here have.
type thing struct {
	Name   string
	Number int
}

// filled gives a list of so many things.
func filled(count int) *List[thing] {
	made := &List[thing]{}
	for number := 0; number < count; number++ {
		made.Add(thing{strings.Repeat("<ü>", number%3), number})
	}
	return made
}

// allOf gives the things of a list.
func allOf(list *List[thing]) []thing {
	made := []thing{}
	list.Each(func(one *thing) { made = append(made, *one) })
	return made
}

// A list gives what was put into it, in its order, as often as it is asked, whether or not memory has room for all of
// it. Nothing of it stands in the temporary directory.
func TestListsOfAnyLength(t *testing.T) {
	room := t.TempDir()
	t.Setenv("TMPDIR", room)
	for _, count := range []int{0, 1, MostInMemory, MostInMemory + 1, 5 * MostInMemory} {
		list := filled(count)
		if list.Len() != int64(count) {
			t.Errorf("%d of %d", list.Len(), count)
		}
		for range []int{1, 2} {
			all := allOf(list)
			if len(all) != count || list.Err() != nil {
				t.Fatalf("%d of %d, %v", len(all), count, list.Err())
			}
			for number, one := range all {
				if one != (thing{strings.Repeat("<ü>", number%3), number}) {
					t.Fatalf("in place %d stands %v", number, one)
				}
			}
		}
		if left, err := os.ReadDir(room); err != nil || len(left) != 0 {
			t.Errorf("%d things leave %v, %v", count, left, err)
		}
	}
}

// Two readings at once don't disturb each other, and more may be added after one.
func TestReadingsBeside(t *testing.T) {
	t.Setenv("TMPDIR", t.TempDir())
	list := filled(2 * MostInMemory)
	one, other := list.Read(), list.Read()
	for number := 0; number < 2*MostInMemory; number++ {
		if number%2 == 0 {
			other.Peek()
		}
		if one.Peek().Number != number || other.Peek().Number != number {
			t.Fatalf("%d: %v, %v", number, one.Peek(), other.Peek())
		}
		one.Take()
		other.Take()
	}
	if one.Peek() != nil || other.Peek() != nil {
		t.Error("the list goes on behind its end")
	}
	list.Add(thing{"last", -1})
	all := allOf(list)
	if len(all) != 2*MostInMemory+1 || all[len(all)-1].Number != -1 || list.Err() != nil {
		t.Errorf("%d things, %v", len(all), list.Err())
	}
}

// Where there is no room, the list says so, and never that it is whole.
func TestWithoutARoom(t *testing.T) {
	t.Setenv("TMPDIR", "/nowhere")
	list := filled(MostInMemory)
	if list.Err() != nil {
		t.Error(list.Err())
	}
	list.Add(thing{})
	if err := list.Err(); err == nil || !strings.Contains(err.Error(), "can't be kept in /nowhere (TMPDIR may name another directory)") {
		t.Error(err)
	}
	if all := allOf(list); len(all) != 0 {
		t.Errorf("%d things of a list that isn't whole", len(all))
	}
}
