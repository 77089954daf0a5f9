package lists

import (
	"fmt"
	"testing"
)

// What is made of a list has its order; of an empty list it is an empty one, also as JSON, and a choice of nothing is nothing.
func TestLists(t *testing.T) {
	isOdd := func(number int) bool { return number%2 == 1 }
	if odd := Where([]int{3, 2, 1, 4}, isOdd); fmt.Sprint(odd) != "[3 1]" || Where([]int{2}, isOdd) != nil {
		t.Error(odd)
	}
	if Has([]int{2, 4}, isOdd) || Has(nil, isOdd) || !Has([]int{2, 3}, isOdd) || !Has([]int{3, 2}, isOdd) {
		t.Error("an odd number")
	}
	if words := Each([]int{3, 2}, func(number int) string { return fmt.Sprint(number) + "." }); fmt.Sprint(words) != "[3. 2.]" || Each(nil, isOdd) == nil {
		t.Error(words)
	}
	for most, told := range map[int]string{0: "[]", 2: "[3 2]", 3: "[3 2 1]", 4: "[3 2 1]"} {
		if first := AtMost(most, []int{3, 2, 1}); fmt.Sprint(first) != told {
			t.Error(first)
		}
	}
}

// Groups have the order of their first keys, and a key that was only looked for has none.
func TestGroups(t *testing.T) {
	groups := Grouped[string, int]{}
	if groups.Has("b") || len(groups.All()) > 0 {
		t.Error("there is a group of nothing")
	}
	for _, key := range []string{"b", "a", "b"} {
		*groups.Of(key)++
	}
	if all := groups.All(); fmt.Sprint(groups.Keys) != "[b a]" || len(all) != 2 || *all[0] != 2 || *all[1] != 1 || !groups.Has("a") || groups.Has("c") {
		t.Error(groups.Keys)
	}
}
