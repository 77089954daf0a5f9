package part

import (
	"math"
	"testing"
)

// What parts count is added up to the greatest number, and is never below 0.
func TestSums(t *testing.T) {
	const most = math.MaxInt64
	for _, one := range [][3]int64{{1, 2, 3}, {most, 0, most}, {most, 1, most}, {1, most, most}, {most - 1, 1, most}, {1 << 62, 1 << 62, most}, {0, 0, 0}} {
		if sum := Sum(one[0], one[1]); sum != one[2] {
			t.Errorf("%v: %d", one, sum)
		}
	}
	count := Count{}
	for turn := 0; turn < 3; turn++ {
		count.Add(most/2+1, most/2+1)
	}
	if count != (Count{most, most}) {
		t.Errorf("%+v", count)
	}
}
