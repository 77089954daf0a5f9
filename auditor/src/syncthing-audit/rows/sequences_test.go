package rows

import (
	"math/rand"
	"testing"
)

// A number is free until it is taken, whatever stands beside it in the table, and all are free again after a reset.
func TestNumbersThatAreTaken(t *testing.T) {
	random := rand.New(rand.NewSource(1))
	var numbers sequences
	for round := 0; round < 50; round++ {
		taken := map[int64]bool{}
		for next := 0; next < 1+random.Intn(300); next++ {
			number := int64(1 + random.Intn(200))
			if random.Intn(3) == 0 {
				number <<= 32 + random.Intn(24) // many of these have one hash
			}
			if numbers.take(number) == taken[number] {
				t.Fatalf("round %d: %d is taken: %v", round, number, taken[number])
			}
			taken[number] = true
			if numbers.count != len(taken) || len(numbers.table) < 2*numbers.count {
				t.Fatalf("%d of %d in %d", numbers.count, len(taken), len(numbers.table))
			}
		}
		numbers.reset()
	}
}
