package outlook

import (
	"fmt"
	"math/rand"
	"testing"

	"syncthing-audit/forecast"
	"syncthing-audit/join"
	"syncthing-audit/part"
)

// BenchmarkNames measures what becomes of 10,000 names at fault on three devices, with plans.
func BenchmarkNames(b *testing.B) {
	random, all := rand.New(rand.NewSource(1)), []*join.Row{}
	for place := 0; place < 10000; place++ {
		all = append(all, faultyRow(place, random))
	}
	b.ResetTimer()
	for round := 0; round < b.N; round++ {
		told := outlookBy(forecast.Usual, folderOf("send-receive", "send-receive", "receive-only"), all)
		planned := int64(0)
		for _, plan := range told.Plans {
			planned += plan.Count
		}
		b.ReportMetric(float64(told.Names), "names")
		b.ReportMetric(float64(told.Walked), "walked")
		b.ReportMetric(float64(planned), "planned")
		b.ReportMetric(float64(told.NotKnown), "not-known")
	}
}

// faultyRow draws a name with bytes of its own: missing, rotten, changed or behind on one or two of three devices.
func faultyRow(place int, random *rand.Rand) *join.Row {
	row := calm(fmt.Sprintf("n%05d", place), 3, 0)
	hash := func(kind byte) part.Hash { return part.Hash{byte(place), byte(place >> 8), kind} }
	for _, at := range row.At {
		at.Own.Content.Hash = hash(1)
		at.Disk.Contents[0].Hash = hash(1)
		for view := range at.Views {
			at.Views[view].Record.Content.Hash = hash(1)
		}
	}
	for faults := 1 + random.Intn(2); faults > 0; faults-- {
		member := random.Intn(3)
		switch at := row.At[member]; random.Intn(4) {
		case 0:
			at.Disk = nil
		case 1:
			if at.Disk != nil {
				at.Disk.Contents[0].Hash = hash(2)
			}
		case 2:
			if at.Disk != nil {
				at.Disk.Contents[0].Hash, at.Disk.ModifiedS = hash(byte(3+member)), int64(200+random.Intn(50))
			}
		default:
			changedAt(row, member, 0, member == 2)
			at.Own.Content.Hash = hash(byte(9 + member))
			at.Disk.Contents[0].Hash = at.Own.Content.Hash
			for other, seen := range row.At {
				for view := range seen.Views {
					if other != member && viewOf(other, view) == member {
						seen.Views[view].Record.Content = &part.Content{Size: 7, BlockSize: 1 << 17, Hash: at.Own.Content.Hash}
					}
				}
			}
		}
	}
	return row
}
