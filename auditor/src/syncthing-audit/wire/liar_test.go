package wire

import (
	"math/rand"
	"testing"
)

// Whatever a device answers, a look at a name ends after few requests: as many as there are bits in a length, a few times over.
func TestALookAtALiarEnds(t *testing.T) {
	const mostOfAName = 400
	always := func(code uint64) func(int64, int) uint64 { return func(int64, int) uint64 { return code } }
	for called, lie := range map[string]func(offset int64, request int) uint64{
		"as long as any file, and over each length": func(offset int64, _ int) uint64 {
			if offset == farBehind {
				return codeNone
			}
			return codeNoSuchFile
		},
		"always there":     always(codeNone),
		"never there":      always(codeNoSuchFile),
		"ignored":          always(codeInvalidFile),
		"a code of no one": always(1 << 62),
		"by turns":         func(_ int64, request int) uint64 { return uint64(request % 2 * codeNoSuchFile) },
		"at random":        func(int64, int) uint64 { return uint64(rand.Intn(2) * codeNoSuchFile) },
		"mostly there": func(int64, int) uint64 {
			if rand.Intn(20) == 0 {
				return codeNoSuchFile
			}
			return codeNone
		},
	} {
		found, device := look(t, map[string]string{"a": "text", "b": ""}, func(f *fake) {
			f.lie = func(offset int64, request int) uint64 {
				if request > 2*mostOfAName {
					return codeInvalidFile // ends it
				}
				return lie(offset, request)
			}
		})
		if device.requests > 2*mostOfAName || len(found) != 2 {
			t.Errorf("%s: %d requests, %v", called, device.requests, found)
		}
	}
}
