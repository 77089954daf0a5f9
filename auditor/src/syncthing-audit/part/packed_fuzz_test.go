package part

import (
	"reflect"
	"testing"

	"syncthing-audit/hang"
)

// framed gives a part with these frames, and with a trailer that counts so many folders and names.
func framed(text []byte, folders, names uint64) []byte {
	return sealed(begin + "2\n" + string(text) + trailerFrame(folders, names))
}

func trailerFrame(folders, names uint64) string {
	trailer := string(trailerOf(folders, names))
	return frame(frameOfTrailer, uint64(len(trailer)), trailer)
}

// Whatever stands in a part of encoding 2, it is refused with a reason, or what is read of it is written and read as the same.
func FuzzPackedParts(f *testing.F) {
	for _, change := range []func(*aWhole){func(*aWhole) {}, looking(lookID)} {
		whole := aPart()
		change(whole)
		text := unzipped(f, whole.written(f))
		seed := text[len(begin)+2 : len(text)-len(Hash{})-len(trailerFrame(2, 5))]
		if _, lines, err := readAll(framed(seed, 2, 5)); err != nil || !areOne(lines, whole.lines) {
			f.Fatal(err)
		}
		f.Add(seed, uint64(2), uint64(5))
		f.Add(seed, uint64(1), uint64(5))
	}
	f.Fuzz(func(t *testing.T, text []byte, folders, names uint64) {
		defer hang.Watch()()
		read, lines, err := readAll(framed(text, folders, names))
		if err != nil {
			if err.Error() == "" {
				t.Error("refused without a reason")
			}
			return
		}
		anew, found, err := readAll((&aWhole{read.Head(), lines}).written(t))
		if err != nil || !reflect.DeepEqual(read.Head(), anew.Head()) || !areOne(lines, found) {
			t.Errorf("%v\n%+v\n%+v", err, lines, found)
		}
	})
}
