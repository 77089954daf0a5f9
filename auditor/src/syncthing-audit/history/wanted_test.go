package history

import (
	"math"
	"strings"
	"testing"

	"syncthing-audit/part"
)

// One looks for the bytes before they changed under their time, and else for those that were read last, of all devices each once.
func TestWanted(t *testing.T) {
	for _, one := range []struct {
		why    string
		days   [][]device
		wanted string
	}{
		{"never read", nil, ""},
		{"another name", [][]device{{{"fa": {bytes: 'x'}}, {"e": {bytes: 'x'}}}}, ""},
		{"the same on both", [][]device{{{"f": {bytes: 'a'}}, {"f": {bytes: 'a'}}}}, "a"},
		{"others on each", [][]device{{{"f": {bytes: 'a'}}, {"f": {bytes: 'b'}}}}, "ab"},
		{"on the second alone", [][]device{{{"e": {bytes: 'x'}, "g": {bytes: 'x'}}, {"f": {bytes: 'b'}}}}, "b"},
		{"rotten on one", [][]device{{{"f": {bytes: 'a'}}, {"f": {bytes: 'a'}}}, {{"f": {bytes: 'b'}}, {"f": {bytes: 'a'}}}}, "a"},
		{"rotten on both", [][]device{{{"f": {bytes: 'a'}}, {"f": {bytes: 'a'}}}, {{"f": {bytes: 'b'}}, {"f": {bytes: 'b'}}}}, "a"},
	} {
		history := opened(t)
		for day, devices := range one.days {
			history.mustTake(t, day, devices...)
		}
		found, err := history.Wanted("docs", "f")
		told := []string{}
		for _, reading := range found {
			told = append(told, string(reading.Content.Hash[0]))
		}
		if err != nil || len(told) != len(one.wanted) || strings.Join(told, "") != one.wanted && strings.Join(told, "") != "ba" {
			t.Errorf("%s: %v, %v", one.why, told, err)
		}
	}
}

// What was read of another folder, whose keys are as long, isn't what one may look for in this one.
func TestWantedOfAnotherFolder(t *testing.T) {
	history := opened(t)
	reading := Reading{At: night(1), Content: part.Content{Size: 9, BlockSize: 9}}
	for _, folder := range []string{"docr", "doct"} { // before it, and behind it
		if err := history.db.Put(keyOfReading(folder, math.MaxUint64, "f"), reading.bytes(), nil); err != nil {
			t.Fatal(err)
		}
	}
	if found, err := history.Wanted("docs", "f"); err != nil || len(found) > 0 {
		t.Errorf("%+v, %v", found, err)
	}
}
