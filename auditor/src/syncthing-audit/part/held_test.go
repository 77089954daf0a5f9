package part

import (
	"reflect"
	"strings"
	"testing"
)

// A name that is kept out is told of the nearest directory above it that isn't, each by whether it goes with that; of the folder's own directory nothing is told.
func TestWhereNamesStandThatAreKeptOut(t *testing.T) {
	isIgnored := func(name string) bool { return strings.HasSuffix(name, ".out") }
	held, end, none := &Held{}, End{}, End{}
	if held.Tell(&none); none.Holding != nil || none.Deletable != nil {
		t.Errorf("%+v", none)
	}
	for _, name := range []string{"a.out", "d/a.out", "d/b.out", "d/b.out/in", "d/b.out/in/deep.out", "d/e/a.out", "d/a.out", "top.out", "top.out/in", "x/a.out/b.out/in"} {
		held.Take(name, 3, !strings.HasPrefix(name, "d/e") && name != "x/a.out/b.out/in", isIgnored)
	}
	held.Tell(&end)
	due := End{Holding: &Holding{Names: []Bytes{"d/e", "x"}}, Deletable: &Deletable{In: []DeletableIn{{"d", Count{Names: 4, Bytes: 12}}, {"d/b.out/in", Count{Names: 1, Bytes: 3}}}}}
	if !reflect.DeepEqual(end, due) {
		t.Errorf("%+v, %+v", end.Holding, end.Deletable)
	}
}
