package part

import (
	"encoding/json"
	"fmt"
	"math"
	"reflect"
	"testing"
)

// As many directories are listed as there is room for, rising, each with what is deleted with it; the others are counted. No count is below one name.
func TestDeletable(t *testing.T) {
	if DeletableOf(nil) != nil || (*Deletable)(nil).check() != nil {
		t.Error("something is deleted")
	}
	due := &Deletable{In: []DeletableIn{{"a", Count{Names: 2, Bytes: 9}}, {"b", Count{Names: 1}}}}
	if told := DeletableOf(map[string]*Count{"b": {Names: 1}, "a": {Names: 2, Bytes: 9}}); !reflect.DeepEqual(told, due) || told.check() != nil {
		t.Errorf("%+v", told)
	}
	many := map[string]*Count{}
	for number := 0; number < 10000; number++ {
		many[fmt.Sprintf("\x01%08d", number)] = &Count{Names: math.MaxInt64, Bytes: math.MaxInt64}
	}
	told := DeletableOf(many)
	text, err := json.Marshal(told)
	if err != nil || len(text) > mostOfDeletable+100 || len(told.In) < 1000 || told.More != int64(10000-len(told.In)) || told.In[len(told.In)-1].Directory != Bytes(fmt.Sprintf("\x01%08d", len(told.In)-1)) {
		t.Errorf("%d bytes, %d directories, and %d more", len(text), len(told.In), told.More)
	}
	for _, none := range []*Deletable{{In: []DeletableIn{{"a", Count{}}}}, {In: []DeletableIn{{"a", Count{Names: 1, Bytes: -1}}}}, {More: -1}} {
		if none.check() == nil {
			t.Errorf("%+v is none", none)
		}
	}
}
