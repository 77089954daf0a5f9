package part

import (
	"fmt"
	"reflect"
	"testing"
)

// As many names are listed as there is room for, rising; the others are counted.
func TestHolding(t *testing.T) {
	if HoldingOf(nil) != nil {
		t.Error("something is held")
	}
	if holding := HoldingOf(map[string]bool{"b": true, "a": true}); !reflect.DeepEqual(holding, &Holding{Names: []Bytes{"a", "b"}}) {
		t.Errorf("%+v", holding)
	}
	many := map[string]bool{}
	for number := 0; number < mostOfHolding/8+5; number++ {
		many[fmt.Sprintf("%08d", number)] = true
	}
	if holding := HoldingOf(many); len(holding.Names) != mostOfHolding/8 || holding.More != 5 {
		t.Errorf("%d names, and %d more", len(holding.Names), holding.More)
	}
}
