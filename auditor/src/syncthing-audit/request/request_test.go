package request

import (
	"reflect"
	"testing"

	"google.golang.org/protobuf/encoding/protowire"
	"syncthing-audit/message"
)

// By the type a request has no hash, or one drawn at random.
func TestRequests(t *testing.T) {
	if text := string(ForBlock("a", 0, 1).Message(1, "docs")); text != "\x08\x01\x12\x04docs\x1a\x01a\x28\x01" {
		t.Errorf("%q", text)
	}
	drawn := map[[32]byte]bool{}
	for n := 0; n < 100; n++ {
		request, err := ForLength("a", 0)
		if err != nil || drawn[*request.drawn] || *request.drawn == [32]byte{} {
			t.Fatal(request, err)
		}
		drawn[*request.drawn] = true
	}
}

// A request for a length asks for one byte behind it, by a hash drawn at random and the weak hash of nothing. One for a block has neither.
func TestWhatARequestSays(t *testing.T) {
	length, err := ForLength("a/b", 7)
	if err != nil {
		t.Fatal(err)
	}
	for _, row := range []struct {
		request Request
		size    int32
		due     map[protowire.Number]interface{}
	}{
		{length, 1, map[protowire.Number]interface{}{1: uint64(5), 2: "docs", 3: "a/b", 4: uint64(7), 5: uint64(1), 6: string(length.drawn[:]), 8: uint64(1)}},
		{ForBlock("b", 131072, 99), 99, map[protowire.Number]interface{}{1: uint64(5), 2: "docs", 3: "b", 4: uint64(131072), 5: uint64(99)}},
	} {
		told := map[protowire.Number]interface{}{}
		err := message.Each(row.request.Message(5, "docs"), func(field message.Field) error {
			told[field.Number] = field.Value
			if field.Text != nil {
				told[field.Number] = string(field.Text)
			}
			return nil
		})
		if err != nil || !reflect.DeepEqual(told, row.due) || row.request.Size() != row.size {
			t.Errorf("%v, not %v: %v", told, row.due, err)
		}
	}
}
