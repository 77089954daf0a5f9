package message

import (
	"bytes"
	"reflect"
	"testing"

	"google.golang.org/protobuf/encoding/protowire"
)

// What is appended is read again; a number of 0 and a text of nothing aren't written.
func TestWhatIsAppended(t *testing.T) {
	written := []byte("\x08\x01")
	var due []Field
	due = append(due, Field{Number: 1, Value: 1})
	for _, value := range []uint64{0, 1, 2, 127, 128, 1<<64 - 1} {
		before := len(written)
		if written = AppendNumber(written, 3, value); value > 0 {
			due = append(due, Field{Number: 3, Value: value})
		} else if len(written) != before {
			t.Error("a number of 0 is written")
		}
	}
	for _, text := range []string{"", "x", "text"} {
		before := len(written)
		if written = AppendText(written, 4, []byte(text)); text != "" {
			due = append(due, Field{Number: 4, Text: []byte(text)})
		} else if len(written) != before {
			t.Error("no text is written")
		}
	}
	var read []Field
	if err := Each(written, func(field Field) error { read = append(read, field); return nil }); err != nil || !reflect.DeepEqual(read, due) {
		t.Errorf("%v, %v, not %v", err, read, due)
	}
}

// A message that is appended in place is the same as one that is made first, whatever room its length takes.
func TestMessagesAreAppendedInPlace(t *testing.T) {
	for _, length := range []int{0, 1, 127, 128, 16383, 16384} {
		inner := bytes.Repeat([]byte{7}, length)
		appended := AppendMessage([]byte("before"), 5, func(to []byte) []byte { return append(to, inner...) })
		expected := protowire.AppendBytes(protowire.AppendTag([]byte("before"), 5, protowire.BytesType), inner)
		if !bytes.Equal(appended, expected) {
			t.Errorf("a message of %d bytes is appended as %x", length, appended)
		}
	}
}
