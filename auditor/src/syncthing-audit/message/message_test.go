package message

import (
	"errors"
	"math/rand"
	"reflect"
	"testing"

	"google.golang.org/protobuf/encoding/protowire"
)

func TestEach(t *testing.T) {
	message := protowire.AppendVarint(protowire.AppendTag(nil, 1, protowire.VarintType), 300)
	message = protowire.AppendBytes(protowire.AppendTag(message, 16, protowire.BytesType), []byte("text"))
	message = protowire.AppendFixed64(protowire.AppendTag(message, 2, protowire.Fixed64Type), 7)
	var read []Field
	if err := Each(message, func(field Field) error { read = append(read, field); return nil }); err != nil {
		t.Fatal(err)
	}
	if want := []Field{{Number: 1, Value: 300}, {Number: 16, Text: []byte("text")}, {Number: 2}}; !reflect.DeepEqual(read, want) {
		t.Errorf("%v in place of %v", read, want)
	}
	for cut := 1; cut < len(message); cut++ {
		whole := cut == 3 || cut == 10
		if err := Each(message[:cut], func(Field) error { return nil }); (err == nil) != whole {
			t.Errorf("the first %d bytes: %v", cut, err)
		}
	}
	stop := errors.New("stop")
	if err := Each(message, func(Field) error { return stop }); err != stop {
		t.Errorf("an error of the one who takes: %v", err)
	}
}

// plainly reads a message field by field by protowire alone.
func plainly(message []byte) (read []Field, err error) {
	for len(message) > 0 {
		number, kind, length := protowire.ConsumeTag(message)
		if length < 0 {
			return read, protowire.ParseError(length)
		}
		field := Field{Number: number}
		message = message[length:]
		switch kind {
		case protowire.VarintType:
			field.Value, length = protowire.ConsumeVarint(message)
		case protowire.BytesType:
			field.Text, length = protowire.ConsumeBytes(message)
		default:
			length = protowire.ConsumeFieldValue(number, kind, message)
		}
		if length < 0 {
			return read, protowire.ParseError(length)
		}
		read, message = append(read, field), message[length:]
	}
	return read, nil
}

// Whatever bytes a message has, its fields and its fault are those that a plain reading finds.
func TestFieldsAreThoseOfAPlainReading(t *testing.T) {
	random := rand.New(rand.NewSource(1))
	whole := 0
	for turn := 0; turn < 50000; turn++ {
		message := make([]byte, random.Intn(12))
		for place := range message {
			message[place] = []byte{0, 1, 2, 8, 10, 13, 127, 128, 129, 255, byte(random.Intn(16)), byte(random.Intn(256))}[random.Intn(12)]
		}
		if random.Intn(2) == 0 {
			message = protowire.AppendVarint(protowire.AppendTag(message, protowire.Number(1+random.Intn(3000)), protowire.VarintType), random.Uint64()>>random.Intn(64))
		}
		if random.Intn(2) == 0 {
			message = protowire.AppendBytes(protowire.AppendTag(message, protowire.Number(1+random.Intn(3000)), protowire.BytesType), make([]byte, random.Intn(300)))
		}
		var read []Field
		err := Each(message, func(field Field) error { read = append(read, field); return nil })
		due, fault := plainly(message)
		if !reflect.DeepEqual(read, due) || !reflect.DeepEqual(err, fault) {
			t.Fatalf("%x is read as %v, %v; not as %v, %v", message, read, err, due, fault)
		}
		if err == nil && len(read) > 1 {
			whole++
		}
	}
	if whole < 1000 {
		t.Errorf("%d messages are whole", whole)
	}
}
