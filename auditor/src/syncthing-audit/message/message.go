// Package message reads the messages that Syncthing writes into its index and sends to other devices, field by field, without their
// types, and writes such: 1.29 has the types where no other program reaches them.
package message

import "google.golang.org/protobuf/encoding/protowire"

// Field is a field of a message, with a number or a text. A field of another kind has neither.
type Field struct {
	Number protowire.Number
	Value  uint64
	Text   []byte // a part of the message itself
}

// Fields are those of a message, one by one: a message of very many fields takes no room for them.
type Fields struct {
	Field // the one that was gone to
	rest  []byte
	err   *error
}

// FieldsOf begins before the first field of a message. There are none once there is an error, and the first error is put there.
func FieldsOf(message []byte, err *error) Fields { return Fields{rest: message, err: err} }

// Next goes to the next field, if there is one.
func (f *Fields) Next() bool {
	f.Number, f.Value, f.Text, f.rest = next(f.rest, f.err)
	return f.Number != 0
}

// next gives the first field, which has a number, and what is behind it; neither where none is left, or something is wrong. Each word of these is a
// result of its own, since Go puts a larger one into memory.
func next(from []byte, wrong *error) (place protowire.Number, value uint64, text, rest []byte) {
	if len(from) == 0 || *wrong != nil {
		return 0, 0, nil, nil
	}
	tag, length := first(from), 1
	if tag >= more {
		tag, length = longer(from)
	}
	place, kind := protowire.DecodeTag(tag)
	if length < 0 || place < protowire.MinValidNumber {
		_, _, length = protowire.ConsumeTag(from)
		*wrong = protowire.ParseError(length)
		return 0, 0, nil, nil
	}
	rest = from[length:]
	switch one := first(rest); {
	case kind == protowire.VarintType && one < more:
		value, length = one, 1
	case kind == protowire.VarintType:
		value, length = protowire.ConsumeVarint(rest)
	case kind == protowire.BytesType && one < more && int(one) < len(rest):
		length = 1 + int(one)
		text = rest[1:length]
	case kind == protowire.BytesType:
		text, length = protowire.ConsumeBytes(rest)
	default:
		length = protowire.ConsumeFieldValue(place, kind, rest)
	}
	if length < 0 {
		*wrong = protowire.ParseError(length)
		return 0, 0, nil, nil
	}
	return place, value, text, rest[length:]
}

// more is what a byte of a number has at least where another one follows.
const more = 0x80

// first gives the first byte of a number, more where there is none: most numbers have one byte, and are had without a call.
func first(from []byte) uint64 {
	if len(from) > 0 {
		return uint64(from[0])
	}
	return more
}

// longer gives the number of several bytes that stands first, and how many these are: mostly two.
func longer(from []byte) (value uint64, length int) {
	if len(from) > 1 && from[1] < more {
		return uint64(from[0]&(more-1)) | uint64(from[1])<<7, 2
	}
	return protowire.ConsumeVarint(from)
}

// Each gives the fields of a message to take. The first error ends it.
func Each(message []byte, take func(Field) error) (err error) {
	for fields := FieldsOf(message, &err); fields.Next(); {
		err = take(fields.Field)
	}
	return err
}

// AppendNumber appends a field with a number. One of 0 isn't written.
func AppendNumber(to []byte, field protowire.Number, value uint64) []byte {
	if value == 0 {
		return to
	}
	return protowire.AppendVarint(protowire.AppendTag(to, field, protowire.VarintType), value)
}

// AppendText appends a field with a text. One of no text isn't written.
func AppendText(to []byte, field protowire.Number, text []byte) []byte {
	if len(text) == 0 {
		return to
	}
	return protowire.AppendBytes(protowire.AppendTag(to, field, protowire.BytesType), text)
}

// AppendMessage appends a field with a message, which fill appends in turn. One of nothing is written, too: it is there.
func AppendMessage(to []byte, field protowire.Number, fill func([]byte) []byte) []byte {
	to = protowire.AppendTag(to, field, protowire.BytesType)
	begin := len(to)
	to = fill(to)
	length := len(to) - begin
	room := protowire.SizeVarint(uint64(length))
	for next := 0; next < room; next++ {
		to = append(to, 0)
	}
	copy(to[begin+room:], to[begin:begin+length])
	protowire.AppendVarint(to[:begin], uint64(length))
	return to
}
