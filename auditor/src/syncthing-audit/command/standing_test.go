package command

import (
	"bytes"
	"fmt"
	"io"
	"reflect"
	"strings"
	"testing"
	"time"

	"syncthing-audit/answering"
	"syncthing-audit/audit"
	"syncthing-audit/commandline"
	"syncthing-audit/join"
	"syncthing-audit/looks"
	"syncthing-audit/part"
	"syncthing-audit/report"
	"syncthing-audit/rows"
)

// aField is a field of a part that can be set to something else.
type aField struct {
	place string
	value reflect.Value
}

// fieldsOf gives all fields in a value that aren't its names, whatever they are of.
func fieldsOf(place string, value reflect.Value) []aField {
	fields := []aField{}
	switch value.Kind() {
	case reflect.Pointer:
		fields = append(fields, aField{place, value})
		if !value.IsNil() {
			fields = append(fields, fieldsOf(place, value.Elem())...)
		}
	case reflect.Slice:
		fields = append(fields, aField{place, value})
		for at := 0; at < value.Len(); at++ {
			fields = append(fields, fieldsOf(fmt.Sprint(place, "[", at, "]"), value.Index(at))...)
		}
	case reflect.Struct:
		for at := 0; at < value.NumField() && value.Type() != reflect.TypeOf(time.Time{}); at++ {
			fields = append(fields, fieldsOf(place+"."+value.Type().Field(at).Name, value.Field(at))...)
		}
	default:
		fields = append(fields, aField{place, value})
	}
	return fields
}

// otherValues gives what a field may have in place of what it has.
func otherValues(field reflect.Value) []reflect.Value {
	of := field.Type()
	values := []reflect.Value{reflect.Zero(of)}
	switch field.Kind() {
	case reflect.Int, reflect.Int64:
		for _, number := range []int64{-1, 1<<63 - 1} {
			values = append(values, reflect.ValueOf(number).Convert(of))
		}
	case reflect.Uint32, reflect.Uint64:
		for _, number := range []uint64{1<<64 - 1} {
			values = append(values, reflect.ValueOf(number).Convert(of))
		}
	case reflect.Bool:
		values = append(values, reflect.ValueOf(!field.Bool()))
	case reflect.String:
		values = append(values, reflect.ValueOf("x").Convert(of))
	case reflect.Slice:
		pointed := reflect.New(of.Elem()).Elem()
		if pointed.Kind() == reflect.String {
			pointed.SetString("disk")
		}
		values = append(values, reflect.Append(field, pointed), reflect.Append(reflect.Zero(of), pointed))
		if field.Len() > 0 {
			values = append(values, reflect.Append(field.Slice(0, field.Len()), field.Index(0)), field.Slice(1, field.Len()))
		}
	case reflect.Pointer:
		values = append(values, reflect.New(of.Elem()))
	case reflect.Map:
		other := reflect.MakeMap(of)
		other.SetMapIndex(reflect.ValueOf("x"), reflect.ValueOf("y"))
		values = append(values, other)
	}
	return values
}

// Each field of a part may have whatever value: the part is refused with a reason, or audited, and nothing panics.
func TestEachFieldStandsWhereItMay(t *testing.T) {
	refused, taken := 0, 0
	for place, make := range []func(device byte) []*hostile{stoppedParts, runningParts} {
		for at, field := range fieldsOf("", reflect.ValueOf(make(1))) {
			if place > 0 && strings.Contains(field.place, ".Folders") {
				continue // a head says the same of folders in each part
			}
			for next := 0; ; next++ {
				parts := make(1)
				field := fieldsOf("", reflect.ValueOf(parts))[at]
				values := otherValues(field.value)
				if next == len(values) || !field.value.CanSet() { // the list of parts itself
					break
				}
				if field.value.Set(values[next]); !isWritable(parts) {
					continue
				}
				if err := collected(t, fmt.Sprint(field.place, " as ", values[next]), parts, make(2)); err == nil {
					taken++
				} else if refused++; err.Error() == "" {
					t.Errorf("%s: refused without a reason", field.place)
				}
			}
		}
	}
	if refused < 100 || taken < 100 {
		t.Errorf("%d parts were refused, and %d audited", refused, taken)
	}
}

// collected goes through two devices' parts, and tells what is found, with no syncaudit. It says where that panics.
func collected(t *testing.T, why string, some, other []*hostile) (err error) {
	defer func() {
		if panicked := recover(); panicked != nil {
			t.Errorf("%s: %v", why, panicked)
		}
	}()
	devices := []*join.Device{}
	for _, parts := range [][]*hostile{some, other} {
		streams := []part.Stream{}
		for _, from := range parts {
			read, err := part.NewReader(bytes.NewReader(from.written(t)))
			if err != nil {
				return err
			}
			streams = append(streams, read)
		}
		stream := streams[0]
		if len(streams) > 1 {
			if stream, err = looks.Join(streams[0], streams[1]); err != nil {
				return err
			}
		}
		devices = append(devices, join.NewDevice(stream, "a part"))
	}
	plan, err := join.NewPlan(devices, nil)
	if err != nil {
		return err
	}
	answer, err := audit.Collect(plan, audit.Options{}, func(*rows.Piece) error { return nil })
	if err != nil {
		return err
	}
	report.Refusals(io.Discard, answer)
	_, err = answering.Tell(io.Discard, io.Discard, commandline.Options{}, answer, nil)
	return err
}

// isWritable says whether the program's own writer can write parts.
func isWritable(parts []*hostile) bool {
	for _, part := range parts {
		if part == nil || part.Head == nil {
			return false
		}
		for _, line := range part.Lines {
			if line == nil || line.Name != nil && hasNil(line.Name) {
				return false
			}
		}
	}
	return true
}

// hasNil says whether a view has no record.
func hasNil(name *part.Name) bool {
	for _, seen := range name.Views {
		if seen.Record == nil {
			return true
		}
	}
	return false
}

// What stands in a part of two looks is refused in one of a stopped device.
func TestNothingOfLooksInAPlainPart(t *testing.T) {
	for why, change := range map[string]func(lines []*part.Line){
		"it moved":             func(lines []*part.Line) { lines[1].Name = &part.Name{Name: "a", Moved: []string{part.MovedDisk}} },
		"it is being received": func(lines []*part.Line) { lines[1].Name.Receiving = "a.tmp" },
		"it has a stamp":       func(lines []*part.Line) { lines[1].Name.Disk.Stamp = "stamp" },
	} {
		parts := stoppedParts(1)
		change(parts[0].Lines)
		if err := collected(t, why, parts, stoppedParts(2)); err == nil || !strings.Contains(err.Error(), why+", and the part is of no look") {
			t.Errorf("%s: %v", why, err)
		}
	}
}
