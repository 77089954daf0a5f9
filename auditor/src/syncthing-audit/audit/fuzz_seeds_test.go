package audit

import (
	"bytes"
	"fmt"
	"testing"

	"syncthing-audit/hang"
	"syncthing-audit/join"
	"syncthing-audit/looks"
	"syncthing-audit/part"
)

// changed gives a part with texts in place of others, each of which it has.
func changed(t testing.TB, text []byte, pairs ...string) []byte {
	for at := 0; at < len(pairs); at += 2 {
		if !bytes.Contains(text, []byte(pairs[at])) {
			t.Fatalf("no part here has %s", pairs[at])
		}
		text = bytes.ReplaceAll(text, []byte(pairs[at]), []byte(pairs[at+1]))
	}
	return text
}

// aSlice gives a part of one slice of the names.
func aSlice(t testing.TB, number byte) []byte {
	return changed(t, aPart(t, number), `"version":1,`, fmt.Sprintf(`"version":%d,"slice":1,"slices":2,`, part.VersionOfSlices))
}

// lookOf gives the words of a head that say which look at a device this is: after the first looks at both devices, or the first one.
func lookOf(t testing.TB, number byte, isSecond bool) string {
	what := fmt.Sprintf(`"id":"%032d"`, number)
	if isSecond {
		what = fmt.Sprintf(`"after":{%q:"%032d",%q:"%032d"}`, deviceID(t, 1), 1, deviceID(t, 2), 2)
	}
	return fmt.Sprintf(`"version":%d,"look":{"home":"home","at":"1970-01-01T00:00:0%dZ",%s},`, part.VersionOfLooks, map[bool]int{false: 3, true: 9}[isSecond], what)
}

func deviceID(t testing.TB, number byte) string {
	read, err := part.NewReader(zipped(aPart(t, number)))
	if err != nil {
		t.Fatal(err)
	}
	return read.Head().Device
}

// aLook gives the part of a look at a device, at which the deletion moved, and which receives the directory. A second look reads no bytes.
func aLook(t testing.TB, number byte, isSecond bool) []byte {
	text := changed(t, aPart(t, number), `"version":1,`, lookOf(t, number, isSecond))
	lines := bytes.SplitAfter(text, []byte("\n"))
	lines[3] = []byte(`{"name":{"name":"b","moved":["disk"]}}` + "\n")
	lines[5] = changed(t, lines[5], `"name":"d",`, `"name":"d","receiving":".syncthing.d.tmp",`)
	if isSecond {
		lines[2] = changed(t, lines[2], `"disk":`, `"was":`)
	}
	return bytes.Join(lines, nil)
}

// joinedLooks joins the two looks at each of two devices.
func joinedLooks(texts ...[]byte) ([]*join.Device, error) {
	var devices []*join.Device
	for at := 0; at < len(texts); at += 2 {
		first, err := part.NewReader(zipped(texts[at]))
		if err != nil {
			return nil, err
		}
		second, err := part.NewReader(zipped(texts[at+1]))
		if err != nil {
			return nil, err
		}
		stream, err := looks.Join(first, second)
		if err != nil {
			return nil, err
		}
		devices = append(devices, join.NewDevice(stream, "two looks"))
	}
	return devices, nil
}

// auditedLooks audits two devices that were looked at twice.
func auditedLooks(t *testing.T, texts ...[]byte) error {
	devices, err := joinedLooks(texts...)
	if err == nil {
		_, err = answerOfDevices(t, devices)
	}
	return err
}

// The seeds are parts of all kinds that are audited, so what is changed of them gets far.
func TestSeedsAreAudited(t *testing.T) {
	if err := audited(t, aSlice(t, 1), aSlice(t, 2)); err != nil {
		t.Errorf("slices: %v", err)
	}
	if err := auditedLooks(t, aLook(t, 1, false), aLook(t, 1, true), aLook(t, 2, false), aLook(t, 2, true)); err != nil {
		t.Errorf("looks: %v", err)
	}
}

// Whatever two looks at a device say, they are audited or refused with a reason, and nothing panics.
func FuzzLooks(f *testing.F) {
	first, second := aLook(f, 1, false), aLook(f, 1, true)
	others := [][]byte{aLook(f, 2, false), aLook(f, 2, true)}
	f.Add(first, second)
	f.Add(second, first)
	f.Add(first, changed(f, second, `"moved":["disk"]`, `"moved":["record","views"]`))
	f.Add(changed(f, first, `"moved":["disk"]`, `"moved":["unscanned","receiving"]`), second)
	f.Fuzz(func(t *testing.T, first, second []byte) {
		defer hang.Watch()()
		if err := auditedLooks(t, first, second, others[0], others[1]); err != nil && err.Error() == "" {
			t.Error("refused without a reason")
		}
	})
}
