package finding

import (
	"bytes"
	"encoding/json"
	"errors"
	"fmt"
	"io"
	"reflect"
	"strings"
	"testing"

	"syncthing-audit/part"
	"syncthing-audit/spill"
)

// withLists gives an answer whose two folders have so many things in each of their lists.
func withLists(count int) *Answer {
	made := &Answer{}
	for folder := 0; folder < 2; folder++ {
		next := &Folder{ID: fmt.Sprint(folder)}
		for number := 0; number < count; number++ {
			name := fmt.Sprintf("%d <ü> %d", folder, number)
			next.Unwon.Add(Unwon{name, []Cause{{1, Unscanned}}})
			next.Permissions.Add(Permissions{name, []Bits{{Has: true, Index: 0o644}, {}}})
			next.Damaged.Add(Damaged{Name: part.Bytes(name + "\xff"), IsFile: number%2 == 0, At: []DamagedAt{{Member: 1, Why: "input/output error"}}})
			next.Loose.Add(Loose{name, []LooseAt{{2, VersionDiffers, true}}})
		}
		made.Folders = append(made.Folders, next)
	}
	return made
}

// listsOf gives all that the lists of an answer have.
func listsOf(answer *Answer) []any {
	var made []any
	for _, folder := range answer.Folders {
		folder.Unwon.Each(func(one *Unwon) { made = append(made, *one) })
		folder.Permissions.Each(func(one *Permissions) { made = append(made, *one) })
		folder.Damaged.Each(func(one *Damaged) { made = append(made, *one) })
		folder.Loose.Each(func(one *Loose) { made = append(made, *one) })
	}
	return made
}

// written gives the lists of an answer as they are written.
func written(t *testing.T, answer *Answer) string {
	var made bytes.Buffer
	if err := answer.WriteLists(json.NewEncoder(&made)); err != nil {
		t.Fatal(err)
	}
	return made.String()
}

// readInto reads lists into an answer of so many folders.
func readInto(folders int, text string) (*Answer, error) {
	made := &Answer{}
	for next := 0; next < folders; next++ {
		made.Folders = append(made.Folders, &Folder{})
	}
	return made, made.ReadLists(json.NewDecoder(strings.NewReader(text)))
}

// What is written is read again, whether memory has all of it or not.
func TestListsAreReadAsTheyWereWritten(t *testing.T) {
	t.Setenv("TMPDIR", t.TempDir())
	for _, count := range []int{0, 3, spill.MostInMemory + 7} {
		answer := withLists(count)
		read, err := readInto(2, written(t, answer))
		if made := listsOf(read); err != nil || len(made) != 8*count || !reflect.DeepEqual(made, listsOf(answer)) {
			t.Errorf("%d: %d things, %v", count, len(made), err)
		}
	}
}

// Lists that end too early, that are of no folder or that are no JSON are none.
func TestListsThatArentWhole(t *testing.T) {
	whole := written(t, withLists(2))
	lines := strings.SplitAfter(whole, "\n")
	for end := 0; end < len(lines)-2; end++ {
		if _, err := readInto(2, strings.Join(lines[:end], "")); !errors.Is(err, io.ErrUnexpectedEOF) {
			t.Errorf("of %d lines: %v", end, err)
		}
	}
	for why, text := range map[string]string{"of no folder": `{"Folder":2,"Unwon":{"Name":"a"}}`, "of a folder before the first": `{"Folder":-1}`,
		"no JSON": `{"Folder":0,"Unwon":`, "no list": `[]`} {
		if _, err := readInto(2, text+whole); err == nil {
			t.Errorf("%s: taken", why)
		}
	}
}

// A list that isn't whole isn't written as one that is.
func TestListsWithoutARoomArentWritten(t *testing.T) {
	t.Setenv("TMPDIR", "/nowhere")
	if err := withLists(spill.MostInMemory + 1).WriteLists(json.NewEncoder(io.Discard)); err == nil {
		t.Error("written")
	}
}
