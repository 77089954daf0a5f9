package audit

import (
	"errors"
	"fmt"
	"strings"
	"testing"

	"syncthing-audit/choice"
	"syncthing-audit/limits"
	"syncthing-audit/part"
	"syncthing-audit/rows"
)

// namesOfBoth gives as many names, which both devices have alike.
func namesOfBoth(count int) (one, other []*part.Name) {
	for number := 0; number < count; number++ {
		name := fmt.Sprintf("%06d", number)
		sequence := func(n *part.Name) { n.Own.Sequence = int64(number) + 1 }
		one, other = append(one, named(name, with(sequence))), append(other, named(name, with(sequence)))
	}
	return one, other
}

// Each name stands in one document, in its order, and the documents are counted in theirs. A folder without names is one document without any.
func TestEachNameIsInOneDocument(t *testing.T) {
	for count, documents := range map[int]int{0: 1, 1: 1, limits.MostNames: 3} {
		one, other := namesOfBoth(count)
		plan := planOfNames(t, false, one, other)
		met, places := 0, 0
		answer, err := Collect(plan, Options{}, func(one *rows.Piece) error {
			if len(one.Rows) == 0 && count > 0 || len(one.Written) > limits.MostBytes {
				t.Errorf("%d names: a document of %d names and %d bytes", count, len(one.Rows), len(one.Written))
			}
			for _, row := range one.Rows {
				if row.Name != fmt.Sprintf("%06d", met) {
					t.Errorf("%d names: %s is name %d", count, row.Name, met)
				}
				met++
			}
			if one.Place != places {
				t.Errorf("%d names: document %d is in place %d", count, places, one.Place)
			}
			places++
			return nil
		})
		if met != count || places != documents || answer.Folders[0].Documents != documents || (err == nil) != (count > 0) {
			t.Errorf("%d names: %d in %d documents, %v", count, met, places, err)
		}
	}
}

// What no document has of two names together is told of the second one, of no device. With bytes, a document has room for as many as any has.
func TestANameThatNoDocumentHas(t *testing.T) {
	one, other := namesOfBoth(3)
	one[1].Own.Sequence = one[0].Own.Sequence
	one[2].Disk.Data = make([]byte, bytesOfOne)
	asked := 0
	answer, err := Collect(planOfNames(t, false, one, other), Options{WithBytes: true}, func(one *rows.Piece) error { asked += len(one.Rows); return nil })
	if err != nil {
		t.Fatal(err)
	}
	out := answer.Folders[0].LeftOut
	if asked != 2 || len(out) != 1 || out[0].Name != "000001" || len(out[0].Why) != 1 || out[0].Why[0].Device != "" || out[0].Why[0].Kind != part.OddRecord {
		t.Errorf("%d asked, %+v", asked, out)
	}
}

// A name that no line of rows has room for is told as left out, of no device, and a strict audit refuses it. All others are asked.
func TestANameThatNoLineHas(t *testing.T) {
	for _, consent := range []Consent{{}, Of(part.Large), Of(part.OddName)} {
		one, other := namesOfBoth(3)
		for _, name := range []*part.Name{one[1], other[1]} {
			linked(name)
			name.Own.Target = strings.Repeat(string(name.Name), 100000)
		}
		other[1].Own.ModifiedS++
		asked := ""
		answer, err := Collect(planOfNames(t, false, one, other), Options{AsRows: true, Consent: consent}, func(piece *rows.Piece) error {
			for _, row := range piece.Rows {
				asked += row.Name + " "
			}
			return nil
		})
		if err != nil {
			t.Fatal(err)
		}
		out := answer.Folders[0].LeftOut
		isRefused := len(answer.Refusals) == 1 && answer.Refusals[0].Kind == part.Large && answer.Refusals[0].Name == "000001" && asked == ""
		isOut := len(answer.Refusals) == 0 && len(out) == 1 && out[0].Name == "000001" && len(out[0].Why) == 1 && out[0].Why[0].Device == "" && out[0].Why[0].Kind == part.Large &&
			asked == "000000 000002 " && answer.IsPartial()
		if isRefused != consent.Kinds[part.OddName] || isOut == isRefused {
			t.Errorf("%+v: %q asked, %+v, %+v", consent, asked, out, answer.Refusals)
		}
	}
}

// Where names were asked for, and none is there, that is told. Where some are there and none is audited, what was left out counts.
func TestNoNameOfThoseThatWereAskedFor(t *testing.T) {
	for _, row := range []struct {
		names choice.Names
		has   bool
		told  string
	}{
		{choice.Names{}, false, ErrNothing.Error()}, {choice.Names{Prefix: "a"}, false, "refused: no name begins with a"},
		{choice.Names{Prefix: "a"}, true, ErrNothing.Error()},
	} {
		one := []*part.Name{}
		if row.has {
			one = append(one, with(out(part.Special)))
		}
		plan := planOfNames(t, false, one, nil)
		for _, device := range plan.Devices {
			device.Head.Names = row.names
		}
		_, err := Collect(plan, Options{}, func(*rows.Piece) error { return nil })
		if err == nil || !strings.HasPrefix(err.Error(), row.told) || errors.Is(err, ErrNothing) != (row.told == ErrNothing.Error()) {
			t.Errorf("%+v: %v", row, err)
		}
	}
}

// A folder that is left out at a device is told as that alone.
func TestFoldersThatAreLeftOutAreNotUnasked(t *testing.T) {
	for away, told := range map[string]string{"": "[{music  false} {pics  false}]", "its disk isn't there": "[{pics  false}]"} {
		plan := planWith(t, nil, nil, func(head *part.Head) {
			head.Others = []part.Other{{ID: "music", Devices: []string{idOf(3)}, Away: away}, {ID: "pics", Devices: []string{idOf(3)}}}
		})
		if is := fmt.Sprint(unaskedOf(plan, plan.Devices[0])); is != told {
			t.Errorf("%q: %s", away, is)
		}
	}
}

// Documents have stand-ins or bytes, and streams have rows, as it is asked for.
func TestDocumentsAreAsAskedFor(t *testing.T) {
	whole := func(name *part.Name) { name.Disk.Data = []byte("bytes") }
	told := map[string]bool{}
	for _, options := range []Options{{}, {WithBytes: true}, {AsRows: true}} {
		plan := planOf(t, with(whole), with(whole))
		written := ""
		if _, err := Collect(plan, options, func(one *rows.Piece) error {
			due := filled(rows.NewDocuments(plan.Folders[0], options.WithBytes, limits.MostBytes))
			if options.AsRows {
				due = rows.NewStream(plan.Folders[0])
			}
			for _, row := range one.Rows {
				due.Add(row)
			}
			if written = string(one.Written); written != string(due.Take().Written) {
				t.Errorf("%+v: %s", options, written)
			}
			return nil
		}); err != nil {
			t.Fatal(err)
		}
		told[written] = true
	}
	if len(told) != 3 {
		t.Errorf("%d kinds of documents", len(told))
	}
}

// What becomes of the names of a folder is foretold of those that are there.
func TestNamesAreForetold(t *testing.T) {
	for _, row := range []struct {
		one, other *part.Name
		names      int64
	}{{with(), with(concurrent), 1}, {nil, nil, 0}} {
		answer, err := Collect(planOf(t, row.one, row.other), Options{}, func(*rows.Piece) error { return nil })
		if answer == nil || answer.Folders[0].Outlook == nil || answer.Folders[0].Outlook.Names != row.names {
			t.Errorf("%+v, %v", answer, err)
		}
	}
}
