package audit

import (
	"errors"
	"fmt"
	"reflect"
	"strings"
	"testing"

	"syncthing-audit/ask"
	"syncthing-audit/finding"
	"syncthing-audit/join"
	"syncthing-audit/part"
	"syncthing-audit/rows"
)

// What a part or whoever takes documents fails with ends an audit.
func TestAnAuditThatFails(t *testing.T) {
	failed := errors.New("it fails")
	take := func(*rows.Piece) error { return failed }
	if _, err := Collect(planOf(t, with(), with()), Options{}, take); err != failed {
		t.Error(err)
	}
	for place := 0; place < 2; place++ {
		for end := 0; end < 4; end++ {
			plan := planOf(t, with(), with())
			stream := plan.Devices[place].Stream.(*lines)
			stream.left, stream.err = stream.left[:end], failed
			if _, err := Collect(plan, Options{}, func(*rows.Piece) error { return nil }); !errors.Is(err, failed) {
				t.Errorf("device %d without line %d: %v", place, end, err)
			}
		}
	}
}

// Replies to several pieces are added. A folder of which one isn't answered has no answer.
func TestRepliesAreAdded(t *testing.T) {
	plan := planOf(t, with(rotten), with())
	var documents []*rows.Piece
	answer, err := Collect(plan, Options{}, func(one *rows.Piece) error { documents = append(documents, one); return nil })
	if err != nil || len(documents) != 1 || documents[0].Place != 0 || answer.Folders[0].Documents != 1 {
		t.Fatal(err, documents)
	}
	answer.Folders[0].Documents = 2 // as if there had been two
	replies := NewReplies()
	failures := []finding.Failure{{Reason: "StoreDiffers", Name: "a", Device: 1}}
	pairs := int64(5)
	replies.Take(documents[0], &ask.Reply{Names: 1, Deleted: 2, Failures: failures, Convergence: finding.Convergence{Pairs: &pairs}})
	if err := replies.AddTo(answer); err == nil || !strings.Contains(err.Error(), "syncaudit didn't answer to all of it") {
		t.Error(err)
	}
	if err := NewReplies().AddTo(answer); err == nil {
		t.Error("without a reply there is an answer")
	}
	refused := *answer
	refused.Refusals = []finding.Refusal{{Kind: part.Absent}}
	if err := NewReplies().AddTo(&refused); err != nil {
		t.Error(err)
	}
	replies.Take(&rows.Piece{Folder: "docs", Rows: []*join.Row{{Name: "b"}}}, &ask.Reply{Names: 3, Deleted: 4})
	replies.Take(&rows.Piece{Folder: "docs", Own: "another's"}, &ask.Reply{Names: 7, Failures: failures})
	if err := replies.AddTo(answer); err != nil {
		t.Fatal(err)
	}
	folder := answer.Folders[0]
	var told []finding.Failure
	folder.EachFailure(func(one *finding.Failure) { told = append(told, *one) })
	if folder.Names != 4 || folder.Deleted != 6 || !reflect.DeepEqual(told, failures) || len(folder.Rows) != 1 || folder.Rows["a"] == nil || folder.NotFirm != nil ||
		folder.Convergence.Pairs == nil || *folder.Convergence.Pairs != pairs {
		t.Errorf("%+v, %v", folder, told)
	}
	loose := &finding.Answer{Folders: []*finding.Folder{{ID: "docs", Documents: 1, Rows: map[string]*join.Row{}}}}
	firm := NewReplies()
	firm.Take(&rows.Piece{Folder: "docs"}, &ask.Reply{NotFirm: &finding.Failure{Reason: finding.VersionDiffers, Name: "z"}})
	if err := firm.AddTo(loose); err == nil || !strings.Contains(err.Error(), `keeps it from being firm, and this program that nothing does`) {
		t.Errorf("syncaudit says what this program hasn't found: %v", err)
	}
}

// What a plan refuses or leaves out, and its observers, are in the answer, each device by the name that a person knows.
func TestWhatAPlanRefuses(t *testing.T) {
	plan := planOf(t, with(), with())
	plan.Refusals = []join.Refusal{{Kind: part.Absent, Folder: "docs", Label: "Documents", Device: idOf(3), Name: "na\x1bs", Why: "why"}, {Folder: "docs", Device: idOf(4), Why: "x"}}
	plan.LeftOut = []join.Refusal{{Kind: part.Unshared, Folder: "pics", Device: idOf(5), Why: "y"}}
	plan.Observers = []join.Observer{{Folder: "docs", Device: "o"}, {Folder: "music", Device: "o"}}
	asked := 0
	answer, err := Collect(plan, Options{Consent: Of(part.Absent), Refused: func() { asked++ }}, func(*rows.Piece) error { t.Error("a document is asked"); return nil })
	if err != nil || asked != 1 {
		t.Fatal(err, asked)
	}
	refusals := []finding.Refusal{{Folder: "docs", Device: idOf(4), ID: idOf(4), Why: "x"}}
	if !reflect.DeepEqual(answer.Refusals, refusals) || len(answer.LeftOut) != 2 || answer.LeftOut[0].Device == "na\x1bs" || answer.LeftOut[0].Kind != part.Absent || answer.LeftOut[0].ID != idOf(3) ||
		answer.LeftOut[0].Label != "Documents" || answer.LeftOut[1].Device != idOf(5) {
		t.Errorf("%+v, %+v", answer.Refusals, answer.LeftOut)
	}
	if before := Refused(plan, Of(part.Absent)); !reflect.DeepEqual(before.Refusals, answer.Refusals) || !reflect.DeepEqual(before.LeftOut, answer.LeftOut) {
		t.Errorf("%+v", before)
	}
	if !reflect.DeepEqual(answer.Observers, plan.Observers[:1]) || answer.Folders[0].Outlook != nil || len(answer.Devices) != 2 || answer.Devices[0].IsSilent {
		t.Errorf("%+v, %+v", answer.Observers, answer.Devices)
	}
}

// planOfNames gives a plan of two devices that have these names, and that were looked at twice or once.
func planOfNames(t *testing.T, isLive bool, one, other []*part.Name) *join.Plan {
	plan := planOf(t, nil, nil)
	for place, names := range [][]*part.Name{one, other} {
		stream := plan.Devices[place].Stream.(*lines)
		end := stream.left[len(stream.left)-1]
		stream.left = stream.left[:1:1]
		for _, name := range names {
			stream.left = append(stream.left, part.Line{Name: name})
		}
		stream.left = append(stream.left, end)
		if isLive {
			plan.Devices[place].Head.Look = &part.Look{ID: "look"}
		}
	}
	return plan
}

func named(name string, of *part.Name) *part.Name {
	of.Name = part.Bytes(name)
	return of
}

// Names below a directory that can't be read at one device are counted with it, and what another device's own disk and index say of them is told.
func TestWhatIsBelowADirectoryThatCannotBeRead(t *testing.T) {
	below := func() *part.Name {
		return &part.Name{Name: "d/", Out: []part.LeftOut{{Kind: part.Unreadable, Why: "why", Below: true}}}
	}
	plan := planOfNames(t, false, []*part.Name{below(), named("e", with())},
		[]*part.Name{named("d", with()), named("d/x", with()), named("d/y", with(rotten)), named("d0", with()), named("e", with())})
	answer, err := Collect(plan, Options{Consent: Of(part.Unreadable)}, func(*rows.Piece) error { return nil })
	if err != nil {
		t.Fatal(err)
	}
	folder := answer.Folders[0]
	var damaged []string
	folder.Damaged.Each(func(one *finding.Damaged) { damaged = append(damaged, string(one.Name)) })
	if folder.Unlisted.LeftOut != (finding.Count{}) || len(folder.LeftOut) != 1 || folder.LeftOut[0].Names != 2 || folder.LeftOut[0].Bytes != 10 || !reflect.DeepEqual(damaged, []string{"d/y"}) {
		t.Errorf("%+v, %q", *folder.LeftOut[0], damaged)
	}
}

// Of devices that ran it is counted which hadn't heard of another's record. What is told of a name is kept with all that the devices have of it.
func TestWhatIsNotHeardOf(t *testing.T) {
	plan := planOfNames(t, true, []*part.Name{named("a", with()), named("b", with(unscanned))}, []*part.Name{named("a", with(seeing(1, false)))})
	answer, err := Collect(plan, Options{}, func(*rows.Piece) error { return nil })
	if err != nil {
		t.Fatal(err)
	}
	folder := answer.Folders[0]
	if !reflect.DeepEqual(folder.Live.Unheard, []finding.Unheard{{Device: idOf(1), Of: idOf(2), Names: 1}, {Device: idOf(2), Of: idOf(1), Names: 1}}) || folder.Rows["b"] == nil || folder.Rows["b"].At[0].Disk.Size != 5 {
		t.Errorf("%+v, %v", folder.Live.Unheard, folder.Rows)
	}
}

// Devices are told in their order, whatever is wrong at each.
func TestTheOrderOfDevicesWithDamage(t *testing.T) {
	twice := with(func(n *part.Name) {
		*n = part.Name{Out: []part.LeftOut{{Kind: part.Damaged, Why: "why"}, {Kind: part.Damaged, Why: "and why"}}}
	})
	plan := planOfNames(t, false, []*part.Name{named("a", with(rotten)), named("b", with())}, []*part.Name{named("a", twice), named("b", with())})
	answer, err := Collect(plan, Options{}, func(*rows.Piece) error { return nil })
	if err != nil {
		t.Fatal(err)
	}
	var told []string
	answer.Folders[0].Damaged.Each(func(one *finding.Damaged) {
		for _, at := range one.At {
			told = append(told, fmt.Sprint(at.Member, at.Why))
		}
	})
	if !reflect.DeepEqual(told, []string{"0" + whyRot, "1why", "1and why"}) {
		t.Errorf("%q", told)
	}
}

// Where what is recorded can be copied from is told by devices, and how much stands nowhere.
func TestSourcesOfWhatWaits(t *testing.T) {
	folder := &finding.Folder{Members: planOf(t, nil, nil).Folders[0].Members}
	for told, waits := range map[string]*finding.Waiting{
		"": {}, "1 on laptop (AAAAAAA)": {From: map[string]int64{idOf(2): 1}}, "1 on no audited device": {Nowhere: 1},
		"3 on laptop (AAAAAAA), 2 on laptop (AAAAAAA), 4 on no audited device": {From: map[string]int64{idOf(1): 3, idOf(2): 2}, Nowhere: 4},
	} {
		if is := sourcesOf(waits, folder); is != told {
			t.Errorf("%q, not %q", is, told)
		}
	}
}
