package audit

import (
	"fmt"
	"io"
	"strings"
	"sync/atomic"
	"testing"

	"github.com/syncthing/syncthing/lib/protocol"
	"golang.org/x/exp/slices"
	"syncthing-audit/finding"
	"syncthing-audit/join"
	"syncthing-audit/part"
	"syncthing-audit/rows"
)

// lines is a part in memory.
type lines struct {
	head *part.Head
	left []part.Line
	err  error
}

func (l *lines) Head() *part.Head { return l.head }

func (l *lines) Next() (part.Line, error) {
	if len(l.left) == 0 {
		return part.Line{}, l.err
	}
	next := l.left[0]
	l.left = l.left[1:]
	return next, nil
}

func idOf(number byte) string { return protocol.DeviceID{7: number}.String() }

// goodFile gives a file that is as it is recorded, at version 1:1 and with bytes by a letter.
func goodFile(bytes byte) *part.Name {
	content := part.Content{Size: 5, BlockSize: protocol.MinBlockSize, Hash: part.Hash{bytes}}
	own := &part.Record{ModifiedS: 3, ModifiedBy: 1, Version: [][2]uint64{{1, 1}}, Sequence: 1, Content: &content}
	return &part.Name{Name: "a", Own: own, Disk: &part.Node{ModifiedS: 3, Size: 5, Contents: []part.Content{content}}}
}

func with(changes ...func(*part.Name)) *part.Name {
	made := goodFile('x')
	for _, change := range changes {
		change(made)
	}
	return made
}

func localChange(n *part.Name) { n.Own.Invalid = true }
func unscanned(n *part.Name)   { n.Own = nil }
func unstored(n *part.Name)    { n.Disk = nil }
func deleted(n *part.Name)     { n.Own.Deleted, n.Own.Content, n.Disk = true, nil, nil }
func rotten(n *part.Name)      { n.Disk.Contents[0].Hash = part.Hash{'r'} }
func lost(n *part.Name)        { n.Disk.Lost = "it is lost" }
func later(n *part.Name)       { n.Own.Version = [][2]uint64{{1, 2}} }
func concurrent(n *part.Name)  { n.Own.Version = [][2]uint64{{2, 1}} }
func touched(n *part.Name)     { n.Disk.ModifiedS++ }

func out(kind string) func(*part.Name) {
	return func(n *part.Name) {
		*n = part.Name{Name: n.Name, Out: []part.LeftOut{{Kind: kind, Why: "why", Bytes: 9}}}
	}
}

func outBeside(kind string) func(*part.Name) {
	return func(n *part.Name) { n.Out = []part.LeftOut{{Kind: kind, Why: "why"}} }
}

func outElsewhere(n *part.Name) {
	n.Out = []part.LeftOut{{Kind: part.Ignored, Why: part.WhyIgnoredElsewhere}}
}

func ignoredThere(n *part.Name) {
	n.Own, n.Views, n.Out = nil, nil, []part.LeftOut{{Kind: part.Ignored, Why: "why"}}
}

func seeing(version uint64, isInvalid bool) func(*part.Name) {
	return func(n *part.Name) {
		n.Views = []part.Seen{{Record: &part.Record{Version: [][2]uint64{{9, version}}, Sequence: 1, ModifiedBy: 1, Type: 1, Invalid: isInvalid}}}
	}
}

func moved(waits func() *part.Name, why ...string) func(*part.Name) {
	return func(n *part.Name) { *n = part.Name{Name: n.Name, Moved: why, Waits: waits()} }
}

func noWaits() *part.Name { return nil }

// planOf gives a plan of two devices that have this of the name "a"; each was looked at twice if one has what moved.
func planOf(t *testing.T, one, other *part.Name) *join.Plan {
	return planWith(t, one, other, func(*part.Head) {})
}

// planWith gives such a plan of devices whose heads are changed.
func planWith(t *testing.T, one, other *part.Name, change func(head *part.Head)) *join.Plan {
	isLive := one != nil && one.Moved != nil || other != nil && other.Moved != nil
	var devices []*join.Device
	for number, name := range map[byte]*part.Name{1: one, 2: other} {
		with := idOf(3 - number)
		head := &part.Head{Device: idOf(number), Name: "laptop", Others: []part.Other{}, Folders: []part.Folder{{ID: "docs", Kind: "send-receive", IndexID: uint64(number), Max: 9,
			Directory: idOf(number), Sharing: []part.Sharing{{Device: with}}, Views: []part.View{{Device: with, IndexID: uint64(3 - number), Max: 9, Heard: 9}}}}}
		if isLive {
			head.Look = &part.Look{ID: "look", After: map[string]string{idOf(1): "look", idOf(2): "look"}}
			head.Folders[0].Rest = &part.Rest{State: part.RestIdle}
		}
		change(head)
		stream := &lines{head: head, left: []part.Line{{Begin: &part.Begin{Folder: "docs"}}}, err: io.EOF}
		if name != nil {
			stream.left = append(stream.left, part.Line{Name: name})
		}
		stream.left = append(stream.left, part.Line{End: &part.End{Folder: "docs", Max: head.Folders[0].Max, Bytes: 5}})
		devices = append(devices, join.NewDevice(stream, "of "+string('0'+rune(number))))
	}
	plan, err := join.NewPlan(devices, nil)
	if err != nil {
		t.Fatal(err)
	}
	return plan
}

// digest tells all that was found of a folder, in words.
func digest(answer *finding.Answer, names int) string {
	folder, told := answer.Folders[0], []string{}
	add := func(format string, values ...interface{}) { told = append(told, fmt.Sprintf(format, values...)) }
	for word, count := range map[string]int64{"names": folder.Names, "deleted": folder.Deleted, "deleting": folder.Deleting, "outside": folder.Outside.Names} {
		if count > 0 {
			add("%s %d", word, count)
		}
	}
	folder.Unwon.Each(func(one *finding.Unwon) { add("unwon %v", one.At) })
	folder.Damaged.Each(func(one *finding.Damaged) {
		for _, at := range one.At {
			add("damaged %d rot %v file %v", at.Member, at.IsRot, one.IsFile)
		}
	})
	folder.Loose.Each(func(one *finding.Loose) { add("loose %v", one.At) })
	for _, one := range folder.LeftOut {
		add("left out %d, %d bytes", one.Names, one.Bytes)
	}
	for _, one := range answer.Refusals {
		add("refused %s %s of %s: %s", one.Kind, one.Name, one.Device, one.Why)
	}
	if folder.Live != nil {
		for _, one := range folder.Live.Names {
			for _, at := range one.At {
				add("moves %d %q from %v", placesOf(folder, at.Device)[0], at.Waits, placesOf(folder, at.Have...))
			}
		}
	}
	if names > 0 {
		add("in a document")
	}
	sortWords(told)
	return strings.Join(told, "; ")
}

// placesOf gives the places of devices in a folder.
func placesOf(folder *finding.Folder, devices ...string) []int {
	places := []int{}
	for _, device := range devices {
		places = append(places, slices.IndexFunc(folder.Members, func(member join.Member) bool { return member.Head.Device == device }))
	}
	return places
}

func sortWords(words []string) {
	for i := range words {
		for j := i; j > 0 && words[j] < words[j-1]; j-- {
			words[j], words[j-1] = words[j-1], words[j]
		}
	}
}

// Each kind of name of two devices, and all that is found of it.
func TestEachKindOfName(t *testing.T) {
	waiting := func(changes ...func(*part.Name)) func(*part.Name) {
		return moved(func() *part.Name { return with(changes...) }, part.MovedUnscanned)
	}
	for _, row := range []struct {
		why        string
		one, other *part.Name
		told       string
	}{
		{"in step", with(), with(), "in a document"},
		{"on one alone", with(), nil, "in a document"},
		{"rotten, which syncaudit tells", with(rotten), with(), "in a document"},
		{"deleted on both", with(deleted), with(deleted), "in a document"},
		{"a deletion that is due", with(deleted, later), with(), "deleting 1; in a document"},
		{"a deletion that isn't", with(deleted), with(later), "in a document"},
		{"a later version of the same", with(later), with(), "in a document; loose [{1 VersionDiffers true}]"},
		{"a concurrent version of the same", with(), with(concurrent), "in a document; loose [{1 VersionDiffers false}]"},
		{"a later version of other bytes", with(later, func(n *part.Name) { n.Own.Content = &part.Content{Size: 6, BlockSize: protocol.MinBlockSize} }), with(), "in a document"},
		{"another type", with(later, func(n *part.Name) { n.Own.Type, n.Own.Content = 1, nil }), with(), "in a document"},
		{"another target", with(func(n *part.Name) { symlinked(n, "b"); later(n) }), with(func(n *part.Name) { symlinked(n, "c") }), "in a document"},
		{"one target", with(func(n *part.Name) { symlinked(n, "b"); later(n) }), with(func(n *part.Name) { symlinked(n, "b") }), "in a document; loose [{1 VersionDiffers true}]"},
		{"another's record that isn't below", with(seeing(1, false)), with(), "in a document; loose [{0 ViewNotBelow false}]"},
		{"another's invalid record", with(seeing(1, true)), with(), "in a document"},
		{"local changes of both", with(localChange), with(localChange), "names 1; unwon [{0 local change} {1 local change}]"},
		{"a local change of what is gone", with(localChange, unstored), nil, "deleted 1; names 1; unwon [{0 local change}]"},
		{"unscanned", with(unscanned), nil, "names 1; unwon [{0 unscanned}]"},
		{"unscanned, and seen", with(unscanned), with(unscanned, unstored, seeing(1, false)), "names 1; unwon [{0 unscanned} {1 only seen}]"},
		{"unscanned, and seen as invalid", with(unscanned), with(unscanned, unstored, seeing(1, true)), "names 1; unwon [{0 unscanned}]"},
		{"seen alone", with(unscanned, unstored, seeing(1, false)), nil, "deleted 1; names 1; unwon [{0 only seen}]"},
		{"seen as invalid alone", with(unscanned, unstored, seeing(1, true)), nil, "in a document"},
		{"ignored on both", with(ignoredThere), with(ignoredThere), "outside 1"},
		{"ignored on one, and unknown to the other", with(ignoredThere), nil, "outside 1"},
		{"ignored where it isn't", with(ignoredThere, unstored), nil, "refused ignored a of laptop (AAAAAAA): why"},
		{"ignored on one", with(ignoredThere), with(), "refused ignored a of laptop (AAAAAAA): why"},
		{"ignored, and recorded", with(outBeside(part.Ignored)), nil, "refused ignored a of laptop (AAAAAAA): why"},
		{"ignored, and seen", with(ignoredThere, seeing(1, false)), nil, "refused ignored a of laptop (AAAAAAA): why"},
		{"out", with(out(part.Special)), with(), "left out 1, 9 bytes"},
		{"out, and rotten elsewhere", with(out(part.Special)), with(rotten), "damaged 1 rot true file false; left out 1, 9 bytes"},
		{"out, and rotten beside", with(rotten, outBeside(part.Special)), with(), "left out 1, 5 bytes"},
		{"out, and touched elsewhere", with(out(part.Special)), with(rotten, touched), "left out 1, 9 bytes"},
		{"out, and a local change elsewhere", with(out(part.Special)), with(rotten, localChange), "left out 1, 9 bytes"},
		{"out, and deleted elsewhere", with(out(part.Special)), with(deleted), "left out 1, 9 bytes"},
		{"out, and not stored elsewhere", with(out(part.Special)), with(unstored), "left out 1, 9 bytes"},
		{"out, and lost elsewhere", with(out(part.Special)), with(rotten, lost), "damaged 1 rot false file false; left out 1, 9 bytes"},
		{"out, and of two cuts elsewhere", with(out(part.Special)), with(func(n *part.Name) { cutTwice(n, 'r', 'l') }), "damaged 1 rot true file false; left out 1, 393216 bytes"},
		{"out, and of two cuts that are right elsewhere", with(out(part.Special)), with(func(n *part.Name) { cutTwice(n, 'r', 'L') }), "left out 1, 393216 bytes"},
		{"ignored elsewhere, and rotten", with(rotten, outElsewhere), with(out(part.Special)),
			"damaged 0 rot true file false; refused ignored a of laptop (AAAAAAA): it knows that another device ignores it, or has still to scan it"},
		{"not asked to be left out", with(out(part.OddName)), with(), "refused names a of laptop (AAAAAAA): why"},
		{"lost", with(lost), with(), "damaged 0 rot false file true; in a document"},
		{"damaged", with(out(part.Damaged)), with(), "damaged 0 rot false file false; left out 1, 9 bytes"},
		{"in motion", with(moved(noWaits, part.MovedDisk)), with(), `moves 0 "" from []`},
		{"in motion, and rotten elsewhere", with(moved(noWaits, part.MovedDisk)), with(rotten), `damaged 1 rot true file false; moves 0 "" from []`},
		{"waits, and nobody kept how", with(moved(noWaits, part.MovedUnscanned)), with(), `moves 0 "unknown" from []`},
		{"missing, and on the other", with(waiting(unstored)), with(), `moves 0 "missing" from [1]`},
		{"missing, and lost on the other", with(waiting(unstored)), with(lost), `damaged 1 rot false file false; moves 0 "missing" from []`},
		{"missing, and rotten on the other", with(waiting(unstored)), with(rotten), `damaged 1 rot true file false; moves 0 "missing" from []`},
		{"missing, and not recorded on the other", with(waiting(unstored)), with(unscanned), `moves 0 "missing" from []`},
		{"missing, and deleted on the other", with(waiting(unstored)), with(deleted), `moves 0 "missing" from []`},
		{"missing, and not stored on the other", with(waiting(unstored)), with(unstored), `moves 0 "missing" from []`},
		{"missing, and out on the other", with(waiting(unstored)), with(outBeside(part.Special)), `moves 0 "missing" from []`},
		{"missing, and unread on the other", with(waiting(unstored)), with(func(n *part.Name) { n.Disk.Unread = 1 }), `moves 0 "missing" from []`},
		{"missing, and in motion on the other", with(waiting(unstored)), with(moved(noWaits, part.MovedDisk)), `moves 0 "missing" from []; moves 1 "" from []`},
		{"missing, and another file recorded on the other", with(waiting(unstored)), with(func(n *part.Name) { n.Own.Content = &part.Content{Size: 5, BlockSize: protocol.MinBlockSize} }),
			`damaged 1 rot true file false; moves 0 "missing" from []`},
		{"a missing directory", with(waiting(directory, unstored)), with(directory), `moves 0 "missing" from [1]`},
		{"a missing directory, and a file on the other", with(waiting(directory, unstored)), with(), `moves 0 "missing" from []`},
		{"a missing directory, and a file on the other's disk", with(waiting(directory, unstored)), with(directory, func(n *part.Name) { n.Disk = goodFile('x').Disk }), `moves 0 "missing" from []`},
		{"a missing symlink, and another target on the other's disk", with(waiting(linked, unstored)), with(linked, func(n *part.Name) { n.Disk.Target = "c" }), `moves 0 "missing" from []`},
		{"a missing symlink", with(waiting(linked, unstored)), with(linked), `moves 0 "missing" from [1]`},
		{"back", with(waiting(func(n *part.Name) { n.Own.Deleted, n.Own.Content = true, nil })), with(), `moves 0 "back" from []`},
		{"new", with(waiting(unscanned)), with(), `moves 0 "new" from []`},
	} {
		count := 0
		refused := 0
		joined := atomic.Int64{}
		plan := planOf(t, row.one, row.other)
		answer, err := Collect(plan, Options{Consent: Of(part.Special), Refused: func() { refused++ }, Joined: &joined},
			func(one *rows.Piece) error { count += len(one.Rows); return nil })
		if answer == nil || len(answer.Folders) != 1 {
			t.Fatalf("%s: %v", row.why, err)
		}
		if told := digest(answer, count); told != row.told {
			t.Errorf("%s: %s, not %s", row.why, told, row.told)
		}
		if answer.Folders[0].Bytes != 10 || joined.Load() != 1 || refused != len(answer.Refusals) {
			t.Errorf("%s: %d bytes, %d joined, %d refused", row.why, answer.Folders[0].Bytes, joined.Load(), refused)
		}
		isAudited := count > 0 || strings.Contains(row.told, "unwon") || strings.Contains(row.told, "damaged") || len(answer.Refusals) > 0
		if (err == nil) != isAudited {
			t.Errorf("%s: %v", row.why, err)
		}
		if isStill := err == nil || !strings.Contains(err.Error(), "are in motion: look again"); !isAudited && isStill == strings.Contains(row.told, "moves") {
			t.Errorf("%s: %v", row.why, err)
		}
	}
}

func directory(n *part.Name) {
	n.Own.Type, n.Own.Content, n.Disk = 1, nil, &part.Node{Type: 1, ModifiedS: 3}
}

func linked(n *part.Name) { symlinked(n, "b") }

func symlinked(n *part.Name, target string) {
	n.Own.Type, n.Own.Content, n.Own.Target, n.Disk = 4, nil, target, &part.Node{Type: 4, ModifiedS: 3, Target: target}
}

// cutTwice gives a file of several blocks, of which the first content is cut otherwise than the record, and the second one as it.
func cutTwice(n *part.Name, first, second byte) {
	const size = 3 * protocol.MinBlockSize
	n.Own.Content = &part.Content{Size: size, BlockSize: protocol.MinBlockSize, Hash: part.Hash{'L'}}
	n.Disk.Size = size
	n.Disk.Contents = []part.Content{{Size: size, BlockSize: 2 * protocol.MinBlockSize, Hash: part.Hash{first}}, {Size: size, BlockSize: protocol.MinBlockSize, Hash: part.Hash{second}}}
}
