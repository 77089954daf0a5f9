package command

import (
	"bytes"
	"fmt"
	"math/rand"
	"os"
	"strconv"
	"strings"
	"testing"

	"github.com/syncthing/syncthing/lib/protocol"
	"syncthing-audit/answering"
	"syncthing-audit/ask"
	"syncthing-audit/audit"
	"syncthing-audit/commandline"
	"syncthing-audit/finding"
	"syncthing-audit/join"
	"syncthing-audit/limits"
	"syncthing-audit/part"
	"syncthing-audit/rows"
)

// foldersOfStreams is how many folders are drawn, if $FOLDERS doesn't say it.
const foldersOfStreams = 40

// aChance says yes so often, of a hundred.
type aChance struct {
	*rand.Rand
	percent int
	behind  bool // whether the last device is behind with some names
}

func (c *aChance) is() bool { return c.Intn(100) < c.percent }

// aThing draws a record without a sequence: of a file, a directory, a symlink, or of what is deleted.
func (c *aChance) aThing() *part.Record {
	record := &part.Record{ModifiedS: int64(c.Intn(2) + 1000), ModifiedBy: uint64(c.Intn(2) + 1), Version: part.Version{{1000, uint64(c.Intn(3) + 3)}, {2000, uint64(c.Intn(2) + 1)}}}
	switch c.Intn(8) {
	case 0:
		record.Deleted = true
	case 1:
		record.Type = int(protocol.FileInfoTypeDirectory)
	case 2:
		record.Type, record.Target, record.ModifiedS = int(protocol.FileInfoTypeSymlink), []string{"here", "<\"there\">"}[c.Intn(2)], 0
	default:
		record.Content = c.aContent()
	}
	return record
}

func (c *aChance) aContent() *part.Content {
	size := []int64{0, 5, 5, 3 * protocol.MinBlockSize}[c.Intn(4)]
	return &part.Content{Size: size, BlockSize: protocol.MinBlockSize << c.Intn(2), Hash: part.Hash{byte(c.Intn(3))}}
}

// orOther gives a record with this sequence: mostly it is the one, else another one or none.
func (c *aChance) orOther(record *part.Record, sequence int64) *part.Record {
	if record == nil || c.is() && c.Intn(3) == 0 {
		return nil
	}
	drawn := *record
	if c.is() {
		drawn = *c.aThing()
	} else if c.is() {
		drawn = *c.older(record)
	}
	drawn.Invalid = record.Invalid || c.is() && c.Intn(3) == 0
	drawn.Sequence = sequence
	return &drawn
}

// older gives what a record may have been before.
func (c *aChance) older(record *part.Record) *part.Record {
	was := *record
	was.Version = part.Version{{1000, record.Version[0][1] - 1}, record.Version[1]}
	if was.Content != nil && c.Intn(2) == 0 {
		was.Content = c.aContent()
	}
	return &was
}

// onDisk gives what stands on a disk: mostly what is recorded.
func (c *aChance) onDisk(own *part.Record) *part.Node {
	if own == nil || c.is() {
		own = c.aThing()
	}
	if own.Deleted || c.is() && c.Intn(3) == 0 {
		return nil
	}
	node := &part.Node{Type: own.Type, ModifiedS: own.ModifiedS, Target: own.Target}
	if own.Content != nil {
		node.Size, node.Contents = own.Content.Size, []part.Content{*own.Content}
		if c.is() {
			node.Contents = append([]part.Content{*c.aContent()}, node.Contents...)
			node.Contents[0].Size = own.Content.Size
		}
		if c.is() && c.Intn(3) == 0 {
			node.Lost = "it is lost"
		}
	}
	if c.is() {
		node.Permissions = 0o600
	}
	return node
}

// drawnParts gives what up to four devices have of a folder of a few names: in some all is in step, in others much is wrong.
func drawnParts(random *rand.Rand) []*hostile {
	chance := &aChance{random, []int{0, 2, 8, 30}[random.Intn(4)], random.Intn(3) == 0}
	count, parts := []byte{1, 2, 3, 3, 4}[random.Intn(5)], []*hostile{}
	for device := byte(1); device <= count; device++ {
		folder := part.Folder{ID: "docs", Kind: []string{"send-receive", "send-receive", "send-receive", "receive-only", "send-only"}[random.Intn(5)], IndexID: uint64(device), Max: 99,
			Directory: fmt.Sprint(device)}
		for other := byte(1); other <= count; other++ {
			if other != device {
				folder.Views = append(folder.Views, part.View{Device: idOf(other), IndexID: uint64(other), Max: 99})
				folder.Sharing = append(folder.Sharing, part.Sharing{Device: idOf(other)})
			}
		}
		parts = append(parts, &hostile{Head: &part.Head{Version: part.FirstVersion, Device: idOf(device), Name: fmt.Sprint("device", device), Runs: "v1.19.2", Others: []part.Other{}, Folders: []part.Folder{folder}},
			Lines: []*part.Line{{Begin: &part.Begin{Folder: "docs"}}}})
	}
	names := []string{"a", "a b", "b\\c", "c\n", "d\"<e>", "z", "ü", "ü/\x7f"}
	for place := range names[:random.Intn(len(names)+1)] {
		chance.drawPart(parts, names[place], int64(10*place+1))
	}
	for _, sent := range parts {
		sent.Lines = append(sent.Lines, &part.Line{End: &part.End{Folder: "docs", Names: int64(len(sent.Lines) - 1), Max: 99, Last: true}})
	}
	return parts
}

// drawPart draws what the devices have of a name.
func (c *aChance) drawPart(parts []*hostile, name string, sequence int64) {
	usual, owns := c.aThing(), []*part.Record{}
	for place := range parts {
		due := usual
		if c.behind && place > 0 && place == len(parts)-1 && c.Intn(2) == 0 {
			due = c.older(usual)
		}
		owns = append(owns, c.orOther(due, sequence+int64(place)))
	}
	for place, sent := range parts {
		has := &part.Name{Name: part.Bytes(name), Own: owns[place], Disk: c.onDisk(owns[place])}
		if owns[place] == nil && c.Intn(2) == 0 {
			has.Disk = nil
		}
		for view := range sent.Head.Folders[0].Views {
			other := view
			if view >= place {
				other++
			}
			seen := c.orOther(owns[other], sequence+int64(other))
			if seen == nil && c.is() {
				seen = c.orOther(c.aThing(), sequence+9)
			}
			if seen != nil {
				has.Views = append(has.Views, part.Seen{View: view, Record: seen})
			}
		}
		if c.is() && c.Intn(4) == 0 {
			has.Out = []part.LeftOut{{Kind: part.Special, Why: "it is a socket"}}
		}
		if has.Own != nil || has.Disk != nil || len(has.Views)+len(has.Out) > 0 {
			sent.Lines = append(sent.Lines, &part.Line{Name: has})
		}
	}
}

// A way to ask of what is joined: each piece is cut into others.
type aWay struct {
	asRows bool
	cut    func(folder *join.Folder, piece *rows.Piece) []*rows.Piece
}

func asItIs(_ *join.Folder, piece *rows.Piece) []*rows.Piece { return []*rows.Piece{piece} }

// eachByItself cuts a piece into a document for each of its names.
func eachByItself(folder *join.Folder, piece *rows.Piece) []*rows.Piece {
	if len(piece.Rows) == 0 {
		return asItIs(folder, piece)
	}
	all := []*rows.Piece{}
	for _, row := range piece.Rows {
		filling := rows.NewDocuments(folder, false, limits.MostBytes)
		filling.Add(row)
		all = append(all, filling.Take())
	}
	return all
}

// answer audits parts in one way.
func (w aWay) answer(parts []*hostile, program ask.Program) (*finding.Answer, error) {
	plan, err := planOf(parts)
	if err != nil {
		return nil, err
	}
	replies, next := audit.NewReplies(), 0
	pool := ask.NewPool(program, 2, replies.Take)
	answer, err := audit.Collect(plan, audit.Options{AsRows: w.asRows}, func(piece *rows.Piece) (err error) {
		for _, one := range w.cut(plan.Folders[0], piece) {
			one.Place = next
			next++
			if err == nil {
				err = pool.Ask(one)
			}
		}
		return err
	})
	if failed := pool.Close(); failed != nil {
		return nil, failed
	}
	if err != nil {
		return nil, err
	}
	answer.Folders[0].Documents = next
	return answer, replies.AddTo(answer)
}

// toldInAllForms gives all that is told of an answer, in each form, and its status.
func toldInAllForms(answer *finding.Answer) string {
	var all, log bytes.Buffer
	for _, form := range []commandline.Options{{}, {Lines: true}, {JSON: true}} {
		status, err := answering.Tell(&all, &log, form, answer, nil)
		fmt.Fprintln(&all, status, err)
	}
	for _, folder := range answer.Folders {
		fmt.Fprintln(&all, folder.Names, folder.Deleted, folder.Convergence.First)
		if !folder.HasFailures() { // else it isn't told
			fmt.Fprintln(&all, folder.NotFirm)
		}
		folder.EachFailure(func(failure *finding.Failure) { fmt.Fprintf(&all, "%+v\n", *failure) })
	}
	return all.String()
}

// unlike gives the first lines in which two texts differ.
func unlike(told, other string) string {
	ones, others := strings.Split(told, "\n"), strings.Split(other, "\n")
	for place := range ones {
		if place == len(others) || ones[place] != others[place] {
			return fmt.Sprintf("%s\nby a document for each name %s", ones[place:], others[place:])
		}
	}
	return fmt.Sprintf("less: %s", others[len(ones):])
}

// What is told of a folder is the same by streams of rows, by documents of many names, and by one document for each name. $FOLDERS folders are drawn.
func TestStreamsAnswerAsDocuments(t *testing.T) {
	count, seen := int64(foldersOfStreams), map[string]int{}
	if asked := os.Getenv("FOLDERS"); asked != "" {
		count, _ = strconv.ParseInt(asked, 10, 64)
	}
	program := auditor()
	if strings.HasSuffix(program.Path, standIn) {
		count /= 20
	}
	ways := map[string]aWay{"streams": {true, asItIs}, "documents": {false, asItIs}, "each name": {true, eachByItself}}
	first, _ := strconv.ParseInt(os.Getenv("FIRST"), 10, 64)
	for seed := first + 1; seed <= first+count; seed++ {
		told, hindrance := map[string]string{}, map[string]*finding.Failure{}
		for _, why := range []string{"each name", "streams", "documents"} {
			way := ways[why]
			answer, err := way.answer(drawnParts(rand.New(rand.NewSource(seed))), program)
			if err != nil {
				told[why] = err.Error()
				continue
			}
			folder := answer.Folders[0]
			if hindrance[why] = folder.Convergence.First; why == "streams" {
				seen[string(answer.HowFirm())+" "+string(answer.HowConverging(folder))]++
			}
			if why == "documents" { // they have names that are firm, too, and something may hinder these
				folder.Convergence.First = hindrance["each name"]
			}
			told[why] = toldInAllForms(answer)
		}
		if mild := hindrance["each name"]; mild != nil && hindrance["documents"] == nil {
			t.Errorf("seed %d: %v hinders a name, and nothing all together", seed, mild)
		}
		for why := range ways {
			if told[why] != told["each name"] {
				t.Fatalf("seed %d: by %s %s", seed, why, unlike(told[why], told["each name"]))
			}
		}
	}
	t.Log(seen)
	for _, how := range []string{"firm ", "not-firm ", "not-firm converging", "not-firm not-converging"} {
		if seen[how] == 0 && count >= foldersOfStreams {
			t.Errorf("no folder was %q: %v", how, seen)
		}
	}
}
