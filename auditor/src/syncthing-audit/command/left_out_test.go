package command

import (
	"bytes"
	"fmt"
	"io"
	"strings"
	"testing"

	"golang.org/x/exp/slices"
	"syncthing-audit/answering"
	"syncthing-audit/audit"
	"syncthing-audit/commandline"
	"syncthing-audit/exit"
	"syncthing-audit/finding"
	"syncthing-audit/fixture"
	"syncthing-audit/join"
	"syncthing-audit/part"
	"syncthing-audit/rows"
)

// linesInMemory is a part in memory.
type linesInMemory struct {
	head *part.Head
	left []part.Line
}

func (l *linesInMemory) Head() *part.Head { return l.head }

func (l *linesInMemory) Next() (part.Line, error) {
	if len(l.left) == 0 {
		return part.Line{}, io.EOF
	}
	next := l.left[0]
	l.left = l.left[1:]
	return next, nil
}

// threeInStep gives what three devices have of two folders that are in step, with a file in each.
func threeInStep() []*hostile {
	parts := []*hostile{}
	for device := byte(1); device <= 3; device++ {
		sent := &hostile{Head: &part.Head{Version: part.FirstVersion, Device: idOf(device), Name: fmt.Sprint("device", device), Others: []part.Other{}}}
		for place, id := range []string{"docs", "pics"} {
			folder := part.Folder{ID: id, Kind: "send-receive", IndexID: uint64(device), Max: 5, Directory: fmt.Sprint(id, device)}
			file := hostileFile("a", 1, 7)
			file.Views, file.Disk.Differ = nil, nil
			file.Disk.Contents = []part.Content{*file.Own.Content}
			for other := byte(1); other <= 3; other++ {
				if other == device {
					continue
				}
				seen := *file.Own
				file.Views = append(file.Views, part.Seen{View: len(folder.Views), Record: &seen})
				folder.Views = append(folder.Views, part.View{Device: idOf(other), IndexID: uint64(other), Max: 5})
				folder.Sharing = append(folder.Sharing, part.Sharing{Device: idOf(other), Name: fmt.Sprint("device", other)})
			}
			sent.Head.Folders = append(sent.Head.Folders, folder)
			sent.Lines = append(sent.Lines, &part.Line{Begin: &part.Begin{Folder: id}}, &part.Line{Name: file}, &part.Line{End: &part.End{Folder: id, Names: 1, Max: 5, Last: place == 1}})
		}
		parts = append(parts, sent)
	}
	return parts
}

// planOf joins these devices.
func planOf(parts []*hostile) (*join.Plan, error) {
	devices := []*join.Device{}
	for _, part := range parts {
		stream := &linesInMemory{head: part.Head}
		for _, line := range part.Lines {
			stream.left = append(stream.left, *line)
		}
		devices = append(devices, join.NewDevice(stream, part.Head.Name))
	}
	return join.NewPlan(devices, nil)
}

// answered gives the answer of these devices, with no syncaudit: no failure is found in documents.
func answered(parts []*hostile, consent audit.Consent) (*finding.Answer, error) {
	plan, err := planOf(parts)
	if err != nil {
		return nil, err
	}
	return audit.Collect(plan, audit.Options{Consent: consent}, func(*rows.Piece) error { return nil })
}

// waysToLeaveOut are what keeps something from being audited, with its kind: each kind of a name, and each way in which a folder on a device, a device
// or a folder is out.
func waysToLeaveOut() map[string]func(parts []*hostile) []*hostile {
	ways := map[string]func(parts []*hostile) []*hostile{
		part.Absent + ": a device without a part": func(parts []*hostile) []*hostile { return parts[:2] },
		part.Absent + ": a folder that is away": func(parts []*hostile) []*hostile {
			parts[2].away("docs", part.Other{Away: "its directory isn't there", IsStopped: true})
			return parts
		},
		part.Encrypted + ": on a device": func(parts []*hostile) []*hostile {
			parts[2].Head.Folders[0].Kind = part.KindEncrypted
			return parts
		},
		part.Unshared + ": not shared back": func(parts []*hostile) []*hostile {
			parts[2].Head.Folders[0].Sharing = parts[2].Head.Folders[0].Sharing[1:]
			return parts
		},
		part.Unshared + ": a part without the folder": func(parts []*hostile) []*hostile {
			parts[2].away("docs", part.Other{})
			return parts
		},
		part.Moment + ": another one knows later changes": func(parts []*hostile) []*hostile {
			parts[0].Head.Folders[0].Views[1].Max = 9
			parts[0].Lines[1].Name.Views[1].Record.Sequence = 9
			return parts
		},
		part.Moment + ": another one knows later changes of other names": func(parts []*hostile) []*hostile {
			parts[0].Head.Folders[0].Views[1].Max = 9
			return parts
		},
		part.OddName + ": a folder's id": func(parts []*hostile) []*hostile {
			for _, part := range parts {
				part.Head.Folders[0].ID, part.Lines[0].Begin.Folder, part.Lines[2].End.Folder = "a b", "a b", "a b"
			}
			return parts
		},
	}
	for _, kind := range part.Kinds {
		kind := kind
		ways[kind+": of a name"] = func(parts []*hostile) []*hostile {
			parts[1].Lines[1].Name.Out = []part.LeftOut{{Kind: kind, Why: "it can't be audited", Bytes: 7}}
			return parts
		}
	}
	return ways
}

// away has a part without a folder, as it is told then.
func (h *hostile) away(folder string, as part.Other) {
	as.ID, as.Devices = folder, []string{idOf(1), idOf(2)}
	h.Head.Others = []part.Other{as}
	h.Head.Folders, h.Lines = h.Head.Folders[1:], h.Lines[3:]
}

// formsOfAnswers are the flags of each form, with what it says where all that is asked for is in step, and where something was left out.
var formsOfAnswers = map[string]struct {
	asked commandline.Options
	whole string
	part  []string // one of these
}{
	"text":  {commandline.Options{}, "docs: in step", []string{"as far as audited", "\nleft out: "}},
	"lines": {commandline.Options{Lines: true}, "settled\n", []string{"settled as far as audited\n"}},
	"json":  {commandline.Options{JSON: true}, `"verdict":"in-step"`, []string{`"verdict":"in-step-as-far-as-audited"`}},
}

// Whatever is left out: the status isn't 0 in any form, each form says so, and a strict audit refuses it, but for its kind.
func TestNothingIsLeftOutInSilence(t *testing.T) {
	ways := waysToLeaveOut()
	ways["nothing"] = func(parts []*hostile) []*hostile { return parts }
	for why, change := range ways {
		kind, _, _ := strings.Cut(why, ":")
		for form, row := range formsOfAnswers {
			answer, err := answered(change(threeInStep()), audit.Consent{})
			if err != nil || len(answer.Refusals) > 0 {
				t.Fatal(why, err)
			}
			var written bytes.Buffer
			status, err := answering.Tell(&written, io.Discard, row.asked, answer, nil)
			due, said := exit.Partial, row.part
			if why == "nothing" {
				due, said = exit.Done, []string{row.whole}
			}
			if err != nil || status != due || slices.IndexFunc(said, func(text string) bool { return strings.Contains(written.String(), text) }) < 0 {
				t.Errorf("%s, %s: status %d, %v, %s", why, form, status, err, written.String())
			}
		}
		if why == "nothing" {
			continue
		}
		if answer, err := answered(change(threeInStep()), audit.Of()); err != nil || len(answer.Refusals) == 0 {
			t.Errorf("%s: a strict audit isn't refused: %v", why, err)
		}
		answer, err := answered(change(threeInStep()), audit.Of(kind))
		if err != nil || len(answer.Refusals) > 0 || answering.Status(answer) != exit.Partial {
			t.Errorf("%s: a strict audit that leaves this kind out: %v, %v", why, answer, err)
		}
	}
}

// A strict audit tells what it refuses, and how to leave that out. That syncaudit isn't asked then is no fault of its own.
func TestAStrictAuditTellsWhatItRefuses(t *testing.T) {
	fixture.UseAuditor(t)
	for why, change := range waysToLeaveOut() {
		kind, _, _ := strings.Cut(why, ":")
		status, output, log := checked(writtenParts(t, t.TempDir(), change(threeInStep())), nil, "--strict")
		if status != exit.Refused || output != "" || !strings.Contains(log, "--leave-out "+kind+" ") {
			t.Errorf("%s: status %d, %s%s", why, status, output, log)
		}
	}
}

// What one folder is out for doesn't keep another one from being told: rot in it has status 1.
func TestWhatIsLeftOutHidesNoFault(t *testing.T) {
	for why, change := range waysToLeaveOut() {
		parts := change(threeInStep())
		for _, line := range parts[1].Lines {
			if line.Name != nil && line == parts[1].Lines[len(parts[1].Lines)-2] {
				line.Name.Out = []part.LeftOut{{Kind: part.Damaged, Why: "input/output error"}}
			}
		}
		answer, err := answered(parts, audit.Consent{})
		if err != nil || answering.Status(answer) != exit.NotSettled {
			t.Errorf("%s: %v", why, err)
		}
	}
}
