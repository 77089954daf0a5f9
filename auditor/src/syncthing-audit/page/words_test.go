package page

import (
	"errors"
	"fmt"
	"io"
	"strings"
	"testing"
	"time"

	"golang.org/x/net/html"
)

// linesOf gives what a page says, an element a line.
func linesOf(t *testing.T, text string) []string {
	made := []string{}
	walkDOM(domOf(t, text), func(node *html.Node) {
		switch node.Data {
		case "h1", "h2", "h3", "p", "li":
			_, heard := textOf(node)
			made = append(made, node.Data+" "+strings.TrimSpace(heard))
		case "th", "td":
			if node.FirstChild != nil && node.FirstChild.Type == html.TextNode {
				made = append(made, node.Data+" "+node.FirstChild.Data)
			} else {
				made = append(made, node.Data)
			}
		}
	})
	return made
}

// A page says all that it was given, in an order that is read from the top.
func TestWhatAPageSays(t *testing.T) {
	kept := &Kept{
		Nights: []Night{{At: at.AddDate(0, 0, -30), Status: 1, Words: "NOT in step", Wrong: 2, New: 2}, {At: at.AddDate(0, 0, -29), Status: 6, Words: AsFar, Mended: 2},
			{At: at.Add(-2 * time.Hour), Status: 0, Words: "in step, slice 2 of 7"}},
		Answers: []Answer{{Audit: "run", At: at.Add(-2 * time.Hour), Seen: at.Add(-2 * time.Hour), Text: "docs: in step\n\na\n  b\n", LeftOut: []Left{{"phone", "off"}},
			Devices: []Device{{ID: "A", Name: "laptop", Read: at.Add(-3 * time.Hour)}, {ID: "B"}},
			Folders: []Folder{{ID: "docs", Called: "docs (D)", Verdict: InStep, Names: 2, Moving: 1, Cells: []Cell{{Device: "A", Files: 2, Bytes: 5, Oldest: at.AddDate(0, 0, -4), OldestName: "x"}}}}},
			{Audit: "parts", At: at, Text: "it is off"}}}
	var text strings.Builder
	if err := Write(&text, kept, at, "the program"); err != nil {
		t.Fatal(err)
	}
	days := ""
	for day := at.AddDate(0, 0, -28); day.Before(at.AddDate(0, 0, -1)) || day.Equal(at.AddDate(0, 0, -1)); day = day.AddDate(0, 0, 1) {
		days += "li " + day.Format("2 January 2006") + ": no audit|"
	}
	expected := "h1 Audit of Syncthing devices|p in step, slice 2 of 7|p The last night was 2026-11-29 05:30 CET, 2 hours ago.|" +
		"h2 Devices and folders: run|th Folder|th laptop|p read 2026-11-29 04:30 CET, 3 hours ago|th B|" +
		"th docs (D)|p in step|p 2 names, 1 name in motion|td|p in step|p 2 files, 5 bytes read|p longest ago: 2026-11-25 07:30 CET, 4 days ago (x)|td|p not shared here, or not asked|" +
		"h3 Left out|li phone: off|h2 Devices and folders: parts|p There is no answer yet.|" +
		"h2 What was found: run|p docs: in step|h3 a|p b|h2 What was found: parts|p it is off|" +
		"h2 Nights|li in step|li in step as far as audited|li NOT in step|li no answer|li no audit|" +
		"h3 October 2026|li 30 October 2026: NOT in step, 2 wrong, 2 new|li 31 October 2026: in step as far as audited, 2 mended|h3 November 2026|" + days + "li 29 November 2026: in step|" +
		"h3 Nights that weren't all in step|li 2026-10-31 07:30 CET: in step as far as audited, 2 mended|li 2026-10-30 07:30 CET: NOT in step, 2 wrong, 2 new|" +
		"p Made by the program at 2026-11-29 07:30 CET. Nothing on this page changes by itself."
	if made := strings.Join(linesOf(t, text.String()), "|"); made != expected {
		t.Errorf("%s\nnot\n%s", made, expected)
	}
	text.Reset()
	if err := Write(&text, &Kept{Answers: []Answer{{At: at, Seen: at, Status: 6}}}, at, "x"); err != nil {
		t.Fatal(err)
	}
	if made := strings.Join(linesOf(t, text.String())[:3], "|"); made != "h1 Audit of Syncthing devices|p in step as far as audited|p Audited 2026-11-29 07:30 CET." {
		t.Error(made)
	}
}

// The last nights that weren't in step are listed, and not more than one reads.
func TestHowManyNightsAreListed(t *testing.T) {
	for _, count := range []int{0, 1, mostLoud, mostLoud + 1, MostNights} {
		kept := &Kept{}
		for night := count; night > 0; night-- {
			kept.Nights = append(kept.Nights, Night{At: at.AddDate(0, 0, -night), Status: 1, Words: fmt.Sprint("night ", night)})
		}
		text := written(t, kept)
		due := count
		if due > mostLoud {
			due = mostLoud
		}
		if made := strings.Count(text, ": night "); made != due || count > 0 && !strings.Contains(text, ": night 1</li>") {
			t.Errorf("%d of %d nights are listed", made, count)
		}
		days := count
		if days >= mostDays {
			days = mostDays - 1
		}
		if made := strings.Count(text, "<span class=\"date\">"); made != days+1 && !(count == 0 && made == 0) {
			t.Errorf("%d days of %d nights", made, count)
		}
	}
}

type unwritable struct{}

func (unwritable) Write([]byte) (int, error) { return 0, errors.New("full") }

// What can't be written is an error.
func TestAPageThatCantBeWritten(t *testing.T) {
	if err := Write(unwritable{}, &Kept{}, at, ""); err == nil || err.Error() != "full" {
		t.Error(err)
	}
	if err := Write(io.Discard, &Kept{}, at, ""); err != nil {
		t.Error(err)
	}
}
