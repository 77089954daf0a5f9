package page

import (
	"fmt"
	"html/template"
	"io"
	"reflect"
	"strings"
	"time"

	"syncthing-audit/amount"
	"syncthing-audit/exit"
	"syncthing-audit/outside"
)

const (
	mostDays = 92
	mostLoud = 30 // nights that are listed one by one
	// latest is how long after a night another one is due.
	latest = 36 * time.Hour
)

var form = template.Must(template.New("page").Parse(look))

// sign is how something is, for whoever sees colours or not.
type sign struct{ Kind, Sign, Words string }

func signOf(status int) sign {
	kind, mark, words := kindOf(status)
	return sign{kind, mark, words}
}

type cellView struct {
	sign
	Device, Read string // of its column, which a narrow page doesn't show
	More         []string
}

type rowView struct {
	sign
	Called, Size string
	Cells        []cellView
}

type columnView struct{ id, Called, Read string }

type answerView struct {
	Audit   string
	Seen    bool
	Stale   string // since when there is no answer
	Columns []columnView
	Rows    []rowView
	LeftOut []Left
	Blocks  []Block
}

type dayView struct {
	sign
	Number, Title string
}

type monthView struct {
	Called string
	Days   []dayView
}

type view struct {
	sign
	Title, When, Made string
	Warnings          []string
	Answers           []answerView
	Months            []monthView
	Signs             []sign
	Loud              []dayView
}

// Write writes the page of what nights left, or of one answer, at a time whose zone all times have. By is the program.
func Write(to io.Writer, kept *Kept, at time.Time, by string) error {
	shown := view{sign: sign{"none", "!", "no audit yet"}, Title: "Audit of Syncthing devices", Signs: []sign{signOf(exit.Done), signOf(exit.Partial), signOf(exit.NotSettled), signOf(exit.Refused), {"no", "·", "no audit"}}}
	shown.Made = fmt.Sprintf("Made by %s at %s. Nothing on this page changes by itself.", by, stamp(at, at))
	for _, answer := range kept.Answers {
		shown.Answers = append(shown.Answers, answer.view(at))
	}
	shown.addHead(kept, at)
	shown.addDays(kept, at)
	var text strings.Builder
	escape(reflect.ValueOf(&shown).Elem())
	err := form.Execute(&text, shown)
	if err == nil {
		_, err = io.WriteString(to, text.String())
	}
	return err
}

// escape writes each word of the page otherwise that an editor, a terminal or a browser obeys, such as what turns the direction of writing.
func escape(value reflect.Value) {
	switch value.Kind() {
	case reflect.String:
		if value.CanSet() {
			value.SetString(outside.Escaped(value.String()))
		}
	case reflect.Struct:
		for at := 0; at < value.NumField(); at++ {
			escape(value.Field(at))
		}
	case reflect.Slice:
		for at := 0; at < value.Len(); at++ {
			escape(value.Index(at))
		}
	}
}

// addHead says how all is, and when that was found.
func (v *view) addHead(kept *Kept, at time.Time) {
	switch {
	case len(kept.Nights) > 0:
		last := kept.Nights[len(kept.Nights)-1]
		v.sign = signOf(last.Status)
		v.Words = last.Words
		v.When = "The last night was " + stamp(last.At, at) + ", " + ago(last.At, at) + "."
		if at.Sub(last.At) > latest {
			v.Warnings = append(v.Warnings, fmt.Sprintf("No night was made since %s: does the timer run?", stamp(last.At, at)))
		}
	case len(kept.Answers) > 0:
		v.sign = signOf(kept.Answers[0].Status)
		v.When = "Audited " + stamp(kept.Answers[0].At, at) + "."
	}
}

// addDays adds the strip of days, and the nights that weren't all in step.
func (v *view) addDays(kept *Kept, at time.Time) {
	for _, day := range daysOf(kept.Nights, at, mostDays) {
		called := day.Date.Format("January 2006")
		if len(v.Months) == 0 || v.Months[len(v.Months)-1].Called != called {
			v.Months = append(v.Months, monthView{Called: called})
		}
		month := &v.Months[len(v.Months)-1]
		month.Days = append(month.Days, dayView{sign{day.Kind, day.Sign, day.Words}, day.Date.Format("2"), day.Date.Format("2 January 2006") + ": " + day.Words})
	}
	for place := len(kept.Nights) - 1; place >= 0 && len(v.Loud) < mostLoud; place-- {
		if night := kept.Nights[place]; night.Status != exit.Done {
			v.Loud = append(v.Loud, dayView{signOf(night.Status), "", stamp(night.At, at) + ": " + night.Words + night.numbers()})
		}
	}
}

// view gives an answer as the page shows it.
func (a *Answer) view(at time.Time) answerView {
	shown := answerView{Audit: a.Audit, Seen: !a.Seen.IsZero(), LeftOut: a.LeftOut, Blocks: blocksOf(a.Text)}
	if shown.Seen && !a.Seen.Equal(a.At) {
		shown.Stale = fmt.Sprintf("There was no answer %s. This is how it was %s.", stamp(a.At, at), stamp(a.Seen, at))
	}
	for _, device := range a.Devices {
		column := columnView{id: device.ID, Called: device.Name}
		if device.Name == "" {
			column.Called = device.ID
		}
		if !device.Read.IsZero() {
			column.Read = "read " + stamp(device.Read, at) + ", " + ago(device.Read, at)
		}
		shown.Columns = append(shown.Columns, column)
	}
	for _, folder := range a.Folders {
		shown.Rows = append(shown.Rows, folder.view(shown.Columns, at))
	}
	return shown
}

// view gives a folder's row.
func (f *Folder) view(columns []columnView, at time.Time) rowView {
	shown := rowView{sign: f.sign(), Called: f.Called, Size: amount.Of(f.Names, "name")}
	if f.Moving > 0 {
		shown.Size += ", " + amount.Of(f.Moving, "name") + " in motion"
	}
	for _, column := range columns {
		shown.Cells = append(shown.Cells, f.cell(column, at))
	}
	return shown
}

// sign says how a folder is.
func (f *Folder) sign() sign {
	switch f.Verdict {
	case NotInStep:
		return sign{"bad", "✗", NotInStep + ": " + amount.Of(f.Wrong, "name") + " wrong"}
	case AsFar:
		return sign{"part", "○", AsFar}
	}
	return sign{"good", "✓", f.Verdict}
}

// cell gives what is to be seen of the folder on a device.
func (f *Folder) cell(of columnView, at time.Time) cellView {
	for _, cell := range f.Cells {
		if cell.Device != of.id {
			continue
		}
		shown := cellView{sign: f.signAt(cell), Device: of.Called, Read: of.Read}
		if cell.Files > 0 {
			shown.More = append(shown.More, amount.Of(cell.Files, "file")+", "+size(cell.Bytes)+" read", "longest ago: "+stamp(cell.Oldest, at)+", "+ago(cell.Oldest, at)+" ("+cell.OldestName+")")
		}
		return shown
	}
	return cellView{sign: sign{"no", "–", "not shared here, or not asked"}, Device: of.Called}
}

// signAt says how the folder is on a device.
func (f *Folder) signAt(cell Cell) sign {
	switch {
	case cell.LeftOut != "":
		return sign{"part", "○", "left out: " + cell.LeftOut}
	case cell.Wrong > 0 && cell.IsLeast:
		return sign{"bad", "✗", "at least " + amount.Of(cell.Wrong, "name") + " wrong here"}
	case cell.Wrong > 0:
		return sign{"bad", "✗", amount.Of(cell.Wrong, "name") + " wrong here"}
	case cell.IsLeast:
		return sign{"part", "○", "nothing wrong here as far as listed"}
	case f.Verdict == NotInStep:
		return sign{"good", "✓", "nothing wrong here"}
	}
	return f.sign()
}

// size gives bytes as a person reads them.
func size(bytes int64) string {
	switch {
	case bytes >= 1e9:
		return fmt.Sprintf("%.1f GB", float64(bytes)/1e9)
	case bytes >= 1e6:
		return fmt.Sprintf("%.1f MB", float64(bytes)/1e6)
	}
	return fmt.Sprintf("%d bytes", bytes)
}

// stamp gives a time in the zone of the page.
func stamp(when, at time.Time) string { return when.In(at.Location()).Format("2006-01-02 15:04 MST") }

// ago says how long ago something was as the page was made.
func ago(when, at time.Time) string {
	spent := at.Sub(when)
	switch {
	case spent < time.Minute:
		return "just now"
	case spent < 2*time.Hour:
		return amount.Of(int64(spent.Minutes()), "minute") + " ago"
	case spent < 48*time.Hour:
		return amount.Of(int64(spent.Hours()), "hour") + " ago"
	}
	return amount.Of(int64(spent.Hours()/24), "day") + " ago"
}
