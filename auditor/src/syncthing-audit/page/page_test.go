package page

import (
	"fmt"
	"math"
	"math/rand"
	"reflect"
	"regexp"
	"strconv"
	"strings"
	"testing"
	"time"
	"unicode"

	"golang.org/x/net/html"
	"syncthing-audit/outside"
)

// at is when the pages of these tests are made, in a zone with hours that are doubled or missing.
var at = time.Date(2026, 11, 29, 7, 30, 0, 0, zone("Europe/Berlin"))

func zone(name string) *time.Location {
	made, err := time.LoadLocation(name)
	if err != nil {
		return time.UTC
	}
	return made
}

// filled gives what nights left, each word of it chosen by somebody.
func filled(word func() string) *Kept {
	made := &Kept{}
	for day := 40; day >= 0; day-- {
		made.Nights = append(made.Nights, Night{At: at.AddDate(0, 0, -day), Status: []int{0, 1, 6, 127}[day%4], Words: "words", Wrong: int64(day), New: 1, Mended: 2})
	}
	made.Nights[len(made.Nights)-1].Words, made.Nights[len(made.Nights)-2].Words = word(), word()
	for audit := 0; audit < 2; audit++ {
		one := Answer{Audit: word(), At: at, Seen: at.AddDate(0, 0, -audit), Text: word() + "\n  " + word() + "\n\n" + word() + "\n", LeftOut: []Left{{word(), word()}}}
		for device := 0; device < 3; device++ {
			one.Devices = append(one.Devices, Device{ID: fmt.Sprint(device), Name: word(), Read: at})
		}
		for _, verdict := range []string{InStep, AsFar, NotInStep} {
			folder := Folder{ID: "id", Called: word(), Verdict: verdict, Names: 9, Wrong: 2, Moving: 1}
			for device := 0; device < 2; device++ {
				folder.Cells = append(folder.Cells, Cell{Device: fmt.Sprint(device), Wrong: int64(device), Files: 3, Oldest: at, OldestName: word()})
			}
			folder.Cells = append(folder.Cells, Cell{Device: "2", LeftOut: word()})
			one.Folders = append(one.Folders, folder)
		}
		made.Answers = append(made.Answers, one)
	}
	return made
}

func written(t *testing.T, kept *Kept) string {
	var text strings.Builder
	if err := Write(&text, kept, at, "syncthing-audit"); err != nil {
		t.Fatal(err)
	}
	return text.String()
}

// walkDOM calls of each node.
func walkDOM(node *html.Node, call func(*html.Node)) {
	call(node)
	for child := node.FirstChild; child != nil; child = child.NextSibling {
		walkDOM(child, call)
	}
}

func domOf(t *testing.T, text string) *html.Node {
	read, err := html.Parse(strings.NewReader(text))
	if err != nil {
		t.Fatal(err)
	}
	return read
}

func attribute(node *html.Node, name string) string {
	for _, one := range node.Attr {
		if one.Key == name {
			return one.Val
		}
	}
	return ""
}

// textOf gives what a node shows to whoever sees it, and what it says to whoever hears it.
func textOf(node *html.Node) (seen, heard string) {
	if node.Type == html.TextNode {
		return node.Data, node.Data
	}
	for child := node.FirstChild; child != nil; child = child.NextSibling {
		moreSeen, moreHeard := textOf(child)
		if attribute(child, "class") != "hidden" {
			seen += moreSeen
		}
		if attribute(child, "aria-hidden") != "true" {
			heard += moreHeard
		}
	}
	return seen, heard
}

// skeleton gives the elements of a page with their attributes, but for what these and the texts say.
func skeleton(node *html.Node) string {
	made := []string{}
	walkDOM(node, func(one *html.Node) {
		switch one.Type {
		case html.ElementNode:
			words := one.Data
			for _, each := range one.Attr {
				words += " " + each.Key
			}
			made = append(made, words)
		case html.CommentNode:
			made = append(made, "comment")
		}
	})
	return strings.Join(made, "\n")
}

// hostileWords are what others may call a file, a folder, a device or a reason.
var hostileWords = []string{"<script>alert(1)</script>", "</title><script>", "\" onmouseover=\"x", "' onmouseover='x", "</style><style>*{display:none}", "-->", "<!--", "&lt;b&gt;", "&amp", "{{.}}",
	"javascript:x", "\u202egnp.exe", "\u2066x\u2069", "\x1b]0;x\x07", "\u0085\u009b31m", "\xff\xfe", "\x00", "a\u200bb", "<img src=http://192.0.2.1/x>", "]]>", "\ufeff", "é<ü>", "\\x3cscript\\x3e"}

// Whatever others chose is shown as text: it adds no element and no attribute, and nothing in it is raw that a browser or a terminal obeys.
func TestHostileWordsAreText(t *testing.T) {
	plain := skeleton(domOf(t, written(t, filled(func() string { return "word" }))))
	for turn := 0; turn < 200; turn++ {
		random, used := rand.New(rand.NewSource(int64(turn))), []string{}
		text := written(t, filled(func() string {
			word := ""
			for len(word) == 0 || random.Intn(2) == 0 {
				word += hostileWords[random.Intn(len(hostileWords))]
			}
			used = append(used, word)
			return word
		}))
		for place, letter := range text {
			if letter != '\n' && !unicode.IsPrint(letter) {
				t.Fatalf("turn %d: %q is raw in %q", turn, letter, text[place-20:place+20])
			}
		}
		read := domOf(t, text)
		if made := skeleton(read); made != plain {
			t.Fatalf("turn %d: the page has other elements", turn)
		}
		_, heard := textOf(read)
		walkDOM(read, func(node *html.Node) {
			for _, one := range node.Attr {
				if strings.HasPrefix(one.Key, "on") || one.Key == "style" || one.Key == "src" || one.Key == "href" {
					t.Fatalf("turn %d: the attribute %s", turn, one.Key)
				}
			}
		})
		for _, word := range used {
			if !strings.Contains(heard, outside.Escaped(word)) {
				t.Errorf("turn %d: %q isn't shown", turn, word)
			}
		}
	}
}

// The page asks nobody for anything, and has no script.
func TestThePageIsOneFile(t *testing.T) {
	text := written(t, filled(func() string { return "word" }))
	walkDOM(domOf(t, text), func(node *html.Node) {
		switch node.Data {
		case "script", "link", "img", "iframe", "object", "embed", "form", "base", "audio", "video", "svg":
			t.Errorf("it has <%s>", node.Data)
		}
	})
	for _, word := range []string{"url(", "@import", "http:", "https:", "//"} {
		if strings.Contains(text, word) {
			t.Errorf("it has %s", word)
		}
	}
	if !strings.Contains(text, "default-src 'none'") {
		t.Error("a browser isn't told to ask nobody")
	}
}

// Who hears the page is told what others see: headings in their order, a table whose cells have their headers, and words for each sign.
func TestThePageIsReadAloud(t *testing.T) {
	read := domOf(t, written(t, filled(func() string { return "word" })))
	level, count := 0, map[string]int{}
	walkDOM(read, func(node *html.Node) {
		if node.Type != html.ElementNode {
			return
		}
		count[node.Data]++
		if is := regexp.MustCompile(`^h([1-6])$`).FindStringSubmatch(node.Data); is != nil {
			if next, _ := strconv.Atoi(is[1]); next > level+1 {
				t.Errorf("<%s> follows a heading of level %d", node.Data, level)
			} else {
				level = next
			}
		}
		if node.Data == "table" {
			checkTable(t, node)
		}
		if strings.Contains(attribute(node, "class"), "sign") {
			seen, _ := textOf(node)
			if _, heard := textOf(node.Parent); attribute(node, "aria-hidden") != "true" || strings.TrimSpace(heard) == "" || strings.TrimSpace(seen) == "" {
				t.Errorf("the sign %q has no words", seen)
			}
		}
		if node.Data == "li" && attribute(node.Parent, "class") == "days" {
			seen, heard := textOf(node)
			if heard != attribute(node, "title") || !regexp.MustCompile(`^\d+ \w+ 2026: \w`).MatchString(heard) || len([]rune(seen)) < 2 {
				t.Errorf("a day says %q, and shows %q", heard, seen)
			}
		}
	})
	if count["h1"] != 1 || count["main"] != 1 || count["header"] != 1 || count["footer"] != 1 || count["table"] != 2 || count["title"] != 1 {
		t.Errorf("%v", count)
	}
	walkDOM(read, func(node *html.Node) {
		if node.Type == html.ElementNode && node.Data == "html" && attribute(node, "lang") != "en" {
			t.Error("its language isn't told")
		}
	})
}

// checkTable says which cell of a table lacks its headers, also where the style shows it as no table.
func checkTable(t *testing.T, table *html.Node) {
	columns := []string{}
	walkDOM(table, func(node *html.Node) {
		if role := attribute(node, "role"); node.Type == html.ElementNode && role == "" && (node.Data == "table" || node.Data == "tr" || node.Data == "td" || node.Data == "th") {
			t.Errorf("<%s> has no role", node.Data)
		}
		if attribute(node, "role") == "columnheader" {
			seen, _ := textOf(node.FirstChild)
			columns = append(columns, node.FirstChild.Data+seen[len(seen):])
		}
	})
	walkDOM(table, func(node *html.Node) {
		if node.Data != "tr" || node.Parent.Data != "tbody" {
			return
		}
		headers, cells := 0, 0
		for child := node.FirstChild; child != nil; child = child.NextSibling {
			if attribute(child, "scope") == "row" {
				headers++
			}
			if child.Data == "td" {
				cells++
				if cells < len(columns) && attribute(child, "data-device") != columns[cells] {
					t.Errorf("a cell is of %q, and its column of %q", attribute(child, "data-device"), columns[cells])
				}
			}
		}
		if headers != 1 || cells != len(columns)-1 {
			t.Errorf("a row has %d headers and %d cells for %d columns", headers, cells, len(columns))
		}
	})
}

// Without colours each state has a sign and words of its own.
func TestStatesDifferWithoutColours(t *testing.T) {
	signs, words := map[string]bool{}, map[string]bool{}
	for _, status := range []int{0, 1, 6, 2, 127} {
		kind, mark, told := kindOf(status)
		if kind == "none" && (mark != "!" || told != "no answer") {
			t.Error(status, mark, told)
		}
		signs[mark], words[told] = true, true
	}
	if len(signs) != 4 || len(words) != 4 {
		t.Errorf("%v, %v", signs, words)
	}
}

// Each colour of a text can be read on each colour behind it, in both schemes.
func TestColoursCanBeRead(t *testing.T) {
	schemes := regexp.MustCompile(`:root \{ (--back[^}]*)\}`).FindAllStringSubmatch(look, -1)
	if len(schemes) != 2 {
		t.Fatalf("%d schemes", len(schemes))
	}
	for _, scheme := range schemes {
		colours := map[string]string{}
		for _, one := range regexp.MustCompile(`--(\w+): #(\w+);`).FindAllStringSubmatch(scheme[1], -1) {
			colours[one[1]] = one[2]
		}
		for _, text := range []string{"text", "faint", "good", "part", "bad", "none"} {
			for _, back := range []string{"back", "box"} {
				if ratio := contrast(t, colours[text], colours[back]); ratio < 4.5 {
					t.Errorf("--%s on --%s: %.2f", text, back, ratio)
				}
			}
		}
	}
}

// contrast is that of WCAG.
func contrast(t *testing.T, one, other string) float64 {
	light := func(colour string) float64 {
		if len(colour) == 3 {
			colour = colour[:1] + colour[:1] + colour[1:2] + colour[1:2] + colour[2:] + colour[2:]
		}
		sum := 0.0
		for place, weight := range []float64{0.2126, 0.7152, 0.0722} {
			number, err := strconv.ParseUint(colour[2*place:2*place+2], 16, 8)
			if err != nil {
				t.Fatal(err)
			}
			part := float64(number) / 255
			if part = math.Pow((part+0.055)/1.055, 2.4); float64(number)/255 <= 0.04045 {
				part = float64(number) / 255 / 12.92
			}
			sum += weight * part
		}
		return sum + 0.05
	}
	a, b := light(one), light(other)
	return math.Max(a, b) / math.Min(a, b)
}

// A page that was made late says so, and so does one of nights without an answer.
func TestWhatIsOldIsTold(t *testing.T) {
	kept := filled(func() string { return "word" })
	late := at.Add(latest + time.Minute)
	for _, one := range []struct {
		at     time.Time
		isTold bool
	}{{at, false}, {at.Add(latest), false}, {late, true}} {
		var text strings.Builder
		if err := Write(&text, kept, one.at, ""); err != nil {
			t.Fatal(err)
		}
		if strings.Contains(text.String(), "No night was made since 2026-11-29 07:30 CET") != one.isTold {
			t.Errorf("%v: %v", one.at, one.isTold)
		}
		if !strings.Contains(text.String(), "There was no answer 2026-11-29 07:30 CET. This is how it was 2026-11-28 07:30 CET.") {
			t.Error("an older answer isn't told as that")
		}
	}
	if text := written(t, &Kept{}); !strings.Contains(text, "no audit yet") || strings.Contains(text, "✓</span> in step</p>") {
		t.Error("without a night: " + text)
	}
}

// Every word of the page's own data goes through what escapes it.
func TestEachWordIsEscaped(t *testing.T) {
	shown := view{Warnings: []string{"\x1b"}, Answers: []answerView{{Columns: []columnView{{Called: "\x1b"}}, Rows: []rowView{{sign: sign{Words: "\x1b"}, Cells: []cellView{{sign: sign{Words: "\x1b"}, More: []string{"\x1b"}}}}}}}}
	escape(reflect.ValueOf(&shown).Elem())
	if text := fmt.Sprintf("%+v", shown); strings.Contains(text, "\x1b") || strings.Count(text, `\x1b`) != 5 {
		t.Errorf("%q", text)
	}
}
