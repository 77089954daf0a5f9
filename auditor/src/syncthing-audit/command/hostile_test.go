package command

import (
	"bytes"
	"fmt"
	"os"
	"path/filepath"
	"reflect"
	"strings"
	"testing"
	"time"

	"syncthing-audit/answering"
	"syncthing-audit/ask"
	"syncthing-audit/commandline"
	"syncthing-audit/exit"
	"syncthing-audit/finding"
	"syncthing-audit/fixture"
	"syncthing-audit/inputs"
	"syncthing-audit/outside"
	"syncthing-audit/part"
)

// payloads are what a terminal obeys or a reader takes for another text. Each has the word FAKE.
var payloads = []string{
	"\x1b[2J\x1b[HFAKE",                     // clears the screen
	"\u009b2JFAKE",                          // so by the character of C1
	"\u202eFAKE\u2066\u061c",                // turns text around
	"\nFAKE: in step and firm; 9 names\r\n", // a line that looks like the program's own
	"\xff\x9b2J\xc3FAKE",                    // no characters
	"\x7f\b\b\b\b\u2028FAKE",                // overwrites what stands before it
}

// aText is a text of a part, where it stands by its types, and how it is changed.
type aText struct {
	place string
	set   func(text string)
	had   string
}

// textsOf gives all texts in a value, by their types: of a list those of each item.
func textsOf(place string, value reflect.Value) []aText {
	texts := []aText{}
	switch value.Kind() {
	case reflect.String:
		return []aText{{place, func(text string) { value.SetString(text) }, value.String()}}
	case reflect.Pointer:
		if !value.IsNil() {
			return textsOf(place, value.Elem())
		}
	case reflect.Slice, reflect.Array:
		for at := 0; at < value.Len(); at++ {
			texts = append(texts, textsOf(place, value.Index(at))...)
		}
	case reflect.Map:
		for _, key := range value.MapKeys() {
			key := key
			texts = append(texts, aText{place + "[]", func(text string) { value.SetMapIndex(key, reflect.ValueOf(text)) }, value.MapIndex(key).String()},
				aText{place + " key", func(text string) { value.SetMapIndex(reflect.ValueOf(text), value.MapIndex(key)) }, key.String()})
		}
	case reflect.Struct:
		for at := 0; at < value.NumField() && value.Type() != reflect.TypeOf(time.Time{}); at++ {
			texts = append(texts, textsOf(place+"."+value.Type().Field(at).Name, value.Field(at))...)
		}
	}
	return texts
}

// placesOfTexts gives where a type has texts.
func placesOfTexts(place string, of reflect.Type) []string {
	words := []string{}
	switch of.Kind() {
	case reflect.String:
		return []string{place}
	case reflect.Pointer, reflect.Slice, reflect.Array:
		return placesOfTexts(place, of.Elem())
	case reflect.Map:
		return []string{place + "[]", place + " key"}
	case reflect.Struct:
		for at := 0; at < of.NumField() && of != reflect.TypeOf(time.Time{}); at++ {
			if field := of.Field(at); field.Tag.Get("json") != "-" { // which no part has
				words = append(words, placesOfTexts(place+"."+field.Name, field.Type)...)
			}
		}
	}
	return words
}

// hostile is a part whose texts are changed.
type hostile struct {
	Head  *part.Head
	Lines []*part.Line
}

// write writes a part as a device may that keeps to no rule.
func (h *hostile) write(t *testing.T, path string) {
	if err := os.WriteFile(path, h.written(t), 0o600); err != nil {
		t.Fatal(err)
	}
}

// written gives the bytes of such a part.
func (h *hostile) written(t *testing.T) []byte {
	var written bytes.Buffer
	to, err := part.NewWriter(&written, h.Head)
	for at := 0; at < len(h.Lines) && err == nil; at++ {
		err = to.Take(*h.Lines[at])
	}
	if err == nil {
		err = to.Close()
	}
	if err != nil {
		t.Fatal(err)
	}
	return written.Bytes()
}

// toldOf audits parts, and gives all that is printed of them, in each form, and whether there was an answer.
func toldOf(parts []string) (told []string, isAnswer bool) {
	var log strings.Builder
	asked := commandline.Options{Parts: parts, LeaveOut: map[string]bool{}, Jobs: 1}
	opened, err := inputs.Open(asked)
	if err != nil {
		exit.Of(err, &log, &log)
		return []string{log.String()}, false
	}
	defer opened.Close()
	inputs.TellDevices(&log, opened.Devices)
	answer, err := opened.Audited(asked, &log, func() (*finding.Answer, error) {
		return answering.Of(opened, asked, ask.Program{Path: os.Getenv("SYNCAUDIT")})
	})
	if err != nil {
		exit.Of(err, &log, &log)
		return []string{log.String()}, false
	}
	for _, form := range []commandline.Options{{}, {Lines: true}, {JSON: true}} {
		var output strings.Builder
		if _, err := answering.Tell(&output, &log, form, answer, nil); err != nil {
			exit.Of(err, &log, &log)
		}
		told = append(told, output.String())
	}
	return append(told, log.String()), true
}

// checkPrinted says what is raw in a text that was printed, or stands in a line of its own.
func checkPrinted(t *testing.T, why, told string) {
	for _, line := range strings.Split(told, "\n") {
		if outside.Escaped(line) != line || strings.HasPrefix(line, "FAKE") {
			t.Errorf("%s is printed raw: %q", why, line)
			return
		}
	}
}

// Whatever stands in a part's texts, each of them with each payload, nothing of it comes raw to a terminal, in no form of the answer.
func TestNoTextOfAPartIsPrintedRaw(t *testing.T) {
	fixture.UseAuditor(t)
	room := t.TempDir()
	seen, answered := map[string]bool{}, 0
	for _, make := range []func(device byte) []*hostile{stoppedParts, runningParts, partsByNames, observedParts, halvedParts} {
		others, before := writtenParts(t, filepath.Join(room, "2"), make(2)), len(seen)
		for at, text := range textsOf("", reflect.ValueOf(make(1))) {
			if before > 0 && strings.HasPrefix(text.place, ".Head.") && seen[text.place] {
				continue // a head says the same in each part
			}
			seen[text.place] = seen[text.place] || text.had != ""
			for _, payload := range payloads {
				parts := make(1)
				textsOf("", reflect.ValueOf(parts))[at].set(text.had + payload)
				told, isAnswer := toldOf(append(writtenParts(t, filepath.Join(room, "1"), parts), others...))
				for _, form := range told {
					checkPrinted(t, fmt.Sprintf("%s with %q", text.place, payload), form)
				}
				if isAnswer {
					answered++
				}
			}
		}
	}
	for _, place := range placesOfTexts("", reflect.TypeOf(hostile{})) {
		if !seen[place] {
			t.Errorf("no part here has a text at %s", place)
		}
	}
	if answered < 100 {
		t.Errorf("only %d of the parts had an answer", answered)
	}
}

func writtenParts(t *testing.T, path string, parts []*hostile) []string {
	words := []string{}
	for at, part := range parts {
		words = append(words, fmt.Sprintf("%s-%d.part", path, at))
		part.write(t, words[at])
	}
	return words
}
