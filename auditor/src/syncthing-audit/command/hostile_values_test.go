package command

import (
	"bytes"
	"compress/gzip"
	"encoding/json"
	"fmt"
	"io"
	"os"
	"path/filepath"
	"strings"
	"testing"

	"syncthing-audit/fixture"
	"syncthing-audit/part"
)

// asJSON gives a text in quotes; what is no character stays as it is.
func asJSON(t *testing.T, text string) string {
	message, err := json.Marshal(text)
	if err != nil {
		t.Fatal(err)
	}
	return string(message)
}

// tokensOf gives where the values of a text in JSON stand, and the names of fields: numbers and hashes, too, whatever they are to be.
func tokensOf(t *testing.T, text string) [][2]int {
	ranges := [][2]int{}
	reader := json.NewDecoder(strings.NewReader(text))
	for {
		token, err := reader.Token()
		if err == io.EOF {
			return ranges
		}
		if err != nil {
			t.Fatal(err)
		}
		end := int(reader.InputOffset())
		switch token.(type) {
		case string:
			ranges = append(ranges, [2]int{strings.LastIndexByte(text[:end-1], '"'), end})
		case float64, bool:
			ranges = append(ranges, [2]int{strings.LastIndexAny(text[:end-1], ":[,") + 1, end})
		}
	}
}

// inLines gives the lines of JSON of a part.
func (h *hostile) inLines(t *testing.T) string {
	var text bytes.Buffer
	read, err := part.NewReader(bytes.NewReader(h.written(t)))
	if err == nil {
		err = part.Show(&text, read)
	}
	if err != nil {
		t.Fatal(err)
	}
	return text.String()
}

func writeZipped(t *testing.T, path, text string) {
	var zipped bytes.Buffer
	to := gzip.NewWriter(&zipped)
	io.WriteString(to, text)
	to.Close()
	if err := os.WriteFile(path, zipped.Bytes(), 0o600); err != nil {
		t.Fatal(err)
	}
}

// In place of each value of a part, an index's id and a number, too, a text may stand: no refusal prints it raw. Each field is tried once.
func TestNoValueOfAPartIsPrintedRaw(t *testing.T) {
	fixture.UseAuditor(t)
	room, told, seen := t.TempDir(), 0, map[string]bool{}
	all := strings.Join(payloads, "")
	others, parts := writtenParts(t, filepath.Join(room, "2"), stoppedParts(2)), writtenParts(t, filepath.Join(room, "1"), stoppedParts(1))
	text := stoppedParts(1)[0].inLines(t)
	for _, place := range tokensOf(t, text) {
		before := text[:place[0]]
		field := before[strings.LastIndexAny(before, "{,")+1:] + text[place[0]:place[0]+1]
		if seen[field] {
			continue
		}
		seen[field] = true
		for _, value := range []string{asJSON(t, all), `"` + all + `"`} {
			writeZipped(t, parts[0], before+value+text[place[1]:])
			said, _ := toldOf(append(parts, others...))
			for _, form := range said {
				told += strings.Count(form, "FAKE")
				checkPrinted(t, fmt.Sprintf("%s in place of %s", value, text[place[0]:place[1]]), form)
			}
		}
	}
	if told < 100 || !seen[`"index_id":"`] {
		t.Errorf("only %d of the texts were told, in these fields: %v", told, seen)
	}
}

// namesOfParts are ways in which the name of a part's file is told.
var namesOfParts = []struct {
	why      string
	isAnswer bool
	prepare  func(t *testing.T, path string) []string
}{
	{"of good parts", true, func(t *testing.T, path string) []string {
		return append(writtenParts(t, path+"1", stoppedParts(1)), writtenParts(t, path+"2", stoppedParts(2))...)
	}},
	{"of good parts of two looks", true, func(t *testing.T, path string) []string {
		return append(writtenParts(t, path+"1", runningParts(1)), writtenParts(t, path+"2", runningParts(2))...)
	}},
	{"of a first look alone", false, func(t *testing.T, path string) []string { return writtenParts(t, path, runningParts(1))[:1] }},
	{"of a second look alone", false, func(t *testing.T, path string) []string { return writtenParts(t, path, runningParts(1))[1:] }},
	{"of the same look twice", false, func(t *testing.T, path string) []string {
		return append(writtenParts(t, path+"1", runningParts(1)), writtenParts(t, path+"2", runningParts(1))...)
	}},
	{"of the same device twice", false, func(t *testing.T, path string) []string {
		return append(writtenParts(t, path+"1", stoppedParts(1)), writtenParts(t, path+"2", stoppedParts(1))...)
	}},
	{"of nothing", false, func(t *testing.T, path string) []string { return []string{path} }},
	{"of a directory", false, func(t *testing.T, path string) []string {
		if err := os.Mkdir(path, 0o700); err != nil {
			t.Fatal(err)
		}
		return []string{path}
	}},
	{"of what is no part", false, func(t *testing.T, path string) []string {
		if err := os.WriteFile(path, []byte("x"), 0o600); err != nil {
			t.Fatal(err)
		}
		return []string{path}
	}},
	{"of a damaged part", false, func(t *testing.T, path string) []string {
		text := stoppedParts(1)[0].inLines(t)
		writeZipped(t, path, text[:len(text)-9])
		return append([]string{path}, writtenParts(t, path+"2", stoppedParts(2))...)
	}},
	{"of a part of other names", false, func(t *testing.T, path string) []string {
		return append(writtenParts(t, path+"1", partsByNames(1)), writtenParts(t, path+"2", stoppedParts(2))...)
	}},
}

// The names of parts' files are others' words where parts are sent: they are printed raw by no answer and by no refusal.
func TestNoNameOfAPartsFileIsPrintedRaw(t *testing.T) {
	fixture.UseAuditor(t)
	for _, file := range namesOfParts {
		for _, payload := range payloads {
			told, isAnswer := toldOf(file.prepare(t, filepath.Join(t.TempDir(), payload)))
			why := fmt.Sprintf("the name %q %s", payload, file.why)
			if isAnswer != file.isAnswer || !strings.Contains(strings.Join(told, ""), "FAKE") {
				t.Errorf("%s: %q", why, told)
			}
			for _, form := range told {
				checkPrinted(t, why, form)
			}
		}
	}
}
