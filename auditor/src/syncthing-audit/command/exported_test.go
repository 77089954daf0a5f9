package command

import (
	"crypto/sha256"
	"fmt"
	"io"
	"os"
	"path/filepath"
	"strings"
	"testing"

	"syncthing-audit/choice"
	"syncthing-audit/exit"
	"syncthing-audit/exported"
)

// The counts of an answer to a document of one name.
const (
	countsOfOne = "folder docs: 1 names, 0 deleted, 1 devices\n"
	pairsOfOne  = "folder docs: 1 names, 0 deleted, 1 devices, 0 pairs not yet at the winner\n"
)

// reply puts the answer to an exported document beside it.
func reply(t *testing.T, room, text string) {
	t.Helper()
	written, err := os.ReadFile(filepath.Join(room, "cut-0001.json"))
	if err == nil {
		err = os.WriteFile(filepath.Join(room, "cut-0001.reply"), []byte(fmt.Sprintf("%x  -\n%s", sha256.Sum256(written), text)), 0o600)
	}
	if err != nil {
		t.Fatal(err)
	}
}

// exportedPart exports a part, has its one document answered as settled, and gives the directory.
func exportedPart(t *testing.T) string {
	room := t.TempDir()
	if status := Run([]string{"export", "--into", room, aPart(t)}, io.Discard, io.Discard); status != exit.Done {
		t.Fatalf("the export has status %d", status)
	}
	reply(t, room, "settled\n"+countsOfOne+"firm\n"+countsOfOne+"converging\n"+pairsOfOne)
	return room
}

// What an export left beside its documents is summed up whole, or refused with a reason.
func TestWhatAnExportLeft(t *testing.T) {
	for _, row := range []struct {
		why    string
		change func(text string) string
		status int
		told   string
	}{
		{"as it was", func(text string) string { return text }, exit.Done, ""},
		{"nothing", func(string) string { return "" }, exit.Refused, "isn't what 'export' writes: EOF"},
		{"no answer", func(string) string { return "{}\n" }, exit.Refused, "isn't what 'export' writes: a program of 0.17 or before made it"},
		{"no JSON", func(text string) string { return text[1:] }, exit.Refused, "isn't what 'export' writes: "},
		{"the first line alone", func(text string) string { return strings.SplitAfter(text, "\n")[0] }, exit.Refused, "unexpected EOF"},
	} {
		room := exportedPart(t)
		path := filepath.Join(room, exported.RestName)
		text, err := os.ReadFile(path)
		if err == nil {
			err = os.WriteFile(path, []byte(row.change(string(text))), 0o600)
		}
		if err != nil {
			t.Fatal(err)
		}
		var log strings.Builder
		if status := Run([]string{"sum", room}, io.Discard, &log); status != row.status || !strings.Contains(log.String(), row.told) {
			t.Errorf("%s: status %d, and %q", row.why, status, log.String())
		}
	}
	var log strings.Builder
	status := Run([]string{"sum", t.TempDir()}, io.Discard, &log)
	if status != exit.Refused || !strings.Contains(log.String(), "refused: 'export --into' fills a directory for 'sum': open ") {
		t.Errorf("a directory without an export: status %d, and %q", status, log.String())
	}
}

// What was exported of one slice is summed up as far as that goes.
func TestAnExportOfASlice(t *testing.T) {
	room := t.TempDir()
	slice := aPartOf(t, choice.Names{Slice: 3, Slices: 7})
	if status := Run([]string{"export", "--into", room, slice}, io.Discard, io.Discard); status != exit.Done {
		t.Fatalf("the export has status %d", status)
	}
	reply(t, room, "settled\n"+countsOfOne+"firm\n"+countsOfOne+"converging\n"+pairsOfOne)
	var output strings.Builder
	if status := Run([]string{"sum", room}, &output, io.Discard); status != exit.Partial || !strings.Contains(output.String(), "not audited: names outside slice 3 of 7") {
		t.Errorf("%d:\n%s", status, output.String())
	}
	output.Reset()
	room = t.TempDir()
	if status := Run([]string{"export", "--slice", "4/7", "--into", room, slice}, io.Discard, &output); status != exit.Refused ||
		!strings.Contains(output.String(), "has slice 3 of 7 of all names: make it anew with --slice 4/7") {
		t.Errorf("%d:\n%s", status, output.String())
	}
}

// An export of an older program is refused. Of this one's the sum says that a folder is shared with nobody.
func TestAnExportOfAnOlderProgram(t *testing.T) {
	room := exportedPart(t)
	path := filepath.Join(room, exported.RestName)
	text, err := os.ReadFile(path)
	if err != nil {
		t.Fatal(err)
	}
	for _, row := range []struct {
		field  string
		status int
		told   string
	}{
		{"Found", exit.Done, "\nshared with no device: docs on "},
		{"Answer", exit.Refused, "a program of 0.17 or before made it: make the export anew"},
		{"OfSlice", exit.Refused, "a program of 0.17 or before made it: make the export anew"},
	} {
		if err := os.WriteFile(path, []byte(strings.Replace(string(text), `{"Found":`, `{"`+row.field+`":`, 1)), 0o600); err != nil {
			t.Fatal(err)
		}
		var output strings.Builder
		status := Run([]string{"sum", room}, &output, &output)
		if status != row.status || !strings.Contains(output.String(), row.told) {
			t.Errorf("%d, and not %q:\n%s", status, row.told, output.String())
		}
	}
}

// A sum has no details of what a document tells. It says that 'check' has them: it refuses parts of all names where it is asked for some.
func TestASumOfWhatFails(t *testing.T) {
	room := exportedPart(t)
	const fails = "LocalOnly docs a on 1\n"
	reply(t, room, "not settled: "+fails+countsOfOne+fails+"not firm: "+fails+countsOfOne+"not converging: "+fails+pairsOfOne)
	var output, log strings.Builder
	status := Run([]string{"sum", room}, &output, &log)
	text := strings.Join(strings.Fields(output.String()), " ")
	if status != exit.NotSettled || !strings.Contains(text, "to do: 'syncthing-audit check' of the same parts or homes tells the details.") || strings.Contains(text, "--names") {
		t.Errorf("%d: %s%s", status, output.String(), log.String())
	}
}
