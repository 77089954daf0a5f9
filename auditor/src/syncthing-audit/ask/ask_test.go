package ask

import (
	"errors"
	"fmt"
	"os"
	"path/filepath"
	"strings"
	"testing"

	"syncthing-audit/finding"
	"syncthing-audit/release"
	"syncthing-audit/rows"
)

// Whoever has no program is told how to name it.
func TestWhatIsToldWithoutAProgram(t *testing.T) {
	none := filepath.Join(t.TempDir(), "none")
	err := Program{Path: none}.Find()
	if err == nil || !strings.HasPrefix(err.Error(), none+" can't be run: ") || !strings.Contains(err.Error(), "--syncaudit FILE or $SYNCAUDIT") {
		t.Error(err)
	}
	if found := (Program{Path: "/bin/sh"}).Find(); found != nil {
		t.Error(found)
	}
}

// aDocument gives a document of a folder.
func aDocument() *rows.Piece { return &rows.Piece{Folder: "docs", Written: []byte("{}")} }

// Words of a shell for what a program writes of a document of one name.
const (
	countsOfOne = "echo 'folder docs: 1 names, 0 deleted, 2 devices'; "
	pairsOfOne  = "echo 'folder docs: 1 names, 0 deleted, 2 devices, 1 pairs not yet at the winner'; "
	isFirm      = "echo firm; " + countsOfOne
	isSettled   = "echo settled; " + countsOfOne
	converges   = "echo converging; " + pairsOfOne
)

// What is firm is asked no more: it is settled. Of other documents all is asked.
func TestWhatAProgramIsAskedOfADocument(t *testing.T) {
	const all = "firm --certify,check --certify,explain --certify,converge,"
	for _, row := range []struct {
		firm, check, explain string
		asked                string
		failures             int
		notFirm              bool
	}{
		{isFirm, "exit 9", "exit 9", "firm --certify,", 0, false},
		{"echo 'not firm: ViewNotBelow docs a on 1'; " + countsOfOne + "exit 1", isSettled, "echo settled", all, 0, true},
		{"echo 'not firm: NotWinner docs a'; " + countsOfOne + "exit 1", "echo 'not settled: NotWinner docs a'; " + countsOfOne + "exit 1", "echo NotWinner docs a; exit 1", all, 1, false},
	} {
		log := filepath.Join(t.TempDir(), "log")
		program := aProgram(t, "printf '%s,' \"$*\" >> '"+log+"'\n[ \"$(cat)\" = {} ] || exit 9; case $1 in firm) "+row.firm+";; check) "+row.check+";; explain) "+row.explain+
			";; converge) "+converges+";; esac")
		reply, err := program.Answer(aDocument())
		asked, _ := os.ReadFile(log)
		if err != nil || string(asked) != row.asked || reply.Names != 1 || len(reply.Failures) != row.failures || (reply.NotFirm != nil) != row.notFirm ||
			(reply.Convergence.Pairs == nil) != (row.asked != all) {
			t.Errorf("%s: %+v, %v, asked %s", row.firm, reply, err, asked)
		}
	}
}

// Whatever a program fails in is told with its status, in the words that it was asked by.
func TestAProgramThatFailsInEachCommand(t *testing.T) {
	const loose = `firm) echo "not firm: VersionDiffers docs a on 1"; ` + countsOfOne + `exit 1;; `
	for word, answers := range map[string]string{
		"firm --certify":    "",
		"check --certify":   loose,
		"explain --certify": loose + "check) " + isSettled + ";; ",
		"converge":          loose + "check) " + isSettled + ";; explain) echo settled;; ",
	} {
		for _, status := range []int{2, 4, 5, 126} {
			program := aProgram(t, fmt.Sprintf(`case $1 in %s *) echo "it is out of luck" >&2; exit %d;; esac`, answers, status))
			_, err := program.Answer(aDocument())
			due := fmt.Sprintf("'%s %s' ended with exit status %d: it is out of luck", program.Path, word, status)
			var failed *Failed
			if !errors.As(err, &failed) || failed.Status != status || err.Error() != due {
				t.Errorf("%s: %v", word, err)
			}
		}
	}
	var failed *Failed
	if _, err := aProgram(t, "kill -9 $$").Answer(aDocument()); !errors.As(err, &failed) || failed.Status != StatusCannotRun {
		t.Errorf("a program that is killed: %v", err)
	}
}

// A program that doesn't know what it is asked is too old, and that is told as of one that can't be run.
func TestAProgramThatIsTooOld(t *testing.T) {
	for words, row := range map[string]struct {
		knows string
		asked *rows.Piece
	}{
		"rows --firm":           {"check | firm | explain | converge", aStream("a", "b", "c")},
		"rows --explain --firm": {"rows --firm", aStream("a", "b", "c")},
		"rows --converge":       {"rows --firm | rows --explain --firm", aStream("a", "b", "c")},
		"firm --certify":        {"check", aDocument()},
		"converge":              {"firm --certify | check --certify | explain --certify", aDocument()},
	} {
		program := aProgram(t, `case "$*" in `+strings.ReplaceAll(row.knows, " --", `\ --`)+`) ;; *) exit 3;; esac; case "$*" in 'rows --firm') `+isLoose+";; rows*) "+whyLoose+";; firm*) "+
			"echo 'not firm: ViewNotBelow docs a on 1'; "+countsOfOne+"exit 1;; check*) "+isSettled+";; explain*) echo settled;; esac")
		_, err := program.Answer(row.asked)
		var failed *Failed
		if due := program.Path + " is too old to answer: it doesn't know '" + words + "'."; !errors.As(err, &failed) || failed.Status != StatusCannotRun || !strings.HasPrefix(err.Error(), due) ||
			!strings.Contains(err.Error(), release.Version) {
			t.Errorf("%s: %v", words, err)
		}
	}
}

// What is no answer is refused, whatever the status is with which the program ends.
func TestProgramsThatAnswerNothing(t *testing.T) {
	cases := []struct {
		program string
		status  int
	}{{"/nowhere/syncaudit", StatusCannotRun}, {"/bin/false", statusRefused}, {"/bin/true", statusRefused}}
	for _, one := range cases {
		for _, asked := range []*rows.Piece{aDocument(), aStream("a")} {
			_, err := Program{Path: one.program}.Answer(asked)
			var failed *Failed
			if !errors.As(err, &failed) || failed.Status != one.status {
				t.Errorf("%s: %v", one.program, err)
			}
		}
	}
}

func TestLines(t *testing.T) {
	cases := []struct {
		line string
		one  finding.Failure
	}{
		{"NotWinner docs a", finding.Failure{Reason: "NotWinner", Name: "a"}},
		{`StoreDiffers docs a\x20b\x5c on 18446744073709551615`, finding.Failure{Reason: "StoreDiffers", Name: `a b\`, Device: 1<<64 - 1}},
	}
	for _, one := range cases {
		if line := Line("docs", &one.one); line != one.line {
			t.Errorf("%q, not %q", line, one.line)
		}
		if read, is := readFailure("docs", one.line, settled); !is || read != one.one {
			t.Errorf("%q: %v", one.line, read)
		}
	}
	for _, line := range []string{"", "Odd docs a", "NotWinner pics a", "NotWinner docs", `NotWinner docs a\x2`, `NotWinner docs a\y20`, `NotWinner docs a\x2g`,
		"StoreDiffers docs a at 1", "StoreDiffers docs a on you", "ViewNotBelow docs a on 1", "WouldCopy docs a on 1"} {
		if read, is := readFailure("docs", line, settled); is {
			t.Errorf("%q was read as %v", line, read)
		}
	}
}

// Each byte of a name is written so that it is read again, and what parts words or ends lines is written by its number.
func TestEachByteOfAName(t *testing.T) {
	for number := 0; number < 256; number++ {
		name := string([]byte{byte(number)})
		written := Printed(name)
		isPlain := number >= 0x21 && number != '\\' && number != 0x7f
		if read, is := unprinted(written); !is || read != name || (written == name) != isPlain {
			t.Errorf("%q is written as %q, and read as %q", name, written, read)
		}
	}
}

// A failure for each reason is read as it is written, where an answer may have it.
func TestEachReason(t *testing.T) {
	for yes, reasons := range reasonsOf {
		for _, reason := range reasons {
			for device := uint64(0); device < 2; device++ {
				failure := finding.Failure{Reason: reason, Name: "a b", Device: device}
				if read, is := readFailure("docs", Line("docs", &failure), yes); !is || read != failure {
					t.Errorf("%v is read as %v", failure, read)
				}
				first, is := readVerdict("docs", "not "+yes+": "+Line("docs", &failure), yes)
				if !is || *first != failure {
					t.Errorf("%v is read as the verdict %v", failure, first)
				}
			}
		}
	}
}
