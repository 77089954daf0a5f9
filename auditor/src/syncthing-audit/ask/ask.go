// Package ask has syncaudit answer to streams of rows and to check documents.
package ask

import (
	"bytes"
	"errors"
	"fmt"
	"os/exec"
	"strings"

	"syncthing-audit/finding"
	"syncthing-audit/leftover"
	"syncthing-audit/release"
	"syncthing-audit/rows"
)

// StatusCannotRun is a shell's status for a program that isn't there.
const StatusCannotRun = 127

const (
	statusNotSettled = 1
	statusRefused    = 2
	statusUsage      = 3
)

// Failed is why there is no answer, with the status that this program is to end with.
type Failed struct {
	Status int
	reason string
}

func (f *Failed) Error() string { return f.reason }

// refused says that what the program wrote is no answer.
func refused(format string, words ...interface{}) error {
	return &Failed{statusRefused, fmt.Sprintf(format, words...)}
}

// Reply is what syncaudit says of a piece.
type Reply struct {
	Names, Deleted int64
	Failures       []finding.Failure // by names or, of a document, in the order in which they are told; none where it is settled
	NotFirm        *finding.Failure  // of what is settled: what keeps it from being firm, told first
	Convergence    finding.Convergence
}

// Program is the syncaudit that is asked.
type Program struct{ Path string }

// Find says why the program can't be run, if so.
func (p Program) Find() error {
	if _, err := exec.LookPath(p.Path); err != nil {
		return &Failed{StatusCannotRun, fmt.Sprintf("%s can't be run: %v. --syncaudit FILE or $SYNCAUDIT says where the program is that answers",
			p.Path, err)}
	}
	return nil
}

// Answer has the program answer to a piece.
func (p Program) Answer(asked *rows.Piece) (*Reply, error) {
	if asked.IsStream() {
		return p.answerStream(asked)
	}
	return p.answerDocument(asked)
}

// answerDocument asks whether a document is firm and, where it isn't, all else. It is audited under the certificate that is made of it.
func (p Program) answerDocument(asked *rows.Piece) (*Reply, error) {
	const certifying = "--certify"
	var said answers
	for _, next := range []struct {
		to    *string
		words []string
	}{{&said.firm, []string{"firm", certifying}}, {&said.check, []string{"check", certifying}}, {&said.explanation, []string{"explain", certifying}},
		{&said.convergence, []string{"converge"}}} {
		text, err := p.text(asked.Written, next.words...)
		if err != nil {
			return nil, err
		}
		if *next.to = text; firstLine(said.firm) == firm {
			return said.replyOnFirm(asked.Folder)
		}
	}
	return said.reply(asked.Folder)
}

// text gives what the program writes of a piece for these words, with status 0 or 1.
func (p Program) text(piece []byte, words ...string) (string, error) {
	var written, told bytes.Buffer
	asked := exec.Command(p.Path, words...)
	asked.Stdin, asked.Stdout, asked.Stderr = bytes.NewReader(piece), &written, &told
	err := leftover.Run(asked)
	var ended *exec.ExitError
	if err != nil && !errors.As(err, &ended) {
		return "", &Failed{StatusCannotRun, fmt.Sprintf("%s can't be run: %v", p.Path, err)}
	}
	if err == nil || ended.ExitCode() == statusNotSettled {
		return written.String(), nil
	}
	spelled := strings.Join(words, " ")
	switch status := ended.ExitCode(); {
	case status == statusUsage:
		return "", &Failed{StatusCannotRun, fmt.Sprintf("%s is too old to answer: it doesn't know '%s'. Take the syncaudit of the release that this program "+
			"is of (%s)", p.Path, spelled, release.Version)}
	case status < 0:
		return "", p.ended(spelled, StatusCannotRun, ended, lastSaid(written.String(), told.String()))
	default:
		return "", p.ended(spelled, status, ended, lastSaid(written.String(), told.String()))
	}
}

func (p Program) ended(words string, status int, how error, said string) error {
	return &Failed{status, fmt.Sprintf("'%s %s' ended with %v: %s", p.Path, words, how, said)}
}

// lastSaid gives the last line that a program wrote, which says why it ends, or the first one that it told as an error.
func lastSaid(written, told string) string {
	lines := strings.Split(strings.TrimSuffix(written, "\n"), "\n")
	if last := lines[len(lines)-1]; last != "" {
		return last
	}
	return firstLine(told)
}

// firstLine gives the first line of a text.
func firstLine(text string) string {
	line, _, _ := strings.Cut(text, "\n")
	return line
}
