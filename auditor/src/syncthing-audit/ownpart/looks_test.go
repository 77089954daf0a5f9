package ownpart

import (
	"bufio"
	"bytes"
	"errors"
	"fmt"
	"io"
	"os"
	"os/exec"
	"path/filepath"
	"strings"
	"testing"
	"time"

	"github.com/syncthing/syncthing/lib/protocol"
	"syncthing-audit/commandline"
	"syncthing-audit/fixture"
	"syncthing-audit/looks"
	"syncthing-audit/part"
)

// begin makes the part of a first look, and gives its head, its names, its token and what is told.
func begin(t *testing.T, asked commandline.Options, whileWritten func()) (head *part.Head, names map[string]*part.Name, token, told string) {
	t.Helper()
	var text, output, log strings.Builder
	err := Begin(asked, func(fill func(io.Writer) error) error {
		whileWritten()
		return fill(&text)
	}, &output, &log)
	if err != nil {
		t.Fatal(err)
	}
	head, names, _ = read(t, strings.NewReader(text.String()))
	return head, names, output.String(), log.String()
}

// end makes the part of a second look with these tokens, and gives its head, its names and what is told.
func end(t *testing.T, asked commandline.Options, tokens string) (*part.Head, map[string]*part.Name, string) {
	t.Helper()
	asked.End, asked.Tokens = true, []string{tokenFile(t, tokens)}
	var text, log strings.Builder
	if err := End(asked, writeTo(&text), &log); err != nil {
		t.Fatal(err)
	}
	head, names, _ := read(t, strings.NewReader(text.String()))
	return head, names, log.String()
}

// The first look hashes files, and leaves its token on a line once its part is whole; the second one knows the tokens, and hashes none.
func TestBothLooks(t *testing.T) {
	home := homeOf(t)
	listen(t, home, answers{"/rest/db/status?folder=docs": {`{"state":"idle"}`}})
	release := hold(t, home.Dir)
	asked := askedOf(home)
	before := time.Now()
	isWritten := false
	first, names, token, told := begin(t, asked, func() { isWritten = true })
	between := time.Now()
	if first.Look == nil || !first.Look.IsFirst() || !isWritten || first.Look.At.Before(before) || first.Look.At.After(between) || first.Look.At.Location() != time.UTC {
		t.Errorf("%+v", first.Look)
	}
	if token != looks.Token(first.Device, first.Look.ID)+"\n" || namesIn(names) != "a b" || len(names["a"].Disk.Contents) != 1 || first.Folders[0].Rest != nil {
		t.Errorf("%s: %q, %v", first.Look.ID, token, namesIn(names))
	}
	if age := looks.AgeOf(told); age > between.Sub(before) || !strings.HasPrefix(told, "syncthing-audit: the first look was over ") || strings.Count(told, "\n") != 1 {
		t.Errorf("the look was over %v ago: %q", age, told)
	}
	waiting := fileEntry(t, home, "c", "gamma", 3)
	waiting.LocalFlags = protocol.FlagLocalMustRescan
	release()
	home.Fill(t, home.Dir, []protocol.FileInfo{waiting}, nil)
	hold(t, home.Dir)
	other := looks.Token(fixture.Other.String(), strings.Repeat("ab", 16))
	second, names, told := end(t, asked, token+other+"\n")
	if second.Look == nil || !second.Look.IsSecond() || second.Look.After[first.Device] != first.Look.ID || len(second.Look.After) != 2 || second.Look.Home != first.Look.Home {
		t.Errorf("%+v", second.Look)
	}
	if second.Look.At.Before(between) || second.Look.At.After(time.Now()) || second.Look.At.Location() != time.UTC {
		t.Errorf("%v", second.Look.At)
	}
	if fmt.Sprint(names["c"].Moved) != "["+part.MovedUnscanned+"]" {
		t.Errorf("%+v", names["c"])
	}
	if namesIn(names) != "a b c" || len(names["a"].Disk.Contents) != 0 || told != "" || second.Folders[0].Rest == nil || second.Folders[0].Rest.State != part.RestIdle {
		t.Errorf("%v, %q, %+v", namesIn(names), told, second.Folders[0].Rest)
	}
}

// Where the part goes to standard output the token doesn't: it is told. What moved after the look isn't told as it is later.
func TestAFirstLookOnStandardOutput(t *testing.T) {
	home := homeOf(t)
	defer hold(t, home.Dir)()
	asked := askedOf(home)
	asked.IsStandard = true
	later := time.Now().Add(time.Hour)
	if err := os.Chtimes(filepath.Join(home.Dir, "config.xml"), later, later); err != nil {
		t.Fatal(err)
	}
	newer := filepath.Join(os.Getenv("HOME"), ".config/syncthing", fixture.NameOfIndex)
	err := os.MkdirAll(newer, 0o700)
	if err == nil {
		err = os.WriteFile(filepath.Join(newer, "CURRENT"), nil, 0o600)
	}
	if err == nil {
		err = os.Chtimes(filepath.Join(newer, "CURRENT"), later, later)
	}
	if err != nil {
		t.Fatal(err)
	}
	head, _, output, told := begin(t, asked, func() {})
	if head.Newer != nil || strings.Contains(told, newer) {
		t.Errorf("another index is told as the present one: %s", told)
	}
	if output != "" || !strings.HasSuffix(told, looks.Token(head.Device, head.Look.ID)+"\n") {
		t.Errorf("%q, %q", output, told)
	}
	if head.Index != nil || strings.Contains(told, "and config.xml after that") {
		t.Errorf("an index that Syncthing has open is told as an old one: %s", told)
	}
}

// An index that may be an old one is told at the first look.
func TestAnOldIndexAtAFirstLook(t *testing.T) {
	home := homeOf(t)
	later := time.Now().Add(time.Hour)
	if err := os.Chtimes(filepath.Join(home.Dir, "config.xml"), later, later); err != nil {
		t.Fatal(err)
	}
	if head, _, _, told := begin(t, askedOf(home), func() {}); head.Index == nil || !strings.Contains(told, "and config.xml after that") {
		t.Errorf("%s", told)
	}
}

// What changes while the first look's files are hashed has moved; what stood there at the look is told.
func TestWhatMovesDuringAFirstLook(t *testing.T) {
	home := homeOf(t)
	opened, err := openLive(askedOf(home), io.Discard)
	if err != nil {
		t.Fatal(err)
	}
	defer opened.Close()
	glanced, over, err := firstLook(opened.home, opened.read)
	if err != nil || !opened.read.Look.At.Equal(over) {
		t.Fatal(over, err)
	}
	defer glanced.Close()
	if err := os.WriteFile(filepath.Join(home.Files, "b"), []byte("other"), 0o644); err != nil {
		t.Fatal(err)
	}
	var text bytes.Buffer
	if err := writeLines(&text, io.Discard, opened.read, glanced.Compare); err != nil {
		t.Fatal(err)
	}
	if _, names, _ := read(t, &text); len(names["a"].Moved) != 0 || fmt.Sprint(names["b"].Moved) != "["+part.MovedDisk+"]" {
		t.Errorf("%+v, %+v", names["a"], names["b"])
	}
}

// What fails in a look is told, no token is given, and nothing stays open.
func TestLooksThatFail(t *testing.T) {
	failed := errors.New("it failed")
	home := homeOf(t)
	fits := func(path string) bool { return path != home.Files } // which is closed once nobody has it any more
	for why, look := range map[string]func(asked commandline.Options, output io.Writer) error{
		"the part can't be written": func(asked commandline.Options, output io.Writer) error {
			return Begin(asked, func(func(io.Writer) error) error { return failed }, output, io.Discard)
		},
		"the part of the second one can't be written": func(asked commandline.Options, _ io.Writer) error {
			asked.End, asked.Tokens, asked.Folders = true, []string{tokenFile(t, looks.Token(home.ID.String(), strings.Repeat("ab", 16)))}, nil
			return End(asked, func(func(io.Writer) error) error { return failed }, io.Discard)
		},
		"nobody is told": func(asked commandline.Options, _ io.Writer) error {
			return Begin(asked, writeTo(io.Discard), failing{failed}, io.Discard)
		},
		"no home": func(asked commandline.Options, output io.Writer) error {
			asked.Homes = []string{filepath.Join(home.Dir, "none")}
			if err := Begin(asked, writeTo(output), output, io.Discard); err == nil {
				return nil
			}
			if err := End(asked, writeTo(output), io.Discard); err == nil {
				return nil
			}
			return failed
		},
		"no tokens": func(asked commandline.Options, output io.Writer) error {
			asked.End, asked.Tokens = true, []string{filepath.Join(home.Dir, "none")}
			if err := End(asked, writeTo(output), io.Discard); !errors.Is(err, os.ErrNotExist) {
				return err
			}
			return failed
		},
		"no token of this device": func(asked commandline.Options, output io.Writer) error {
			asked.End, asked.Tokens = true, []string{tokenFile(t, "")}
			if err := End(asked, writeTo(output), io.Discard); err == nil || !strings.Contains(err.Error(), "the tokens have none of this device, "+home.ID.String()) {
				return err
			}
			return failed
		},
		"no temporary room": func(asked commandline.Options, output io.Writer) error {
			t.Setenv("TMPDIR", "/nowhere")
			defer os.Unsetenv("TMPDIR")
			if err := Begin(asked, writeTo(output), output, io.Discard); err == nil {
				return nil
			}
			return failed
		},
	} {
		before := fixture.CountOpened(t, fits)
		var output strings.Builder
		if err := look(askedOf(home), &output); !errors.Is(err, failed) || output.Len() > 0 {
			t.Errorf("%s: %v, %q", why, err, output.String())
		}
		if after := fixture.CountOpened(t, fits); after > before {
			t.Errorf("%s: %d files were open, and %d are: %v", why, before, after, fixture.Opened(t))
		}
	}
}

// failing is a writer that fails.
type failing struct{ error }

func (f failing) Write([]byte) (int, error) { return 0, f.error }

// tokenFile writes tokens into a file.
func tokenFile(t *testing.T, tokens string) string {
	path := filepath.Join(t.TempDir(), "tokens")
	if err := os.WriteFile(path, []byte(tokens), 0o600); err != nil {
		t.Fatal(err)
	}
	return path
}

// What is written goes into a file of its own first: nothing of what fails comes to its place, and all else does.
func TestNothingIsWrittenUntilAllIs(t *testing.T) {
	failed := errors.New("it failed")
	var text strings.Builder
	if err := writeWhole(writeTo(&text), func(to io.Writer) error { io.WriteString(to, "half"); return failed }); !errors.Is(err, failed) || text.Len() > 0 {
		t.Errorf("%q, %v", text.String(), err)
	}
	if err := writeWhole(writeTo(&text), func(to io.Writer) error { _, err := io.WriteString(to, "whole"); return err }); err != nil || text.String() != "whole" {
		t.Errorf("%q, %v", text.String(), err)
	}
	t.Setenv("TMPDIR", "/nowhere")
	if err := writeWhole(writeTo(&text), func(io.Writer) error { return failed }); err == nil || errors.Is(err, failed) {
		t.Errorf("where there is no room: %v", err)
	}
	t.Setenv("TMPDIR", "")
	if err := writeWhole(writeTo(failing{failed}), func(to io.Writer) error { _, err := io.WriteString(to, "whole"); return err }); !errors.Is(err, failed) {
		t.Errorf("a place that can't be written: %v", err)
	}
}

// breaking is a log whose first line breaks something.
type breaking struct{ broken func() }

func (b *breaking) Write(text []byte) (int, error) {
	if b.broken != nil {
		b.broken()
		b.broken = nil
	}
	return len(text), nil
}

// What goes away between the index and the disk is told, and there is no token.
func TestWhatGoesAwayDuringALook(t *testing.T) {
	for what, row := range map[string]struct {
		broken    func(*fixture.Home)
		endsAlike bool
	}{
		"the folder":         {func(home *fixture.Home) { removeAll(t, home.Files) }, false},
		"the index":          {func(home *fixture.Home) { removeAll(t, filepath.Join(home.Dir, fixture.NameOfIndex)) }, true},
		"the temporary room": {func(*fixture.Home) { os.Setenv("TMPDIR", "/nowhere") }, false},
	} {
		for _, isEnd := range []bool{false, true} {
			t.Setenv("TMPDIR", "")
			home := homeOf(t)
			asked := askedOf(home)
			asked.Folders = []string{"docs", "music"} // of which one is told to be lacking, once the index is open
			var output strings.Builder
			log := &breaking{func() { row.broken(home) }}
			var err error
			if isEnd {
				asked.End, asked.Tokens = true, []string{tokenFile(t, looks.Token(home.ID.String(), strings.Repeat("ab", 16)))}
				err = End(asked, writeTo(&output), log)
			} else {
				err = Begin(asked, writeTo(io.Discard), &output, log)
			}
			if (!isEnd || row.endsAlike) && (err == nil || output.Len() > 0) || log.broken != nil {
				t.Errorf("%s, second look %v: %v, %q", what, isEnd, err, output.String())
			}
		}
	}
}

// envOfInput has this program heed its input, as a first look by ssh does.
const envOfInput = "SYNCTHING_AUDIT_TEST_HEEDS_INPUT"

// The end of standard input ends a first look as a hangup does, also where nobody reads what it tells. While the input is open the look goes on.
func TestTheEndOfInputEndsALook(t *testing.T) {
	if os.Getenv(envOfInput) != "" {
		asked := askedOf(homeOf(t))
		asked.HeedsInput = true
		_ = Begin(asked, func(func(io.Writer) error) error {
			fmt.Println("goes on")
			time.Sleep(time.Minute)
			return nil
		}, os.Stdout, os.Stderr)
		return
	}
	for _, isRead := range []bool{true, false} {
		look := exec.Command(os.Args[0], "-test.run", "^TestTheEndOfInputEndsALook$")
		look.Env = append(os.Environ(), envOfInput+"=1")
		input, err := look.StdinPipe()
		if err != nil {
			t.Fatal(err)
		}
		reading, told, err := os.Pipe()
		if err != nil {
			t.Fatal(err)
		}
		output, err := look.StdoutPipe()
		if err != nil {
			t.Fatal(err)
		}
		look.Stderr = told
		if err := look.Start(); err != nil {
			t.Fatal(err)
		}
		told.Close()
		lines := bufio.NewReader(output)
		for line := ""; line != "goes on\n"; {
			if line, err = lines.ReadString('\n'); err != nil {
				t.Fatal(err)
			}
		}
		if !isRead {
			reading.Close()
		}
		input.Close()
		if text, err := io.ReadAll(reading); isRead && (err != nil || !strings.HasSuffix(string(text), "syncthing-audit: standard input ended, so nobody waits for this look any more\n")) {
			t.Errorf("%q, %v", text, err)
		}
		var status *exec.ExitError
		if err := look.Wait(); !errors.As(err, &status) || status.ExitCode() != 129 {
			t.Errorf("%v", err)
		}
		reading.Close()
	}
}
