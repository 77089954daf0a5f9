package ownpart

import (
	"crypto/sha256"
	"io"
	"net/http"
	"net/http/httptest"
	"os"
	"path/filepath"
	"syscall"
	"testing"
	"time"

	"github.com/syncthing/syncthing/lib/protocol"
	"syncthing-audit/commandline"
	"syncthing-audit/device"
	"syncthing-audit/fixture"
	"syncthing-audit/part"
)

// written is when the files of these tests were written.
var written = time.Unix(1700000000, 5)

// fileEntry writes a file of the folder, and gives its entry.
func fileEntry(t *testing.T, home *fixture.Home, name, text string, sequence int64) protocol.FileInfo {
	path := filepath.Join(home.Files, name)
	err := os.WriteFile(path, []byte(text), 0o644)
	if err == nil {
		err = os.Chmod(path, 0o644)
	}
	if err == nil {
		err = os.Chtimes(path, written, written)
	}
	if err != nil {
		t.Fatal(err)
	}
	hash := sha256.Sum256([]byte(text))
	return protocol.FileInfo{Name: name, Size: int64(len(text)), Permissions: 0o644, ModifiedS: written.Unix(), ModifiedNs: written.Nanosecond(), ModifiedBy: 9, Sequence: sequence,
		RawBlockSize: protocol.MinBlockSize, Version: protocol.Vector{Counters: []protocol.Counter{{ID: 9, Value: 1}}},
		Blocks: []protocol.BlockInfo{{Size: len(text), Hash: hash[:]}}}
}

// filesOfIndex are those of the index of each home here, once there is one: to make an index takes long.
var filesOfIndex = map[string][]byte{}

// homeOf makes a home whose folder has the files a and b, as both its own index and the other device's have them.
func homeOf(t *testing.T) *fixture.Home {
	t.Setenv("HOME", t.TempDir()) // no index and no observer of this user's is looked at
	home := fixture.NewHome(t, "server")
	entries := []protocol.FileInfo{fileEntry(t, home, "a", "alpha", 1), fileEntry(t, home, "b", "beta", 2)}
	index := filepath.Join(home.Dir, fixture.NameOfIndex)
	if len(filesOfIndex) == 0 {
		home.Fill(t, home.Dir, entries, entries)
		written, err := filepath.Glob(filepath.Join(index, "*"))
		for _, path := range written {
			if err == nil {
				filesOfIndex[filepath.Base(path)], err = os.ReadFile(path)
			}
		}
		if err != nil {
			t.Fatal(err)
		}
		return home
	}
	err := os.Mkdir(index, 0o700)
	for name, text := range filesOfIndex {
		if err == nil {
			err = os.WriteFile(filepath.Join(index, name), text, 0o600)
		}
	}
	if err != nil {
		t.Fatal(err)
	}
	return home
}

// askedOf gives what is asked of a home where nothing else is.
func askedOf(home *fixture.Home) commandline.Options {
	return commandline.Options{Homes: []string{home.Dir}, Data: map[int]string{}, Maps: map[int]device.Maps{}, LeaveOut: map[string]bool{}, Jobs: 1}
}

// move moves a home's index into another directory, and gives that.
func move(t *testing.T, home *fixture.Home) string {
	data := t.TempDir()
	if err := os.Rename(filepath.Join(home.Dir, fixture.NameOfIndex), filepath.Join(data, fixture.NameOfIndex)); err != nil {
		t.Fatal(err)
	}
	return data
}

// hold has this process hold the lock of the index in a directory, as a Syncthing does that runs, until the test ends or it is given back.
func hold(t *testing.T, directory string) (release func()) {
	lock, err := os.OpenFile(filepath.Join(directory, fixture.NameOfIndex, "LOCK"), os.O_RDWR|os.O_CREATE, 0o600)
	if err == nil {
		err = syscall.Flock(int(lock.Fd()), syscall.LOCK_EX|syscall.LOCK_NB)
	}
	if err != nil {
		t.Fatal(err)
	}
	t.Cleanup(func() { lock.Close() })
	return func() { lock.Close() }
}

// answers are what a Syncthing of these tests answers to each question, in turn; the last one again and again.
type answers map[string][]string

// listen has a Syncthing answer at the address in a home's configuration, and gives the questions that come.
func listen(t *testing.T, home *fixture.Home, said answers) *[]string {
	asked := &[]string{}
	server := httptest.NewServer(http.HandlerFunc(func(to http.ResponseWriter, question *http.Request) {
		what := question.URL.RequestURI()
		*asked = append(*asked, question.Method+" "+what)
		texts := said[what]
		switch {
		case len(texts) == 0:
			http.Error(to, "odd", http.StatusNotFound)
			return
		case len(texts) > 1:
			said[what] = texts[1:]
		}
		io.WriteString(to, texts[0])
	}))
	t.Cleanup(server.Close)
	home.Config.GUI.Enabled, home.Config.GUI.RawAddress, home.Config.GUI.APIKey = true, server.Listener.Addr().String(), "key"
	home.Configure(t)
	return asked
}

// writeTo writes into a text, as a part is written into a file.
func writeTo(to io.Writer) func(func(io.Writer) error) error {
	return func(fill func(io.Writer) error) error { return fill(to) }
}

// read reads a part to its end.
func read(t *testing.T, from io.Reader) (*part.Head, map[string]*part.Name, []*part.End) {
	t.Helper()
	reader, err := part.NewReader(from)
	if err != nil {
		t.Fatal(err)
	}
	names, ends := map[string]*part.Name{}, []*part.End{}
	for {
		line, err := reader.Next()
		switch {
		case err == io.EOF:
			return reader.Head(), names, ends
		case err != nil:
			t.Fatal(err)
		case line.Name != nil:
			names[string(line.Name.Name)] = line.Name
		case line.End != nil:
			ends = append(ends, line.End)
		}
	}
}
