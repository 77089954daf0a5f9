package observing

import (
	"os"
	"path/filepath"
	"regexp"
	"strings"
	"sync"
	"testing"
	"time"

	"github.com/syncthing/syncthing/lib/protocol"
	"syncthing-audit/disk"
	"syncthing-audit/diskhalf"
	"syncthing-audit/exit"
	"syncthing-audit/fixture/stranger"
)

// written is a log that is read while it is written.
type written struct {
	mutex sync.Mutex
	text  strings.Builder
}

func (w *written) Write(text []byte) (int, error) {
	w.mutex.Lock()
	defer w.mutex.Unlock()
	return w.text.Write(text)
}

func (w *written) String() string {
	w.mutex.Lock()
	defer w.mutex.Unlock()
	return w.text.String()
}

// await gives what a pattern finds in the log, once it does.
func (w *written) await(t *testing.T, pattern string) []string {
	t.Helper()
	for tries := 0; tries < 2000; tries++ {
		if found := regexp.MustCompile(pattern).FindStringSubmatch(w.String()); found != nil {
			return found
		}
		time.Sleep(10 * time.Millisecond)
	}
	t.Fatalf("%s isn't told: %s", pattern, w.String())
	return nil
}

// walk makes a part of disks as the command that is told does, with a token in place of the one there.
func walk(t *testing.T, command, token, directory, path string) {
	t.Helper()
	words := strings.Fields(regexp.MustCompile("'([a-z]+)=DIR'").ReplaceAllString(command, "$1="+directory+"/$1"))
	if token != "" {
		words[2] = token
	}
	asked, err := diskhalf.ReadCommand(words[1:], nil)
	if err != nil {
		t.Fatal(command, err)
	}
	file, err := os.Create(path + ".new")
	if err != nil {
		t.Fatal(err)
	}
	defer file.Close()
	pool := disk.NewPool(1)
	defer pool.Close()
	if _, err := diskhalf.Write(file, asked.Asked, pool); err != nil {
		t.Fatal(err)
	}
	if err := os.Rename(path+".new", path); err != nil {
		t.Fatal(err)
	}
}

// A run tells the command for a walk of a device's disks, and waits for its part: no other one is taken. It has what the walk finds, to the block.
func TestADeviceWhoseDisksAreWalked(t *testing.T) {
	hurry(t)
	long := strings.Repeat("a", 128<<10) + "end"
	here := newWorld(t, 2, map[string]string{"a": "text", "long": long})
	directory, path := t.TempDir(), filepath.Join(t.TempDir(), "b.part")
	wide := strings.Repeat("w", 300<<10)
	for _, device := range here.devices {
		device.Change(func(state *stranger.State) {
			state.Records["pics"] = []protocol.FileInfo{stranger.RecordIn(256<<10, "wide", wide, 1)}
			state.Disk["pics/wide"] = wide
		})
	}
	rotten := strings.Repeat("b", 128<<10) + "end"
	for name, text := range map[string]string{"docs/a": "text", "docs/long": rotten, "docs/.stfolder": "", "pics/wide": wide, "pics/.stfolder": ""} {
		at := filepath.Join(directory, name)
		if err := os.MkdirAll(filepath.Dir(at), 0o755); err != nil {
			t.Fatal(err)
		}
		if err := os.WriteFile(at, []byte(text), 0o644); err != nil {
			t.Fatal(err)
		}
		if err := os.Chtimes(at, time.Unix(1000, 0), time.Unix(1000, 0)); err != nil {
			t.Fatal(err)
		}
	}
	here.devices[1].Change(func(state *stranger.State) { state.Disk["docs/long"] = rotten })
	here.asked.Disks = map[int]string{1: path}
	here.asked.Still = 0.2
	var output, log written
	var status int
	ended := make(chan error, 1)
	go func() {
		var err error
		status, err = Run(here.asked, &output, &log)
		ended <- err
	}()
	id := here.devices[1].ID.String()
	found := log.await(t, `now on device b \(`+id[:7]+`\), with each folder's directory in place of DIR:\n  (.*)\n.*: waiting for that file at (.*)\n`)
	if !strings.HasSuffix(found[1], " --block-size 262144 -o b.part 'docs=DIR' 'pics=DIR'") || found[2] != path {
		t.Error(found)
	}
	if err := os.WriteFile(path, []byte("no part"), 0o600); err != nil {
		t.Fatal(err)
	}
	time.Sleep(20 * time.Millisecond)
	walk(t, found[1], here.devices[0].ID.String()+":0123456789abcdef0123456789abcdef", directory, path)
	log.await(t, "it isn't what this run waits for: it is of device "+here.devices[0].ID.String()+"; waiting for another file there")
	walk(t, found[1], id+":0123456789abcdef0123456789abcdef", directory, path)
	log.await(t, "its walk came after another look than this run's; waiting for another file there")
	whole := filepath.Join(t.TempDir(), "whole")
	walk(t, found[1], "", directory, whole)
	text, err := os.ReadFile(whole)
	if err == nil {
		err = os.WriteFile(path+".new", text[:len(text)/2], 0o600) // one that is being copied
	}
	if err == nil {
		err = os.Rename(path+".new", path)
	}
	if err != nil {
		t.Fatal(err)
	}
	time.Sleep(20 * time.Millisecond)
	if err := os.Rename(whole, path); err != nil {
		t.Fatal(err)
	}
	if err := <-ended; err != nil || status != exit.NotSettled {
		t.Fatal(status, err, log.String())
	}
	for _, told := range []string{"NOT in step", "device b: other bytes on the disk", "block 0 differs"} {
		if !strings.Contains(output.String(), told) {
			t.Errorf("%q isn't told: %s", told, output.String())
		}
	}
	if strings.Count(log.String(), "waiting for another file") != 2 {
		t.Error(log.String())
	}
}
