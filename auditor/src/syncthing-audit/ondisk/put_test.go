package main

import (
	"errors"
	"io"
	"os"
	"os/exec"
	"path/filepath"
	"runtime"
	"strings"
	"syscall"
	"testing"
	"time"

	"syncthing-audit/bep"
	"syncthing-audit/disk"
)

// asProgram is the variable that has this test's program be the program itself.
const asProgram = "SYNCTHING_AUDIT_DISK"

func TestMain(tests *testing.M) {
	if os.Getenv(asProgram) != "" {
		main()
	}
	os.Exit(tests.Run())
}

// The program takes its words from its command line. It gives its answer on standard output, its refusals on standard error, and its status.
func TestTheProgramItself(t *testing.T) {
	for words, due := range map[string]struct {
		status       int
		output, told string
	}{
		"--version": {statusDone, "syncthing-audit-disk of no release\n", ""},
		"-o x":      {statusUsage, "", "syncthing-audit-disk: no folder is given: its id and its directory here, as ID=DIR\n" + usage},
	} {
		var output, told strings.Builder
		program := exec.Command(os.Args[0], strings.Fields(words)...)
		program.Env, program.Stdout, program.Stderr = append(os.Environ(), asProgram+"=1"), &output, &told
		program.Run()
		if status := program.ProcessState.ExitCode(); status != due.status || output.String() != due.output || told.String() != due.told {
			t.Errorf("%s: status %d, %q, %q", words, status, output.String(), told.String())
		}
	}
}

// useSync has the system say this of each file that it is to write to its disk. It gives what these files had by then.
func useSync(t *testing.T, err error) *[]string {
	had, texts := sync, []string{}
	t.Cleanup(func() { sync = had })
	sync = func(file *os.File) error {
		text, _ := os.ReadFile(file.Name())
		texts = append(texts, string(text))
		return err
	}
	return &texts
}

// What is written takes the place of the file before once it is whole and on the disk. Where it can't be written, and where there is nothing to be written,
// the file before stays, and no other one is left.
func TestPuttingAFile(t *testing.T) {
	madeUp := errors.New("made up")
	at := func(err error) error { return &os.PathError{Op: "sync", Path: "x", Err: err} }
	write := func(to io.Writer) error { _, err := io.WriteString(to, "new"); return err }
	shut := func(to io.Writer) error { return to.(*faulting).to.(*os.File).Close() }
	for why, row := range map[string]struct {
		write   func(to io.Writer) error
		sync    error
		synced  int
		isFault bool
		err     error
	}{
		"written":                         {write, nil, 1, false, nil},
		"a system that writes none so":    {write, at(syscall.EINVAL), 1, false, nil},
		"a system that doesn't know that": {write, at(syscall.ENOTSUP), 1, false, nil},
		"a disk that fails":               {write, at(syscall.EIO), 1, true, syscall.EIO},
		"nothing to be written":           {func(io.Writer) error { return madeUp }, nil, 0, false, madeUp},
		"a write that fails":              {func(to io.Writer) error { shut(to); return write(to) }, nil, 0, true, os.ErrClosed},
		"one of two writes that fails":    {func(to io.Writer) error { write(to); shut(to); return write(to) }, nil, 0, true, os.ErrClosed},
		"an end that fails":               {func(to io.Writer) error { write(to); return shut(to) }, nil, 1, true, os.ErrClosed},
	} {
		room, texts := t.TempDir(), useSync(t, row.sync)
		path := filepath.Join(room, "part")
		if err := os.WriteFile(path, []byte("older"), 0o600); err != nil {
			t.Fatal(err)
		}
		isFault, err := put(path, row.write)
		if isFault != row.isFault || !errors.Is(err, row.err) || (err == nil) != (row.err == nil) || strings.Join(*texts, "|") != strings.Repeat("new", row.synced) {
			t.Errorf("%s: %v, %v, on the disk were %q", why, isFault, err, *texts)
		}
		due := map[bool]string{true: "new", false: "older"}[row.err == nil]
		if text, err := os.ReadFile(path); string(text) != due {
			t.Errorf("%s: %q, %v", why, text, err)
		}
		if left, err := os.ReadDir(room); len(left) != 1 || err != nil {
			t.Errorf("%s: left are %v, %v", why, left, err)
		}
	}
	path := filepath.Join(t.TempDir(), "part")
	if isFault, err := put(path, func(to io.Writer) error { return os.MkdirAll(filepath.Join(path, "below"), 0o700) }); !isFault || err == nil {
		t.Errorf("a directory takes the place meanwhile: %v, %v", isFault, err)
	}
}

// A folder of which it isn't known what is ignored is told, and its part is made. Nothing of the work goes on behind it.
func TestWhatIsToldBesideAPart(t *testing.T) {
	room := t.TempDir()
	folder := filepath.Join(room, "docs")
	for name, text := range map[string]string{"a": "a", ".stignore": "#include none\n", ".stfolder/x": ""} {
		if err := os.MkdirAll(filepath.Dir(filepath.Join(folder, name)), 0o700); err != nil {
			t.Fatal(err)
		}
		if err := os.WriteFile(filepath.Join(folder, name), []byte(text), 0o600); err != nil {
			t.Fatal(err)
		}
	}
	before := runtime.NumGoroutine()
	status, _, told := said("--after", bep.ID{7: 1}.String()+":00112233445566778899aabbccddeeff", "-o", filepath.Join(room, "part"), "docs="+folder)
	if lines := strings.Split(told, "\n"); status != statusDone || !strings.HasPrefix(told, "syncthing-audit-disk: it isn't known which names are ignored: folder docs: its .stignore: ") || len(lines) != 3 {
		t.Errorf("%d: %s", status, told)
	}
	for until := time.Now().Add(10 * time.Second); runtime.NumGoroutine() > before; time.Sleep(time.Millisecond) {
		if time.Now().After(until) {
			t.Fatalf("%d go on, and %d did", runtime.NumGoroutine(), before)
		}
	}
}

// It is told how far the work is, until it is over.
func TestProgress(t *testing.T) {
	had := timeBetween
	defer func() { timeBetween = had }()
	timeBetween = time.Millisecond
	pool := disk.NewPool(1)
	defer pool.Close()
	reading, log := io.Pipe()
	stop := tellProgress(pool, log)
	told := make([]byte, 100)
	for times := 0; times < 3; times++ {
		if count, err := reading.Read(told); err != nil || string(told[:count]) != "syncthing-audit-disk: hashed 0.0 GB\n" {
			t.Fatalf("%q, %v", told[:count], err)
		}
	}
	go io.Copy(io.Discard, reading)
	stop()
	log.Close()
}
