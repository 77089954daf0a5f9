package process

import (
	"errors"
	"fmt"
	"io"
	"os"
	"os/exec"
	"path/filepath"
	"runtime/debug"
	"strings"
	"syscall"
	"testing"
	"time"
)

// doing is the variable that says which program this test's program is in place of the tests.
const doing = "SYNCTHING_AUDIT_TEST_DOES"

var programs map[string]func(words []string)

func init() {
	programs = map[string]func([]string){"descriptors": tellDescriptors, "output": tellOutput, "owner": tellOwner, "parent": startAndDie, "core": tellCore, "orphan": beOrphan,
		"other": beOtherUser}
}

// childOf gives a call of such a program by a shell, which closes descriptors first.
func childOf(does, closed string, words ...string) *exec.Cmd {
	child := exec.Command("sh", append([]string{"-c", `exec "$0" "$@" ` + closed, os.Args[0]}, words...)...)
	child.Env = append(os.Environ(), doing+"="+does)
	return child
}

// begun is the variable that says that a program of this kind began before.
const begun = "SYNCTHING_AUDIT_TEST_BEGAN"

// tellDescriptors fills the descriptors, and tells whether the program began anew and its words, where the descriptors lead then, and which other ones
// lead to nothing.
func tellDescriptors(words []string) {
	again := os.Getenv(begun)
	if again == "" && words[0] != "" { // as Go may, which has descriptors of its own, too
		file, err := os.Open(os.Args[0])
		if err != nil || int(file.Fd()) > syscall.Stderr {
			panic(fmt.Sprint(file.Fd(), err))
		}
		defer file.Close()
	}
	os.Setenv(begun, again+"again ")
	if err := FillDescriptors(); err != nil {
		fmt.Fprint(os.Stderr, err)
		os.Exit(9)
	}
	fmt.Print(again, words, " ")
	for number := 0; number < 16; number++ {
		path, err := os.Readlink(fmt.Sprintf("/proc/self/fd/%d", number))
		if err == nil && (number <= syscall.Stderr || path == os.DevNull) {
			fmt.Printf("%d=%s ", number, path)
		}
	}
}

// Closed inputs and errors lead to nothing, the others where they led, and none that was needed meanwhile stays. A program of which one was
// closed begins anew. Without an output nothing is done.
func TestClosedDescriptors(t *testing.T) {
	directory, others := t.TempDir(), ""
	output, input, log := filepath.Join(directory, "output"), filepath.Join(directory, "input"), filepath.Join(directory, "log")
	for _, row := range []struct{ closed, opens, first, last string }{
		{"", "", input, log}, {"<&-", "", "/dev/null", log}, {"2>&-", "", input, "/dev/null"}, {"<&- 2>&-", "", "/dev/null", "/dev/null"},
		{"<&-", "opens", "/dev/null", log}, {"2>&-", "opens", input, "/dev/null"}, {"<&- 2>&-", "opens", "/dev/null", "/dev/null"},
	} {
		child := childOf("descriptors", row.closed, row.opens, "b c")
		child.Stdin, child.Stdout, child.Stderr = created(t, input), created(t, output), created(t, log)
		err := child.Run()
		told, _ := os.ReadFile(output)
		due := "[" + row.opens + " b c] 0=" + row.first + " 1=" + output + " 2=" + row.last + " "
		if row.closed == "" {
			others = strings.TrimPrefix(string(told), due) // that this test was started with
		} else {
			due = "again " + due
		}
		if string(told) != due+others || err != nil {
			t.Errorf("%q: %q, not %q, %v", row.closed, told, due+others, err)
		}
	}
	child := childOf("descriptors", ">&-", "")
	var said strings.Builder
	child.Stderr = &said
	if err := child.Run(); err == nil || said.String() != syscall.EBADF.Error() {
		t.Errorf("without an output: %v: %s", err, said.String())
	}
}

func created(t *testing.T, path string) *os.File {
	file, err := os.Create(path)
	if err != nil {
		t.Fatal(err)
	}
	t.Cleanup(func() { file.Close() })
	return file
}

// tellOutput takes the output, and writes there and to what was the output.
func tellOutput([]string) {
	output, err := TakeStandardOutput()
	if err != nil {
		os.Exit(9)
	}
	fmt.Println("a package's line")
	fmt.Fprintln(output, "an answer")
}

// Whoever has taken the output has it alone; what else is printed goes to the standard error.
func TestTheOutputIsTheAnswersAlone(t *testing.T) {
	child := childOf("output", "")
	var log strings.Builder
	child.Stderr = &log
	told, err := child.Output()
	if err != nil || string(told) != "an answer\n" || log.String() != "a package's line\n" {
		t.Errorf("%q, %q, %v", told, log.String(), err)
	}
	if err := childOf("output", ">&-").Run(); err == nil {
		t.Error("without an output")
	}
}

// The garbage collector has a bound and runs seldom, unless the environment has it otherwise.
func TestTheBoundOfMemory(t *testing.T) {
	before, percent := debug.SetMemoryLimit(-1), debug.SetGCPercent(50)
	defer debug.SetMemoryLimit(before)
	defer debug.SetGCPercent(percent)
	for _, row := range []struct {
		limit, percent string
		bound          int64
		grown          int
	}{{"1GiB", "50", before, 50}, {"1GiB", "", before, grown}, {"", "", mostMemory, grown}} {
		t.Setenv("GOMEMLIMIT", row.limit)
		t.Setenv("GOGC", row.percent)
		LimitMemory()
		if is := debug.SetMemoryLimit(-1); is != row.bound {
			t.Errorf("%+v: %d", row, is)
		}
		is := debug.SetGCPercent(50)
		if debug.SetGCPercent(is); is != row.grown {
			t.Errorf("%+v: %d percent", row, is)
		}
	}
}

// tellOwner becomes the user of homes, and tells whom it is then.
func tellOwner(homes []string) {
	if err := BecomeOwner(homes); err != nil {
		fmt.Print(err)
		os.Exit(9)
	}
	groups, err := os.Getgroups()
	fmt.Println(syscall.Getuid(), syscall.Geteuid(), syscall.Getgid(), syscall.Getegid(), groups, err)
	if os.Getenv(waiting) != "" {
		time.Sleep(time.Minute)
	}
}

// homeOf gives a directory of a user.
func homeOf(t *testing.T, user, group int) string {
	path := filepath.Join(t.TempDir(), fmt.Sprint(user))
	if err := os.Mkdir(path, 0o755); err != nil {
		t.Fatal(err)
	}
	if err := os.Chown(path, user, group); err != nil {
		t.Skip("root may not do here what root may: ", err)
	}
	return path
}

// Root becomes the user of the homes that it is given, with that user's groups and no other ones; and reads no homes of two users.
func TestRootBecomesTheOwner(t *testing.T) {
	if os.Geteuid() != 0 {
		t.Skip("of root alone")
	}
	one, other, roots, none := homeOf(t, 54321, 54322), homeOf(t, 54323, 54322), homeOf(t, 0, 0), filepath.Join(t.TempDir(), "none")
	root, err := childOf("owner", "").Output()
	if err != nil || !strings.HasPrefix(string(root), "0 0 0 0 ") {
		t.Fatalf("%s, %v", root, err)
	}
	for _, row := range []struct {
		homes []string
		told  string
	}{
		{[]string{one}, "54321 54321 54322 54322 [54322] <nil>\n"},
		{[]string{none, one, none, one}, "54321 54321 54322 54322 [54322] <nil>\n"},
		{[]string{none}, string(root)}, {[]string{roots, none}, string(root)},
		{[]string{one, other}, "refused: " + one + " and " + other + " are of two users"},
		{[]string{one, roots}, "refused: " + one + " and " + roots + " are of two users"},
		{[]string{roots, one}, "refused: " + roots + " and " + one + " are of two users"},
	} {
		told, err := childOf("owner", "", row.homes...).Output()
		if isRefused := strings.HasPrefix(row.told, "refused"); (err != nil) != isRefused || !strings.HasPrefix(string(told), row.told) {
			t.Errorf("%q: %s, %v", row.homes, told, err)
		}
	}
}

// Groups of a user are its own one, and those that the system knows of it.
func TestGroups(t *testing.T) {
	if groups := groupsOf(&syscall.Stat_t{Uid: 54321, Gid: 7}); len(groups) != 1 || groups[0] != 7 {
		t.Errorf("%v", groups)
	}
	groups := groupsOf(&syscall.Stat_t{Uid: 0, Gid: 7})
	if len(groups) < 2 || groups[0] != 7 || groups[1] != 0 {
		t.Errorf("%v", groups)
	}
}

// waiting is the variable that has a program wait.
const waiting = "SYNCTHING_AUDIT_TEST_WAITS"

// startAndDie starts the program that becomes an owner, to be ended once this one is, and ends itself.
func startAndDie(homes []string) {
	child := exec.Command(os.Args[0], homes...)
	child.Env = append(os.Environ(), doing+"=owner", waiting+"=1")
	child.SysProcAttr = &syscall.SysProcAttr{Pdeathsig: syscall.SIGTERM}
	child.Stderr = os.Stderr
	output, err := child.StdoutPipe()
	if err == nil {
		err = child.Start()
	}
	if err == nil {
		_, err = output.Read(make([]byte, 1))
	}
	if err != nil {
		fmt.Fprint(os.Stderr, err)
	}
}

// A program that became another user is ended with the one that started it, as before.
func TestTheSignalOfAParentsDeathStays(t *testing.T) {
	homes := []string{}
	if os.Geteuid() == 0 {
		homes = []string{homeOf(t, 54321, 54322)}
	}
	reading, writing, err := os.Pipe()
	if err != nil {
		t.Fatal(err)
	}
	child := childOf("parent", "", homes...)
	child.Stderr = writing
	if err := child.Run(); err != nil {
		t.Fatal(err)
	}
	writing.Close()
	if err := reading.SetReadDeadline(time.Now().Add(8 * time.Second)); err != nil {
		t.Fatal(err)
	}
	if told, err := io.ReadAll(reading); err != nil || len(told) > 0 {
		t.Errorf("it lives on: %s, %v", told, err)
	}
	if errors.Is(err, os.ErrDeadlineExceeded) {
		t.Error("it lives on")
	}
}

// tellCore tells how long a core may be behind AbortWhereItCrashes, where it may be long before.
func tellCore([]string) {
	limit := &syscall.Rlimit{}
	err := syscall.Getrlimit(syscall.RLIMIT_CORE, limit)
	if limit.Cur = limit.Max; err == nil {
		err = syscall.Setrlimit(syscall.RLIMIT_CORE, limit)
	}
	fmt.Print(limit.Max > 0, " ")
	AbortWhereItCrashes()
	if err == nil {
		err = syscall.Getrlimit(syscall.RLIMIT_CORE, limit)
	}
	fmt.Print(limit.Cur, err)
}

// A crash writes no core, however long it may be.
func TestNoCoreIsWritten(t *testing.T) {
	told, err := childOf("core", "").Output()
	if strings.HasPrefix(string(told), "false") {
		t.Skip("no core may be written here")
	}
	if string(told) != "true 0 <nil>" || err != nil {
		t.Errorf("%s, %v", told, err)
	}
}

// beOrphan has the signal come as before where the one that started this program is dead already, or where it is no signal.
func beOrphan(words []string) {
	switch parentsDeath = syscall.SIGTERM; words[0] {
	case "dead":
		parent = -1
	case "no signal":
		parentsDeath = 999
	case "none":
		parent, parentsDeath = -1, 0
	}
	if err := heedParentAgain(); err != nil {
		fmt.Print(err)
		os.Exit(9)
	}
}

// Whoever started this program may have died before it heeds that: then it ends as by the signal.
func TestAParentThatDiedMeanwhile(t *testing.T) {
	for word, status := range map[string]int{"alive": 0, "dead": 128 + int(syscall.SIGTERM), "no signal": 9, "none": 0} {
		child := childOf("orphan", "", word)
		child.Run()
		if ended := child.ProcessState.ExitCode(); ended != status {
			t.Errorf("%s: status %d, not %d", word, ended, status)
		}
	}
}

// beOtherUser reads a home of one user as another one, who isn't root.
func beOtherUser(words []string) {
	err := os.Chdir(words[0]) // which others may not enter
	if err == nil {
		err = syscall.Setresuid(54399, 54399, 54399)
	}
	if err == nil {
		err = BecomeOwner([]string{"."})
	}
	fmt.Print(syscall.Getuid(), err)
}

// Whoever isn't root stays who that is, and reads what may be read.
func TestWhoIsNotRootBecomesNobodyElse(t *testing.T) {
	if os.Geteuid() != 0 {
		t.Skip("of root alone")
	}
	if told, err := childOf("other", "", homeOf(t, 54321, 54322)).Output(); string(told) != "54399 <nil>" || err != nil {
		t.Errorf("%s, %v", told, err)
	}
}

// Root that isn't allowed to become a home's user, as in a container that has no other one, reads nothing.
func TestRootThatCannotBecomeTheOwner(t *testing.T) {
	if os.Geteuid() != 0 {
		t.Skip("of root alone")
	}
	home := homeOf(t, 54321, 54322)
	for why, groups := range map[string]int{"no group": 1, "no user": 70000} {
		child := childOf("owner", "", home)
		child.SysProcAttr = &syscall.SysProcAttr{Cloneflags: syscall.CLONE_NEWUSER, UidMappings: []syscall.SysProcIDMap{{Size: 1}}, GidMappings: []syscall.SysProcIDMap{{Size: groups}},
			GidMappingsEnableSetgroups: true}
		told, err := child.Output()
		if child.Process == nil {
			t.Skip("this system has no users of containers:", err)
		}
		if err == nil || !strings.HasPrefix(string(told), "refused: root can't become user 65534, whose home "+home+" is: ") {
			t.Errorf("%s: %s, %v", why, told, err)
		}
	}
}
