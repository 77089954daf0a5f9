package ask

import (
	"errors"
	"fmt"
	"os"
	"path/filepath"
	"reflect"
	"testing"
	"time"

	"github.com/syncthing/syncthing/lib/protocol"
	"syncthing-audit/finding"
	"syncthing-audit/join"
	"syncthing-audit/part"
	"syncthing-audit/rows"
)

// aStream gives a stream of directories that one device has; the one called "?" is known nowhere.
func aStream(names ...string) *rows.Piece {
	about := &part.Folder{ID: "docs", Kind: "send-receive", IndexID: 1, Max: 99}
	other := protocol.DeviceID{7: 2}.String()
	about.Views = []part.View{{Device: other, IndexID: 2, Max: 99}}
	device := func(number byte, about *part.Folder) join.Member {
		return join.Member{Device: &join.Device{Head: &part.Head{Device: protocol.DeviceID{7: number}.String()}, Number: uint64(number)}, About: about}
	}
	stream := rows.NewStream(&join.Folder{ID: "docs", Members: []join.Member{device(1, about), device(2, &part.Folder{ID: "docs"})}})
	for place, name := range names {
		record := &part.Record{Type: 1, Sequence: int64(place + 1), Invalid: name == "?"}
		has := &part.Name{Name: part.Bytes(name), Own: record}
		if name == "?" {
			has = &part.Name{Name: part.Bytes(name), Views: []part.Seen{{Record: record}}}
		}
		stream.Add(&join.Row{Name: name, At: []*part.Name{has, nil}})
	}
	return stream.Take()
}

// counted gives the line of a report that counts names, as a shell writes it.
func counted(names, deleted int) string {
	return fmt.Sprintf("echo 'folder docs: %d names, %d deleted, 2 devices'; ", names, deleted)
}

// paired gives the same line of 'rows --converge'.
func paired(names, pairs int) string {
	return fmt.Sprintf("echo 'folder docs: %d names, 0 deleted, 2 devices, %d pairs not yet at the winner'; ", names, pairs)
}

// Words of a shell for answers to a stream of which one name isn't firm.
const (
	storeDiffers = "echo 'StoreDiffers docs b on 1'; "
	notFirmB     = "echo 'not firm: StoreDiffers docs b on 1'; "
)

var (
	isLoose   = storeDiffers + notFirmB + counted(3, 0) + "exit 1"
	whyLoose  = storeDiffers + "echo '  store of 1: nothing'; " + notFirmB + counted(1, 0) + "exit 1"
	comesSome = "echo converging; " + paired(1, 0)
)

// aReader makes a program that answers so to a stream, to whoever has names of it explained, and to whether these converge.
func aReader(t *testing.T, firm, explain, converge string) Program {
	return aProgram(t, "case $* in 'rows --firm') cat > /dev/null; "+firm+";; 'rows --explain --firm') cat > /dev/null; "+explain+";; 'rows --converge') cat > /dev/null; "+converge+";; *) exit 9;; esac")
}

// What is told of each name is in the reply, and what isn't firm is asked again, by its very line.
func TestWhatIsAskedOfAStream(t *testing.T) {
	const recordDiffers, notFirmForRecord = "echo 'RecordDiffers docs b on 2'; ", "echo 'not firm: RecordDiffers docs b on 2'; "
	const versionDiffers, notFirmForVersion = "echo 'VersionDiffers docs b on 2'; ", "echo 'not firm: VersionDiffers docs b on 2'; "
	const isB = `[ "$(grep -c '"name":"[acd]"' input)" = 0 ] && [ "$(grep -c '"name":"b"' input)" = 1 ] && [ "$(wc -l < input)" = 2 ] || exit 9; `
	const all = "rows --firm,rows --explain --firm,rows --converge,"
	of := func(reason string, device uint64) finding.Failure {
		return finding.Failure{Reason: reason, Name: "b", Device: device}
	}
	pairs := func(count int64) *int64 { return &count }
	hindrance, loose := of("WouldCopy", 2), of("VersionDiffers", 2)
	for _, row := range []struct {
		why, firm, explain, converge string
		reply                        Reply
		asked                        string
	}{
		{"all is firm", "echo firm; " + counted(3, 1), "exit 9", "exit 9", Reply{Names: 3, Deleted: 1}, "rows --firm,"},
		{"one isn't settled", isLoose, isB + whyLoose, isB + "echo converging; " + paired(1, 2),
			Reply{Names: 3, Failures: []finding.Failure{of("StoreDiffers", 1)}, Convergence: finding.Convergence{Pairs: pairs(2)}}, all},
		{"one isn't settled for several reasons", recordDiffers + notFirmForRecord + counted(3, 0) + "exit 1",
			isB + recordDiffers + storeDiffers + versionDiffers + notFirmForRecord + counted(1, 0) + "exit 1",
			isB + "echo 'WouldCopy docs b on 2'; echo 'not converging: WouldCopy docs b on 2'; " + paired(1, 1) + "exit 1",
			Reply{Names: 3, Failures: []finding.Failure{of("RecordDiffers", 2), of("StoreDiffers", 1)}, Convergence: finding.Convergence{First: &hindrance, Pairs: pairs(1)}}, all},
		{"one is settled, and not firm", versionDiffers + notFirmForVersion + counted(3, 0) + "exit 1",
			isB + versionDiffers + "echo 'ViewNotBelow docs b on 1'; " + notFirmForVersion + counted(1, 0) + "exit 1",
			isB + comesSome, Reply{Names: 3, NotFirm: &loose, Convergence: finding.Convergence{Pairs: pairs(0)}}, all},
	} {
		log := filepath.Join(t.TempDir(), "log")
		program := aProgram(t, "cd '"+filepath.Dir(log)+"'; cat > input; printf '%s,' \"$*\" >> log\ncase \"$*\" in *explain*) "+row.explain+";; *firm*) "+row.firm+";; *) "+row.converge+";; esac")
		reply, err := program.Answer(aStream("a", "b", "c"))
		asked, _ := os.ReadFile(log)
		if err != nil || !reflect.DeepEqual(*reply, row.reply) || string(asked) != row.asked {
			t.Errorf("%s: %+v, %v, asked %s", row.why, reply, err, asked)
		}
	}
}

// A name that nothing holds is none that is counted.
func TestNamesThatNothingHoldsAreNotCounted(t *testing.T) {
	reply, err := aProgram(t, "echo firm; "+counted(2, 1)).Answer(aStream("?", "a"))
	if err != nil || reply.Names != 1 || reply.Deleted != 0 {
		t.Errorf("%+v, %v", reply, err)
	}
	if reply, err := aProgram(t, "echo firm; "+counted(2, 0)).Answer(aStream("?", "a")); err == nil {
		t.Errorf("a program that counts it as stored: %+v", reply)
	}
}

// What isn't an answer to the whole stream, or doesn't go with itself, is refused.
func TestAnswersToStreamsThatAreNone(t *testing.T) {
	line := func(name string) string { return "echo 'StoreDiffers docs " + name + " on 1'; " }
	verdict := func(name string) string { return "echo 'not firm: StoreDiffers docs " + name + " on 1'; " }
	for why, said := range map[string]string{
		"nothing":                          "",
		"half a line":                      "printf firm",
		"no counts":                        "echo firm",
		"counts without an end":            "echo firm; printf 'folder docs: 3 names, 0 deleted, 2 devices'",
		"counts of pairs":                  "echo firm; " + paired(3, 0),
		"fewer names than it was asked":    "echo firm; " + counted(2, 0),
		"more names than it was asked":     "echo firm; " + counted(4, 0),
		"another folder":                   "echo firm; echo 'folder pics: 3 names, 0 deleted, 2 devices'",
		"settled, and not whether firm":    "echo settled; " + counted(3, 0),
		"nonsense":                         "echo yes; echo yes; echo yes",
		"nonsense before":                  "echo hello; echo firm; " + counted(3, 0),
		"a name that wasn't asked":         line("d") + verdict("d") + counted(3, 0),
		"names out of their order":         line("b") + line("a") + verdict("a") + counted(3, 0),
		"a line twice":                     line("b") + line("b") + verdict("b") + counted(3, 0),
		"reasons out of their order":       line("b") + "echo 'LocalOnly docs b on 1'; echo 'not firm: LocalOnly docs b on 1'; " + counted(3, 0),
		"a name once more":                 line("a") + line("b") + line("a") + verdict("a") + counted(3, 0),
		"firm, and what isn't":             line("b") + "echo firm; " + counted(3, 0),
		"not firm, and nothing that fails": verdict("b") + counted(3, 0),
		"not firm for the second one":      line("a") + line("b") + verdict("b") + counted(3, 0),
		"a reason that it doesn't know":    "echo 'Odd docs b on 1'; echo 'not firm: Odd docs b on 1'; " + counted(3, 0),
		"a reason of converging":           "echo 'WouldCopy docs b on 1'; echo 'not firm: WouldCopy docs b on 1'; " + counted(3, 0),
		"the answer twice":                 "echo firm; " + counted(3, 0) + "echo firm; " + counted(3, 0),
	} {
		checkRefused(t, why, aReader(t, said, "exit 9", "exit 9"))
	}
}

// checkRefused says which program has an answer to a stream that is none.
func checkRefused(t *testing.T, why string, program Program) {
	var failed *Failed
	if reply, err := program.Answer(aStream("a", "b", "c")); !errors.As(err, &failed) || failed.Status != statusRefused || err.Error() == "" {
		t.Errorf("%s: %+v, %v", why, reply, err)
	}
}

// Why names aren't firm goes with what was told of them before.
func TestExplanationsThatAreNone(t *testing.T) {
	for why, said := range map[string]string{
		"nothing":                      "",
		"all is firm now":              "echo firm; " + counted(1, 0),
		"fewer names":                  storeDiffers + notFirmB + counted(0, 0),
		"all names of the stream":      storeDiffers + notFirmB + counted(3, 0),
		"another name of the stream":   "echo 'StoreDiffers docs a on 1'; echo 'not firm: StoreDiffers docs a on 1'; " + counted(1, 0),
		"another device":               "echo 'StoreDiffers docs b on 2'; echo 'not firm: StoreDiffers docs b on 2'; " + counted(1, 0),
		"something that stands before": "echo 'LocalOnly docs b on 1'; " + storeDiffers + "echo 'not firm: LocalOnly docs b on 1'; " + counted(1, 0),
	} {
		checkRefused(t, why, aReader(t, isLoose, said, comesSome))
	}
	twice := storeDiffers + "echo 'VersionDiffers docs b on 1'; " + notFirmB
	checkRefused(t, "two lines of a name before it is explained", aReader(t, twice+counted(3, 0), twice+counted(1, 0), comesSome))
}

// What is said of how the names come right goes with the names that were asked.
func TestAnswersOnConvergenceThatAreNone(t *testing.T) {
	would := func(name string) string { return "echo 'WouldCopy docs " + name + " on 2'; " }
	hinders := func(name string) string { return "echo 'not converging: WouldCopy docs " + name + " on 2'; " }
	for why, said := range map[string]string{
		"nothing":                         "",
		"no pairs":                        "echo converging; " + counted(1, 0),
		"more names":                      "echo converging; " + paired(3, 0),
		"no names":                        "echo converging; " + paired(0, 0),
		"a name that wasn't asked":        would("a") + hinders("a") + paired(1, 0),
		"another name of the stream, too": would("b") + would("c") + hinders("b") + paired(1, 0),
		"a verdict of its own":            hinders("b") + paired(1, 0),
		"no verdict":                      would("b") + "echo converging; " + paired(1, 0),
		"a reason of firm":                "echo 'VersionDiffers docs b on 1'; echo 'not converging: VersionDiffers docs b on 1'; " + paired(1, 0),
	} {
		checkRefused(t, why, aReader(t, isLoose, whyLoose, said))
	}
}

// What the program fails in is told with its status and its last words, whatever it said of names before.
func TestAProgramThatFailsInAStream(t *testing.T) {
	for words, row := range map[string]struct {
		status int
		told   string
	}{
		storeDiffers + "echo 'line 3: refused: 187 Record docs c on 1'; exit 2": {2, "ended with exit status 2: line 3: refused: 187 Record docs c on 1"},
		"echo firm; " + counted(3, 0) + "exit 5":                                {5, "ended with exit status 5: folder docs: 3 names, 0 deleted, 2 devices"},
		"echo it is out of luck >&2; exit 6":                                    {6, "ended with exit status 6: it is out of luck"},
		"read -r line; kill -9 $$":                                              {StatusCannotRun, "ended with signal: killed: "},
		"echo 'StoreDiffers docs b on 1'; kill -9 $$":                           {StatusCannotRun, "ended with signal: killed: StoreDiffers docs b on 1"},
	} {
		for asked, program := range map[string]Program{
			"rows --firm":           aProgram(t, words),
			"rows --explain --firm": aReader(t, isLoose, words, comesSome),
			"rows --converge":       aReader(t, isLoose, whyLoose, words),
		} {
			_, err := program.Answer(aStream("a", "b", "c"))
			var failed *Failed
			if !errors.As(err, &failed) || failed.Status != row.status || err.Error() != "'"+program.Path+" "+asked+"' "+row.told {
				t.Errorf("%s: %v", words, err)
			}
		}
	}
}

// While the program hangs nothing is claimed, whatever it said before; once it is ended that is a failure.
func TestAProgramThatHangsInAStream(t *testing.T) {
	number := filepath.Join(t.TempDir(), "number")
	program := aProgram(t, "echo firm; "+counted(1, 0)+"echo $$ > '"+number+"'; exec sleep 600")
	ended := make(chan error, 1)
	pool := NewPool(program, 1, func(*rows.Piece, *Reply) { t.Error("it was answered") })
	if err := pool.Ask(aStream("a")); err != nil {
		t.Fatal(err)
	}
	go func() { ended <- pool.Close() }()
	var process int
	for process == 0 {
		time.Sleep(20 * time.Millisecond)
		text, _ := os.ReadFile(number)
		fmt.Sscan(string(text), &process)
	}
	select {
	case err := <-ended:
		t.Fatalf("it ended: %v", err)
	case <-time.After(200 * time.Millisecond):
	}
	if there, err := os.FindProcess(process); err != nil || there.Kill() != nil {
		t.Fatal(err)
	}
	var failed *Failed
	if err := <-ended; !errors.As(err, &failed) || failed.Status != StatusCannotRun {
		t.Error(err)
	}
}

// What was written for the program is in memory no more once it is answered.
func TestWhatIsAnsweredIsNotKept(t *testing.T) {
	program := aReader(t, isLoose, whyLoose, comesSome)
	var pool *Pool
	var all []*rows.Piece
	pool = NewPool(program, 2, func(one *rows.Piece, _ *Reply) {
		if one.Written != nil {
			t.Errorf("%s, %d, is in memory still", one.About(), one.Place)
		}
		if len(pool.early) > ahead*2 {
			t.Errorf("%d pieces wait", len(pool.early))
		}
	})
	for place := 0; place < 12; place++ {
		one := aStream("a", "b", "c")
		one.Place = place
		all = append(all, one)
		if err := pool.Ask(one); err != nil {
			t.Fatal(err)
		}
	}
	if err := pool.Close(); err != nil || len(pool.early) > 0 {
		t.Errorf("%v, %d wait", err, len(pool.early))
	}
	for _, one := range all {
		if one.Written != nil {
			t.Errorf("%d is in memory still", one.Place)
		}
	}
}

// The first thing that fails is found in the order in which a report tells it.
func TestTheFirstOfSeveral(t *testing.T) {
	of := func(reason, name string, device uint64) finding.Failure {
		return finding.Failure{Reason: reason, Name: name, Device: device}
	}
	rising := []finding.Failure{of("LocalOnly", "c", 1), of("StoreDiffers", "a", 2), of("StoreDiffers", "b", 1), of(finding.VersionDiffers, "a", 1), of(finding.ViewNotBelow, "a", 1)}
	for place := range rising {
		for turn := 0; turn < 2; turn++ {
			all := append([]finding.Failure{}, rising[place:]...)
			all[0], all[(len(all)-1)*turn] = all[(len(all)-1)*turn], all[0]
			if first := finding.First(all, finding.AllReasons); *first != rising[place] {
				t.Errorf("%v comes first of %v", first, all)
			}
		}
	}
	if finding.First(nil, finding.AllReasons) != nil {
		t.Error("nothing has a first thing")
	}
}
