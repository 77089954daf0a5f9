package script

import (
	"fmt"
	"math/rand"
	"os"
	"os/exec"
	"path/filepath"
	"strings"
	"testing"
	"time"

	"syncthing-audit/outlook"
	"syncthing-audit/part"
	"syncthing-audit/summary"
)

var ids = []string{"AAAAAAA", "BBBBBBB", "CCCCCCC"}

// names are such as a shell may take for something else, and below one another.
var names = []string{"a", "a/b", "a/b/c", "it's", `back\slash`, "new\nline\n", "-rf", "$HOME `id`", "two  words", "x/-n", "x/\x1b[2J", "x/\xff", "$(touch oops)", "é*?"}

// disks are the devices' folders.
type disks struct {
	t    *testing.T
	room string
}

func (d *disks) folder(device string) string { return filepath.Join(d.room, device) }

func (d *disks) at(device, name string) string { return filepath.Join(d.room, device, name) }

// run runs a command, and wants it to succeed.
func run(t *testing.T, words ...string) {
	t.Helper()
	if said, err := exec.Command(words[0], words[1:]...).CombinedOutput(); err != nil {
		t.Fatalf("%q: %v: %s", words, err, said)
	}
}

// newDisks gives folders in which files, directories and symlinks stand at some of the names.
func newDisks(t *testing.T, random *rand.Rand) *disks {
	made := &disks{t, t.TempDir()}
	for place, device := range ids {
		run(t, "mkdir", "-p", made.at(device, ".stfolder"))
		for number, name := range names {
			made.put(random, device, name, fmt.Sprint(place, number), time.Unix(int64(1000*place+number), 0))
		}
	}
	return made
}

// put puts something at a name, if a directory is above it.
func (d *disks) put(random *rand.Rand, device, name, text string, modified time.Time) {
	path := d.at(device, name)
	if above, err := os.Lstat(filepath.Dir(path)); err != nil || !above.IsDir() {
		return
	}
	switch random.Intn(5) {
	case 0:
		return
	case 1:
		_ = os.Symlink(text, path)
		return
	case 2, 3:
		if strings.HasPrefix(name, "a") || strings.HasPrefix(name, "x") {
			_ = os.Mkdir(path, 0o755)
			return
		}
	}
	_ = os.WriteFile(path, []byte(text), 0o640)
	_ = os.Chtimes(path, modified, modified)
}

func isThere(path string) bool {
	_, err := os.Lstat(path)
	return err == nil
}

// make makes a step as the answer says it, and says whether it can be made.
func (d *disks) make(step outlook.Step, name string) bool {
	path := d.at(step.Device, name)
	switch step.Act {
	case outlook.Save:
		return isThere(path)
	case outlook.Touch:
		about, err := os.Lstat(path)
		return err == nil && about.Mode().IsRegular() && os.Chtimes(path, present, present) == nil
	case outlook.Delete:
		return isThere(path) && os.RemoveAll(path) == nil
	}
	above, err := os.Lstat(filepath.Dir(path))
	if err != nil || !above.IsDir() || !isThere(d.at(step.From, name)) || step.Over != isThere(path) {
		return false
	}
	if err := os.RemoveAll(path); err != nil {
		return false
	}
	run(d.t, "cp", "-a", d.at(step.From, name), path)
	return true
}

var present = time.Unix(1e9, 0)

// drawPlans draws plans that can be followed from the top, and follows them.
func drawPlans(random *rand.Rand, disks *disks) []*outlook.Plan {
	var plans []*outlook.Plan
	some := names[:len(names)-random.Intn(2)*(len(names)-3)] // all, or those that stand below one another
	for try := 0; try < 30; try++ {
		name := some[random.Intn(len(some))]
		plan := &outlook.Plan{Names: []part.Bytes{part.Bytes(name)}, Count: 1}
		for count := 1 + random.Intn(3); count > 0; count-- {
			device, from := random.Intn(len(ids)), random.Intn(len(ids)-1)
			acts := []outlook.Act{outlook.Save, outlook.Touch, outlook.Copy, outlook.Copy, outlook.Delete}
			step := outlook.Step{Act: acts[random.Intn(len(acts))], Device: ids[device]}
			if step.Act == outlook.Copy {
				step.From, step.Over = ids[(device+1+from)%len(ids)], isThere(disks.at(step.Device, name))
			}
			if disks.make(step, name) {
				plan.Steps = append(plan.Steps, step)
			}
		}
		if len(plan.Steps) > 0 {
			plans = append(plans, plan)
		}
	}
	return plans
}

func summaryOf(plans []*outlook.Plan) *summary.Summary {
	told := &summary.Summary{Folders: []*summary.Folder{{ID: "docs", Label: "it's\x1b[2J", Outlook: &outlook.Outlook{Plans: plans}}}}
	for _, id := range ids {
		told.Devices = append(told.Devices, summary.Device{ID: id, Name: "it's " + id + "\n\x1b[2J"})
	}
	return told
}

// filled gives a script in which a user has set the paths.
func (d *disks) filled(t *testing.T, one File, source func(device string) string) string {
	var device string
	for _, id := range ids {
		if strings.HasSuffix(one.Name, "-"+id+".sh") {
			device = id
		}
	}
	lines := strings.Split(one.Text, "\n")
	for place, line := range lines {
		switch {
		case strings.HasPrefix(line, "stopped="):
			lines[place] = "stopped=yes"
		case strings.HasPrefix(line, "aside="):
			lines[place] = "aside='" + filepath.Join(d.room, "aside "+device) + "'"
		case strings.HasPrefix(line, "folder_1="):
			lines[place] = "folder_1='" + d.folder(device) + "'"
		case strings.HasPrefix(line, "source_"):
			for _, id := range ids {
				if strings.Contains(line, "of it's "+id) {
					lines[place] = strings.SplitN(line, "=", 2)[0] + "='" + source(id) + "'"
				}
			}
		}
	}
	path := filepath.Join(t.TempDir(), one.Name)
	if err := os.WriteFile(path, []byte(strings.Join(lines, "\n")), 0o600); err != nil {
		t.Fatal(err)
	}
	return path
}

// tree gives all that stands below a directory. Whatever was touched has one time.
func tree(t *testing.T, root string, before time.Time) string {
	var made strings.Builder
	err := filepath.Walk(root, func(path string, about os.FileInfo, err error) error {
		if err != nil {
			return err
		}
		said := ""
		switch {
		case about.Mode().IsRegular():
			text, err := os.ReadFile(path)
			if err != nil {
				return err
			}
			modified := about.ModTime()
			if modified.After(before) {
				modified = present
			}
			said = fmt.Sprintf("%s %d", text, modified.Unix())
		case about.Mode()&os.ModeSymlink != 0:
			said, err = os.Readlink(path)
		}
		fmt.Fprintf(&made, "%q %s %s\n", strings.TrimPrefix(path, root), about.Mode(), said)
		return err
	})
	if err != nil {
		t.Fatal(err)
	}
	return made.String()
}

// Scripts that are run round by round, in any order within one, lead to what the plans lead to from the top. They lose no file's bytes. Run again, they
// change nothing more.
func TestScriptsDoWhatPlansSay(t *testing.T) {
	rounds, steps := map[byte]int{}, 0
	for seed := int64(1); seed <= 16; seed++ {
		random := rand.New(rand.NewSource(seed))
		told := newDisks(t, random)
		here := &disks{t, t.TempDir()}
		run(t, "cp", "-a", told.room+"/.", here.room)
		plans, had := drawPlans(random, told), bytesIn(t, here.room)
		scripts := Of(summaryOf(plans), time.Now())
		random.Shuffle(len(scripts), func(a, b int) {
			if scripts[a].Name[0] == scripts[b].Name[0] {
				scripts[a], scripts[b] = scripts[b], scripts[a]
			}
		})
		before := time.Now().Add(-time.Hour)
		for _, script := range scripts {
			rounds[script.Name[0]]++
			steps += strings.Count(script.Text, `"$folder_1" `)
			path := here.filled(t, script, here.folder)
			for times := 0; times < 1+random.Intn(2); times++ {
				run(t, "sh", path)
			}
		}
		for _, device := range ids {
			if made, expected := tree(t, here.folder(device), before), tree(t, told.folder(device), before); made != expected {
				t.Fatalf("seed %d: on %s there is\n%s, not\n%s", seed, device, made, expected)
			}
		}
		for text := range had {
			if !bytesIn(t, here.room)[text] {
				t.Errorf("seed %d: %q is lost", seed, text)
			}
		}
	}
	if rounds['2'] == 0 || rounds['3'] == 0 || steps < 150 {
		t.Error(rounds, steps)
	}
}

// bytesIn gives the texts of all files below a directory.
func bytesIn(t *testing.T, root string) map[string]bool {
	made := map[string]bool{}
	err := filepath.Walk(root, func(path string, about os.FileInfo, err error) error {
		if err == nil && about.Mode().IsRegular() {
			var text []byte
			text, err = os.ReadFile(path)
			made[string(text)] = true
		}
		return err
	})
	if err != nil {
		t.Fatal(err)
	}
	return made
}
