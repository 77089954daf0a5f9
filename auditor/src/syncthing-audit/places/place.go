package places

import (
	"errors"
	"fmt"
	"io"
	"os"
	"os/exec"
	"path/filepath"
	"runtime"
	"strconv"
	"strings"
	"syscall"
	"time"

	"syncthing-audit/ask"
	"syncthing-audit/bounded"
	"syncthing-audit/commandline"
	"syncthing-audit/device"
	"syncthing-audit/fault"
	"syncthing-audit/part"
	"syncthing-audit/shell"
)

// place is where a device is: a home on this machine or, by ssh, on another one.
type place struct {
	given  string      // as the command line has it
	host   string      // nothing for this machine
	home   string      // nothing for the one that Syncthing takes by itself
	data   string      // where its database is; nothing where that isn't said
	maps   device.Maps // where paths of its configuration are on its machine
	self   string      // this program
	ssh    []string
	looked time.Time

	folders []string // of those that are asked for the ones that the device has, once it said so
	isOlder bool     // than this program: it isn't able to say what is shared before it looks
	device  string   // its id, once it said so
	waits   bool     // whether the program there knows how long its second look is to wait until Syncthing is idle
	tells   bool     // whether it tells how many bytes it has hashed
}

// placesOf reads the places of a command line. As rsync has it, a colon before any slash stands behind a machine.
func placesOf(asked commandline.Options) ([]*place, error) {
	self, err := os.Executable()
	if err != nil {
		return nil, err
	}
	places := []*place{}
	seen := map[string]bool{}
	for at, word := range asked.Parts {
		next := &place{given: word, home: word, data: asked.Data[at], maps: asked.Maps[at], self: self}
		if host, home, is := strings.Cut(word, ":"); is && !strings.Contains(host, "/") {
			next.host, next.home, next.data = host, strings.TrimPrefix(home, "~/"), strings.TrimPrefix(next.data, "~/")
			if host == "" || strings.HasPrefix(host, "-") {
				return nil, commandline.WrongUse(fmt.Sprintf("%q names no machine", word))
			}
			next.ssh = append(append([]string{"ssh"}, optionsOfSSH(host)...), host)
		}
		if next.data != "" && next.home == "" {
			return nil, commandline.WrongUse(fmt.Sprintf("--data behind %q says where the database of a home is: name that home, too, as %sDIR", word, word))
		}
		if len(next.maps) > 0 && next.home == "" {
			return nil, commandline.WrongUse(fmt.Sprintf("--map behind %q says where paths of a home are: name that home, too, as %sDIR", word, word))
		}
		if err := next.checkHere(); err != nil {
			return nil, err
		}
		if seen[word] {
			return nil, commandline.WrongUse(fmt.Sprintf("%q is given twice", word))
		}
		seen[word] = true
		places = append(places, next)
	}
	return places, nil
}

// HostOf gives the machine of a place; nothing for this one.
func HostOf(word string) string {
	if host, _, is := strings.Cut(word, ":"); is && !strings.Contains(host, "/") {
		return host
	}
	return ""
}

// checkHere says of a word that may be a machine's that it needs a colon.
func (p *place) checkHere() error {
	if p.host != "" || strings.Contains(p.given, "/") {
		return nil
	}
	if _, err := os.Stat(p.home); !os.IsNotExist(err) {
		return nil
	}
	return fmt.Errorf("refused: there is no directory %s here; a machine has a colon behind its name: %s", shell.Quoted(p.given), shell.Quoted(p.given+":"))
}

// called gives the place's name for messages.
func (p *place) called() string { return strings.TrimSuffix(p.given, ":") }

// label gives a short name for files.
func (p *place) label() string {
	if p.host != "" {
		return p.host
	}
	return strings.Trim(strings.ReplaceAll(filepath.Clean(p.home), "/", "-"), "-")
}

// gently has a command take no more of a machine than others leave: the devices' own work goes before the hashing.
var gently = []string{"nice", "-n", "19"}

// about gives the command that says what a device shares.
func (p *place) about(asked commandline.Options) []string {
	words := []string{"part", "--about"}
	if asked.Rescan {
		words = append(words, "--rescan")
	}
	return p.words(nil, append(words, p.chosen(asked)...), asked)
}

// begin gives the command of the first look. On another machine it ends when this program does, which keeps its input open.
func (p *place) begin(asked commandline.Options) []string {
	words := []string{"part", "--begin"}
	if asked.Rescan {
		words = append(words, "--rescan")
	}
	if p.host != "" && !asked.DryRun {
		words = append(words, "--heed-input")
	}
	if asked.Steps && p.tells {
		words = append(words, "--progress")
	}
	if asked.HasJobs {
		words = append(words, "--jobs", strconv.Itoa(asked.Jobs))
	}
	return p.words(gently, append(words, p.chosen(asked)...), asked)
}

// end gives the command of the second look. Whose first looks it comes after is judged by the one who joins all.
func (p *place) end(asked commandline.Options) []string {
	words := []string{"part", "--end", "--tokens", "-", "--leave-out", part.Absent}
	if asked.HasStill && (p.waits || asked.DryRun) {
		words = append(words, "--still", strconv.FormatFloat(asked.Still, 'f', -1, 64))
	}
	return p.words(nil, append(words, p.chosen(asked)...), asked)
}

// chosen gives the words that say of what a look is.
func (p *place) chosen(asked commandline.Options) []string {
	words := []string{}
	if p.home != "" {
		words = append(words, "--home", p.home)
	}
	if p.data != "" {
		words = append(words, "--data", p.data)
	}
	for _, mapping := range p.maps {
		words = append(words, "--map", mapping.Word())
	}
	folders := asked.Folders
	if len(folders) > 0 && len(p.folders) > 0 {
		folders = p.folders
	}
	for _, folder := range folders {
		words = append(words, "--folder", folder)
	}
	if asked.Paths || p.host == "" {
		words = append(words, "--paths")
	}
	return append(append(words, asked.Names.Flags()...), "-o", "-")
}

// words gives a command, behind other words. Here it is this program. Elsewhere ssh runs it, as one word for the shell
// there.
func (p *place) words(before, words []string, asked commandline.Options) []string {
	if p.host == "" {
		return append(append(before[:len(before):len(before)], p.self), words...)
	}
	remote, path := asked.Remote, ""
	if remote == "" {
		remote, path = usualProgram, pathOfUsers
	}
	command := path + shell.ExactWords(append(append(before[:len(before):len(before)], remote), words...))
	return append(p.ssh[:len(p.ssh):len(p.ssh)], command)
}

// usualProgram is how this program is called on other machines, if --remote-program doesn't say it. It may stand where
// './install ~/.local' puts it. The PATH that ssh gives lacks that, so it comes behind.
const (
	usualProgram = "syncthing-audit"
	pathOfUsers  = `PATH="$PATH:$HOME/.local/bin" `
)

// onOneLine gives what a command said on standard error as one line: a line feed of another machine is no end of a line here.
func onOneLine(told string) string {
	return strings.Join(strings.FieldsFunc(told, func(letter rune) bool { return letter == '\n' || letter == '\r' }), "; ")
}

// run runs a command with what it reads, has what it writes go into a file, and gives what it says on standard error. What is over these limits
// ends it, and is an error.
func (p *place) run(words []string, input io.Reader, path string, limits bounded.Limits) (string, error) {
	file, err := os.OpenFile(path, os.O_WRONLY|os.O_CREATE|os.O_EXCL, 0o600)
	if err != nil {
		return "", err
	}
	defer file.Close()
	command := exec.Command(words[0], words[1:]...)
	command.Stdin = input
	command.SysProcAttr = &syscall.SysProcAttr{Pdeathsig: syscall.SIGTERM} // of the thread that starts it
	runtime.LockOSThread()
	defer runtime.UnlockOSThread()
	told, err := bounded.Run(command, fault.Writer{To: fault.Temporary{To: file}}, limits)
	var ended *exec.ExitError
	var passed *bounded.Passed
	var unkept *fault.Unwritten
	switch {
	case errors.As(err, &ended):
		return "", &endedCommand{fmt.Errorf("%s: its command ended with %w: %s%s", p.called(), ended, onOneLine(strings.TrimSpace(shown(told))), p.whereIs(ended))}
	case errors.As(err, &passed):
		return "", fmt.Errorf("refused: %s: its command %w, and was ended", p.called(), passed)
	case errors.As(err, &unkept):
		return "", fmt.Errorf("%s: what its command wrote can't be kept: %w", p.called(), err)
	case err != nil:
		return "", fmt.Errorf("%s: %s can't be run: %w", p.called(), shell.Quoted(words[0]), err)
	}
	return told, nil
}

// statusOfSSH is ssh's own, where it didn't come to the machine or lost it.
const statusOfSSH = 255

// whereIs says what to do where ssh doesn't come to a machine, or a shell there didn't find a command.
func (p *place) whereIs(ended *exec.ExitError) string {
	switch {
	case p.host == "":
		return ""
	case ended.ExitCode() == ask.StatusCannotRun:
		return ". Is syncthing-audit installed there? --remote-program says how it is called"
	case ended.ExitCode() == statusOfSSH:
		return ". See that the machine is on and that " + shell.Words([]string{"ssh", p.host, "true"}) + " needs no answer"
	}
	return ""
}

// hint adds to an error what may be its cause: what a shell prints as it starts goes before the part.
func (p *place) hint(err error) error {
	if p.host == "" || !errors.Is(err, part.ErrNone) {
		return err
	}
	return fmt.Errorf("%w: the shell there may print something as it starts, by its .bashrc say, which goes before the part: %s is to print nothing",
		err, shell.Words([]string{"ssh", p.host, "true"}))
}
