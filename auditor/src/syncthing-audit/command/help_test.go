package command

import (
	"io"
	"os"
	"regexp"
	"sort"
	"strconv"
	"strings"
	"testing"

	"syncthing-audit/commandline"
	"syncthing-audit/exit"
	"syncthing-audit/fixture"
	"syncthing-audit/flags"
	"syncthing-audit/part"
	"syncthing-audit/release"
)

// table has the commands and their flags.
var table = flags.Read()

// inTable gives the flags of a command, rising.
func inTable(command string) string {
	names := []string{}
	for _, flag := range table.OfCommand(command) {
		names = append(names, flag.Name)
	}
	sort.Strings(names)
	return strings.Join(names, " ")
}

var flagOfHelp = regexp.MustCompile(`(?m)^  (--?[a-z-]+) `)

// The help of a command has its flags alone, and how it is called; it is the same by each way to ask for it.
func TestTheHelpOfACommand(t *testing.T) {
	for command := range commands {
		text := commandline.HelpOf(command)
		told := []string{}
		for _, found := range flagOfHelp.FindAllStringSubmatch(text, -1) {
			told = append(told, found[1])
		}
		sort.Strings(told)
		if strings.Join(told, " ") != inTable(command) {
			t.Errorf("the help of %s tells %v, and it has %s", command, told, inTable(command))
		}
		called := regexp.MustCompile(`(?m)^(?:usage:|      ) syncthing-audit ([a-z]+)`).FindAllStringSubmatch(text, -1)
		for _, found := range called {
			if found[1] != command {
				t.Errorf("the help of %s tells of %s", command, found[1])
			}
		}
		if len(called) == 0 || !strings.Contains(text, "\n  "+command) || !strings.Contains(text, "\nExit status: ") {
			t.Errorf("the help of %s lacks something: %s", command, text)
		}
		for _, words := range [][]string{{command, "--help"}, {command, "-h"}, {"help", command}, {"--help", command}} {
			var output strings.Builder
			if status := Run(words, &output, io.Discard); status != exit.Done || output.String() != text {
				t.Errorf("%v: status %d, %s", words, status, output.String())
			}
		}
	}
	var output strings.Builder
	if status := Run([]string{"--help"}, &output, io.Discard); status != exit.Done || output.String() != commandline.Usage {
		t.Errorf("status %d, %s", status, output.String())
	}
}

// A command takes the flags of its help, and no other one.
func TestACommandTakesTheFlagsOfItsHelp(t *testing.T) {
	for command := range commands {
		for _, flag := range table.Flags {
			var log strings.Builder
			words := []string{command, flag.Name}
			if flag.Word != "" {
				words = append(words, valueOf(flag.Name))
			}
			if table.IsOf("--jobs", command) {
				words = append(words, "--jobs", "0") // nothing is done of that
			}
			Run(words, io.Discard, &log)
			told := commandline.InsteadOf[command+" "+flag.Name]
			takes := !strings.Contains(log.String(), command+" has no flag "+flag.Name+"\n") && (told == "" || !strings.Contains(log.String(), told))
			if isTold := strings.Contains(" "+inTable(command)+" ", " "+flag.Name+" "); takes != isTold {
				t.Errorf("%s takes %s: %t, and its help has it: %t: %s", command, flag.Name, takes, isTold, log.String())
			}
		}
	}
}

// valueOf gives a word that a flag takes.
func valueOf(flag string) string {
	values := map[string]string{"--slice": "1/2", "--leave-out": "absent", "--budget": "1GB", "--every": "1d", "--jobs": "1", "--still": "1", "--block-size": "131072", "--map": "/a=/b",
		"--listen": "tcp://:0"}
	if values[flag] != "" {
		return values[flag]
	}
	return "x"
}

// The commands and kinds of flags.txt are those of the program, and each flag is of commands that are there.
func TestTheCommandsOfFlags(t *testing.T) {
	if got, due := strings.Join(table.NamesOfKinds(), " "), strings.Join(part.Kinds, " "); got != due {
		t.Errorf("the kinds %s in place of %s", got, due)
	}
	for _, command := range table.Commands {
		if commands[command.Name] == nil {
			t.Errorf("there is no command %s", command.Name)
		}
	}
	if len(table.Commands) != len(commands) {
		t.Errorf("%d commands in place of %d", len(table.Commands), len(commands))
	}
	for place, due := range []int{exit.Done, exit.NotSettled, exit.Refused, exit.Usage, 4, exit.Fault, exit.Partial} {
		if got := table.Statuses[place].Numbers[0]; got != strconv.Itoa(due) {
			t.Errorf("status %s in place of %d", got, due)
		}
	}
	for _, flag := range table.Flags {
		for _, of := range flag.Of {
			if commands[of] == nil {
				t.Errorf("%s is of the command %s, which isn't there", flag.Name, of)
			}
		}
		if (flag.Word == "") != (flag.Takes == flags.Nothing) || flag.Short == "" || flag.Help == "" || flag.Manual == "" || len(flag.Of) == 0 {
			t.Errorf("%s lacks something: %+v", flag.Name, flag)
		}
	}
}

// What an answer means is told once, by --about, and the man page has the section that it names.
func TestWhatAnAnswerMeansIsToldOnce(t *testing.T) {
	fixture.UseAuditor(t)
	var output, log strings.Builder
	if status := Run([]string{"--about"}, &output, &log); status != exit.Done || log.String() != "" {
		t.Fatal(status, log.String())
	}
	for _, words := range []string{release.Version, "Nothing of this program is\nproved", "merge versions", "argued, and not proved", "next scan", "audited whole", "WHAT AN ANSWER MEANS"} {
		if !strings.Contains(output.String(), words) {
			t.Errorf("it doesn't say %q", words)
		}
	}
	page, err := os.ReadFile("../../../syncthing-audit.1")
	if err != nil || !strings.Contains(string(page), "\n.SH WHAT AN ANSWER MEANS\n") {
		t.Error("the man page hasn't the section that is named")
	}
	status, told, said := toldOfHomes([]string{"check"}, wholeHome(t))
	if status != exit.Partial || said != "" || strings.Contains(told, "merge versions") {
		t.Errorf("status %d, %s%s", status, told, said)
	}
}
