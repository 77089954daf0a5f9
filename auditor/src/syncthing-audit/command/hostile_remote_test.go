package command

import (
	"encoding/json"
	"fmt"
	"os"
	"path/filepath"
	"strings"
	"testing"

	"syncthing-audit/exit"
	"syncthing-audit/fixture"
	"syncthing-audit/part"
)

// forms are the three forms of an answer, as words of a command.
var forms = map[string][]string{"text": nil, "--json": {"--json"}, "--lines": {"--lines"}}

// remotes stand in for ssh: each machine writes the files in a room that are called by it and by what is asked of it.
type remotes struct{ room string }

// questions are what 'run' asks of a machine.
var questions = []string{"about", "begin", "end"}

// remotesOf gives machines with good answers. What they write on standard error is in the files with .said, and what their commands end by, in shell,
// in those with .ends.
func remotesOf(t *testing.T) *remotes {
	machines := &remotes{t.TempDir()}
	for at, machine := range []string{"laptop", "server"} {
		looks := runningParts(byte(at + 1))
		machines.keep(t, machine+"-about", saidBy(t, looks[0].Head))
		machines.keep(t, machine+"-begin", string(looks[0].written(t)))
		machines.keep(t, machine+"-end", string(looks[1].written(t)))
	}
	script := `#!/bin/sh
test "$1" != -G || exit 0
for word in "$@"; do
  case "$word" in
    laptop | server) machine=$word ;;
    *--about*) asked=about ;;
    *--begin*) asked=begin ;;
    *--end*) asked=end ;;
  esac
done
cd ` + machines.room + ` || exit
cat "$machine-$asked"
test ! -e "$machine-$asked.said" || cat "$machine-$asked.said" >&2
test ! -e "$machine-$asked.ends" || . "./$machine-$asked.ends"
`
	if err := os.WriteFile(filepath.Join(machines.room, "ssh"), []byte(script), 0o700); err != nil {
		t.Fatal(err)
	}
	t.Setenv("PATH", machines.room+":"+os.Getenv("PATH"))
	return machines
}

// saidBy gives what a device with this part says that it shares.
func saidBy(t *testing.T, of *part.Head) string {
	text, err := json.Marshal(&part.Head{Version: part.FirstVersion, Device: of.Device, Name: of.Name, Folders: of.Folders, Waits: true, Tells: true, Others: []part.Other{}})
	if err != nil {
		t.Fatal(err)
	}
	return string(text)
}

func (r *remotes) keep(t *testing.T, name, text string) {
	if err := os.WriteFile(filepath.Join(r.room, name), []byte(text), 0o600); err != nil {
		t.Fatal(err)
	}
}

// run has both machines audited, and gives the status and all that is printed.
func (r *remotes) run(form []string) (int, string) {
	var output, log strings.Builder
	words := append([]string{"run", "laptop:", "server:", "--still", "0"}, form...)
	status := Run(words, &output, &log)
	return status, output.String() + log.String()
}

// What a machine says on standard error beside a good answer comes to no terminal raw, in no form of the answer.
func TestNothingThatARemoteSaysIsPrintedRaw(t *testing.T) {
	fixture.UseAuditor(t)
	said := "syncthing-audit: " + strings.Join(payloads, "\nsyncthing-audit: ") + "\n"
	for form, words := range forms {
		for _, asked := range questions {
			machines := remotesOf(t)
			machines.keep(t, "laptop-"+asked+".said", said)
			status, told := machines.run(words)
			why := fmt.Sprintf("%s, where a machine says it, asked for %s", form, asked)
			if status != exit.NotSettled || strings.Count(told, "FAKE") < len(payloads)-1 { // one has a line of its own, which isn't told
				t.Errorf("%s: status %d: %s", why, status, told)
			}
			checkPrinted(t, why, told)
		}
	}
}

// endsOfRemotes are ways in which a machine fails with a text, as a shell has it.
var endsOfRemotes = []struct{ why, said, ends string }{
	{"fails with it", "PAYLOAD\nPAYLOAD", "exit 2"},
	{"is killed behind it", "PAYLOAD", "kill -9 $$"},
	{"isn't there", "sh: PAYLOAD", "exit 127"},
	{"knows no such flag", "there is no flag --slicePAYLOAD", "exit 3"},
}

// What a machine says as its command fails is told, and not raw.
func TestNothingThatAFailedRemoteSaysIsPrintedRaw(t *testing.T) {
	fixture.UseAuditor(t)
	for _, end := range endsOfRemotes {
		for _, asked := range questions {
			machines := remotesOf(t)
			machines.keep(t, "laptop-"+asked+".said", strings.ReplaceAll(end.said, "PAYLOAD", strings.Join(payloads, "\n")))
			machines.keep(t, "laptop-"+asked+".ends", end.ends)
			status, told := machines.run(nil)
			why := fmt.Sprintf("where a machine %s, asked for %s", end.why, asked)
			if status != exit.NotSettled || strings.Count(told, "FAKE") < len(payloads) { // the other machine is audited, and has a fault
				t.Errorf("%s: status %d: %s", why, status, told)
			}
			checkPrinted(t, why, told)
		}
	}
}

// What a machine writes in place of a part, or of what it shares, is printed raw by no refusal.
func TestNothingThatARemoteWritesIsPrintedRaw(t *testing.T) {
	fixture.UseAuditor(t)
	for _, asked := range questions {
		all := strings.Join(payloads, "")
		for _, text := range []string{all, `{"device":"` + all + `"}`, `{"device":` + asJSON(t, all) + `}`} {
			machines := remotesOf(t)
			machines.keep(t, "laptop-"+asked, text)
			status, told := machines.run(nil)
			why := fmt.Sprintf("%q in place of %s", text, asked)
			if status != exit.Refused {
				t.Errorf("%s: status %d", why, status)
			}
			checkPrinted(t, why, told)
		}
	}
}
