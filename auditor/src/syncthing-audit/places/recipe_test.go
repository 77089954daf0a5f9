package places

import (
	"fmt"
	"os/exec"
	"strings"
	"testing"

	"github.com/syncthing/syncthing/lib/protocol"
	"syncthing-audit/choice"
	"syncthing-audit/commandline"
	"syncthing-audit/looks"
	"syncthing-audit/shell"
)

// Two homes of one machine have files of their own.
func TestLabels(t *testing.T) {
	places := []*place{{host: "a"}, {host: "a", home: "x"}, {home: "/a-2"}, {host: "a", home: "y"}}
	if told := fmt.Sprint(labelsOf(places)); told != "[a a-2 a-2-2 a-3]" {
		t.Error(told)
	}
}

// What was asked of the run is asked of its last command.
func TestLastCommandOfTheRecipe(t *testing.T) {
	asked := commandline.Options{Folders: []string{"docs", "a b"}, Names: choice.Names{Prefix: "x", Slice: 3, Slices: 7}, LeaveOut: map[string]bool{"special": true, "absent": true}, JSON: true, Program: "audit"}
	told := shell.Words((&place{self: "here"}).check(asked))
	if told != "here check --folder docs --folder 'a b' --names x --slice 3/7 --leave-out special --leave-out absent --json --syncaudit audit" {
		t.Error(told)
	}
	if told := shell.Words((&place{self: "here"}).check(commandline.Options{Strict: true, Lines: true, Program: "audit"})); told != "here check --strict --lines --syncaudit audit" {
		t.Error(told)
	}
}

// The recipe's grep takes a token, and no line of progress.
func TestTokenLine(t *testing.T) {
	id, err := looks.NewID()
	if err != nil {
		t.Fatal(err)
	}
	token := looks.Token(protocol.DeviceID{7: 1}.String(), id) + "\n"
	grep := exec.Command("grep", "-hE", tokenLine)
	grep.Stdin = strings.NewReader("syncthing-audit: hashed 1 MB: 7\nsyncthing-audit: x " + token + token + "Welcome: to a machine\n")
	if taken, err := grep.Output(); err != nil || string(taken) != token {
		t.Errorf("%q, %v", taken, err)
	}
}

// A home whose name can't be typed is looked at by the name that it has. There are no commands to show for it.
func TestAPlaceThatCannotBeTyped(t *testing.T) {
	asked := commandline.Options{Parts: []string{"laptop:a\nb"}, Remote: "audit", DryRun: true}
	places, err := placesOf(asked)
	if err != nil {
		t.Fatal(err)
	}
	if words := places[0].begin(asked); !strings.HasSuffix(words[len(words)-1], " --home 'a\nb' -o -") {
		t.Errorf("%q", words)
	}
	var output strings.Builder
	err = tellCommands(&output, places, asked)
	if err == nil || !strings.HasPrefix(err.Error(), `refused: '[not-for-typing:a\x0ab]' has bytes that can't be typed`) || output.Len() > 0 {
		t.Errorf("%v, %q", err, output.String())
	}
}
