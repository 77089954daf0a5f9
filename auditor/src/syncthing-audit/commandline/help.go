package commandline

import (
	"fmt"
	"runtime"
	"strconv"
	"strings"

	"syncthing-audit/choice"
	"syncthing-audit/flags"
)

// commandLine has the commands and their flags.
var commandLine = flags.Read()

// valuesInHelp are what the texts of flags have in braces.
var valuesInHelp = map[string]string{"slices": strconv.Itoa(choice.MostSlices), "kinds": strings.Join(commandLine.NamesOfKinds(), ","), "processors": strconv.Itoa(runtime.NumCPU())}

var Usage = fmt.Sprintf(`usage: syncthing-audit part [--home DIR [--data DIR]] [--folder ID ..] [--names PREFIX] [--slice K/N] [--sign KEY] -o FILE
       syncthing-audit check [--home DIR [--data DIR] ..] [PART ..] [--allowed-signers FILE] [--folder ID ..]
       syncthing-audit run [MACHINE:[DIR] | DIR [--data DIR] ..] [--folder ID ..]
       syncthing-audit watch CONFIG
       syncthing-audit report --html FILE (--watch CONFIG | [--home DIR ..] [PART ..] [--history DIR])
       syncthing-audit observe --init [--home DIR]
       syncthing-audit observe [--folder ID ..] [--records | --budget BYTES] [--every TIME] [--passwords FILE]
                       [--rest FILE [--rescan]] [--listen tcp://:PORT] [DEVICE-ID[@tcp://HOST:PORT] [--disk FILE] ..]
       syncthing-audit disk --after TOKEN [--block-size BYTES ..] [--names PREFIX] [--slice K/N] [--config FILE] [--sign KEY] -o FILE FOLDER-ID=DIR ..
       syncthing-audit part (--begin [--rescan] | --end --tokens FILE ..) [--home DIR [--data DIR]] [--folder ID ..] -o FILE
       syncthing-audit part --about [--rescan] [--home DIR [--data DIR]] [--folder ID ..]
       syncthing-audit export [--home DIR [--data DIR] ..] [PART ..] --into DIR
       syncthing-audit sum DIR
       syncthing-audit find --history DIR --folder ID NAME BACKUP ..
       syncthing-audit wanted --history DIR --folder ID TIME
       syncthing-audit --version | --about
       syncthing-audit COMMAND --help

Says whether Syncthing devices are in step and, if they aren't, which device is wrong. --about says what an answer means, and what is proved of it.

  part    reads a stopped device's index, hashes its files, and writes what it found into one file, the part: no file's bytes,
          no private key
  check   joins the parts of all devices that share a folder, and has syncaudit answer
  run     looks twice at devices that run, on other machines by ssh, and has syncaudit answer for the names that were still
          meanwhile
  observe asks devices that run over Syncthing's own protocol, with nothing installed on them: as a device of its own, which keeps no
          files and sends no records. It doesn't see all: its best answer is 'in step as far as seen over the wire'
  disk    walks and hashes the directories of a device that is observed, on that device, and writes one file: the half of its part that the wire
          doesn't show. It needs no Syncthing and no index. 'observe' with --disk prints the command, and waits for the file
  watch   makes the audit of a night, as a service does: CONFIG says of which devices and whom to tell. It tells what is new, and once a month how
          all is
  report  writes a page to look at: of what the nights of watch left, or of an answer to homes and parts as check has it
  part --begin, --end  make the two looks one by one: begin on all devices, then end on all, then check
  export  writes the check documents of such an answer, for 'syncaudit certify' and 'syncaudit check'
  sum     joins the answers to exported documents, cut-0001.reply and so on: what sha256sum, 'syncaudit check', 'syncaudit explain',
          'syncaudit firm' and 'syncaudit converge' write of each, one after another
  find    looks in directories, such as backups, for files with the bytes that a history has of a name: those before they changed on
          all devices under one time, or else those that were read last
  wanted  says that the files were wanted to go which the audit of TIME found gone: that isn't told any more. What goes later is

%s

%s
`, flags.Help(commandLine.Flags, valuesInHelp), flags.HelpOnStatuses(commandLine.Statuses))

// WantsHelp says that help was asked for, of a command.
type WantsHelp struct{ Command string }

func (w *WantsHelp) Error() string { return "help" }

// HelpOf gives the help of a command: how it is called, what it does, and its flags alone.
func HelpOf(command string) string {
	texts := strings.Split(Usage, "\n\n")
	calls := strings.Join(linesThat(texts[0], func(line string) bool {
		return strings.HasPrefix(line[len("usage: "):], "syncthing-audit "+command+" ")
	}), "\n")
	does := strings.Join(blocksOf(texts[2], func(word string) bool { return word == command }), "\n")
	return strings.Join([]string{"usage: " + strings.TrimSpace(strings.TrimPrefix(calls, "usage: ")), does, flags.Help(commandLine.OfCommand(command), valuesInHelp), texts[4]}, "\n\n")
}

// linesThat gives the lines that are chosen.
func linesThat(text string, is func(line string) bool) []string {
	lines := []string{}
	for _, line := range strings.Split(text, "\n") {
		if is(line) {
			lines = append(lines, line)
		}
	}
	return lines
}

// blocksOf gives the lines of a list whose first word is chosen, with those that go on with them, which are indented deeper.
func blocksOf(text string, is func(word string) bool) []string {
	var isIn bool
	return linesThat(text, func(line string) bool {
		if !strings.HasPrefix(line, "   ") {
			isIn = is(strings.Fields(line)[0])
		}
		return isIn
	})
}
