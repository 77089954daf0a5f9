// Command syncthing-audit says whether real Syncthing devices are in step, and where not which device is wrong.
package main

import (
	"os"

	"syncthing-audit/command"
	"syncthing-audit/exit"
	"syncthing-audit/leftover"
	"syncthing-audit/outside"
	"syncthing-audit/process"
	"syncthing-audit/terminal"
)

func main() {
	err := process.FillDescriptors()
	var output *os.File
	if err == nil {
		output, err = process.TakeStandardOutput()
	}
	process.AbortWhereItCrashes()
	process.LimitMemory()
	leftover.WatchSignals()
	if err != nil {
		outside.Printf(os.Stderr, "syncthing-audit: there is no standard output: %v\n", err)
		os.Exit(exit.Fault)
	}
	os.Exit(command.Run(os.Args[1:], output, terminal.OnScreen(os.Stderr)))
}
