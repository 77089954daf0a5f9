package command

import (
	"errors"
	"flag"
	"io"

	"syncthing-audit/commandline"
	"syncthing-audit/disk"
	"syncthing-audit/diskhalf"
	"syncthing-audit/exit"
	"syncthing-audit/outside"
	"syncthing-audit/target"
	"syncthing-audit/terminal"
	"syncthing-audit/unsynced"
)

// runDisk writes the half of a device's part that is of its disks alone.
func runDisk(words []string, output, log io.Writer) (int, error) {
	read, err := diskhalf.ReadCommand(words, func(flags *flag.FlagSet, read *diskhalf.Command) {
		flags.Var((*commandline.Filled)(&read.Key), "sign", "")
	})
	var wrong *diskhalf.Usage
	switch {
	case errors.Is(err, flag.ErrHelp):
		return 0, &commandline.WantsHelp{Command: "disk"}
	case errors.As(err, &wrong):
		return 0, commandline.WrongUse(wrong.Reason)
	case err != nil:
		return 0, commandline.WrongFlag("disk", err)
	}
	asked := commandline.Options{Output: read.Output, Key: read.Key, Jobs: read.Jobs}
	if err := target.CheckSigning(asked); err != nil {
		return 0, err
	}
	write, err := target.Writer(asked, output, log, signedBy(read))
	if err != nil {
		return 0, err
	}
	if target.IsStandard[read.Output] {
		read.Output = unsynced.FileOf(output)
	}
	if err := read.CheckOutput(); err != nil {
		return 0, err
	}
	return exit.Done, writeHalf(read, write, log)
}

// signedBy gives what signs the part: the key is to stand outside the folders, and is of the device that was named.
func signedBy(read *diskhalf.Command) func(commandline.Options, *target.Target, io.Writer) error {
	return func(asked commandline.Options, to *target.Target, log io.Writer) error {
		return target.SignPartOf(asked, to, read.Device, nil, log)
	}
}

// writeHalf walks and hashes the folders.
func writeHalf(read *diskhalf.Command, write target.Writing, log io.Writer) error {
	pool := disk.NewPool(read.Jobs)
	defer pool.Close()
	defer terminal.Start(log, (&terminal.Work{Hashed: pool.Hashed}).Line)()
	return write(func(to io.Writer) error {
		told, err := diskhalf.Write(to, read.Asked, pool)
		if err != nil {
			return err
		}
		if told.Names == 0 && !read.Names.IsAll() {
			outside.Printf(log, "syncthing-audit: %s, on the disk: the part has none\n", read.Names.None(" here"))
		}
		for _, why := range told.Unknown {
			outside.Printf(log, "syncthing-audit: it isn't known which names are ignored: %s\n", why)
		}
		outside.Printf(log, "syncthing-audit: %s\n", told.Line())
		return nil
	})
}
