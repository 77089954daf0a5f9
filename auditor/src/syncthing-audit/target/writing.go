package target

import (
	"io"

	"syncthing-audit/commandline"
	"syncthing-audit/fault"
	"syncthing-audit/terminal"
)

// Writing writes a part to where it is to go.
type Writing func(func(io.Writer) error) error

// Writer gives what writes a part to where it is to go. It says what is wrong with that before files are hashed. What '--about' tells is a
// line that a person can read, too.
func Writer(asked commandline.Options, output, log io.Writer, sign func(commandline.Options, *Target, io.Writer) error) (Writing, error) {
	if !IsStandard[asked.Output] {
		to, err := Of(asked.Output)
		if err == nil && asked.Key != "" {
			err = sign(asked, to, log)
		}
		if err != nil {
			return nil, err
		}
		return to.Write, nil
	}
	if terminal.Is(output) && !asked.About {
		return nil, commandline.WrongUse("a part is nothing to read on a terminal: -o FILE")
	}
	return directly(output), nil
}

// directly writes to an output as it is.
func directly(output io.Writer) Writing {
	return func(write func(io.Writer) error) error { return write(fault.Writer{To: output}) }
}
