package target

import (
	"io"
	"os"

	"github.com/syncthing/syncthing/lib/config"
	"syncthing-audit/commandline"
	"syncthing-audit/device"
	"syncthing-audit/fault"
	"syncthing-audit/leftover"
	"syncthing-audit/outside"
	"syncthing-audit/signature"
	"syncthing-audit/unsynced"
)

// CheckSigning says why a part can't be signed.
func CheckSigning(o commandline.Options) error {
	switch {
	case o.Key == "":
		return nil
	case o.About:
		return commandline.WrongUse("--sign is for parts: --about makes none")
	case IsStandard[o.Output]:
		return commandline.WrongUse("--sign needs -o FILE: the signature goes beside it, as FILE" + signature.Suffix)
	}
	return nil
}

// signing is how a part is signed.
type signing struct {
	key  *signature.Key
	path string // of the signature
}

// SignPart has a part be signed. A new key is told, as those who read the part are to know it.
func SignPart(o commandline.Options, to *Target, log io.Writer) error {
	id, about, err := device.About(o.Homes[0], o.Maps[0]...)
	if err != nil {
		return err
	}
	return SignPartOf(o, to, id.String(), about.Folders, log)
}

// SignPartOf has the part of a device with these folders be signed.
func SignPartOf(o commandline.Options, to *Target, id string, folders []config.FolderConfiguration, log io.Writer) error {
	if to.isDirect {
		return refused(o.Output, "is no file, and a signature goes beside a file: name one")
	}
	path := o.Output + signature.Suffix
	if err := checkSignaturePlace(path); err != nil {
		return err
	}
	for _, place := range []string{o.Key, path} {
		if err := unsynced.CheckFile(place, folders); err != nil {
			return err
		}
	}
	key, line, err := signature.Open(o.Key, id)
	if err != nil {
		return err
	}
	if line != "" {
		outside.Printf(log, "syncthing-audit: a new key signs the parts of this device. Where its parts are read, add this line to the allowed signers:\n%s\n", line)
	}
	to.signing = &signing{key, path}
	return nil
}

// checkSignaturePlace says why no signature may stand at a path: it takes the place of nothing but a file.
func checkSignaturePlace(path string) error {
	if about, err := os.Lstat(path); err == nil && !about.Mode().IsRegular() {
		return refused(path, "is where the signature goes, and is no file: take it away")
	}
	return nil
}

// sign signs what was written, and gives what puts the signature in its place.
func (s *signing) sign(written *os.File) (func() error, error) {
	if s == nil {
		return func() error { return nil }, nil
	}
	text, err := s.key.Sign(written)
	if err != nil {
		return nil, err
	}
	return func() error {
		if err := checkSignaturePlace(s.path); err != nil {
			return err
		}
		return fault.Of(fault.NamedAs(s.path, leftover.Write(s.path, text)))
	}, nil
}
