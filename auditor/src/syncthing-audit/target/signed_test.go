package target

import (
	"bytes"
	"errors"
	"io"
	"io/fs"
	"os"
	"os/exec"
	"path/filepath"
	"strings"
	"testing"

	"github.com/syncthing/syncthing/lib/protocol"
	"github.com/syncthing/syncthing/lib/tlsutil"
	"syncthing-audit/commandline"
	"syncthing-audit/device"
	"syncthing-audit/signature"
)

// A part is signed where it goes into a file of its own: never what --about tells, or what goes to standard output.
func TestWhatIsSigned(t *testing.T) {
	for _, row := range []struct {
		asked commandline.Options
		told  string
	}{
		{commandline.Options{}, ""}, {commandline.Options{About: true}, ""}, {commandline.Options{Key: "key", Output: "part"}, ""}, {commandline.Options{Key: "key", About: true, Output: "part"}, "--about makes none"},
		{commandline.Options{Key: "key"}, "as FILE.sig"}, {commandline.Options{Key: "key", Output: "-"}, "as FILE.sig"}, {commandline.Options{Key: "key", Output: "/dev/stdout"}, "as FILE.sig"},
	} {
		if err := CheckSigning(row.asked); (err == nil) != (row.told == "") || err != nil && !strings.HasSuffix(err.Error(), row.told) {
			t.Errorf("%+v: %v", row.asked, err)
		}
	}
}

// signer is a device with a home, whose parts are to be signed.
type signer struct {
	t                  *testing.T
	id                 protocol.DeviceID
	asked              commandline.Options
	folder, room, keys string
}

func newSigner(t *testing.T) *signer {
	if _, err := exec.LookPath("ssh-keygen"); err != nil {
		t.Skip(err)
	}
	home, of := t.TempDir(), &signer{t: t, folder: t.TempDir(), room: t.TempDir(), keys: t.TempDir()}
	certificate, err := tlsutil.NewCertificate(filepath.Join(home, "cert.pem"), filepath.Join(home, "key.pem"), "syncthing", 1)
	if err == nil {
		err = os.WriteFile(filepath.Join(home, "config.xml"), []byte(`<configuration version="36"><folder id="docs" path="`+of.folder+`"></folder></configuration>`), 0o600)
	}
	if err != nil {
		t.Fatal(err)
	}
	of.id = protocol.NewDeviceID(certificate.Certificate[0])
	of.asked = commandline.Options{Homes: []string{home}, Maps: map[int]device.Maps{}, Key: filepath.Join(of.keys, "key"), Output: filepath.Join(of.room, "part")}
	return of
}

// write writes a part with its signature, once it has done something else.
func (s *signer) write(meanwhile func()) (string, error) {
	s.t.Helper()
	var log bytes.Buffer
	to, err := Of(s.asked.Output)
	if err != nil {
		s.t.Fatal(err)
	}
	if err := SignPart(s.asked, to, &log); err != nil {
		return log.String(), err
	}
	return log.String(), to.Write(func(to io.Writer) error {
		meanwhile()
		_, err := io.WriteString(to, "a part")
		return err
	})
}

// A part is signed by a key that its device's line names, which is told with a new key alone.
func TestPartsThatAreSigned(t *testing.T) {
	of := newSigner(t)
	told, err := of.write(func() {})
	if err != nil {
		t.Fatal(err)
	}
	before, line, is := strings.Cut(told, "allowed signers:\n")
	if !is || !strings.HasPrefix(before, "syncthing-audit: a new key signs") || !strings.HasPrefix(line, of.id.String()+" ") {
		t.Fatal(told)
	}
	if told, err := of.write(func() {}); err != nil || told != "" {
		t.Errorf("once more: %q, %v", told, err)
	}
	list := filepath.Join(of.keys, "allowed_signers")
	if err := os.WriteFile(list, []byte(line), 0o600); err != nil {
		t.Fatal(err)
	}
	signers, err := signature.OpenSigners(list)
	if err != nil {
		t.Fatal(err)
	}
	defer signers.Close()
	part, err := os.Open(of.asked.Output)
	if err != nil {
		t.Fatal(err)
	}
	defer part.Close()
	if err := signers.Check(part, of.id.String(), of.asked.Output+signature.Suffix); err != nil {
		t.Error(err)
	}
}

// Where a part can't be signed nothing is written, and it is told why: before it is made, where that is seen.
func TestPartsThatCannotBeSigned(t *testing.T) {
	for why, row := range map[string]struct {
		change    func(*signer)
		meanwhile func(*signer)
		told      string
		err       error
	}{
		"no home":                    {change: func(s *signer) { s.asked.Homes[0] += "/none" }, err: fs.ErrNotExist},
		"a key in a folder":          {change: func(s *signer) { s.asked.Key = filepath.Join(s.folder, "key") }, told: "key would be in folder docs"},
		"a signature in a folder":    {change: func(s *signer) { s.asked.Output = filepath.Join(s.folder, "part") }, told: "part.sig would be in folder docs"},
		"a key that is none":         {change: func(s *signer) { s.asked.Key = s.keys }, told: "refused: the key "},
		"a directory for it":         {change: func(s *signer) { _ = os.Mkdir(s.asked.Output+".sig", 0o700) }, told: "part.sig is where the signature goes, and is no file"},
		"a directory for it by then": {meanwhile: func(s *signer) { _ = os.Mkdir(s.asked.Output+".sig", 0o700) }, told: "part.sig is where the signature goes, and is no file"},
		"no key any more":            {meanwhile: func(s *signer) { _ = os.Remove(s.asked.Key) }, told: "ssh-keygen ended with"},
		"no room any more":           {meanwhile: func(s *signer) { _ = os.RemoveAll(s.room) }, told: "part.sig", err: fs.ErrNotExist},
		"no file":                    {change: func(s *signer) { s.asked.Output = "/dev/null" }, told: "refused: /dev/null is no file, and a signature goes beside a file"},
	} {
		of := newSigner(t)
		if row.change != nil {
			row.change(of)
		}
		_, err := of.write(func() {
			if row.meanwhile == nil {
				t.Errorf("%s: a part is made", why)
			} else {
				row.meanwhile(of)
			}
		})
		if err == nil || !strings.Contains(err.Error(), row.told) || row.err != nil && !errors.Is(err, row.err) {
			t.Errorf("%s: %v", why, err)
		}
		if _, err := os.Lstat(filepath.Join(of.room, "part")); !os.IsNotExist(err) {
			t.Errorf("%s: a part stands there: %v", why, err)
		}
	}
}
