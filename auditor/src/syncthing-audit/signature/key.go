package signature

import (
	"errors"
	"fmt"
	"os"
	"path/filepath"
	"strings"

	"syncthing-audit/leftover"
	"syncthing-audit/regular"
	"syncthing-audit/shell"
)

// Key is a device's own key, which signs its parts.
type Key struct{ path string }

// Open gives the key at a path, which it makes at its first use. Of a new one it gives the line of allowed_signers that has it speak for this device.
// It tries the key, so that nobody hashes all files first.
func Open(path, device string) (*Key, string, error) {
	key := &Key{path}
	line, err := key.open(device)
	if err != nil {
		return nil, "", fmt.Errorf("refused: the key %s: %w", shell.Quoted(path), err)
	}
	return key, line, nil
}

// open makes a key where nothing is, and tries it.
func (k *Key) open(device string) (line string, err error) {
	nothing, err := keep(nil)
	if err != nil {
		return "", err
	}
	defer nothing.Close()
	if _, err = os.Lstat(k.path); os.IsNotExist(err) {
		line, err = makeKey(k.path, device, nothing)
	}
	if err == nil {
		err = k.check(nothing)
	}
	return line, err
}

// check says why a key isn't this user's alone, or doesn't sign.
func (k *Key) check(nothing *os.File) error {
	_, about, err := regular.Read(k.path, mostBytes)
	if err != nil {
		return err
	}
	if about.Mode().Perm()&0o077 != 0 || isOthers(about, os.Geteuid()) {
		return fmt.Errorf("others may read it (mode %04o): who has it speaks for this device. Make a new one, or 'chmod 600' where nobody has read it",
			about.Mode().Perm())
	}
	_, err = k.Sign(nothing)
	return err
}

// Sign gives the signature of a file's bytes.
func (k *Key) Sign(on *os.File) ([]byte, error) {
	signed, err := run(on, nil, "-q", "-Y", "sign", "-n", Namespace, "-f", k.path)
	if err == nil && len(signed) == 0 {
		err = errors.New("ssh-keygen wrote no signature")
	}
	return signed, err
}

// makeKey makes a key without a passphrase, for its user alone, where nothing is yet. It stands there whole or not at all, and takes no other's
// place: the line is that of the one that stands there then. What makes it reads nothing.
func makeKey(path, device string, nothing *os.File) (string, error) {
	if err := os.MkdirAll(filepath.Dir(path), 0o700); err != nil {
		return "", err
	}
	room, err := leftover.Directory()
	if err != nil {
		return "", err
	}
	defer leftover.Remove(room)
	key := filepath.Join(room, "key")
	if _, err := run(nothing, nil, "-q", "-t", "ed25519", "-N", "", "-C", Namespace, "-f", key); err != nil {
		return "", err
	}
	public, _, err := regular.Read(key+".pub", mostBytes)
	if err != nil {
		return "", err
	}
	if err := putKey(key, path); os.IsExist(err) {
		return "", nil // another run made it meanwhile, and told its line
	} else if err != nil {
		return "", err
	}
	return lineOf(device, string(public)), nil
}

// putKey puts a new key where it is to stand.
func putKey(from, path string) error {
	secret, _, err := regular.Read(from, mostBytes)
	if err != nil {
		return err
	}
	return leftover.WriteNew(path, secret)
}

// lineOf gives the line of allowed_signers for a device's public key.
func lineOf(device, public string) string {
	words := strings.Fields(public)
	return fmt.Sprintf("%s namespaces=%q %s", device, Namespace, strings.Join(words[:min(2, len(words))], " "))
}

func min(a, b int) int {
	if a < b {
		return a
	}
	return b
}
