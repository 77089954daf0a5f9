package secret

import (
	"bytes"
	"errors"
	"strings"
	"testing"

	"golang.org/x/crypto/chacha20poly1305"
)

// key is the one of lib/protocol's own test.
func key() *Key { return OfFolder("my folder", "my password") }

// A name and some bytes that lib/protocol's own test has are what they are there.
func TestWhatSyncthingEncrypts(t *testing.T) {
	folder := key()
	encrypted := folder.Encrypted("filename.txt")
	if strings.ReplaceAll(strings.Replace(encrypted, ending, "", 1), "/", "") != "3T5957I4IOA20VEIEER6JSQG0PEPIRV862II3K7LOF75Q" || encrypted[:18] != "3.syncthing-enc/T5" {
		t.Error(encrypted)
	}
	file := folder.OfFile("filename.txt")
	sealed, err := base32Hex.DecodeString("A1IPD28ISL7VNPRSSSQM2L31L3IJPC08283RO89J5UG0TI9P38DO9RFGK12DK0KD7PKQP6U51UL2B6H96O")
	if err != nil {
		t.Fatal(err)
	}
	if plain, err := file.Open(sealed); err != nil || string(plain) != "hello world" {
		t.Errorf("%q, %v", plain, err)
	}
	for at := range sealed { // rot of any byte is seen
		sealed[at] ^= 1
		if _, err := file.Open(sealed); !errors.Is(err, ErrData) {
			t.Errorf("byte %d: %v", at, err)
		}
		sealed[at] ^= 1
	}
	for _, short := range [][]byte{nil, sealed[:Overhead-1], sealed[:len(sealed)-1]} {
		if _, err := file.Open(short); !errors.Is(err, ErrData) {
			t.Errorf("%d bytes: %v", len(short), err)
		}
	}
	if _, err := folder.Open(sealed); !errors.Is(err, ErrData) {
		t.Errorf("with another key: %v", err)
	}
}

// What is encrypted comes back, of each length; nothing has the nonce and the tag alone.
func TestWhatIsOpened(t *testing.T) {
	file := key().OfFile("a")
	sealing, err := chacha20poly1305.NewX(file[:])
	if err != nil {
		t.Fatal(err)
	}
	for _, length := range []int{0, 1, LeastBlock} {
		plain := bytes.Repeat([]byte{7}, length)
		nonce := bytes.Repeat([]byte{9}, chacha20poly1305.NonceSizeX)
		sealed := sealing.Seal(nonce, nonce, plain, nil)
		if back, err := file.Open(sealed); err != nil || !bytes.Equal(back, plain) || len(sealed) != length+Overhead {
			t.Errorf("%d bytes come back as %d of %d, %v", length, len(back), len(sealed), err)
		}
	}
}

// What can't fail isn't passed over where it does.
func TestWhatCannotFail(t *testing.T) {
	defer func() {
		if fault := recover(); fault != ErrData {
			t.Errorf("%v", fault)
		}
	}()
	if sure("a", nil) != "a" {
		t.Error("another one is given")
	}
	t.Errorf("%s is given", sure("b", ErrData))
}

// Each name comes back, in directories of names that aren't too long; what isn't encrypted with the key is told.
func TestNames(t *testing.T) {
	folder, other := key(), new(Key)
	for _, name := range []string{"", "a", "folder/large", strings.Repeat("x", 123), strings.Repeat("é", 300), strings.Repeat("d/", 700)} {
		encrypted := folder.Encrypted(name)
		if back, err := folder.Name(encrypted); err != nil || back != name {
			t.Errorf("%q comes back as %q, %v", name, back, err)
		}
		for at, part := range strings.Split(encrypted, "/") {
			if len(part) > mostComponent || len(part) == 0 || at == 1 && len(part) != 2 {
				t.Errorf("%q: %q", name, part)
			}
		}
		if _, err := other.Name(encrypted); !errors.Is(err, ErrName) {
			t.Errorf("%q with another key: %v", name, err)
		}
	}
	for _, odd := range []string{"", "T", "T.syncthing-enc", "T.syncthing-enc/OD", "T.wrong-extension/OD/PHVDD67S7FI2K5QQMPSOFSK", "text", "\x00.syncthing-enc/!!"} {
		if _, err := folder.Name(odd); !errors.Is(err, ErrName) {
			t.Errorf("%q: %v", odd, err)
		}
	}
}

// The token is of both, the folder and its password.
func TestToken(t *testing.T) {
	token := key().Token("my folder")
	ofPassword, ofFolder := OfFolder("my folder", "my passwore").Token("my folder"), key().Token("my folded")
	if again := key().Token("my folder"); bytes.Equal(token, ofPassword) || bytes.Equal(token, ofFolder) || !bytes.Equal(token, again) || len(token) == 0 {
		t.Errorf("%x %x %x %x", token, ofPassword, ofFolder, again)
	}
}
