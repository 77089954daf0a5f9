// Package secret reads what Syncthing encrypts for devices that aren't trusted, with the folder's password: names, records and blocks. It does what
// Syncthing's lib/protocol does, whose calls differ from version to version. It encrypts names and tokens alone.
package secret

import (
	"crypto/cipher"
	"crypto/sha256"
	"encoding/base32"
	"errors"
	"io"
	"strings"

	"github.com/miscreant/miscreant.go"
	"golang.org/x/crypto/chacha20poly1305"
	"golang.org/x/crypto/hkdf"
	"golang.org/x/crypto/scrypt"
)

// The lengths of what is encrypted: a block has a nonce and a tag beside its bytes, and is filled up to a least size before.
const (
	LeastBlock = 1024
	Overhead   = chacha20poly1305.NonceSizeX + chacha20poly1305.Overhead
)

// Key is that of a folder, or of a file in it.
type Key [32]byte

// sure gives what fails for another length of a key or for other numbers alone than it is given here.
func sure[Any any](given Any, err error) Any {
	if err != nil {
		panic(err)
	}
	return given
}

// OfFolder gives a folder's key. It takes a tenth of a second, on purpose.
func OfFolder(folder, password string) *Key {
	key := new(Key)
	copy(key[:], sure(scrypt.Key([]byte(password), known(folder), 32768, 8, 1, len(key))))
	return key
}

// known is what all devices that share a folder know.
func known(folder string) []byte { return []byte("syncthing" + folder) }

// OfFile gives the key of a file, which has this name for those who know the password.
func (k *Key) OfFile(name string) *Key {
	key := new(Key)
	sure(io.ReadFull(hkdf.New(sha256.New, append(append([]byte{}, k[:]...), name...), []byte("syncthing"), nil), key[:]))
	return key
}

// Token gives what devices tell each other to see that they have the same password of a folder.
func (k *Key) Token(folder string) []byte { return k.seal(known(folder)) }

// seal encrypts the same bytes always in the same way.
func (k *Key) seal(data []byte) []byte { return k.siv().Seal(nil, nil, data, nil) }

// siv gives what encrypts names and tokens.
func (k *Key) siv() cipher.AEAD { return sure(miscreant.NewAEAD("AES-SIV", k[:], 0)) }

var base32Hex = base32.HexEncoding.WithPadding(base32.NoPadding)

// Names are encrypted as a directory with this ending, and directories below, whose names have at most so many bytes.
const (
	ending        = ".syncthing-enc"
	mostComponent = 200
)

// Encrypted gives the name under which an untrusted device has a name.
func (k *Key) Encrypted(name string) string {
	text := base32Hex.EncodeToString(k.seal([]byte(name)))
	parts := []string{text[:1] + ending, text[1:3]}
	for text = text[3:]; len(text) > mostComponent; text = text[mostComponent:] {
		parts = append(parts, text[:mostComponent])
	}
	return strings.Join(append(parts, text), "/")
}

// ErrName says that a name isn't one that was encrypted with this key.
var ErrName = errors.New("its name isn't encrypted with this password")

// Name gives the name of which an untrusted device has an encrypted one.
func (k *Key) Name(encrypted string) (string, error) {
	if len(encrypted) == 0 || !strings.HasPrefix(encrypted[1:], ending) {
		return "", ErrName
	}
	sealed, err := base32Hex.DecodeString(strings.ReplaceAll(encrypted[:1]+encrypted[1+len(ending):], "/", ""))
	if err != nil {
		return "", ErrName
	}
	name, err := k.siv().Open(nil, nil, sealed, nil)
	if err != nil {
		return "", ErrName
	}
	return string(name), nil
}

// ErrData says that some bytes aren't what was encrypted with this key.
var ErrData = errors.New("they aren't what was encrypted with this password")

// Open decrypts a record, or a block of a file, with the file's key.
func (k *Key) Open(data []byte) ([]byte, error) {
	if len(data) < Overhead {
		return nil, ErrData
	}
	cipher := sure(chacha20poly1305.NewX(k[:]))
	plain, err := cipher.Open(nil, data[:cipher.NonceSize()], data[cipher.NonceSize():], nil)
	if err != nil {
		return nil, ErrData
	}
	return plain, nil
}
