package part

import (
	"crypto/sha256"

	"syncthing-audit/shell"
)

// bytesOfHidden is how much of a hash stands for a name.
const bytesOfHidden = 16

// MostNameBytes is how long a name may be that a part tells: as long as the longest path that Linux opens. Another device may put a longer one into
// its index.
const MostNameBytes = 4096

// Hidden stands for a name that a part doesn't tell: a hash of the folder's id and the name.
type Hidden [bytesOfHidden]byte

// HiddenName gives what stands for a name that only .stignore and a disk know.
func HiddenName(folder, name string) Hidden { return hiddenOf("ignored", folder, name) }

// HiddenLongName gives what stands for a name that is too long to be told.
func HiddenLongName(folder, name string) Hidden { return hiddenOf("long", folder, name) }

func hiddenOf(kind, folder, name string) Hidden {
	sum := sha256.Sum256([]byte(kind + "\x00" + folder + "\x00" + name))
	var hidden Hidden
	copy(hidden[:], sum[:])
	return hidden
}

// IsLongName says whether a part has a hash in place of a name, since it is too long, or one that would stand behind the hashes.
func IsLongName(name string) bool { return len(name) > MostNameBytes || name >= shell.BehindNames }

// Bytes gives the name under which it stands in a part, behind all others.
func (h Hidden) Bytes() Bytes { return Bytes(shell.BehindNames + string(h[:])) }
