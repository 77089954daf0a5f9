package limits

import (
	"errors"
	"fmt"
	"strings"
	"unicode/utf8"
)

// CheckName says why the document has no such name. A name is 1 to 1024 bytes of UTF-8 without NUL. Its parts between
// slashes aren't empty, '.' or '..'.
func CheckName(name string) error {
	switch {
	case !utf8.ValidString(name):
		return errors.New("its name isn't UTF-8")
	case len(name) > MostNameBytes:
		return fmt.Errorf("its name has over %d bytes", MostNameBytes)
	case strings.ContainsRune(name, 0):
		return errors.New("its name has a NUL")
	}
	for part, behind, is := "", name, true; is; {
		if part, behind, is = strings.Cut(behind, "/"); part == "" || part == "." || part == ".." {
			return errors.New("its name has a part that is empty, '.' or '..'")
		}
	}
	return nil
}

// Cut gives a device's name or a folder's label for a part, without what is behind the bytes that a name may have.
func Cut(text string) string {
	if len(text) <= MostNameBytes {
		return text
	}
	return strings.ToValidUTF8(text[:MostNameBytes], "") + "…"
}

// CheckTarget says why the document has no symlink of this target.
func CheckTarget(target string) error {
	switch {
	case !utf8.ValidString(target):
		return errors.New("its target isn't UTF-8")
	case target == "" || len(target) > MostTargetBytes:
		return fmt.Errorf("its target hasn't 1 to %d bytes", MostTargetBytes)
	case strings.ContainsRune(target, 0):
		return errors.New("its target has a NUL")
	}
	return nil
}

// IsFolderID says whether the document has this folder id: 1 to 64 ASCII letters, digits, '-' and '_'.
func IsFolderID(id string) bool {
	const others = "-_0123456789ABCDEFGHIJKLMNOPQRSTUVWXYZabcdefghijklmnopqrstuvwxyz"
	return 1 <= len(id) && len(id) <= 64 && strings.Trim(id, others) == ""
}
