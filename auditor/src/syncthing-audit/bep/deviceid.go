package bep

import (
	"encoding/base32"
	"encoding/binary"
	"fmt"
	"strings"
)

// How a device id is written: 52 digits of base 32, which are in groups of 13 with a check digit behind each.
const (
	digitsOfID    = 52
	digitsOfGroup = 13
	digitsInBase  = 32
)

// ID is a device id: the SHA-256 of its certificate.
type ID [32]byte

// ReadID reads a device id (BEP, 'Device IDs'). As Syncthing does, it takes small letters, digits that look like letters, and no check digits.
func ReadID(text string) (ID, error) {
	digits := strings.ToUpper(strings.Trim(text, "="))
	digits = strings.NewReplacer("0", "O", "1", "I", "8", "B", "-", "", " ", "").Replace(digits)
	if len(digits) == digitsOfID+digitsOfID/digitsOfGroup {
		var err error
		if digits, err = withoutCheckDigits(digits); err != nil {
			return ID{}, err
		}
	}
	if len(digits) != digitsOfID {
		return ID{}, fmt.Errorf("%q is no device id: it has %d digits", text, len(digits))
	}
	data, err := base32.StdEncoding.DecodeString(digits + "====")
	if err != nil {
		return ID{}, fmt.Errorf("%q is no device id: %w", text, err)
	}
	var id ID
	copy(id[:], data)
	return id, nil
}

// withoutCheckDigits gives the digits of an id without those that check it, and says which of these is wrong.
func withoutCheckDigits(digits string) (string, error) {
	kept := ""
	for at := 0; at < len(digits); at += digitsOfGroup + 1 {
		group := digits[at : at+digitsOfGroup]
		check, err := checkDigit(group)
		if err != nil {
			return "", err
		}
		if digits[at+digitsOfGroup] != check {
			return "", fmt.Errorf("%q is no device id: a check digit is wrong", digits)
		}
		kept += group
	}
	return kept, nil
}

const base32Digits = "ABCDEFGHIJKLMNOPQRSTUVWXYZ234567"

// checkDigit gives the digit that stands behind a group.
func checkDigit(group string) (byte, error) {
	sum, factor := 0, 1
	for at := range group {
		value := strings.IndexByte(base32Digits, group[at])
		if value < 0 {
			return 0, fmt.Errorf("%q is no device id: it has the digit %q", group, group[at])
		}
		value *= factor
		sum += value/digitsInBase + value%digitsInBase
		factor = 3 - factor
	}
	return base32Digits[(digitsInBase-sum%digitsInBase)%digitsInBase], nil
}

// String writes an id as Syncthing does.
func (i ID) String() string {
	digits := strings.Trim(base32.StdEncoding.EncodeToString(i[:]), "=")
	checked := ""
	for at := 0; at < len(digits); at += digitsOfGroup {
		group := digits[at : at+digitsOfGroup]
		check, _ := checkDigit(group) // each digit of the encoding is one
		checked += group + string(check)
	}
	groups := []string{}
	for at := 0; at < len(checked); at += 7 {
		groups = append(groups, checked[at:at+7])
	}
	return strings.Join(groups, "-")
}

// Short gives an id's first 8 bytes as a number, by which versions count its changes.
func (i ID) Short() uint64 { return binary.BigEndian.Uint64(i[:]) }
