package amount

import "testing"

// One document is one, and two are two.
func TestCounts(t *testing.T) {
	for number, told := range map[int]string{0: "0 documents", 1: "1 document", 2: "2 documents"} {
		if made := Of(number, "document"); made != told {
			t.Error(made)
		}
	}
}

// Bytes are told in MB below 10 GB, and in GB from there on.
func TestBytes(t *testing.T) {
	for bytes, told := range map[int64]string{0: "0 MB", 499999: "0 MB", 1500001: "2 MB", 9999000000: "9999 MB", 1e10 - 1: "10000 MB", 1e10: "10.0 GB", 61e9: "61.0 GB", 12345678901: "12.3 GB"} {
		if made := Bytes(bytes); made != told {
			t.Errorf("%d: %s, not %s", bytes, made, told)
		}
	}
}
