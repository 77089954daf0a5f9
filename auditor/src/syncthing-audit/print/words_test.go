package print

import "testing"

// Sizes and numbers at each boundary of their units and groups.
func TestSizesAndNumbers(t *testing.T) {
	for bytes, told := range map[int64]string{0: "0 bytes", 1: "1 byte", 2: "2 bytes", 999: "999 bytes", 1000: "1.0 kB", 999900: "999.9 kB", 1000000: "1.0 MB", 999900000: "999.9 MB",
		1000000000: "1.0 GB", 5432100000000: "5432.1 GB"} {
		if is := Size(bytes); is != told {
			t.Errorf("%d: %s, not %s", bytes, is, told)
		}
	}
	for number, told := range map[int64]string{0: "0", 7: "7", 12: "12", 999: "999", 1000: "1,000", 12345: "12,345", 999999: "999,999", 1000000: "1,000,000"} {
		if is := Thousands(number); is != told {
			t.Errorf("%d: %s, not %s", number, is, told)
		}
	}
	if Counted(1, "name", "names") != "1 name" || Counted(0, "name", "names") != "0 names" || Counted(1000, "name", "names") != "1,000 names" {
		t.Error("a number isn't told with what it counts")
	}
}
