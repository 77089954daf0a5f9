package shell

import "testing"

func TestDevice(t *testing.T) {
	for _, row := range [][3]string{{"laptop", "ABCDEFG-HIJKLMN", "laptop (ABCDEFG)"}, {"", "ABCDEFG-HIJKLMN", "ABCDEFG"}, {"a\nb", "ABC", "a?b (ABC)"}, {"", "", ""}} {
		if told := Device(row[0], row[1]); told != row[2] {
			t.Errorf("%s, not %s", told, row[2])
		}
	}
}
