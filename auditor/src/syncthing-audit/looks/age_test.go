package looks

import "testing"

// How long a look has been over is read from what its command tells, among other lines.
func TestAgeOfALook(t *testing.T) {
	cases := []struct {
		told    string
		seconds float64
	}{
		{"syncthing-audit: 7 bytes\nsyncthing-audit: the first look was over 12.345 s ago\nTOKEN\n", 12.345},
		{"syncthing-audit: the first look was over 0.000 s ago\nsyncthing-audit: the first look was over 5.000 s ago\n", 0},
		{"syncthing-audit: the first look was over -3.000 s ago\n", 0}, {"syncthing-audit: the first look was over soon s ago\n", 0}, {"", 0},
	}
	for _, one := range cases {
		if age := AgeOf(one.told); age.Seconds() != one.seconds {
			t.Errorf("%q: %v", one.told, age)
		}
	}
}
