package inputs

import (
	"fmt"
	"sort"
)

// devicesOfBoth gives the devices that both have, rising. It refuses a device that one of them has alone, by these words with
// the input's path.
func devicesOfBoth(one, other map[string]opened, withoutOther, withoutOne string) ([]string, error) {
	devices := []string{}
	for device, input := range one {
		if _, is := other[device]; !is {
			return nil, fmt.Errorf(withoutOther, input.path)
		}
		devices = append(devices, device)
	}
	for device, input := range other {
		if _, is := one[device]; !is {
			return nil, fmt.Errorf(withoutOne, input.path)
		}
	}
	sort.Strings(devices)
	return devices, nil
}
