package forecast

import "encoding/binary"

// Orders of two version vectors. Those that are concurrent have an order, too, by the first device that they differ in.
const (
	equal = iota
	greater
	lesser
	concurrentLesser
	concurrentGreater
)

// presentTime is above each counter and each time that a world may have. What is done now has this time, or one above.
const presentTime = 1 << 62

// compareVectors is Syncthing's Vector.Compare. No counter is 0.
func compareVectors(a, b []Counter) int {
	result := equal
	for len(a) > 0 || len(b) > 0 {
		switch {
		case len(b) == 0 || len(a) > 0 && a[0].Device < b[0].Device:
			if result == lesser {
				return concurrentLesser
			}
			result, a = greater, a[1:]
		case len(a) == 0 || b[0].Device < a[0].Device:
			if result == greater {
				return concurrentGreater
			}
			result, b = lesser, b[1:]
		default:
			if a[0].Value > b[0].Value {
				if result == lesser {
					return concurrentLesser
				}
				result = greater
			} else if a[0].Value < b[0].Value {
				if result == greater {
					return concurrentGreater
				}
				result = lesser
			}
			a, b = a[1:], b[1:]
		}
	}
	return result
}

// raised gives a vector in which a device counted a change of now.
func raised(vector []Counter, device uint64) []Counter {
	counters := make([]Counter, 0, len(vector)+1)
	value := uint64(presentTime)
	for _, counter := range vector {
		if counter.Device == device && counter.Value >= value {
			value = counter.Value + 1
		}
	}
	added := false
	for _, counter := range vector {
		if !added && counter.Device >= device {
			counters, added = append(counters, Counter{device, value}), true
		}
		if counter.Device != device {
			counters = append(counters, counter)
		}
	}
	if !added {
		counters = append(counters, Counter{device, value})
	}
	return counters
}

// merged gives the greatest counter of each device.
func merged(a, b []Counter) []Counter {
	counters := make([]Counter, 0, len(a)+len(b))
	for len(a) > 0 && len(b) > 0 {
		switch {
		case a[0].Device < b[0].Device:
			counters, a = append(counters, a[0]), a[1:]
		case b[0].Device < a[0].Device:
			counters, b = append(counters, b[0]), b[1:]
		default:
			counter := a[0]
			if b[0].Value > counter.Value {
				counter = b[0]
			}
			counters, a, b = append(counters, counter), a[1:], b[1:]
		}
	}
	return append(append(counters, a...), b...)
}

// without gives a vector with the counter of one device alone.
func ofDevice(vector []Counter, device uint64) []Counter {
	for _, counter := range vector {
		if counter.Device == device {
			return []Counter{counter}
		}
	}
	return nil
}

// counterOf gives a device's counter.
func counterOf(vector []Counter, device uint64) uint64 {
	for _, counter := range vector {
		if counter.Device == device {
			return counter.Value
		}
	}
	return 0
}

// keyOf gives a text that two vectors share if they are equal.
func keyOf(vector []Counter) string {
	text := make([]byte, 0, 16*len(vector))
	for _, counter := range vector {
		text = binary.BigEndian.AppendUint64(text, counter.Device)
		text = binary.BigEndian.AppendUint64(text, counter.Value)
	}
	return string(text)
}
