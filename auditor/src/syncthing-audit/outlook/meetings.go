package outlook

import (
	"golang.org/x/exp/slices"
	"syncthing-audit/forecast"
	"syncthing-audit/lists"
)

// Two devices that make conflict copies of different bytes in one second give both the same name. Of these Syncthing keeps one, and deletes the other:
// it makes no conflict copy of a conflict copy. So where several copies of a name stand at an end, it may come to an end with one of them less.

// withMeetings gives what stands at a name at an end, and what does where two copies of it met.
func withMeetings(things []Thing) [][]Thing {
	ends := [][]Thing{things}
	for at := range things {
		if mayGoByMeeting(things, at) {
			ends = append(ends, append(append([]Thing{}, things[:at]...), things[at+1:]...))
		}
	}
	return ends
}

// mayGoByMeeting says whether a thing is a copy, and another copy comes to each device that has it.
func mayGoByMeeting(things []Thing, at int) bool {
	if !things[at].IsCopy {
		return false
	}
	for other := range things {
		is := other != at && things[other].IsCopy
		for _, device := range things[at].Devices {
			is = is && slices.Contains(things[other].Devices, device)
		}
		if is {
			return true
		}
	}
	return false
}

// sureBytesOf gives the bytes at an end that stay there even where copies meet.
func sureBytesOf(end map[string][]Thing) map[forecast.Content]bool {
	contents := map[forecast.Content]bool{}
	for _, things := range end {
		for at := range things {
			if !mayGoByMeeting(things, at) {
				contents[things[at].Content] = true
			}
		}
	}
	return contents
}

// losesWithoutMeeting gives what is lost of a name where no copies meet, too.
func (j *judge) losesWithoutMeeting(name *forecast.Name, loses []Thing) []Thing {
	return lists.Where(loses, func(thing Thing) bool {
		return !j.staysIn(j.bytes, name.Name, thing, func([]Thing, int) bool { return true })
	})
}
