package forecast

import "testing"

// A device that is behind deletes a file, and so does one of those that have its newer version. Which deletion prevails depends on who scans
// later. That of the former counts nothing of the newer version, so the third device's file may come back.
func TestItMattersWhoDeletesLater(t *testing.T) {
	name := inStep("a", "old", 3, 5)
	newer := &Record{Type: File, Version: []Counter{{10, 5}, {20, 7}}, Time: 6, Content: Content{5, "newer"}, Mode: 0o644}
	for _, i := range []int{1, 2} {
		name.Own[i], name.Views[i][3-i] = newer, newer
	}
	name.Disk = []*Node{nil, {File, 6, newer.Content, "", 0o644}, nil}
	answer := New(Usual).OfGroup(three(), []Name{name})
	if len(answer.Ends) != 2 {
		t.Fatalf("%+v", answer)
	}
	for _, end := range answer.Ends {
		if text, _ := textAt(end, 0); len(end.Disks[0]) > 0 && text != "newer" {
			t.Errorf("%+v", end)
		}
	}
}

// Of two devices with a newer version one has other bytes than it recorded. Whether that is found depends on which of them is asked first, whichever it is.
func TestWhichSourceIsAsked(t *testing.T) {
	newer := &Record{Type: File, Version: []Counter{{10, 5}, {20, 7}}, Time: 6, Content: Content{5, "newer"}, Mode: 0o644}
	for _, rotten := range []int{1, 2} {
		name := inStep("a", "old", 3, 5)
		for _, i := range []int{1, 2} {
			name.Own[i], name.Views[i][3-i] = newer, newer
			name.Disk[i] = &Node{File, 6, newer.Content, "", 0o644}
		}
		answer := New(Usual).OfGroup(three(), []Name{name.changed(rotten, "wrong", 6)})
		texts := map[string]bool{}
		for _, end := range answer.Ends {
			text, _ := textAt(end, 0)
			texts[text] = true
		}
		if !answer.IsAll || !texts["newer"] || !texts["wrong"] || len(texts) != 2 {
			t.Errorf("%d is rotten: it comes to %v", rotten, texts)
		}
	}
}

// What a device has begun to fetch is dropped where other bytes are due, also where no device has those.
func TestWhatWasBegunIsDropped(t *testing.T) {
	name := inStep("a", "old", 3, 5)
	newer := &Record{Type: File, Version: []Counter{{10, 5}, {20, 7}}, Time: 6, Content: Content{5, "newer"}, Mode: 0o644}
	name.Own[0], name.Views[1][0] = newer, newer
	l, s := loaded(name)
	s, _ = s.withList(1)
	s.on = s.may
	s.setTemp(1, 0, l.contentOf(Content{7, "another"}))
	p := s.newPull(1)
	if why := p.takeFile(0); why != NoSource || s.temp(1, 0) != 0 {
		t.Errorf("%q: %d is left", why, s.temp(1, 0))
	}
	s.write(0, 0, node{kind: File, time: 6, content: l.contentOf(newer.Content), mode: 0o644})
	if why := s.newPull(1).takeFile(0); why != NoReason || s.temp(1, 0) != 0 || s.at(1, 0).content != l.contentOf(newer.Content) {
		t.Errorf("%q: %+v", why, s.at(1, 0))
	}
}

// A device that is found to have other bytes than it recorded hashes them at once; one that has no record any more does nothing.
func TestOtherBytesAreHashedAtOnce(t *testing.T) {
	l, s := loaded(inStep("a", "old", 3, 5).changed(1, "rot", 5))
	s, _ = s.withList(1)
	p := s.newPull(0)
	p.rescans = []source{{1, 0}, {2, 0}}
	s.put(2, 2, 0, record{})
	p.finish()
	if own := s.own(1, 0); own.flag != Valid || l.content[own.content].Hash != "rot" || counterOf(s.vectors[own.version], s.devices[1].Number) < presentTime {
		t.Errorf("%+v", own)
	}
	if own := s.own(2, 0); own.isThere() {
		t.Errorf("%+v", own)
	}
}
