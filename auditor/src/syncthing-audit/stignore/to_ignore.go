package stignore

import "strings"

// ToIgnore counts the directories that an index has, that .stignore ignores by now, and whose records the next scan marks. It goes through the
// index as the scan does (scanSubdirsDeletedAndIgnored, lib/model/folder.go): such a directory stays the folder's if the next name that isn't ignored
// is below it and is there.
type ToIgnore struct {
	Names   int64
	waiting int64  // names that are marked unless such a name follows
	above   string // the first of these
}

// TakeDirectory takes an ignored directory of which the index has a record.
func (t *ToIgnore) TakeDirectory(name string) {
	t.leave(name)
	t.waiting++
	if t.above == "" {
		t.above = name
	}
}

// TakeOther takes a name of the index that isn't ignored, and that is there.
func (t *ToIgnore) TakeOther(name string) {
	t.leave(name)
	t.waiting, t.above = 0, ""
}

// leave counts what waits, where a name isn't below it.
func (t *ToIgnore) leave(name string) {
	if t.above != "" && !strings.HasPrefix(name, t.above+"/") {
		t.End()
	}
}

// End counts what waits: no more names follow below it.
func (t *ToIgnore) End() {
	t.Names += t.waiting
	t.waiting, t.above = 0, ""
}
