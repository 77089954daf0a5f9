package part

import (
	"reflect"
	"strings"
	"testing"
)

// A folder's path stands in no reason of a name: what is below it is told from there, and the folder itself as a dot.
func TestNoReasonTellsAFoldersPath(t *testing.T) {
	for _, one := range []struct{ folder, why, told string }{
		{"/srv/docs", "open /srv/docs/a/b: denied", "open a/b: denied"},
		{"/srv/docs/", "open /srv/docs/a: denied", "open a: denied"},
		{"/srv/docs//", "stat /srv/docs: denied", "stat .: denied"},
		{`C:\docs`, `open C:\docs\a\b: denied`, `open a\b: denied`},
		{`C:\docs\`, `open C:\docs\a: denied`, "open a: denied"},
		{"", "open /srv/docs/a: denied", "open /srv/docs/a: denied"},
		{"/", "open /a: denied", "open /a: denied"},
	} {
		name := func(why string) *Name {
			return &Name{Disk: &Node{Lost: why}, Out: []LeftOut{{Kind: Damaged, Why: "x"}, {Kind: Special, Why: why}}}
		}
		made := name(one.why)
		if made.HidePaths(one.folder); !reflect.DeepEqual(made, name(one.told)) {
			t.Errorf("%s: %+v", one.folder, made)
		}
	}
	(&Name{Out: []LeftOut{{}}}).HidePaths("/srv") // nothing stands on the disk
}

// Another index is named where the part tells paths, and what to do is told by whose it is.
func TestWhatAnotherIndexIsCalled(t *testing.T) {
	for called, one := range map[string]*Newer{"another index": {}, "'/srv/my index'": {Path: "/srv/my index"}} {
		if one.Called() != called {
			t.Errorf("%s, not %s", one.Called(), called)
		}
	}
	for isOfTwo, begin := range map[bool]string{true: "If Syncthing 2 runs on that device now", false: "If Syncthing has its database there now"} {
		if told := (&Newer{IsOfTwo: isOfTwo}).WhatToDo(); !strings.HasPrefix(told, begin) {
			t.Error(told)
		}
	}
}
