package device

import (
	"reflect"
	"testing"
)

// Each of the four options has scans look at attributes.
func TestFoldersWhoseScansLookAtAttributes(t *testing.T) {
	text := []byte(`<configuration version="37">
<folder id="none"><syncXattrs>false</syncXattrs><sendOwnership>false</sendOwnership></folder>
<folder id="old"></folder>
<folder id="a"><sendOwnership>true</sendOwnership></folder><folder id="b"><syncOwnership>true</syncOwnership></folder>
<folder id="c"><sendXattrs>true</sendXattrs></folder><folder id="d"><syncXattrs>true</syncXattrs></folder>
<defaults><folder id=""><syncXattrs>true</syncXattrs></folder></defaults>
</configuration>`)
	expected := map[string]bool{"none": false, "old": false, "a": true, "b": true, "c": true, "d": true}
	if read, err := attributesIn(text); err != nil || !reflect.DeepEqual(read, expected) {
		t.Errorf("%v, %v", read, err)
	}
}
