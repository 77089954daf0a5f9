package forecast

import (
	"reflect"
	"testing"
)

// Nothing is foretold of devices of which one has a release that nobody compared with the model.
func TestUntriedReleases(t *testing.T) {
	for version, release := range map[string]Release{"v1.19.2": V1_19, "v1.29.5": V1_29, "v1.27.1": Untried, "v2.0.3": Untried, "v1.190.0": Untried, "": Untried} {
		if found := ReleaseOf(version); found != release {
			t.Error(version, found)
		}
		devices := three()
		devices[1].Release = release
		answer := New(Usual).OfGroup(devices, []Name{inStep("a", "old", 3, 5)})
		if isKnown := release != Untried; (len(answer.Ends) == 1) != isKnown || reflect.DeepEqual(answer.Untried, []int{1}) == isKnown || answer.Names[0] != "a" {
			t.Errorf("%s: %+v", version, answer)
		}
	}
}
