package forecast

import "testing"

// Devices that exchange nothing with one another hear of changes from those between them; from one that only sends they don't.
func TestDevicesThatExchangeNothing(t *testing.T) {
	for kind, text := range map[Kind]string{SendReceive: "new", ReceiveOnly: "new", SendOnly: "old"} {
		devices := three()
		devices[0].Apart, devices[2].Apart = 1<<2, 1<<0
		devices[1].Kind = kind
		answer := New(Usual).OfGroup(devices, []Name{inStep("a.txt", "old", 3, 5).changed(0, "new", 70)})
		if len(answer.Ends) != 1 {
			t.Fatalf("%d: %+v", kind, answer)
		}
		if there, _ := textAt(answer.Ends[0], 2); there != text {
			t.Errorf("%d: %s", kind, there)
		}
	}
}
