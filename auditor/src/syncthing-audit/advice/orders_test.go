package advice

import (
	"fmt"
	"testing"
)

// stepsAt gives steps at so many devices.
func stepsAt(count int) []Step {
	var made []Step
	for device := 0; device < count; device++ {
		made = append(made, Step{Touch, device, 0, "a"})
	}
	return made
}

func devicesOf(steps []Step) string {
	told := ""
	for _, step := range steps {
		told += fmt.Sprint(step.Device)
	}
	return told
}

// All choices of so many steps are tried, each once and in the steps' order; and all orders of those, each once, until one is enough.
func TestAllChoicesAndAllOrders(t *testing.T) {
	for count, expected := range map[int]string{0: "[]", 1: "[0 1 2 3]", 2: "[01 02 03 12 13 23]", 3: "[012 013 023 123]", 4: "[0123]", 5: "[]"} {
		chosen := []string{}
		choose(stepsAt(4), count, func(steps []Step) { chosen = append(chosen, devicesOf(steps)) })
		if told := fmt.Sprint(chosen); told != expected && !(count == 0 && len(chosen) == 1 && chosen[0] == "") {
			t.Errorf("%d of 4: %s, not %s", count, told, expected)
		}
	}
	for enough := 0; enough <= 7; enough++ {
		orders := []string{}
		isOver := permute(stepsAt(3), func(steps []Step) bool {
			orders = append(orders, devicesOf(steps))
			return len(orders) != enough
		})
		all := []string{"012", "021", "102", "120", "201", "210"}
		if isCutOff := enough > 0 && enough <= 6; isCutOff {
			all = all[:enough]
			if isOver {
				t.Errorf("%d are enough, and it goes on", enough)
			}
		} else if !isOver {
			t.Error("all orders were tried, and it ends before")
		}
		if fmt.Sprint(orders) != fmt.Sprint(all) {
			t.Errorf("%d are enough: %v, not %v", enough, orders, all)
		}
	}
}
