package answering

import (
	"syncthing-audit/damage"
	"syncthing-audit/finding"
	"syncthing-audit/report"
	"syncthing-audit/summary"
)

// dangersOf gives what a start, a scan or a revert may lose, as a summary tells it: for lines, which have devices' numbers.
func dangersOf(answer *finding.Answer, told *summary.Summary) *report.Dangers {
	dangers, numbers := &report.Dangers{}, map[string]uint64{}
	for _, device := range answer.Devices {
		numbers[device.ID] = device.Number
	}
	for _, first := range told.First {
		next := report.First{Why: first.Why, Names: first.Names}
		for _, id := range first.Devices {
			next.Devices = append(next.Devices, numbers[id])
		}
		dangers.First = append(dangers.First, next)
	}
	for _, folder := range told.Folders {
		for _, file := range folder.Files {
			for _, fault := range file.Faults {
				if fault.Damage != damage.None {
					dangers.Disks = append(dangers.Disks, diskOf(folder.ID, string(file.Name), numbers[fault.Device], string(fault.Damage), fault.Recorded, fault.Found))
				}
				if fault.IsOfOneTime {
					dangers.UnderOneTime = append(dangers.UnderOneTime, report.UnderOneTime{Folder: folder.ID, Name: string(file.Name), Device: numbers[fault.Device],
						Recorded: sizeOf(fault.Recorded), Due: sizeOf(fault.Due)})
				}
			}
		}
		if folder.Live == nil {
			continue
		}
		for _, moving := range folder.Live.Names {
			for _, at := range moving.At {
				if at.Waits != "" && at.Waits != finding.WaitsNew {
					dangers.Disks = append(dangers.Disks, diskOf(folder.ID, string(moving.Name), numbers[at.Device], at.Waits, at.Recorded, at.Found))
				}
			}
		}
	}
	return dangers
}

// diskOf gives the line of a name at a device, whose record or disk may have nothing of it.
func diskOf(folder, name string, device uint64, why string, recorded, found *summary.State) report.Disk {
	return report.Disk{Folder: folder, Name: name, Device: device, Why: why, Recorded: sizeOf(recorded), Found: sizeOf(found)}
}

// sizeOf gives the size of what a record or a disk says of a name; 0 where there is nothing.
func sizeOf(state *summary.State) int64 {
	if state == nil {
		return 0
	}
	return state.Size
}
