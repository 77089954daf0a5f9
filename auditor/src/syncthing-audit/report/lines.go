// Package report prints what an audit found.
package report

import (
	"fmt"
	"io"
	"strconv"
	"strings"
	"time"
	"unicode/utf8"

	"syncthing-audit/ask"
	"syncthing-audit/finding"
	"syncthing-audit/outside"
	"syncthing-audit/part"
	"syncthing-audit/shell"
)

// Verdict gives the first line of an answer, in syncaudit's words. What an audit before found on a disk, and nobody read since, isn't settled.
func Verdict(answer *finding.Answer, isUnread bool) string {
	folder, first := answer.First()
	switch {
	case first != nil:
		return "not settled: " + ask.Line(folder.ID, first)
	case isUnread:
		return "not settled, as found before and not read again"
	case answer.IsPartial():
		return "settled as far as audited"
	}
	return "settled"
}

// Lines prints the verdict, the counts of each folder, and all that was found, a line each, in syncaudit's words.
func Lines(to io.Writer, answer *finding.Answer, dangers *Dangers) {
	outside.Println(to, Verdict(answer, dangers != nil && dangers.IsUnread))
	for _, folder := range answer.Folders {
		outside.Printf(to, "folder %s: %d names, %d deleted, %d devices\n", folder.ID, folder.Names, folder.Deleted, len(folder.Members))
	}
	for _, folder := range answer.Folders {
		folder.EachFailure(func(failure *finding.Failure) { outside.Println(to, ask.Line(folder.ID, failure)) })
	}
	for _, folder := range answer.Folders {
		firm(to, folder)
		converging(to, answer, folder)
	}
	Rest(to, answer)
	dangers.print(to)
	names(to, answer)
}

// names prints the name of each device beside its number, which the other lines have.
func names(to io.Writer, answer *finding.Answer) {
	for _, device := range answer.Devices {
		if device.Name != "" {
			outside.Printf(to, "device %d: %s\n", device.Number, printed(device.Name))
		}
	}
}

// firm prints of a folder that is settled whether it is firm, and all that keeps it from that.
func firm(to io.Writer, folder *finding.Folder) {
	if folder.HasFailures() {
		return
	}
	switch folder.HowFirm() {
	case finding.IsFirm:
		outside.Printf(to, "firm: %s\n", folder.ID)
	case finding.NotFirm:
		folder.EachLoose(func(failure *finding.Failure) { outside.Printf(to, "not firm: %s\n", ask.Line(folder.ID, failure)) })
	}
	for _, unsure := range folder.Unsure() {
		outside.Printf(to, "%s: %s on %d: %s\n", folder.HowFirm().CallUnsure(), folder.ID, part.Number(unsure.Device), unsure.Words())
	}
}

// Rest prints what no row says: names without a winner, permissions that differ, what was left out.
func Rest(to io.Writer, answer *finding.Answer) {
	for _, folder := range answer.Folders {
		live(to, folder)
		unwon(to, folder)
		permissions(to, folder)
		damaged(to, folder)
		leftOut(to, folder)
		for _, member := range folder.Members {
			if member.Near > 0 {
				outside.Printf(to, "times taken for the same: %s %d files on %d, by less than %d s\n", folder.ID, member.Near, member.Number, member.About.TimeWindow)
			}
			if count := member.Temporary; count != nil && count.Names > 0 {
				outside.Printf(to, "temporary: %s %d names, %d bytes on %d\n", folder.ID, count.Names, count.Bytes, member.Number)
			}
		}
	}
	for _, folder := range answer.Folders {
		own(to, answer, folder)
	}
	for _, refusal := range answer.LeftOut {
		outside.Printf(to, "left out: %s: %s\n", whereOut(refusal), refusal.Why)
	}
	for _, refusal := range answer.Earlier {
		outside.Printf(to, "of another moment: folder %s, device %s: %s\n", refusal.Folder, refusal.Device, refusal.Why)
	}
	for _, observer := range answer.Observers {
		outside.Printf(to, "observer, not asked: folder %s, device %s\n", observer.Folder, observer.Device)
	}
	unasked(to, answer)
	for _, device := range answer.Devices {
		if device.Index != nil {
			outside.Printf(to, "maybe an old index: on %d, %s\n", device.Number, ageOf(device.Index))
		}
		if device.Newer != nil {
			outside.Printf(to, "maybe an old index: on %d, %s\n", device.Number, besides(device.Newer))
		}
		if device.ToRepair {
			outside.Printf(to, "to be repaired: the index on %d\n", device.Number)
		}
		if device.IsUnsigned {
			outside.Printf(to, "not signed: the part of %d\n", device.Number)
		}
	}
}

// ageOf says why an index may be an old one.
func ageOf(index *part.Index) string {
	return fmt.Sprintf("written %s, before config.xml was changed %s", index.Written.UTC().Format(time.RFC3339), index.Configured.UTC().Format(time.RFC3339))
}

// besides says which other index may be the present one.
func besides(newer *part.Newer) string {
	return fmt.Sprintf("written %s, before %s was written %s", newer.Read.UTC().Format(time.RFC3339), newer.Called(), newer.Written.UTC().Format(time.RFC3339))
}

// own prints of a folder that its device shares with nobody that this is so, and whether other devices have theirs of the same id.
func own(to io.Writer, answer *finding.Answer, folder *finding.Folder) {
	switch {
	case answer.IsApart(folder):
		outside.Printf(to, "not shared with one another: folder %s on %d\n", folder.ID, folder.Members[0].Number)
	case folder.IsOut:
		outside.Printf(to, "by itself: folder %s on %d\n", folder.ID, folder.Members[0].Number)
	case folder.Own != "":
		outside.Printf(to, "not shared: folder %s on %d\n", folder.ID, folder.Members[0].Number)
	}
}

// unasked prints which folders of the devices and which names of a folder weren't audited, since nobody asked for them, or that this
// isn't known.
func unasked(to io.Writer, answer *finding.Answer) {
	for _, device := range answer.Devices {
		for _, unasked := range device.Unasked {
			outside.Printf(to, "not asked for: folder %s on %d\n", unasked.ID, device.Number)
		}
		if device.IsSilent {
			outside.Printf(to, "not told: other folders of %d\n", device.Number)
		}
	}
	for _, folder := range answer.Folders {
		if begin := folder.Asked().Prefix; begin != "" {
			outside.Printf(to, "not asked for: names of %s that don't begin with %s\n", folder.ID, ask.Printed(begin))
		}
		if asked := folder.Asked(); asked.IsOfSlice() {
			outside.Printf(to, "not asked for: names of %s outside %s\n", folder.ID, asked.SliceWords())
		}
	}
}

// unwon prints what each device has of each name without a winner.
func unwon(to io.Writer, folder *finding.Folder) {
	folder.Unwon.Each(func(unwon *finding.Unwon) {
		for _, at := range unwon.At {
			outside.Printf(to, "no winner: %s %s on %d: %s\n", folder.ID, ask.Printed(unwon.Name), folder.Members[at.Member].Number, at.Kind)
		}
	})
}

// permissions prints names whose permissions differ.
func permissions(to io.Writer, folder *finding.Folder) {
	folder.Permissions.Each(func(permissions *finding.Permissions) {
		outside.Printf(to, "permissions: %s %s", folder.ID, ask.Printed(permissions.Name))
		for member, bits := range permissions.At {
			if bits.Has {
				outside.Printf(to, " %d index %04o", folder.Members[member].Number, bits.Index)
			}
			if bits.OnDisk {
				outside.Printf(to, " disk %04o", bits.Disk)
			}
		}
		outside.Print(to, "\n")
	})
}

// damaged prints of which names a disk itself fails to give what it has, or has something else than its own index says.
func damaged(to io.Writer, folder *finding.Folder) {
	folder.Damaged.Each(func(damaged *finding.Damaged) {
		for _, at := range damaged.At {
			kind := "damaged"
			if at.IsRot {
				kind = "differs"
			}
			outside.Printf(to, "%s: %s %s on %d: %s\n", kind, folder.ID, printed(string(damaged.Name)), folder.Members[at.Member].Number, at.Why)
		}
	})
}

// leftOut prints what was left out on request, and what is outside the folder.
func leftOut(to io.Writer, folder *finding.Folder) {
	for _, leftOut := range folder.LeftOut {
		for _, why := range leftOut.Why {
			device := "-"
			if why.Device != "" {
				device = strconv.FormatUint(part.Number(why.Device), 10)
			}
			outside.Printf(to, "left out: %s %s on %s: %s (%s, %d names, %d bytes)\n", folder.ID, printed(string(leftOut.Name)), device, why.Why,
				why.Kind, leftOut.Names, leftOut.Bytes)
		}
	}
	if more := folder.Unlisted.LeftOut; more.Names > 0 {
		outside.Printf(to, "left out: %s %d names more, %d bytes, which aren't listed\n", folder.ID, more.Names, more.Bytes)
	}
	if folder.Outside.Names > 0 {
		outside.Printf(to, "ignored: %s %d names, %d bytes, on no device's index\n", folder.ID, folder.Outside.Names, folder.Outside.Bytes)
	}
}

// printed gives a name as syncaudit writes it, or where it isn't UTF-8 with all its odd bytes as \xNN.
func printed(name string) string {
	if utf8.ValidString(name) {
		return ask.Printed(name)
	}
	return strings.Trim(strconv.QuoteToASCII(name), `"`)
}

// placeOf says at which device and name something is refused, as far as it is of one.
func placeOf(refusal finding.Refusal) string {
	place := ""
	if refusal.Device != "" {
		place += ", device " + refusal.Device
	}
	if refusal.Name != "" {
		place += ", name " + shell.Path(refusal.Name)
	}
	return place
}

// mostAlike is how many names are told that are refused for reasons of one kind at one device; the others are counted.
const mostAlike = 5

// tellRefusals prints refusals. Of many names of one kind at one device of a folder it tells the first ones.
func tellRefusals(to io.Writer, all []finding.Refusal) {
	type alike struct{ folder, label, device, kind string }
	told, more := map[alike]int{}, []alike{}
	for _, refusal := range all {
		same := alike{refusal.Folder, refusal.Label, refusal.Device, refusal.Kind}
		if refusal.Name != "" && refusal.Kind != "" {
			told[same]++
		}
		switch {
		case told[same] <= mostAlike || refusal.Name == "":
			outside.Printf(to, "syncthing-audit: refused: folder %s%s: %s\n", shell.Folder(refusal.Folder, refusal.Label), placeOf(refusal), refusal.Why)
		case told[same] == mostAlike+1:
			more = append(more, same)
		}
	}
	for _, alike := range more {
		outside.Printf(to, "syncthing-audit: refused: folder %s%s: %d more of the kind %s\n", shell.Folder(alike.folder, alike.label),
			placeOf(finding.Refusal{Device: alike.device}), told[alike]-mostAlike, alike.kind)
	}
}

// Refusals prints what has no answer, and how to leave it out.
func Refusals(to io.Writer, answer *finding.Answer) {
	kinds := ""
	seen := map[string]bool{"": true}
	count := int64(len(answer.Refusals))
	add := func(kind string) {
		if !seen[kind] {
			seen[kind] = true
			kinds += "," + kind
		}
	}
	tellRefusals(to, answer.Refusals)
	for _, device := range answer.Devices {
		if device.Index != nil {
			outside.Printf(to, "syncthing-audit: maybe an old index: device %s, %s. Where Syncthing has its database elsewhere, name it as --data DIR\n", device.ID, ageOf(device.Index))
		}
		if device.Newer != nil {
			outside.Printf(to, "syncthing-audit: maybe an old index: device %s, %s. %s\n", device.ID, besides(device.Newer), device.Newer.WhatToDo())
		}
		if device.ToRepair {
			outside.Printf(to, "syncthing-audit: to be repaired: the index of device %s. Start Syncthing there, and let it finish\n", device.ID)
		}
	}
	for _, refusal := range answer.Refusals {
		add(refusal.Kind)
	}
	for _, kind := range part.Kinds {
		if more := answer.Unlisted[kind]; more > 0 {
			outside.Printf(to, "syncthing-audit: refused: %d more of the kind %s\n", more, kind)
			count += more
			add(kind)
		}
	}
	if kinds != "" {
		them := "them"
		if count == 1 {
			them = "it"
		}
		outside.Printf(to, "syncthing-audit: %d refused; --leave-out %s leaves %s out\n", count, kinds[1:], them)
	}
}
