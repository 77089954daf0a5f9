package print

import (
	"syncthing-audit/lists"
	"syncthing-audit/outlook"
)

// versions says which devices' old versions then have something that is lost; nothing where nothing is known of that.
func (n Names) versions(thing outlook.Thing) string {
	told := Places{}
	for _, one := range thing.Versions {
		told.Add(string(one.Have), one.Device)
	}
	return told.Joined(n, func(have, devices string) string {
		return wordsOfVersions[outlook.Having(have)](devices, int64(len(*told.Of(have))))
	})
}

var wordsOfVersions = map[outlook.Having]func(devices string, count int64) string{
	outlook.Have:    func(devices string, _ int64) string { return "the old versions of " + devices + " then have it" },
	outlook.HaveNot: func(devices string, _ int64) string { return "it isn't kept among the old versions of " + devices },
	outlook.HaveNone: func(devices string, count int64) string {
		return devices + " " + oneOf(count, "keeps", "keep") + " no old versions"
	},
	outlook.HaveExternal: func(devices string, count int64) string {
		return devices + " " + oneOf(count, "gives", "give") + " old versions to a command, of which nothing is known"
	},
	outlook.HaveUntold: func(devices string, count int64) string {
		return "whether " + devices + " " + oneOf(count, "keeps", "keep") + " old versions isn't told"
	},
}

// noBackup says what old versions are worth, where some are to have what is lost.
func (p *Person) noBackup(before string, things []outlook.Thing) {
	has := func(thing outlook.Thing) bool {
		return lists.Has(thing.Versions, func(one outlook.Versions) bool { return one.Have == outlook.Have })
	}
	if lists.Has(things, has) {
		p.Line("%sold versions are no backup: Syncthing deletes them by age and count", before)
	}
}

// withVersions gives what is told of something, and behind that which old versions have it.
func withVersions(told, between, versions string) string {
	if versions == "" {
		return told
	}
	return told + between + versions
}
