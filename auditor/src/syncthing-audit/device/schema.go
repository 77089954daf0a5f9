package device

import (
	"errors"
	"fmt"
	"math"

	"github.com/syncthing/syncthing/lib/db"
	"github.com/syncthing/syncthing/lib/db/backend"
	"github.com/syncthing/syncthing/lib/events"
)

// What an index says of itself.
const (
	keyOfSchema = "dbVersion"
	keyOfMended = "dbMigrationVersion"    // how far a Syncthing has mended it without changing the schema
	keyOfLeast  = "dbMinSyncthingVersion" // the first Syncthing that reads it
	keyOfRan    = "prevVersion"           // the Syncthing that was started on it last
)

// checkSchema says why an index has another schema than the one that Syncthing's packages know here. They would bring an
// older one up to date, and mend one of the same schema. But with that go the ids by which one sees that parts aren't of one
// moment. So they aren't asked to: an index of the same schema is read as the device has it.
func checkSchema(index backend.Backend) error {
	about := db.NewMiscDataNamespace(index)
	schema, is, err := about.Int64(keyOfSchema)
	if err != nil {
		return err
	}
	least, _, err := about.String(keyOfLeast)
	if err != nil {
		return err
	}
	if !is || schema < 1 {
		return errors.New("its index doesn't say of which schema it is: start Syncthing on it once, and stop it")
	}
	known, err := knownBeside(schema, least)
	if err != nil {
		return fmt.Errorf("its index has schema %d, which Syncthing's packages don't read as this program has them: %w", schema, err)
	}
	if known != schema {
		return fmt.Errorf("its index has the old schema %d, and this program reads schema %d: start a newer Syncthing 1 on it once, and stop it",
			schema, known)
	}
	return nil
}

// knownBeside gives which schema Syncthing's packages know, by an empty index that says to be of this one and to be mended
// in full. If it is theirs, they do nothing. They refuse a newer one, and some refuse an older one.
func knownBeside(schema int64, least string) (int64, error) {
	memory := backend.OpenMemory()
	defer memory.Close()
	about := db.NewMiscDataNamespace(memory)
	for key, value := range map[string]int64{keyOfSchema: schema, keyOfMended: math.MaxInt64} {
		if err := about.PutInt64(key, value); err != nil {
			return 0, err
		}
	}
	if err := about.PutString(keyOfLeast, least); err != nil {
		return 0, err
	}
	empty, err := db.NewLowlevel(memory, events.NoopLogger)
	if err != nil {
		return 0, err
	}
	if err := db.UpdateSchema(empty); err != nil {
		return 0, err
	}
	known, _, err := about.Int64(keyOfSchema)
	return known, err
}
