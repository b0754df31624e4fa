package main

// What changes have made of the file of entities. The engine keeps the entities themselves. Where other files are published, a new engine
// reads the entities from a file again: so the file is kept up to date, but only then, since that takes as long as reading it.

import (
	"bytes"
	"encoding/json"
	"errors"
)

// changedEntities are the entities that changes have named since the file was published: by uid the entry, or nil where it was removed.
type changedEntities map[string]json.RawMessage

// What a changed entity takes beside its uid and its entry, in bytes: places in maps, here and in the engine.
const keptBeside = 400

// keep notes an entry, or nil, and gives the bytes that this takes more.
func (c changedEntities) keep(key string, entry json.RawMessage) int {
	more := len(entry)
	if old, isThere := c[key]; isThere {
		more -= len(old)
	} else {
		more += len(key) + keptBeside
	}
	c[key] = entry
	return more
}

// errChanges says that changes, or a file of entities, that the engine has accepted cannot be read here. It never does.
var errChanges = errors.New("entities that the engine has accepted cannot be read")

// keyOf gives a uid as these maps have it: the type, a byte that a name never has, and the id. The engine has accepted it, so it has no
// keys in other case, which Go would take for these.
func keyOf(uid json.RawMessage) (string, error) {
	var parts struct {
		Type  *string         `json:"type"`
		ID    *string         `json:"id"`
		Inner json.RawMessage `json:"__entity"`
	}
	switch err := json.Unmarshal(uid, &parts); {
	case err != nil:
		return "", errChanges
	case parts.Inner != nil:
		return keyOf(parts.Inner)
	case parts.Type == nil || parts.ID == nil:
		return "", errChanges
	}
	return *parts.Type + "\x00" + *parts.ID, nil
}

// keyOfEntry gives the uid of an entry.
func keyOfEntry(entry json.RawMessage) (string, error) {
	var parts struct {
		UID json.RawMessage `json:"uid"`
	}
	if json.Unmarshal(entry, &parts) != nil {
		return "", errChanges
	}
	return keyOf(parts.UID)
}

// listOf gives the items of a list under a key; none where the key is absent.
func listOf(keys map[string]json.RawMessage, key string) ([]json.RawMessage, error) {
	var items []json.RawMessage
	if list, isThere := keys[key]; isThere && json.Unmarshal(list, &items) != nil {
		return nil, errChanges
	}
	return items, nil
}

// readChanges reads changes that the engine has accepted. A uid in both lists is upserted.
func readChanges(changes []byte) (changedEntities, error) {
	var keys map[string]json.RawMessage
	if json.Unmarshal(changes, &keys) != nil {
		return nil, errChanges
	}
	read := changedEntities{}
	removed, err := listOf(keys, "remove")
	if err != nil {
		return nil, err
	}
	for _, uid := range removed {
		key, err := keyOf(uid)
		if err != nil {
			return nil, err
		}
		read[key] = nil
	}
	upserted, err := listOf(keys, "upsert")
	if err != nil {
		return nil, err
	}
	for _, entry := range upserted {
		key, err := keyOfEntry(entry)
		if err != nil {
			return nil, err
		}
		read[key] = entry
	}
	return read, nil
}

// over gives a file of entities after the changes: its entries that they do not name, and then those that are upserted, by uid.
func (c changedEntities) over(entities []byte) ([]byte, error) {
	if len(c) == 0 {
		return entities, nil
	}
	text := append(make([]byte, 0, len(entities)+2), '[')
	decoder := json.NewDecoder(bytes.NewReader(entities))
	if open, err := decoder.Token(); err != nil || open != json.Delim('[') {
		return nil, errChanges
	}
	// One place for all entries: a list of them would take as much memory as the file.
	var entry json.RawMessage
	for decoder.More() {
		if decoder.Decode(&entry) != nil {
			return nil, errChanges
		}
		key, err := keyOfEntry(entry)
		if err != nil {
			return nil, err
		}
		if _, isChanged := c[key]; !isChanged {
			text = appendEntry(text, entry)
		}
	}
	if closing, err := decoder.Token(); err != nil || closing != json.Delim(']') {
		return nil, errChanges
	}
	for _, key := range sortedKeys(c) {
		if c[key] != nil {
			text = appendEntry(text, c[key])
		}
	}
	return append(text, ']'), nil
}

// appendEntry appends an entry to the text of a list.
func appendEntry(to []byte, entry json.RawMessage) []byte {
	if len(to) > 1 {
		to = append(to, ",\n"...)
	}
	return append(to, entry...)
}
