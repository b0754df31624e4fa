package main

// How large the report of policies can be, which is known before they are validated: it has a line for each policy in each environment at
// most. An environment is an action with a type of a principal and one of a resource.

import (
	"bytes"
	"encoding/json"
	"math"

	"bobbinjade"
)

// The bytes of a line of a report beside the names of its action and types, and beside the id that is written at a policy.
const lineOfReport = 100

// environments counts the environments of a schema, and the bytes of their names together.
type environments struct {
	count, names float64 // which cannot overflow
}

// Each environment takes some 110 bytes where policies are validated, and at most so many are.
const mostEnvironments = 250_000

// mostOfReport gives an upper bound of the bytes of the report of files. Each policy ends with a semicolon, and each link is an object. The
// bound is infinite where there are too many environments.
func mostOfReport(files *bobbinjade.Files) float64 {
	policies := float64(bytes.Count(files.Policies, []byte(";")) + bytes.Count(files.Links, []byte("{")))
	all := environmentsOf(files.Schema)
	if all.count > mostEnvironments {
		return math.Inf(1)
	}
	return policies*(all.count*lineOfReport+all.names) + float64(len(files.Policies)+len(files.Links))*all.count
}

// environmentsOf counts the environments of a schema. A part that has another form has none: the library refuses it. Where a key is repeated,
// all of its values count.
func environmentsOf(schema []byte) environments {
	var all environments
	for _, namespace := range membersOf(schema) {
		for _, action := range membersOf(valuesOf(membersOf(namespace.value), "actions")...) {
			types := membersOf(valuesOf(membersOf(action.value), "appliesTo")...)
			principals, principalBytes := namesOf(valuesOf(types, "principalTypes"))
			resources, resourceBytes := namesOf(valuesOf(types, "resourceTypes"))
			count := principals * resources
			all.count += count
			// The namespace may be before each of the three names.
			all.names += count*float64(3*len(namespace.key)+len(action.key)) + principalBytes*resources + principals*resourceBytes
		}
	}
	return all
}

// A member of an object.
type member struct {
	key   string
	value json.RawMessage
}

// membersOf gives the members of objects, up to a fault.
func membersOf(objects ...json.RawMessage) []member {
	var members []member
	for _, object := range objects {
		decoder := json.NewDecoder(bytes.NewReader(object))
		if open, err := decoder.Token(); err != nil || open != json.Delim('{') {
			continue
		}
		for decoder.More() {
			var it member
			key, err := decoder.Token()
			if err != nil || decoder.Decode(&it.value) != nil {
				break
			}
			it.key, _ = key.(string)
			members = append(members, it)
		}
	}
	return members
}

// valuesOf gives the values of a key.
func valuesOf(members []member, key string) []json.RawMessage {
	var values []json.RawMessage
	for _, it := range members {
		if it.key == key {
			values = append(values, it.value)
		}
	}
	return values
}

// namesOf counts the names of lists, and their bytes together.
func namesOf(lists []json.RawMessage) (float64, float64) {
	count, bytes := 0, 0
	for _, list := range lists {
		var names []string
		if json.Unmarshal(list, &names) != nil {
			continue
		}
		count += len(names)
		for _, name := range names {
			bytes += len(name)
		}
	}
	return float64(count), float64(bytes)
}
