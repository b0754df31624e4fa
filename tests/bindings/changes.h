/* What the tests of changes share: a schema, policies, entities, and changes that are refused. Staff may view. Bob is in the team, and the
 * team in the staff. Ann is not stored. */
#ifndef CHANGES_H
#define CHANGES_H

#define UID(type, id) "{\"type\":\"" type "\",\"id\":\"" id "\"}"
#define ENTRY(type, id, attrs, parents) "{\"uid\":" UID(type, id) ",\"attrs\":" attrs ",\"parents\":[" parents "]}"

static const char CHANGES_SCHEMA[] =
    "{\"\":{\"entityTypes\":{\"Group\":{\"memberOfTypes\":[\"Group\"]},\"User\":{\"memberOfTypes\":[\"Group\"],\"shape\":{\"type\":"
    "\"Record\",\"attributes\":{\"age\":{\"type\":\"Long\"}}}}},\"actions\":{\"view\":{\"appliesTo\":{\"principalTypes\":[\"User\"],"
    "\"resourceTypes\":[\"Group\"]}}}}}";
static const char CHANGES_POLICIES[] = "@id(\"staff\") permit(principal in Group::\"staff\", action, resource);";
static const char CHANGES_ENTITIES[] = "[" ENTRY("Group", "staff", "{}", "") "," ENTRY("Group", "team", "{}", UID("Group", "staff")) ","
                                       ENTRY("User", "bob", "{\"age\":1}", UID("Group", "team")) "]";

#define ANN ENTRY("User", "ann", "{\"age\":30}", UID("Group", "team"))
#define UPSERT(entries) "{\"upsert\":[" entries "]}"
#define REMOVE(uids) "{\"remove\":[" uids "]}"

/* Changes, and the number for which they are refused. */
static const struct {
    unsigned number;
    const char *text;
} REFUSED_CHANGES[] = {{401, UPSERT(ANN "," ANN)},
                       {401, REMOVE(UID("User", "ann") "," UID("User", "ann"))},
                       {402, UPSERT(ENTRY("Group", "staff", "{}", UID("Group", "team")))},
                       {402, UPSERT(ENTRY("Group", "team", "{}", UID("Group", "team")))},
                       {501, ""},
                       {501, "{\"upsert\":["},
                       {502, "[]"},
                       {502, "{\"upsert\":[],\"removed\":[]}"},
                       {502, "{\"upsert\":{}}"},
                       {502, "{\"remove\":[\"User::\\\"ann\\\"\"]}"},
                       {503, UPSERT(ENTRY("Ghost", "g", "{}", ""))},
                       {504, UPSERT(ENTRY("User", "ann", "{\"age\":\"30\"}", ""))},
                       {505, UPSERT(ENTRY("User", "ann", "{}", ""))},
                       {506, UPSERT(ENTRY("Group", "team", "{\"age\":1}", ""))},
                       {507, UPSERT(ENTRY("User", "ann", "{\"age\":1}", UID("User", "bob")))},
                       {508, REMOVE(UID("Action", "view"))},
                       {508, UPSERT(ENTRY("Action", "fly", "{}", ""))},
                       {509, UPSERT(ENTRY("User", "ann", "{\"age\":1.5}", ""))}};
#endif
