/* The cost of changes of entities, in C: changing ENTITIES KIND CALLS. It makes a world of so many users in a thousand groups of three levels,
 * and publishes changes of a kind to it, one after another: `upsert`, `remove`, `group`, `same`, `thousand`, `passing`. A group is upserted
 * with other parents (`group`), or with those that it has (`same`). A thousand new users come with a call, and go with the next (`passing`).
 * It prints the bytes that malloc has given more after the last change, while the version before all of them is held. */
#include "files.h"

#include <malloc.h>

static const char SCHEMA[] =
    "{\"\":{\"entityTypes\":{\"Group\":{\"memberOfTypes\":[\"Group\"]},\"User\":{\"memberOfTypes\":[\"Group\"],\"shape\":{\"type\":"
    "\"Record\",\"attributes\":{\"age\":{\"type\":\"Long\"}}}}},\"actions\":{\"view\":{\"appliesTo\":{\"principalTypes\":[\"User\"],"
    "\"resourceTypes\":[\"Group\"]}}}}}";
static const char POLICIES[] = "@id(\"staff\") permit(principal in Group::\"g0\", action, resource);";

/* No user of the world has this number or one above. */
enum { FIRST_NEW = 10000000 };

static char *text;
static size_t length;

static void add(const char *piece) {
    size_t more = strlen(piece);
    memcpy(text + length, piece, more + 1);
    length += more;
}

static void add_user(unsigned user, unsigned group, unsigned age) {
    char entry[256];
    snprintf(entry, sizeof entry, "{\"uid\":{\"type\":\"User\",\"id\":\"u%u\"},\"attrs\":{\"age\":%u},\"parents\":[{\"type\":\"Group\",\"id\":\"g%u\"}]}", user, age, group);
    add(entry);
}

static void add_group(unsigned group, unsigned above) {
    char entry[256];
    snprintf(entry, sizeof entry, "{\"uid\":{\"type\":\"Group\",\"id\":\"g%u\"},\"parents\":[{\"type\":\"Group\",\"id\":\"g%u\"}]}", group, above);
    add(entry);
}

/* The entities: group g0, groups g1 to g9 in it, each other group in one of these, and users in the groups, one after another. */
static cedar_bytes world(unsigned users) {
    text = malloc(256 * (size_t)(users + 1100));
    length = 0;
    add("[{\"uid\":{\"type\":\"Group\",\"id\":\"g0\"}}");
    for (unsigned group = 1; group < 1000; group++) {
        add(",");
        add_group(group, group < 10 ? 0 : 1 + group % 9);
    }
    for (unsigned user = 0; user < users; user++) {
        add(",");
        add_user(user, 10 + user % 990, user % 90);
    }
    add("]");
    return (cedar_bytes){text, length};
}

/* The changes of a call. */
static cedar_bytes changes(const char *kind, unsigned call) {
    char uid[128];
    length = 0;
    if (strcmp(kind, "remove") == 0) {
        snprintf(uid, sizeof uid, "{\"remove\":[{\"type\":\"User\",\"id\":\"u%u\"}]}", call);
        add(uid);
    } else if (strcmp(kind, "group") == 0 || strcmp(kind, "same") == 0) {
        add("{\"upsert\":[");
        add_group(500, 1 + (strcmp(kind, "same") == 0 ? 500 : call) % 9);
        add("]}");
    } else if (strcmp(kind, "passing") == 0 && call % 2 == 1) {
        add("{\"remove\":[");
        for (unsigned one = 0; one < 1000; one++) {
            snprintf(uid, sizeof uid, "%s{\"type\":\"User\",\"id\":\"u%u\"}", one ? "," : "", FIRST_NEW + call / 2 * 1000 + one);
            add(uid);
        }
        add("]}");
    } else {
        unsigned count = strcmp(kind, "upsert") == 0 ? 1 : 1000;
        unsigned first = strcmp(kind, "passing") == 0 ? FIRST_NEW + call / 2 * 1000 : call * count;
        add("{\"upsert\":[");
        for (unsigned one = 0; one < count; one++) {
            add(one ? "," : "");
            add_user(first + one, 10 + call % 990, 17);
        }
        add("]}");
    }
    return (cedar_bytes){text, length};
}

int main(int count, char **words) {
    if (count != 4) {
        return 2;
    }
    unsigned users = (unsigned)atoi(words[1]), calls = (unsigned)atoi(words[3]);
    cedar_engine engine, before;
    cedar_files files = {sizeof files, bytes_of(SCHEMA), bytes_of(POLICIES), {NULL, 0}, world(users), 0, 0};
    CHECK(cedar_new(&engine) == CEDAR_OK && cedar_new(&before) == CEDAR_OK);
    CHECK(cedar_publish(&engine, &files, NULL, NULL) == CEDAR_OK && cedar_share(&engine, &before) == CEDAR_OK);
    free(text);
    text = malloc(1 << 20);
    size_t held = mallinfo2().uordblks;
    for (unsigned call = 0; call < calls; call++) {
        CHECK(cedar_publish_changes(&engine, changes(words[2], call), NULL, NULL) == CEDAR_OK);
    }
    printf("%zu\n", mallinfo2().uordblks - held);
    cedar_free(&before);
    cedar_free(&engine);
    free(text);
    return failed != 0;
}
