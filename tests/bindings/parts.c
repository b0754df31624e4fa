/* Reports in parts, in C: parts [POLICIES], with so many in place of 3,000 where there are to be many. */
#include "files.h"
#include "parts.h"

#include <inttypes.h>

/* Room for each text of these tests. */
#define ROOM ((size_t)1 << 20)

static char whole_room[ROOM], joined_room[ROOM], part_room[ROOM];
static size_t many = MANY_POLICIES;

static cedar_files files_with(const char *policies) {
    return (cedar_files){sizeof(cedar_files), bytes_of(PARTS_SCHEMA), bytes_of(policies), {NULL, 0}, {NULL, 0}, 0, 0};
}

/* Policies one after another, which the caller frees: the one at `number` is `other` where `is_other` says so. */
static char *policies_of(size_t count, const char *plain, const char *other, int (*is_other)(size_t)) {
    size_t longest = strlen(plain) > strlen(other) ? strlen(plain) : strlen(other);
    char *at = malloc(count * longest + 1), *to = at;
    if (!at) {
        exit(9);
    }
    *to = '\0';
    for (size_t number = 0; number < count; number++) {
        to = stpcpy(to, is_other(number) ? other : plain);
    }
    return at;
}

static int is_each(size_t number) { return number + 1 > 0; }
static int is_some(size_t number) { return number == 0 || number == many / 2 || number == many - 1; }

static cedar_report_place start(uint64_t lines) { return (cedar_report_place){.size = sizeof(cedar_report_place), .lines = lines}; }

static int are_same(const cedar_report_place *one, const cedar_report_place *other) {
    return one->size == other->size && one->policy == other->policy && one->faults == other->faults && one->warnings == other->warnings
        && one->lines == other->lines;
}

/* The report as cedar_validate writes it. */
static cedar_bytes whole(const cedar_files *files, uint32_t *status) {
    cedar_buffer text = {whole_room, ROOM, 0};
    *status = cedar_validate(files, &text);
    return (cedar_bytes){whole_room, text.written};
}

/* Whether a part with more after it ends where cedar.h says: after the policy with which it is long enough, or after so many policies. */
static int ends_right(const cedar_buffer *text, uint64_t policies, size_t longest) {
    const char *at = text->at;
    int is_whole = text->written == 0 || at[text->written - 1] == '\n';
    int is_long = text->written >= PART_BYTES && text->written < PART_BYTES + longest && policies <= PART_POLICIES;
    return is_whole && (is_long || (policies == PART_POLICIES && text->written < PART_BYTES));
}

/* Writes a report by parts, whose policies have at most `longest` bytes each. Gives the status with which it ends, and how many parts it
 * has. */
static uint32_t joined(const cedar_files *files, cedar_report_place *place, size_t longest, cedar_buffer *all, int *parts) {
    uint32_t status;
    *all = (cedar_buffer){joined_room, ROOM, 0};
    *parts = 0;
    do {
        cedar_report_place before = *place;
        cedar_buffer text = {part_room, ROOM, 0};
        status = cedar_validate_part(files, place, NULL, &text);
        if (status == CEDAR_MORE && !ends_right(&text, place->policy - before.policy, longest)) {
            return CEDAR_ARGUMENT;
        }
        memcpy(joined_room + all->written, part_room, text.written);
        all->written += text.written;
        *parts += 1;
    } while (status == CEDAR_MORE);
    return status;
}

/* Whether parts, one after another, are the report of cedar_validate, with the same status and these totals. Gives the count of parts. */
static int are_the_whole(const char *policies, uint32_t wanted, uint64_t faults, uint64_t warnings) {
    cedar_files files = files_with(policies);
    cedar_report_place place = start(CEDAR_ALL_LINES);
    cedar_buffer all;
    uint32_t status;
    int parts;
    char totals[64];
    const char *form = "{\"faults\":%" PRIu64 ",\"warnings\":%" PRIu64 "}\n";
    size_t length = (size_t)snprintf(totals, sizeof totals, form, faults, warnings);
    cedar_bytes text = whole(&files, &status);
    CHECK(status == wanted && text.length >= length && memcmp(whole_room + text.length - length, totals, length) == 0);
    CHECK(joined(&files, &place, 256, &all, &parts) == wanted && has(&all, text));
    CHECK(place.faults == faults && place.warnings == warnings && place.lines == CEDAR_ALL_LINES);
    return parts;
}

static void check_short(void) {
    const char *policies = RIGHT_POLICY WRONG_POLICY VAIN_POLICY;
    cedar_files files = files_with(policies);
    cedar_report_place place = start(CEDAR_ALL_LINES);
    cedar_buffer text = {part_room, ROOM, 0};
    /* Environments come in ascending order (docs/DEFINITIONS.md, `environments_of`). */
    const char *report = FAULT_LINE("policy1", "Admin") FAULT_LINE("policy1", "User") WARNING_LINE("policy2") "{\"faults\":2,\"warnings\":1}\n";
    CHECK(cedar_validate_part(&files, &place, NULL, &text) == CEDAR_FAULTS && has(&text, bytes_of(report)));
    CHECK(place.policy == 3 && place.faults == 2 && place.warnings == 1);
    CHECK(are_the_whole(policies, CEDAR_FAULTS, 2, 1) == 1 && are_the_whole(VAIN_POLICY, CEDAR_OK, 0, 1) == 1);
    CHECK(are_the_whole(RIGHT_POLICY, CEDAR_OK, 0, 0) == 1 && are_the_whole("", CEDAR_OK, 0, 0) == 1);
}

/* Whether so many parts have a thousand policies each, but for the last one or two. */
static int is_count_of_thousands(int parts) {
    int least = (int)((many + PART_POLICIES - 1) / PART_POLICIES);
    return parts == least || parts == least + 1;
}

/* Parts that end after so many policies, and parts that end after so many bytes. */
static void check_many(void) {
    char *right = policies_of(many, RIGHT_POLICY, WRONG_POLICY, is_some);
    char *wrong = policies_of(many, RIGHT_POLICY, WRONG_POLICY, is_each);
    char *vain = policies_of(many, RIGHT_POLICY, VAIN_POLICY, is_each);
    int parts = are_the_whole(right, CEDAR_FAULTS, 6, 0);
    CHECK(is_count_of_thousands(parts));
    /* A fault takes 99 bytes at least, and a policy has two of them. */
    CHECK(are_the_whole(wrong, CEDAR_FAULTS, 2 * many, 0) >= (int)(2 * many * 99 / (PART_BYTES + 256)));
    CHECK(are_the_whole(vain, CEDAR_OK, 0, many) >= (int)(many / PART_POLICIES));
    free(right);
    free(wrong);
    free(vain);
}

/* How many bytes the first lines of a text have. */
static size_t first_lines(cedar_bytes text, int count) {
    const char *at = text.at;
    while (count-- > 0) {
        at = (const char *)memchr(at, '\n', text.length - (size_t)(at - (const char *)text.at)) + 1;
    }
    return (size_t)(at - (const char *)text.at);
}

/* After so many lines only the counts go on: the totals are those of the whole report. */
static void check_lines(void) {
    char *wrong = policies_of(many, RIGHT_POLICY, WRONG_POLICY, is_each);
    cedar_files files = files_with(wrong);
    uint32_t status;
    int parts;
    cedar_buffer all;
    cedar_bytes report = whole(&files, &status);
    char totals[64];
    size_t room = (size_t)snprintf(totals, sizeof totals, "{\"faults\":%zu,\"warnings\":0}\n", 2 * many);
    for (int lines = 0; lines <= 5; lines += lines ? 4 : 1) {
        cedar_report_place place = start((uint64_t)lines);
        size_t length = first_lines(report, lines);
        CHECK(joined(&files, &place, 256, &all, &parts) == CEDAR_FAULTS && is_count_of_thousands(parts));
        CHECK(all.written == length + room && memcmp(joined_room, whole_room, length) == 0);
        CHECK(memcmp(joined_room + length, totals, room) == 0 && place.faults == 2 * many && place.lines == 0);
    }
    /* A limit that is not reached. */
    cedar_report_place place = start(10000);
    CHECK(joined(&files, &place, 256, &all, &parts) == CEDAR_FAULTS && has(&all, report) && place.lines == 10000 - 2 * many);
    /* Warnings count as faults do. */
    files = files_with(VAIN_POLICY WRONG_POLICY VAIN_POLICY);
    place = start(1);
    CHECK(joined(&files, &place, 256, &all, &parts) == CEDAR_FAULTS);
    CHECK(has(&all, bytes_of(WARNING_LINE("policy0") "{\"faults\":2,\"warnings\":2}\n")) && place.lines == 0);
    free(wrong);
}

/* Each place goes on alone: two reports that are written in turn, and a copy of a place. */
static void check_places(void) {
    char *wrong = policies_of(many, RIGHT_POLICY, WRONG_POLICY, is_each);
    cedar_files files = files_with(wrong), other = files_with(WRONG_POLICY);
    cedar_report_place place = start(CEDAR_ALL_LINES), between = place, copy;
    cedar_buffer text = {part_room, ROOM, 0}, again = {joined_room, ROOM, 0};
    uint32_t status;
    cedar_bytes report = whole(&files, &status);
    CHECK(cedar_validate_part(&files, &place, NULL, &text) == CEDAR_MORE);
    size_t first = text.written;
    CHECK(first < report.length && memcmp(part_room, whole_room, first) == 0);
    copy = place;
    CHECK(cedar_validate_part(&other, &between, NULL, &text) == CEDAR_FAULTS && between.policy == 1 && are_same(&place, &copy));
    CHECK(cedar_validate_part(&files, &place, NULL, &text) == CEDAR_MORE && cedar_validate_part(&files, &copy, NULL, &again) == CEDAR_MORE);
    CHECK(are_same(&place, &copy) && has(&again, (cedar_bytes){part_room, text.written}));
    CHECK(first + text.written <= report.length && memcmp(part_room, whole_room + first, text.written) == 0);
    /* The lines of a policy begin at a place that has so many policies before it. */
    copy = start(CEDAR_ALL_LINES);
    copy.policy = many - 1;
    copy.faults = 2 * (many - 1);
    CHECK(cedar_validate_part(&files, &copy, NULL, &text) == CEDAR_FAULTS && copy.policy == many && copy.faults == 2 * many);
    CHECK(text.written < report.length && memcmp(part_room, whole_room + report.length - text.written, text.written) == 0);
    CHECK(first_lines((cedar_bytes){part_room, text.written}, 3) == text.written);
    free(wrong);
}

/* With each buffer that is too small the place and the buffer are as before. A null buffer has no room. */
static void check_room(void) {
    cedar_files files = files_with(WRONG_POLICY RIGHT_POLICY);
    uint32_t status;
    cedar_bytes report = whole(&files, &status);
    const cedar_report_place first = start(CEDAR_ALL_LINES);
    cedar_report_place place = first;
    int is_right = 1;
    for (size_t room = 0; room < report.length; room++) {
        memset(part_room, '#', report.length);
        cedar_buffer text = {room ? part_room : NULL, room, 0};
        is_right = is_right && cedar_validate_part(&files, &place, NULL, &text) == CEDAR_ROOM && text.written == report.length;
        is_right = is_right && are_same(&place, &first);
        for (size_t i = 0; i < report.length; i++) {
            is_right = is_right && part_room[i] == '#';
        }
    }
    CHECK(is_right && cedar_validate_part(&files, &place, NULL, NULL) == CEDAR_ROOM && are_same(&place, &first));
    cedar_buffer text = {part_room, report.length, 0};
    part_room[report.length] = '#';
    CHECK(cedar_validate_part(&files, &place, NULL, &text) == CEDAR_FAULTS && has(&text, report) && part_room[report.length] == '#');
    /* A part without lines takes no room. */
    char *right = policies_of(many, RIGHT_POLICY, WRONG_POLICY, is_some);
    files = files_with(right);
    place = start(0);
    CHECK(cedar_validate_part(&files, &place, NULL, NULL) == CEDAR_MORE && place.policy == PART_POLICIES);
    CHECK(place.faults == (many / 2 < PART_POLICIES ? 4 : 2));
    free(right);
}

/* Whether a call has this status, and leaves the place and the buffer as they were. */
static int is_argument(const cedar_files *files, cedar_report_place place, cedar_refusal *refusal) {
    char room[] = "####";
    cedar_buffer text = {room, 4, 9};
    cedar_report_place before = place;
    return cedar_validate_part(files, &place, refusal, &text) == CEDAR_ARGUMENT && text.written == 0 && strcmp(room, "####") == 0
        && are_same(&place, &before);
}

static void check_arguments(void) {
    cedar_files files = files_with(WRONG_POLICY RIGHT_POLICY), other;
    cedar_report_place place = start(CEDAR_ALL_LINES);
    cedar_refusal refusal = {.size = sizeof refusal - 1, .file = 7};
    cedar_buffer text = {part_room, ROOM, 9}, no_room = {NULL, 5, 9};
    CHECK(cedar_validate_part(NULL, NULL, NULL, NULL) == CEDAR_ARGUMENT && is_argument(NULL, place, NULL));
    CHECK(cedar_validate_part(&files, NULL, NULL, &text) == CEDAR_ARGUMENT && text.written == 0);
    CHECK(is_argument(&files, place, &refusal) && refusal.file == 7);
    CHECK(cedar_validate_part(&files, &place, NULL, &no_room) == CEDAR_ARGUMENT && no_room.written == 0 && place.policy == 0);
    for (size_t size = 0; size <= sizeof place + 8; size++) {
        place.size = size;
        CHECK(size == sizeof place || is_argument(&files, place, NULL));
    }
    place.size = sizeof place;
    other = files;
    other.size--;
    CHECK(is_argument(&other, place, NULL));
    other = files;
    other.settings = 4;
    CHECK(is_argument(&other, place, NULL));
    other = files;
    other.policies.at = NULL;
    CHECK(is_argument(&other, place, NULL));
    /* A place that is over the end, and one at the end, which has the totals alone. */
    place.policy = 3;
    CHECK(is_argument(&files, place, NULL));
    place.policy = UINT64_MAX;
    CHECK(is_argument(&files, place, NULL));
    place.policy = 2;
    place.warnings = 7;
    CHECK(cedar_validate_part(&files, &place, NULL, &text) == CEDAR_OK && has(&text, bytes_of("{\"faults\":0,\"warnings\":7}\n")));
    place.faults = 3;
    CHECK(cedar_validate_part(&files, &place, NULL, &text) == CEDAR_FAULTS && has(&text, bytes_of("{\"faults\":3,\"warnings\":7}\n")));
}

/* A file that is refused has its line, its number and its words, and the place is as before. Entities are not read. */
static void check_refusals(void) {
    const cedar_report_place first = start(CEDAR_ALL_LINES);
    cedar_report_place place = first;
    cedar_refusal refusal = {.size = sizeof refusal, .wants = CEDAR_WANTS_WORDS};
    cedar_buffer text = {part_room, ROOM, 0}, small = {joined_room, 5, 0};
    cedar_files files = files_with("permit(");
    const char *line = "{\"file\":\"policies\",\"offset\":7,\"refused\":201}\n";
    CHECK(cedar_validate_part(&files, &place, &refusal, &text) == CEDAR_REFUSED && has(&text, bytes_of(line)) && are_same(&place, &first));
    CHECK(refusal.file == CEDAR_POLICIES && refusal.number == 201 && refusal.offset == 7 && refusal.line == 1 && refusal.words.length > 40);
    cedar_refusal_free(&refusal);
    CHECK(cedar_validate_part(&files, &place, NULL, &text) == CEDAR_REFUSED && has(&text, bytes_of(line)));
    CHECK(cedar_validate_part(&files, &place, NULL, &small) == CEDAR_ROOM && small.written == strlen(line) && are_same(&place, &first));
    files = files_with(RIGHT_POLICY);
    files.schema = bytes_of("{");
    line = "{\"file\":\"schema\",\"refused\":301}\n";
    CHECK(cedar_validate_part(&files, &place, &refusal, &text) == CEDAR_REFUSED && has(&text, bytes_of(line)));
    CHECK(refusal.file == CEDAR_SCHEMA && refusal.number == 301 && refusal.offset == CEDAR_NO_OFFSET && are_same(&place, &first));
    cedar_refusal_free(&refusal);
    files = files_with(RIGHT_POLICY);
    files.links = bytes_of("{}");
    CHECK(cedar_validate_part(&files, &place, &refusal, &text) == CEDAR_REFUSED && refusal.file == CEDAR_LINKS && refusal.number == 502);
    cedar_refusal_free(&refusal);
    files = files_with(RIGHT_POLICY);
    files.entities = bytes_of("no entities");
    CHECK(cedar_validate_part(&files, &place, &refusal, &text) == CEDAR_OK && has(&text, bytes_of("{\"faults\":0,\"warnings\":0}\n")));
    CHECK(refusal.file == 0 && refusal.number == 0 && refusal.offset == CEDAR_NO_OFFSET && !refusal.words.at && place.policy == 1);
}

int main(int count, char **words) {
    many = count > 1 ? strtoul(words[1], NULL, 10) : many;
    check_short();
    check_many();
    check_lines();
    check_places();
    check_room();
    check_arguments();
    check_refusals();
    return counted();
}
