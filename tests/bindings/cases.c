/* Answers the cases of answers, in the folder that BOBBINJADE_CASES names, which tools/running/binding_cases.py has written.
 *
 * Its file `list` has a line for each case: the folder of the case, the wanted status, and 1 or 0 for whether any-decimal is on and for
 * whether lines bring entities. The wanted text is wanted.jsonl: the answers, or what the program prints of files that are refused. */
#include "files.h"

#include <unistd.h>

typedef struct test_case {
    char name[256];
    unsigned status, settings, brings_entities;
} test_case;

static cedar_buffer text;

static uint32_t publish(cedar_engine *engine, const cedar_files *files) {
    uint32_t status;
    do {
        status = cedar_publish(engine, files, NULL, &text);
    } while (grows(&text));
    return status;
}

static uint32_t answer(cedar_engine *engine, cedar_bytes lines, int brings_entities) {
    uint32_t status;
    do {
        status = brings_entities ? cedar_answer_with_entities(engine, lines, &text) : cedar_answer(engine, lines, &text);
    } while (grows(&text));
    return status;
}

/* Answers a case, or has its files refused. Returns the status of the last call, which has written the text. */
static uint32_t answered(const test_case *it) {
    cedar_files files = files_of(it->name);
    cedar_bytes lines = content(it->name, "requests.jsonl");
    cedar_engine engine;
    uint32_t status = cedar_new(&engine);
    files.settings = it->settings;
    status = status == CEDAR_OK ? publish(&engine, &files) : status;
    status = status == CEDAR_OK ? answer(&engine, lines, it->brings_entities) : status;
    cedar_free(&engine);
    free((void *)lines.at);
    free_files(&files);
    return status;
}

/* Counts a case, and prints what it gives where something else is wanted. */
static void judge(const test_case *it) {
    uint32_t status = answered(it);
    cedar_bytes wanted = content(it->name, "wanted.jsonl");
    int is_right = status == it->status && has(&text, wanted);
    passed += is_right;
    failed += !is_right;
    if (!is_right) {
        printf("%s: status %u with the text\n", it->name, (unsigned)status);
        fwrite(text.at, 1, text.written, stdout);
    }
    free((void *)wanted.at);
}

int main(void) {
    const char *root = getenv("BOBBINJADE_CASES");
    FILE *list = root && chdir(root) == 0 ? fopen("list", "r") : NULL;
    if (!list) {
        return 9;
    }
    test_case it;
    while (fscanf(list, "%255s %u %u %u", it.name, &it.status, &it.settings, &it.brings_entities) == 4) {
        judge(&it);
    }
    fclose(list);
    free(text.at);
    return counted();
}
