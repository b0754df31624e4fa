/* What the native library says of rows of texts, which tools/running/page_test compares with the module of the playground.
 *
 * A row of the standard input is a number of settings and five texts: schema, policies, links, entities and request lines. Numbers have
 * four bytes, the lowest first, and a text comes after its length. For each call there is a line `CALL STATUS TEXT`, and a row ends with
 * the byte 1E. tests/page/rows.js does the same over the module. */
#include "files.h"

static cedar_buffer text;

static void print(const char *call, uint32_t status) {
    printf("%s %u ", call, (unsigned)status);
    fwrite(text.at, 1, text.written, stdout);
    putchar('\n');
}

static void explain(const cedar_files *files, const char *call, uint32_t format) {
    uint32_t status;
    do {
        status = cedar_explain(files, format, &text);
    } while (grows(&text));
    print(call, status);
}

static void validate(const cedar_files *files) {
    uint32_t status;
    do {
        status = cedar_validate(files, &text);
    } while (grows(&text));
    print("validate", status);
}

/* Publishes the files, and answers the lines if they are accepted. */
static void publish(const cedar_files *files, cedar_bytes lines) {
    cedar_engine engine;
    uint32_t status = cedar_new(&engine);
    if (status == CEDAR_OK) {
        do {
            status = cedar_publish(&engine, files, NULL, &text);
        } while (grows(&text));
    }
    print("publish", status);
    if (status == CEDAR_OK) {
        do {
            status = cedar_answer(&engine, lines, &text);
        } while (grows(&text));
        print("answer", status);
    }
    cedar_free(&engine);
}

static uint32_t number(cedar_bytes *rest) {
    const unsigned char *at = rest->at;
    if (rest->length < 4) {
        exit(9);
    }
    *rest = (cedar_bytes){at + 4, rest->length - 4};
    return at[0] | (uint32_t)at[1] << 8 | (uint32_t)at[2] << 16 | (uint32_t)at[3] << 24;
}

static cedar_bytes bytes(cedar_bytes *rest) {
    uint32_t length = number(rest);
    if (rest->length < length) {
        exit(9);
    }
    cedar_bytes found = {rest->at, length};
    *rest = (cedar_bytes){(const char *)rest->at + length, rest->length - length};
    return found;
}

int main(void) {
    cedar_bytes whole = read_all(stdin), rest = whole;
    while (rest.length > 0) {
        cedar_files files = {sizeof files, {NULL, 0}, {NULL, 0}, {NULL, 0}, {NULL, 0}, 0, 0};
        files.settings = number(&rest);
        files.schema = bytes(&rest);
        files.policies = bytes(&rest);
        files.links = bytes(&rest);
        files.entities = bytes(&rest);
        cedar_bytes lines = bytes(&rest);
        validate(&files);
        explain(&files, "words", CEDAR_WORDS);
        explain(&files, "json", CEDAR_JSON);
        publish(&files, lines);
        putchar('\x1e');
    }
    free((void *)whole.at);
    free(text.at);
    return 0;
}
