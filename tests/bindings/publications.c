/* A version that no call uses any more is freed, also while requests run: memory does not grow with publications. Sixteen threads ask while
 * entities of 2.1 MB are published a hundred times. What is resident then is at most twice one engine, and ALLOWED, above what was before. */
#include "files.h"

#include <pthread.h>
#include <stdatomic.h>
#include <unistd.h>

#define THREADS 16
#define PUBLICATIONS 100
#define ALLOWED (32L << 20)

static const char SCHEMA[] = "{\"\":{\"entityTypes\":{\"Group\":{},\"User\":{\"memberOfTypes\":[\"Group\"],\"shape\":{\"type\":\"Record\","
                             "\"attributes\":{\"name\":{\"type\":\"String\"}}}}},\"actions\":{\"view\":{\"appliesTo\":{\"principalTypes\":"
                             "[\"User\"],\"resourceTypes\":[\"Group\"]}}}}}";

static cedar_shared *engine;
static atomic_int is_over;
static atomic_long wrong;

/* The bytes of this process that are resident; 0 where the system does not say it. */
static long resident(void) {
    long all = 0, pages = 0;
    FILE *file = fopen("/proc/self/statm", "r");
    if (file) {
        if (fscanf(file, "%ld %ld", &all, &pages) != 2) {
            pages = 0;
        }
        fclose(file);
    }
    return pages * sysconf(_SC_PAGESIZE);
}

/* 500 groups, and 10,000 users with names, each in one of them. */
static cedar_bytes many_entities(void) {
    char name[101], *text = malloc(4 << 20), *at = text;
    if (!text) {
        exit(9);
    }
    memset(name, 'x', 100);
    name[100] = 0;
    *at++ = '[';
    for (int i = 0; i < 500; i++) {
        at += sprintf(at, "{\"uid\":{\"type\":\"Group\",\"id\":\"group%d\"}},", i);
    }
    for (int i = 0; i < 10000; i++) {
        at += sprintf(at, "{\"uid\":{\"type\":\"User\",\"id\":\"user%d\"},\"attrs\":{\"name\":\"%s\"},\"parents\":[{\"type\":\"Group\",\"id\":\"group%d\"}]},",
                      i, name, i % 500);
    }
    at[-1] = ']';
    return (cedar_bytes){text, (size_t)(at - text)};
}

static void *asks(void *none) {
    cedar_request request = {sizeof request,    bytes_of("User"),  bytes_of("user7"),  bytes_of("Action"),
                             bytes_of("view"),  bytes_of("Group"), bytes_of("group1"), {NULL, 0}};
    cedar_decision decision = {sizeof decision, 0, 0};
    while (!is_over) {
        wrong += cedar_shared_decide(engine, &request, &decision, NULL) != CEDAR_OK || !decision.allow;
        usleep(1000);
    }
    return none;
}

int main(void) {
    pthread_t threads[THREADS];
    cedar_bytes entities = many_entities();
    cedar_files files = {sizeof files, bytes_of(SCHEMA), bytes_of("permit(principal in Group::\"group7\", action, resource);"), {NULL, 0}, entities, 0, 0};
    long before = resident();
    CHECK(cedar_shared_new(&engine) == CEDAR_OK && cedar_shared_publish(engine, &files, NULL, NULL) == CEDAR_OK);
    long one = resident() - before;
    for (int i = 0; i < THREADS; i++) {
        if (pthread_create(&threads[i], NULL, asks, NULL)) {
            return 9;
        }
    }
    int right = 0;
    for (int i = 0; i < PUBLICATIONS; i++) {
        right += cedar_shared_publish_entities(engine, entities, NULL, NULL) == CEDAR_OK;
    }
    long after = resident();
    is_over = 1;
    for (int i = 0; i < THREADS; i++) {
        pthread_join(threads[i], NULL);
    }
    cedar_shared_free(engine);
    free((void *)entities.at);
    printf("%ld MB before, one engine %ld MB, %ld MB after %d publications\n", before >> 20, one >> 20, after >> 20, PUBLICATIONS);
    CHECK(right == PUBLICATIONS);
    CHECK(wrong == 0);
    CHECK(after <= before + 2 * one + ALLOWED);
    return counted();
}
