/* Eight threads ask while another thread publishes to the engine that they share: threads FOLDER TURNS, where FOLDER has an example.
 *
 * This is for helgrind of valgrind, which sees each access of the engine. The threads share handles under a lock, as cedar.h demands, and
 * ask without it. So the engine's own counts alone keep their requests apart. Helgrind takes no order from these counts. It would report
 * what the last holder of an engine writes while it frees its trees, so handles are freed under the lock, too.
 *
 * The publisher publishes the files, the entities alone and changes in turn, which leave all answers as they are. Each thread has TURNS
 * turns: in each it asks for all answers of the example. */
#include "files.h"

#include <pthread.h>

#define THREADS 8

static pthread_mutex_t lock = PTHREAD_MUTEX_INITIALIZER;
/* What the lock guards: the handle of the current engine, the threads that still ask, and what was counted. */
static cedar_engine current;
static int asking = THREADS;
static long right, wrong, versions;

static cedar_files files;
static cedar_bytes lines, answers;
static int turns;

/* Counts under the lock, and returns whether threads still ask. */
static int count(long of_right, long of_wrong, int ended) {
    pthread_mutex_lock(&lock);
    right += of_right;
    wrong += of_wrong;
    asking -= ended;
    int are_asking = asking > 0;
    pthread_mutex_unlock(&lock);
    return are_asking;
}

/* Has a handle lead to the current engine. */
static uint32_t share(cedar_engine *handle) {
    pthread_mutex_lock(&lock);
    uint32_t status = cedar_share(&current, handle);
    pthread_mutex_unlock(&lock);
    return status;
}

static void free_handle(cedar_engine *handle) {
    pthread_mutex_lock(&lock);
    cedar_free(handle);
    pthread_mutex_unlock(&lock);
}

/* Whether a handle gives the answers of the example. */
static int answers_are_right(cedar_engine *handle) {
    char room[1 << 14];
    cedar_buffer text = {room, sizeof room, 0};
    return cedar_answer(handle, lines, &text) == CEDAR_OK && has(&text, answers);
}

static void *asks(void *none) {
    long of_right = 0;
    for (int turn = 0; turn < turns; turn++) {
        cedar_engine handle;
        int is_right = cedar_new(&handle) == CEDAR_OK && share(&handle) == CEDAR_OK && answers_are_right(&handle);
        free_handle(&handle);
        of_right += is_right;
    }
    count(of_right, turns - of_right, 1);
    return none;
}

/* Publishes to a handle in one of three ways. */
static uint32_t publish(cedar_engine *handle, long number) {
    if (number % 3 == 0) {
        return cedar_publish(handle, &files, NULL, NULL);
    }
    if (number % 3 == 1) {
        return cedar_publish_entities(handle, files.entities, NULL, NULL);
    }
    cedar_bytes changes = upserts(files.entities);
    uint32_t status = cedar_publish_changes(handle, changes, NULL, NULL);
    free((void *)changes.at);
    return status;
}

static void *publishes(void *none) {
    cedar_engine handle;
    long number = 0;
    int is_right = cedar_new(&handle) == CEDAR_OK && share(&handle) == CEDAR_OK;
    while (is_right && count(0, 0, 0)) {
        is_right = publish(&handle, number++) == CEDAR_OK;
        pthread_mutex_lock(&lock);
        is_right = is_right && cedar_share(&handle, &current) == CEDAR_OK;
        pthread_mutex_unlock(&lock);
    }
    free_handle(&handle);
    count(0, !is_right, 0);
    versions = number;
    return none;
}

int main(int words_count, char **words) {
    pthread_t threads[THREADS + 1];
    if (words_count != 3) {
        return 9;
    }
    files = files_of(words[1]);
    lines = content(words[1], "requests.jsonl");
    answers = content(words[1], "answers.jsonl");
    turns = atoi(words[2]);
    if (cedar_new(&current) != CEDAR_OK || cedar_publish(&current, &files, NULL, NULL) != CEDAR_OK) {
        return 9;
    }
    for (int i = 0; i <= THREADS; i++) {
        if (pthread_create(&threads[i], NULL, i < THREADS ? asks : publishes, NULL)) {
            return 9;
        }
    }
    for (int i = 0; i <= THREADS; i++) {
        pthread_join(threads[i], NULL);
    }
    cedar_free(&current);
    free_files(&files);
    free((void *)lines.at);
    free((void *)answers.at);
    printf("%ld turns, %ld wrong, %ld versions\n", right, wrong, versions);
    CHECK(wrong == 0 && right == (long)THREADS * turns);
    CHECK(versions > 1);
    return counted();
}
