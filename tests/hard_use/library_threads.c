/* Eight threads, each with a session of its own that is kept, for tests/hard_use/check_library.sh: each must see what it sees alone. One more session is
 * opened by one thread, edited by another, and closed by the first. Ends with 1 where it isn't so. */
#include <pthread.h>
#include <stdio.h>
#include <string.h>

#include "lokwurmi.h"

enum { THREADS = 8, EDITS = 400 };

static uint8_t text[1048577];
static size_t len;

/* What a session's thread works on: where its edits begin, and a sum over all bounds and verdicts that it saw. */
struct work {
    unsigned first;
    uint64_t sum;
};

static int edit_to(lokwurmi_handle *handle, unsigned worst) {
    uint8_t out[256];
    char edit[64];
    size_t used;
    int count = snprintf(edit, sizeof edit, "exec sense0 100 %u", worst);
    return lokwurmi_edit(handle, (const uint8_t *)edit, (size_t)count, out, sizeof out, &used);
}

static void *run(void *given) {
    struct work *work = given;
    lokwurmi_handle handle = LOKWURMI_CLOSED;
    uint64_t bounds[512];
    uint8_t out[256];
    size_t used;
    work->sum = 0;
    if (lokwurmi_open(&handle, text, len, out, sizeof out, &used) != 0) {
        return NULL;
    }
    for (unsigned k = 0; k < EDITS; k++) {
        work->sum = work->sum * 31 + (uint64_t)edit_to(&handle, 100 + (work->first * 37 + k * 13) % 900);
        work->sum = work->sum * 31 + lokwurmi_bounds(&handle, bounds, 512, &used);
        for (size_t i = 0; i < used; i++) {
            work->sum = work->sum * 31 + bounds[i];
        }
    }
    lokwurmi_close(&handle);
    return work;
}

static void *edit_once(void *given) {
    return edit_to(given, 500) == 0 ? given : NULL;
}

int main(int argc, char **argv) {
    struct work alone[THREADS], beside[THREADS];
    pthread_t threads[THREADS], other;
    lokwurmi_handle handle = LOKWURMI_CLOSED;
    uint64_t bounds[512];
    uint8_t out[256];
    size_t used;
    void *done;
    FILE *file = argc == 2 ? fopen(argv[1], "rb") : NULL;
    if (file == NULL) {
        return 2;
    }
    len = fread(text, 1, sizeof text, file);
    fclose(file);
    for (unsigned k = 0; k < THREADS; k++) {
        alone[k].first = beside[k].first = k;
        if (run(&alone[k]) == NULL) {
            return printf("a session isn't opened\n"), 1;
        }
    }
    for (unsigned k = 0; k < THREADS; k++) {
        if (pthread_create(&threads[k], NULL, run, &beside[k]) != 0) {
            return 2;
        }
    }
    for (unsigned k = 0; k < THREADS; k++) {
        pthread_join(threads[k], &done);
        if (done == NULL || beside[k].sum != alone[k].sum) {
            return printf("thread %u: another answer than alone\n", k), 1;
        }
    }
    if (lokwurmi_open(&handle, text, len, out, sizeof out, &used) != 0 || pthread_create(&other, NULL, edit_once, &handle) != 0) {
        return printf("a session isn't opened\n"), 1;
    }
    pthread_join(other, &done);
    if (done == NULL || lokwurmi_bounds(&handle, bounds, 512, &used) > 2 || bounds[0] < 500) {
        return printf("an edit of another thread isn't seen\n"), 1;
    }
    lokwurmi_close(&handle);
    return printf("8 threads with %d edits each: what each sees alone\n", EDITS), 0;
}
