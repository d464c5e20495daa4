/* Keeps a session on a system file, gives one task a greatest execution of each number from MIN to MAX in turn, and prints the task's bound and the
 * verdict for each: edits FILE TASK PLACE BEST MIN MAX, where PLACE is the task's place in the file, from 0.
 *
 * edits examples/two_tasks.toml b 1 2 2 12
 */
#include <inttypes.h>
#include <stdio.h>
#include <stdlib.h>

#include "lokwurmi.h"

static const char *const verdicts[] = {"met", "missed", "overload"};

/* Writes a text that a function gave, as far as it had room, and ends with its status. */
static int stop(lokwurmi_handle *handle, uint8_t status, const uint8_t *text, size_t used, size_t room) {
    fwrite(text, 1, used < room ? used : room, stderr);
    lokwurmi_close(handle);
    return status;
}

int main(int argc, char **argv) {
    static uint8_t system[LOKWURMI_MOST_FILE_BYTES + 1];
    lokwurmi_handle handle = LOKWURMI_CLOSED;
    static uint64_t bounds[LOKWURMI_MOST_TASKS];
    uint64_t place, greatest, last;
    uint8_t out[256], status;
    char edit[128];
    size_t len, used;
    FILE *file;
    if (argc != 7 || (file = fopen(argv[1], "rb")) == NULL) {
        fprintf(stderr, "usage: edits FILE TASK PLACE BEST MIN MAX, a file that can be read\n");
        return LOKWURMI_WORDS_REFUSED;
    }
    len = fread(system, 1, sizeof system, file);
    fclose(file);
    place = strtoull(argv[3], NULL, 10);
    last = strtoull(argv[6], NULL, 10);
    status = lokwurmi_open(&handle, system, len, out, sizeof out, &used);
    if (status != LOKWURMI_OK) {
        return stop(&handle, status, out, used, sizeof out);
    }
    for (greatest = strtoull(argv[5], NULL, 10); greatest <= last; greatest++) {
        int count = snprintf(edit, sizeof edit, "exec %s %s %" PRIu64, argv[2], argv[4], greatest);
        if (count < 0 || (size_t)count >= sizeof edit) {
            return stop(&handle, LOKWURMI_WORDS_REFUSED, out, 0, sizeof out);
        }
        status = lokwurmi_edit(&handle, (const uint8_t *)edit, (size_t)count, out, sizeof out, &used);
        if (status != LOKWURMI_OK) {
            return stop(&handle, status, out, used, sizeof out);
        }
        status = lokwurmi_bounds(&handle, bounds, LOKWURMI_MOST_TASKS, &used);
        if (place >= used) {
            return stop(&handle, LOKWURMI_WORDS_REFUSED, out, 0, sizeof out);
        }
        if (bounds[place] == LOKWURMI_UNBOUNDED) {
            printf("%" PRIu64 " overload %s\n", greatest, verdicts[status]);
        } else {
            printf("%" PRIu64 " %" PRIu64 " %s\n", greatest, bounds[place], verdicts[status]);
        }
    }
    lokwurmi_close(&handle);
    return 0;
}
