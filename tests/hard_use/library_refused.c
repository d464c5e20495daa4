/* Has each allocation of a session over a file refused in turn, for tests/hard_use/check_library.sh, which links malloc and realloc of this file: the
 * answer must be 30 with no text, or the whole answer. So too of a session that is kept: where an edit is refused memory, the report must be
 * that of before. Ends with 1 where it isn't so. */
#include <stdio.h>
#include <stdlib.h>
#include <string.h>

#include "lokwurmi.h"

void *__real_malloc(size_t size);
void *__real_realloc(void *block, size_t size);
void *__wrap_malloc(size_t size);
void *__wrap_realloc(void *block, size_t size);

/* how many allocations are left until one is refused; none is where it is 0 */
static long left;

void *__wrap_malloc(size_t size) {
    return left > 0 && --left == 0 ? NULL : __real_malloc(size);
}

void *__wrap_realloc(void *block, size_t size) {
    return left > 0 && --left == 0 ? NULL : __real_realloc(block, size);
}

static uint8_t system_text[1 << 20], whole[1 << 18], out[1 << 18];
static size_t len, wanted, used;

/* The report of a kept session, with all allocations granted; its status is told by `status`. */
static size_t report(lokwurmi_handle *handle, uint8_t *text, size_t room, uint8_t *status) {
    size_t count;
    left = 0;
    *status = lokwurmi_report(handle, text, room, &count);
    return count;
}

/* Opens a session and makes an edit, with the k-th allocation of both refused; whether what is kept then is as it must be. */
static int try_kept(long k, const char *edit, int *done) {
    static uint8_t before[1 << 18];
    lokwurmi_handle handle = LOKWURMI_CLOSED;
    uint8_t status, seen, again;
    size_t size;
    left = k;
    seen = lokwurmi_open(&handle, system_text, len, out, sizeof out, &used);
    if (seen != 0) {
        return seen == 30 && used == 0 && handle.open == 0;
    }
    long rest = left;
    size = report(&handle, before, sizeof before, &status);
    left = rest;
    seen = lokwurmi_edit(&handle, (const uint8_t *)edit, strlen(edit), out, sizeof out, &used);
    *done = left > 0;
    wanted = report(&handle, whole, sizeof whole, &again);
    lokwurmi_close(&handle);
    if (seen == 30) {
        return used == 0 && again == status && wanted == size && memcmp(before, whole, size) == 0;
    }
    return seen == 0 || seen == 21;
}

static int try_all_kept(const char *name, const char *edit) {
    int done = 0;
    long k;
    for (k = 1; !done; k++) {
        if (!try_kept(k, edit, &done)) {
            return printf("%s, kept, allocation %ld refused: another answer\n", name, k), 1;
        }
    }
    return printf("%s: of a kept session %ld allocations each was refused\n", name, k - 2), 0;
}

int main(int argc, char **argv) {
    const char *script = "report\nexec a 1 2\nexec b 1 2\nreport\n";
    FILE *file = argc == 2 ? fopen(argv[1], "rb") : NULL;
    long k, none = 0, same = 0;
    if (file == NULL) {
        return 2;
    }
    len = fread(system_text, 1, sizeof system_text, file);
    fclose(file);
    uint8_t status = lokwurmi_session(system_text, len, (const uint8_t *)script, strlen(script), whole, sizeof whole, &wanted);
    for (k = 1;; k++) {
        left = k;
        uint8_t seen = lokwurmi_session(system_text, len, (const uint8_t *)script, strlen(script), out, sizeof out, &used);
        if (seen == 30 && used == 0 && left == 0) {
            none++;
        } else if (seen == status && used == wanted && memcmp(out, whole, wanted) == 0) {
            if (left > 0) {
                break;
            }
            same++;
        } else {
            return printf("allocation %ld refused: another answer, status %d\n", k, seen), 1;
        }
    }
    printf("%s: of %ld allocations each was refused: 30 after %ld, the same answer after %ld\n", argv[1], k - 1, none, same);
    return try_all_kept(argv[1], "exec a 1 2") != 0 || try_all_kept(argv[1], "remove b") != 0;
}
