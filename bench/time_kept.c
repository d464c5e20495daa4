/* Times an edit of a session that is kept and the reading of its bounds, beside a whole analysis of the file by lokwurmi_analyse:
 *
 *     cc -O2 -Ilibrary bench/time_kept.c library/out/liblokwurmi.a -o time_kept
 *     ./time_kept FILE TASK BEST ONE OTHER [TIMES]
 *
 * The task's greatest execution is ONE and OTHER in turn. Printed are the least and the median of TIMES calls each (1,000 where it is left out), in
 * microseconds.
 */
#define _POSIX_C_SOURCE 199309L
#include <stdio.h>
#include <stdlib.h>
#include <time.h>

#include "lokwurmi.h"

static int by_size(const void *one, const void *other) {
    double a = *(const double *)one, b = *(const double *)other;
    return (a > b) - (a < b);
}

static double now(void) {
    struct timespec it;
    clock_gettime(CLOCK_MONOTONIC, &it);
    return (double)it.tv_sec * 1e6 + (double)it.tv_nsec / 1e3;
}

static void print(const char *what, double *found, long times) {
    qsort(found, (size_t)times, sizeof *found, by_size);
    printf("%s least %.1f median %.1f\n", what, found[0], found[times / 2]);
}

int main(int argc, char **argv) {
    static uint8_t system[1048577], out[1 << 18];
    lokwurmi_handle handle = LOKWURMI_CLOSED;
    uint64_t bounds[512];
    char edits[2][128];
    size_t len, used;
    long times = argc == 7 ? atol(argv[6]) : 1000;
    FILE *file = argc < 6 ? NULL : fopen(argv[1], "rb");
    double *found = times < 1 ? NULL : malloc((size_t)times * sizeof *found);
    if (file == NULL || found == NULL) {
        fprintf(stderr, "usage: time_kept FILE TASK BEST ONE OTHER [TIMES], a file that can be read\n");
        return 2;
    }
    len = fread(system, 1, sizeof system, file);
    fclose(file);
    for (int k = 0; k < 2; k++) {
        snprintf(edits[k], sizeof edits[k], "exec %s %s %s", argv[2], argv[3], argv[4 + k]);
    }
    if (lokwurmi_open(&handle, system, len, out, sizeof out, &used) != 0) {
        return fprintf(stderr, "time_kept: the system is refused\n"), 2;
    }
    for (long k = 0; k < times; k++) {
        const char *edit = edits[k % 2];
        size_t count = 0;
        while (edit[count] != 0) {
            count++;
        }
        double begun = now();
        uint8_t made = lokwurmi_edit(&handle, (const uint8_t *)edit, count, out, sizeof out, &used);
        lokwurmi_bounds(&handle, bounds, 512, &used);
        found[k] = now() - begun;
        if (made != 0) {
            return fprintf(stderr, "time_kept: `%s` isn't made\n", edit), 2;
        }
    }
    print("an edit and the bounds", found, times);
    lokwurmi_close(&handle);
    for (long k = 0; k < times; k++) {
        double begun = now();
        lokwurmi_analyse(system, len, out, sizeof out, &used);
        found[k] = now() - begun;
    }
    print("a whole analysis", found, times);
    free(found);
    return 0;
}
