/* Stands in for the library, so that the package's calls are tried without it: what it is handed is given back as a text, and a handle counts
 * its edits. STAND_IN_VERSION is the version that it has; one of version 1 has no handles. */
#include "lokwurmi.h"

#include <stdio.h>
#include <stdlib.h>
#include <string.h>

#ifndef STAND_IN_VERSION
#define STAND_IN_VERSION 2
#endif

uint32_t lokwurmi_version(void) { return STAND_IN_VERSION; }

static uint8_t give(uint8_t status, const char *text, size_t length, uint8_t *out, size_t out_len, size_t *used) {
    memcpy(out, text, length < out_len ? length : out_len);
    *used = length;
    return status;
}

/* A system that is a number asks for so many bytes; all else gets the report of a system without tasks. */
uint8_t lokwurmi_analyse(const uint8_t *system, size_t system_len, uint8_t *out, size_t out_len, size_t *used) {
    char number[16] = "";
    memcpy(number, system, system_len < 15 ? system_len : 15);
    size_t length = strtoul(number, NULL, 10);
    if (length == 0) {
        const char *text = "summary tasks 0 overload 0 missed 0\n";
        return give(0, text, strlen(text), out, out_len, used);
    }
    char *text = malloc(length);
    memset(text, 'x', length);
    uint8_t status = give(0, text, length, out, out_len, used);
    free(text);
    return status;
}

uint8_t lokwurmi_hammer(const uint8_t *system, size_t system_len, uint64_t number, uint64_t traces, uint8_t *out, size_t out_len, size_t *used) {
    char text[200];
    int length = snprintf(text, 200, "%.*s %llu %llu", (int)system_len, (const char *)system, (unsigned long long)number, (unsigned long long)traces);
    return give(0, text, (size_t)length, out, out_len, used);
}

#if STAND_IN_VERSION >= 2
#ifndef LOKWURMI_CLOSED
typedef struct lokwurmi_handle {
    uint64_t open;
    void *kept;
} lokwurmi_handle;
#endif

uint8_t lokwurmi_chain(const uint8_t *system, size_t system_len, const uint8_t *tasks, size_t tasks_len, uint8_t while_running, uint8_t *out, size_t out_len, size_t *used) {
    char text[200];
    int length = snprintf(text, 200, "%.*s|%.*s|%d", (int)system_len, (const char *)system, (int)tasks_len, (const char *)tasks, while_running);
    return give(0, text, (size_t)length, out, out_len, used);
}

static int opened;

uint8_t lokwurmi_open(lokwurmi_handle *handle, const uint8_t *system, size_t system_len, uint8_t *out, size_t out_len, size_t *used) {
    if (handle->open || handle->kept)
        return 10;
    if (system_len == 3 && !memcmp(system, "bad", 3))
        return give(14, "system refused reason 1 file 0\n", 31, out, out_len, used);
    handle->open = 1;
    handle->kept = calloc(1, sizeof(uint64_t));
    opened++;
    *used = 0;
    return 0;
}

uint8_t lokwurmi_edit(lokwurmi_handle *handle, const uint8_t *edit, size_t edit_len, uint8_t *out, size_t out_len, size_t *used) {
    if (!handle->open)
        return 10;
    if (edit_len == 7 && !memcmp(edit, "refused", 7))
        return give(21, "line 1 refused 4\n", 17, out, out_len, used);
    ++*(uint64_t *)handle->kept;
    *used = 0;
    return 0;
}

/* the number of edits, and no bound */
uint8_t lokwurmi_bounds(lokwurmi_handle *handle, uint64_t *bounds, size_t length, size_t *used) {
    if (!handle->open || length < 512)
        return 10;
    bounds[0] = *(uint64_t *)handle->kept;
    bounds[1] = UINT64_MAX;
    *used = 2;
    return 2;
}

/* how many handles are open */
uint8_t lokwurmi_latencies(lokwurmi_handle *handle, uint64_t *latencies, size_t length, size_t *used) {
    if (!handle->open || length < 128)
        return 10;
    latencies[0] = (uint64_t)opened;
    *used = 1;
    return 0;
}

uint8_t lokwurmi_report(lokwurmi_handle *handle, uint8_t *out, size_t out_len, size_t *used) {
    return handle->open ? give(1, "report", 6, out, out_len, used) : 10;
}

void lokwurmi_close(lokwurmi_handle *handle) {
    if (!handle->open)
        return;
    free(handle->kept);
    handle->open = 0;
    handle->kept = NULL;
    opened--;
}
#endif
