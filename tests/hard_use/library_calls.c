/* Calls each function of lokwurmi.h with rooms of several lengths, for tests/hard_use/check_library.sh: a text must begin alike in each of them, and no
 * byte beyond a room may be touched, which valgrind sees. Ends with 1 where it isn't so. */
#include <stdio.h>
#include <stdlib.h>
#include <string.h>

#include "lokwurmi.h"

struct text {
    uint8_t *bytes;
    size_t len;
};

static struct text read_file(const char *name) {
    struct text it = {malloc(1 << 20), 0};
    FILE *file = fopen(name, "rb");
    if (file == NULL || it.bytes == NULL) {
        exit(2);
    }
    it.len = fread(it.bytes, 1, 1 << 20, file);
    fclose(file);
    /* no byte more, so that a read past the end is seen */
    it.bytes = realloc(it.bytes, it.len);
    return it;
}

static struct text chains, trace, schedule, tasks, effects, effects_chains;

static uint8_t call(int which, uint8_t *out, size_t room, size_t *used) {
    switch (which) {
    case 0:
        return lokwurmi_analyse(chains.bytes, chains.len, out, room, used);
    case 1:
        return lokwurmi_session(chains.bytes, chains.len, (const uint8_t *)"report\nexec a1 5 6\n", 19, out, room, used);
    case 2:
        return lokwurmi_simulate(chains.bytes, chains.len, trace.bytes, trace.len, out, room, used);
    case 3:
        return lokwurmi_buffers(chains.bytes, chains.len, trace.bytes, trace.len, out, room, used);
    case 4:
        return lokwurmi_audit(chains.bytes, chains.len, trace.bytes, trace.len, schedule.bytes, schedule.len, out, room, used);
    case 5:
        return lokwurmi_hammer(chains.bytes, chains.len, 1, 2, out, room, used);
    case 6:
        return lokwurmi_hammer(chains.bytes, chains.len, 1, 0, out, room, used);
    case 7:
        return lokwurmi_assign(tasks.bytes, tasks.len, (const uint8_t *)"cpu", 3, out, room, used);
    case 8:
        return lokwurmi_assign(tasks.bytes, tasks.len, (const uint8_t *)"\xff", 1, out, room, used);
    case 9:
        return lokwurmi_slack(chains.bytes, chains.len, (const uint8_t *)"a1", 2, out, room, used);
    case 10:
        return lokwurmi_generate(1, 2, out, room, used);
    case 11:
        return lokwurmi_generate(1, 200, out, room, used);
    case 12:
        return lokwurmi_analyse(chains.bytes, chains.len / 2, out, room, used);
    case 13:
        return lokwurmi_analyse(chains.bytes, 0, out, room, used);
    case 14:
        return lokwurmi_schedule(chains.bytes, chains.len, trace.bytes, trace.len, out, room, used);
    case 15:
        return lokwurmi_chain(tasks.bytes, tasks.len, (const uint8_t *)"a\nb\n", 4, 0, out, room, used);
    case 16:
        return lokwurmi_chain(tasks.bytes, tasks.len, (const uint8_t *)"a\nb", 3, 1, out, room, used);
    case 17:
        return lokwurmi_chain(tasks.bytes, tasks.len, (const uint8_t *)"a\n\nb", 4, 0, out, room, used);
    case 18:
        return lokwurmi_chain(tasks.bytes, tasks.len, (const uint8_t *)"zz", 2, 0, out, room, used);
    case 19:
        return lokwurmi_chain(tasks.bytes, tasks.len, (const uint8_t *)"\xff", 1, 0, out, room, used);
    default:
        return lokwurmi_chains(effects.bytes, effects.len, effects_chains.bytes, effects_chains.len, out, room, used);
    }
}

/* Whether a session that is kept answers as lokwurmi_session does after the same edits; each status is in its place. */
static int try_handle(void) {
    static const struct {
        const char *edit;
        uint8_t status;
        const char *text;
    } edits[] = {
        {"exec b 2 9", 0, ""},
        {"exec zz 1 2\n", 21, "line 1 refused 1\n"},
        {"# a comment\nexec b 9 3", 21, "line 2 refused 5\n"},
        {"report", 15, "script refused no edit\n"},
        {"", 15, "script refused no edit\n"},
        {"exec b 2 3\nexec b 2 4\n", 15, "script refused no edit\n"},
        {"exec b 2", 15, "script refused line 1\n"},
        {"source sb 30 0 0", 0, ""},
        {"add c cpu sa 1 1 9", 0, ""},
        {"remove c", 0, ""},
    };
    static uint8_t out[1 << 16], there[1 << 16];
    static char script[1 << 12];
    lokwurmi_handle handle = LOKWURMI_CLOSED;
    uint64_t numbers[512];
    size_t used, other;
    uint8_t status;
    if (lokwurmi_edit(&handle, (const uint8_t *)"exec b 2 3", 10, out, sizeof out, &used) != 10 || lokwurmi_bounds(&handle, numbers, 512, &used) != 10) {
        return printf("a closed handle answers\n"), 1;
    }
    if (lokwurmi_open(&handle, tasks.bytes, tasks.len / 2, out, sizeof out, &used) < 13 || handle.open != 0) {
        return printf("half a system is opened\n"), 1;
    }
    if (lokwurmi_open(&handle, tasks.bytes, tasks.len, out, sizeof out, &used) != 0 || handle.open == 0) {
        return printf("a system isn't opened\n"), 1;
    }
    if (lokwurmi_open(&handle, tasks.bytes, tasks.len, out, sizeof out, &used) != 10) {
        return printf("an open handle is opened\n"), 1;
    }
    for (size_t k = 0; k < sizeof edits / sizeof edits[0]; k++) {
        status = lokwurmi_edit(&handle, (const uint8_t *)edits[k].edit, strlen(edits[k].edit), out, sizeof out, &used);
        if (status != edits[k].status || used != strlen(edits[k].text) || memcmp(out, edits[k].text, used) != 0) {
            return printf("edit %zu: status %d, %.*s\n", k, status, (int)used, (const char *)out), 1;
        }
        if (status == 0) {
            strcat(strcat(script, edits[k].edit), "\n");
        }
        status = lokwurmi_session(tasks.bytes, tasks.len, (const uint8_t *)script, strlen(script), there, sizeof there, &other);
        if (lokwurmi_report(&handle, out, sizeof out, &used) != status || used != other || memcmp(out, there, used) != 0) {
            return printf("after edit %zu: another report\n", k), 1;
        }
        if (lokwurmi_bounds(&handle, numbers, 512, &used) != status || lokwurmi_latencies(&handle, numbers, 1, &other) != status) {
            return printf("after edit %zu: another verdict\n", k), 1;
        }
    }
    lokwurmi_close(&handle);
    lokwurmi_close(&handle);
    return handle.open != 0;
}

int main(void) {
    static const uint8_t wanted[] = {1, 1, 0, 0, 0, 0, 10, 0, 10, 3, 0, 10, 13, 14, 0, 0, 0, 10, 18, 10, 1};
    static uint8_t whole[1 << 16];
    size_t used, again, room;
    chains = read_file("examples/crossing_chains.toml");
    trace = read_file("examples/crossing_chains.trace.csv");
    schedule = read_file("examples/crossing_chains.schedule.csv");
    tasks = read_file("examples/two_tasks.toml");
    effects = read_file("examples/effects.toml");
    effects_chains = read_file("examples/effects.chains.toml");
    for (int which = 0; which < 21; which++) {
        if (call(which, whole, sizeof whole, &used) != wanted[which] || used > sizeof whole) {
            return printf("call %d: another status\n", which), 1;
        }
        for (room = 0; room <= used + 1; room += 1 + used / 7) {
            uint8_t *out = malloc(room + 1);
            out[room] = 77;
            if (call(which, out, room, &again) != wanted[which] || again != used || memcmp(out, whole, room < used ? room : used) != 0 || out[room] != 77) {
                return printf("call %d, room %zu: another answer\n", which, room), 1;
            }
            free(out);
        }
    }
    free(chains.bytes);
    free(trace.bytes);
    free(schedule.bytes);
    if (try_handle() != 0) {
        return 1;
    }
    free(tasks.bytes);
    free(effects.bytes);
    free(effects_chains.bytes);
    return printf("21 calls in rooms of several lengths: the same answers\n"), 0;
}
