/* Prints the report of a system file, as `lokwurmi analyse FILE` does, and ends with its status. */
#include <stdio.h>
#include <stdlib.h>

#include "lokwurmi.h"

/* The bytes of a file, at most one more than a system file may have; NULL where it can't be read. */
static uint8_t *read_file(const char *name, size_t *len) {
    const size_t most = LOKWURMI_MOST_FILE_BYTES + 1;
    FILE *file = fopen(name, "rb");
    uint8_t *text = malloc(most);
    if (file != NULL && text != NULL) {
        *len = fread(text, 1, most, file);
        if (!ferror(file)) {
            fclose(file);
            return text;
        }
    }
    if (file != NULL) {
        fclose(file);
    }
    free(text);
    return NULL;
}

int main(int argc, char **argv) {
    size_t len, room = 4096, used;
    uint8_t *system, *out = NULL;
    uint8_t status;
    if (argc != 2 || (system = read_file(argv[1], &len)) == NULL) {
        fprintf(stderr, "usage: report FILE, a file that can be read\n");
        return 11;
    }
    for (;;) {
        uint8_t *more = realloc(out, room);
        if (more == NULL) {
            status = LOKWURMI_NO_MEMORY;
            break;
        }
        out = more;
        status = lokwurmi_analyse(system, len, out, room, &used);
        if (status == LOKWURMI_NO_MEMORY) {
            break;
        }
        if (used <= room) {
            fwrite(out, 1, used, stdout);
            break;
        }
        room = used;
    }
    free(out);
    free(system);
    return fflush(stdout) == 0 ? status : 20;
}
