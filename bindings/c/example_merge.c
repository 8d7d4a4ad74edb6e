/* Merges two logs into one: example_merge FIRST SECOND prints it, or the first refusal with its log and line.
 * Exit status: 0 merged, 1 refused, 2 called in a wrong way, 3 reading or writing failed. */
#include "lulzhemor.h"

#include <stdio.h>

static uint8_t logs[2][LULZHEMOR_TEXT_LIMIT + 1], merged[LULZHEMOR_TEXT_LIMIT], kinds[LULZHEMOR_NODES], texts[LULZHEMOR_TEXTS];
static uint64_t numbers[LULZHEMOR_NODES];

/* Whether the file could be read. A folder is opened, and then not read. */
static bool read_log(const char *name, uint8_t *log, size_t size, size_t *length) {
    FILE *file = fopen(name, "rb");
    *length = file == NULL ? 0 : fread(log, 1, size, file);
    bool read = file != NULL && !ferror(file);
    if (!read) perror(name);
    if (file != NULL) fclose(file);
    return read;
}

int main(int argc, char **argv) {
    if (argc != 3) {
        fprintf(stderr, "usage: example_merge FIRST SECOND\n");
        return 2;
    }
    size_t lengths[2];
    for (int i = 0; i < 2; i++)
        if (!read_log(argv[i + 1], logs[i], sizeof logs[i], &lengths[i])) return 3;
    uint64_t r = lulzhemor_merge(kinds, sizeof kinds, numbers, LULZHEMOR_NODES, texts, sizeof texts, merged, sizeof merged, logs[0], lengths[0],
                                 logs[1], lengths[1]);
    if (lulzhemor_refused(r)) {
        fprintf(stderr, "log %u line %u: %s\n", lulzhemor_refusal_log(r), (unsigned)lulzhemor_refusal_line(r),
                lulzhemor_refusal_text(lulzhemor_refusal(r)));
        return 1;
    }
    if (fwrite(merged, 1, r, stdout) != r || fflush(stdout) != 0) {
        perror("standard output");
        return 3;
    }
    return 0;
}
