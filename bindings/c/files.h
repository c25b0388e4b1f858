/* What the small programs that read files share: a file's bytes, and an end with a reason. */
#include "../turncheck.h"

#include <stdio.h>
#include <stdlib.h>

/* A byte more than the longest log, and more than the longest record: a longer file is refused by the same number as its front. */
enum { MOST = TURNCHECK_LOG_BYTES + 1 };

/* Exit statuses where a program cannot do its work. Those below are refusals. */
enum { USAGE = 64, NO_INPUT = 66, UNKNOWN = 70, NO_OUTPUT = 74 };

struct file {
    uint8_t bytes[MOST];
    size_t size;
};

static void fail(int status, const char *what, const char *which) {
    fprintf(stderr, "%s: %s%s\n", PROGRAM, what, which);
    exit(status);
}

static void load(const char *path, struct file *f) {
    FILE *file = fopen(path, "rb");
    if (file == NULL) fail(NO_INPUT, "cannot open ", path);
    f->size = fread(f->bytes, 1, MOST, file);
    if (ferror(file)) fail(NO_INPUT, "cannot read ", path);
    fclose(file);
}
