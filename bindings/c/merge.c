/* Makes two models one: `merge FIRST SECOND > WHOLE` reads the records in two files and writes that of their model to standard output.
 * Where that is refused, it writes nothing there, says `refused N` on standard error, and its exit status is N, 1 to 17. Where it
 * cannot do its work, as where a file cannot be read or the output cannot be written, it says why, and the status is above 63. */
#define PROGRAM "merge"
#include "files.h"

int main(int count, char **arguments) {
    static struct file first, second;
    static uint8_t whole[TURNCHECK_RECORD_BYTES];
    if (count != 3) fail(USAGE, "usage: merge FIRST SECOND > WHOLE", "");
    load(arguments[1], &first);
    load(arguments[2], &second);
    uint64_t answer = turncheck_merge(first.bytes, first.size, second.bytes, second.size, whole, sizeof whole);
    if (TURNCHECK_IS_REFUSED(answer)) {
        fprintf(stderr, "refused %u\n", TURNCHECK_KIND(answer));
        return (int)TURNCHECK_KIND(answer);
    }
    if (TURNCHECK_KIND(answer) != TURNCHECK_WRITTEN) fail(UNKNOWN, "the library answers what this program does not know", "");
    size_t length = TURNCHECK_LENGTH(answer);
    if (fwrite(whole, 1, length, stdout) != length || fflush(stdout) != 0) fail(NO_OUTPUT, "cannot write the record", "");
    return 0;
}
