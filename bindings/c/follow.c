/* Follows a log: `follow RECORD LOG` reads a model's record and a log in two files, and prints the last shared state and the fewest rounds
 * that could hold the log, as `state 3, 2 rounds`. Where that is refused, it prints nothing, says `refused N` on standard error, and its
 * exit status is N, 1 to 18. Where it cannot do its work, as where a file cannot be read, it says why, and the status is above 63. */
#define PROGRAM "follow"
#include "files.h"

int main(int count, char **arguments) {
    static struct file record, log;
    if (count != 3) fail(USAGE, "usage: follow RECORD LOG", "");
    load(arguments[1], &record);
    load(arguments[2], &log);
    uint64_t answer = turncheck_follow(record.bytes, record.size, log.bytes, log.size);
    if (TURNCHECK_IS_REFUSED(answer)) {
        fprintf(stderr, "refused %u\n", TURNCHECK_KIND(answer));
        return (int)TURNCHECK_KIND(answer);
    }
    if (TURNCHECK_KIND(answer) != TURNCHECK_FOLLOWED) fail(UNKNOWN, "the library answers what this program does not know", "");
    unsigned rounds = TURNCHECK_ROUNDS(answer);
    printf("state %u, %u round%s\n", TURNCHECK_STATE(answer), rounds, rounds == 1 ? "" : "s");
    if (fflush(stdout) != 0) fail(NO_OUTPUT, "cannot write the answer", "");
    return 0;
}
