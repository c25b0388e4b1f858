/* Judges a tray of models from C: prints each verdict with its schedule, and replays that schedule. */
#include "../turncheck.h"

#include <stdio.h>

/* Two records, one after another. In the first, thread A may push again and again in state 0, or leave it for 1; B leads from 1 to 2;
 * A leads from 2 to 3, the target. In the second, A leads from 0 to 1, the target. */
static const uint8_t day[] = {0xC8, 0x03, 0x03, 0x06, 0x00, 0x00, 0x00, 0x01, 0x00, 0x01, 0x01, 0x20, 0x03,
                              0x01, 0x03, 0x10, 0x02, 0x00, 0x4B, 0x02, 0x01, 0x01, 0x01, 0x01, 0x00, 0x01};

/* A refusal, or an answer of a later version. */
static int refused(uint64_t answer) {
    printf(TURNCHECK_IS_REFUSED(answer) ? "refused %u\n" : "an unknown answer of kind %u\n", TURNCHECK_KIND(answer));
    return 1;
}

static int judge(const uint8_t *record, size_t size) {
    static uint8_t lines[TURNCHECK_LINES_BYTES];
    static uint8_t schedule[TURNCHECK_SCHEDULE_BYTES];
    uint64_t answer = turncheck_judge(record, size, lines, sizeof lines, schedule, sizeof schedule);
    switch (TURNCHECK_KIND(answer)) {
    case TURNCHECK_CLEAR: printf("clear\n"); return 0;
    case TURNCHECK_LONG: printf("long\n"); return 0;
    case TURNCHECK_FOUND: break;
    default: return refused(answer);
    }
    size_t steps = TURNCHECK_STEPS(answer);
    printf("found %zu %u %u\n", steps, TURNCHECK_DEPTH_A(answer), TURNCHECK_DEPTH_B(answer));
    for (size_t i = 0; i < steps; i++) {
        unsigned turn = schedule[2 * i], rule = schedule[2 * i + 1];
        printf("%u %c %u\n", turn, turn % 2 == 0 ? 'A' : 'B', rule);
    }
    uint64_t last = turncheck_replay(record, size, schedule, 2 * steps);
    if (TURNCHECK_KIND(last) != TURNCHECK_REACHED) {
        printf("the schedule does not reach the target\n");
        return 1;
    }
    printf("replayed to state %u, the target\n", TURNCHECK_STATE(last));
    return 0;
}

int main(void) {
    const uint8_t *tray = day;
    size_t size = sizeof day;
    uint64_t answer = turncheck_first(tray, size);
    while (TURNCHECK_KIND(answer) == TURNCHECK_TAKEN) {
        size_t length = TURNCHECK_LENGTH(answer);
        if (judge(tray, length) != 0) return 1;
        tray += length;
        size -= length;
        answer = turncheck_first(tray, size);
    }
    return TURNCHECK_KIND(answer) == TURNCHECK_NONE ? 0 : refused(answer);
}
