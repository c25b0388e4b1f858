/* turncheck: a proved checker for races between two threads with stacks, as it is called from C.
 *
 * Each call takes the bytes of a model record, of two of them or of a tray, and answers a number. The number's kind, TURNCHECK_KIND, says
 * what is answered: why the call refuses (enum turncheck_refusal, 1 to 31), or what it found (enum turncheck_kind). Counts and states that
 * belong to the answer stand above the kind, and macros take them out. A call that refuses changes no byte of any store. Nothing else is
 * asked of the bytes: any are taken.
 *
 * The rules of a thread ascend, each above the one before it: by before state, before symbol, after state, number of new symbols, first new
 * symbol and second new symbol. So no rule stands twice, and a model has one record, however its rules were gathered.
 *
 * A record may name the symbol that tops A's stack at the target, B's, or both. A run reaches the target if it ends with the target state
 * under the tops that are named; an empty stack has no top.
 *
 * A record may also mark rules of A and of B as held, by eight bytes for each thread: bit r mod 8 of byte r div 8, the lowest bit being
 * bit 0, marks rule r. No turn ends right after a held step, and so no run does: the target counts only where a turn may end. A turn
 * without steps may always end.
 *
 * A record may also write out how many symbols A has, or B, by one byte for each thread, 1 to 15; a thread without that byte has 16. They
 * are numbered from 0: a thread's first symbol, a named top and each symbol of its rules, before and new, are below its count.
 *
 * The depth of A in a schedule is the greatest number of symbols that A's stack held at any point of its run, the starting symbol counted;
 * and so for B. A stack that never grew has depth 1, and 4,095 pushes give 4,096.
 *
 * Each slice is a pointer and a length. The pointer is never NULL, even where the length is 0. While a call runs, nothing else
 * writes to its slices, and no store overlaps another slice of the same call. A call keeps no pointer, allocates nothing and has
 * no state of its own, so calls may run side by side. A call takes up to 800 KB of stack, by measurement, and no more for
 * deeper models: give it 1 MB or more.
 *
 * Link crates/ffi/out/libffi.a, which `rt lib` in the folder crates/ffi writes: for x86-64 processors with SSE4.2 and POPCNT, or for any with
 * `rt lib --cpu x86-64`. */
#ifndef TURNCHECK_H
#define TURNCHECK_H

#include <stddef.h>
#include <stdint.h>

#ifdef __cplusplus
extern "C" {
#endif

/* Sizes that are enough for every model. */
#define TURNCHECK_RECORD_BYTES 670    /* the longest record */
#define TURNCHECK_LINES_BYTES 683     /* the largest line table: 5,460 bits, of a model with G = 4 and K = 3 */
#define TURNCHECK_SCHEDULE_BYTES 8190 /* the longest schedule: 4,095 steps; what turncheck_judge and turncheck_batch ask for */
#define TURNCHECK_LOG_BYTES 4095      /* the longest log: 4,095 steps */
#define TURNCHECK_PAGE_BYTES 299008   /* the longest page, that of 4,095 steps: 73 bytes for each step and 73 for the foot line */
#define TURNCHECK_TEXT_BYTES 258624   /* the longest text of rules: 14,912 of them, of a model with G = 4, K = 3 and 64+64 rules */
#define TURNCHECK_TRAY_RECORDS 32     /* the most records of a tray that are judged together */
#define TURNCHECK_RESULT_BYTES 6      /* the result of one of them, in turncheck_batch's list */
#define TURNCHECK_LIST_BYTES 192      /* the longest list: the results of 32 records */

/* Why a call refuses. The first fault of a record counts, from left to right. Numbers to 31 are kept for later refusals. */
enum turncheck_refusal {
    TURNCHECK_REFUSED_TRUNCATED = 1,       /* the record ends before or inside a field or rule */
    TURNCHECK_REFUSED_NO_TARGET = 2,       /* the record has no target */
    TURNCHECK_REFUSED_HEAD_RANGE = 3,      /* a head field is out of its range */
    TURNCHECK_REFUSED_RULE_RANGE = 4,      /* a rule count, or a rule's map, state or symbol, is out of its range */
    TURNCHECK_REFUSED_REDUNDANT = 5,       /* a field says what its absence would */
    TURNCHECK_REFUSED_TRAILING = 6,        /* bytes are left after the last field */
    TURNCHECK_REFUSED_STORE_TOO_SMALL = 7, /* a store is too small */
    TURNCHECK_REFUSED_SCHEDULE_SIZE = 8,   /* the schedule's length is odd or above 8,190 bytes */
    TURNCHECK_REFUSED_STEP_TURN = 9,       /* a step's turn is not one of the 2K, or below that of the step before */
    TURNCHECK_REFUSED_STEP_RULE = 10,      /* a step's rule is not in the list, or does not apply */
    TURNCHECK_REFUSED_MARK_RANGE = 11,     /* a rule number that the thread's list lacks is marked as held */
    TURNCHECK_REFUSED_STEP_HELD = 12,      /* a schedule leaves a turn after a held step, or a log a thread, or either ends after one */
    TURNCHECK_REFUSED_RULE_ORDER = 13,     /* a rule is not above the one before it in its thread's list */
    TURNCHECK_REFUSED_MERGE_HEADS = 14,    /* two models differ in G, K, start, target, a top, a symbol count or a first symbol */
    TURNCHECK_REFUSED_MERGE_HELD = 15,     /* a rule is held in one model and free in the other */
    TURNCHECK_REFUSED_MERGE_COUNT = 16,    /* a thread has more than 64 rules in both models together */
    TURNCHECK_REFUSED_SYMBOL_RANGE = 17,   /* a first symbol, a top or a rule's symbol is not below its thread's symbol count */
    TURNCHECK_REFUSED_LOG = 18,            /* the log has more than 4,095 bytes, or one of its bytes has bit 6 set */
    TURNCHECK_REFUSED_TRAY_COUNT = 19,     /* the tray has more than 32 records */
    TURNCHECK_REFUSED_LIST_TOO_SMALL = 20, /* the list has fewer places than the tray has records */
    TURNCHECK_REFUSED_HELD_OR_TOP = 21     /* the model has held rules or named tops, and so no sequential system */
};

/* What a call answers where it does not refuse. */
enum turncheck_kind {
    TURNCHECK_DONE = 0,      /* turncheck_read: accepted; turncheck_lines: the table is filled */
    TURNCHECK_WRITTEN = 32,  /* turncheck_write, turncheck_merge: TURNCHECK_LENGTH bytes were written */
    TURNCHECK_CLEAR = 33,    /* turncheck_judge: no run reaches the target */
    TURNCHECK_LONG = 34,     /* turncheck_judge: some run does, and each that does has more than 4,095 steps */
    TURNCHECK_FOUND = 35,    /* turncheck_judge: a shortest run that does has TURNCHECK_STEPS steps; with the least schedule's depths */
    TURNCHECK_STOPPED = 36,  /* turncheck_replay: the run ends in TURNCHECK_STATE, and not at the target; with its depths */
    TURNCHECK_REACHED = 37,  /* turncheck_replay: the run ends in TURNCHECK_STATE, and at the target; with its depths */
    TURNCHECK_TAKEN = 38,    /* turncheck_first: the tray's first TURNCHECK_LENGTH bytes are a record */
    TURNCHECK_NONE = 39,     /* turncheck_first: the tray is empty */
    TURNCHECK_PAGED = 40,    /* turncheck_page: TURNCHECK_PAGE_LENGTH bytes were written */
    TURNCHECK_FOLLOWED = 41, /* turncheck_follow: the log ends in TURNCHECK_STATE, and takes TURNCHECK_ROUNDS rounds at the fewest */
    TURNCHECK_JUDGED = 42,   /* turncheck_batch: the list has the results of TURNCHECK_RECORDS records */
    TURNCHECK_PRINTED = 43   /* turncheck_sequentialize: TURNCHECK_TEXT_LENGTH bytes were written */
};

/* The parts of a number: its kind in bits 0 to 7, and three fields of 16 bits, in bits 16 to 31, 32 to 47 and 48 to 63. The length of a
 * page or of a text takes the first two, bits 16 to 47. Fields that a kind has no use for are 0, and so are the other bits. */
#define TURNCHECK_KIND(number) ((unsigned)((number)&0xFF))
#define TURNCHECK_FIELD1(number) ((unsigned)((number) >> 16 & 0xFFFF))
#define TURNCHECK_FIELD2(number) ((unsigned)((number) >> 32 & 0xFFFF))
#define TURNCHECK_FIELD3(number) ((unsigned)((number) >> 48 & 0xFFFF))

/* Whether a call refused. TURNCHECK_KIND then says why. */
#define TURNCHECK_IS_REFUSED(number) (TURNCHECK_KIND(number) >= 1 && TURNCHECK_KIND(number) <= 31)

/* What a number of the right kind carries. */
#define TURNCHECK_LENGTH(number) TURNCHECK_FIELD1(number)  /* TURNCHECK_WRITTEN, TURNCHECK_TAKEN: a record's length, at most 670 */
#define TURNCHECK_STEPS(number) TURNCHECK_FIELD1(number)   /* TURNCHECK_FOUND: steps, at most 4,095 */
#define TURNCHECK_STATE(number) TURNCHECK_FIELD1(number)   /* TURNCHECK_STOPPED, _REACHED, _FOLLOWED: a shared state, at most 3 */
#define TURNCHECK_DEPTH_A(number) TURNCHECK_FIELD2(number) /* TURNCHECK_FOUND, _STOPPED, _REACHED: the depth of A, 1 to 4,096 */
#define TURNCHECK_DEPTH_B(number) TURNCHECK_FIELD3(number) /* the same kinds: the depth of B, 1 to 4,096 */
#define TURNCHECK_ROUNDS(number) TURNCHECK_FIELD2(number)  /* TURNCHECK_FOLLOWED: rounds, at most 2,048 */
#define TURNCHECK_RECORDS(number) TURNCHECK_FIELD1(number) /* TURNCHECK_JUDGED: records, at most 32 */
#define TURNCHECK_PAGE_LENGTH(number) ((size_t)((number) >> 16 & 0xFFFFFFFF)) /* TURNCHECK_PAGED: at most 299,008 */
#define TURNCHECK_TEXT_LENGTH(number) TURNCHECK_PAGE_LENGTH(number)           /* TURNCHECK_PRINTED: 893 to 258,624 */

/* The verdict on one record of a tray. */
enum turncheck_verdict { TURNCHECK_VERDICT_CLEAR = 0, TURNCHECK_VERDICT_LONG = 1, TURNCHECK_VERDICT_FOUND = 2 };

/* The result in place i of turncheck_batch's list, from 0, and what its six bytes say. Numbers have their low byte first. */
#define TURNCHECK_RESULT(list, i) ((list) + TURNCHECK_RESULT_BYTES * (size_t)(i))
#define TURNCHECK_RESULT_VERDICT(result) ((unsigned)(result)[0])                    /* byte 0: enum turncheck_verdict */
#define TURNCHECK_RESULT_STEPS(result) ((unsigned)((result)[1] | (result)[2] << 8)) /* bytes 1 and 2: steps, 0 unless Found */
#define TURNCHECK_RESULT_WRITTEN(result) ((unsigned)(result)[3])                    /* byte 3: 1 if the schedule was written, else 0 */
#define TURNCHECK_RESULT_PLACE(result) ((unsigned)((result)[4] | (result)[5] << 8)) /* bytes 4 and 5: the place of its first step */

/* Reads a record: TURNCHECK_DONE, or refusal 1 to 6, 11, 13 or 17. */
uint64_t turncheck_read(const uint8_t *record, size_t record_size);

/* Reads the first record of a tray, which is records one after another: TURNCHECK_TAKEN with the record's length, TURNCHECK_NONE for
 * an empty tray, or refusal 1 to 5, 11, 13 or 17. So many bytes are a record by themselves, which every other call takes; go on with the
 * tray behind them, which are no fault of this record. A refused record has no length, so nothing behind it can be read. */
uint64_t turncheck_first(const uint8_t *tray, size_t tray_size);

/* Reads a record and writes its model again, to the front of the store; the bytes beyond keep their value. The bytes are those of
 * the record. Answers TURNCHECK_WRITTEN with how many they are, or refusal 1 to 7, 11, 13 or 17. */
uint64_t turncheck_write(const uint8_t *record, size_t record_size, uint8_t *store, size_t store_size);

/* Reads two records and makes their models one: the head that both have, and in each thread the rules of either, each once, in order and
 * held as it was. Writes its record to the front of the store; the bytes beyond keep their value. If either model is Found, so is this one,
 * in no more steps; if either is Long, this one is not Clear. Answers TURNCHECK_WRITTEN with how many bytes the record has, or a refusal:
 * 1 to 6, 11, 13 or 17 of the first record, then of the second; then 14; 15 in A or in B; 16 in A or in B; and last 7, for a store with
 * fewer bytes. */
uint64_t turncheck_merge(const uint8_t *first, size_t first_size, const uint8_t *second, size_t second_size, uint8_t *store,
                         size_t store_size);

/* Fills the line table of a record's model: bit p, in byte p div 8, lowest bit first, stands exactly if some run ends its turns
 * along the line at place p. Spare bits of the table's last byte are 0; the bytes beyond keep their value.
 * Answers TURNCHECK_DONE, or refusal 1 to 7, 11, 13 or 17. */
uint64_t turncheck_lines(const uint8_t *record, size_t record_size, uint8_t *lines, size_t lines_size);

/* Judges a record's model: TURNCHECK_CLEAR, TURNCHECK_LONG, or TURNCHECK_FOUND with the number of steps and the depths of A and of B; or
 * refusal 1 to 7, 11, 13 or 17. Each verdict fills the line table as turncheck_lines does. Found writes the least of the shortest schedules
 * to the front of the schedule store: the first, compared step by step, turn number before rule number. A step has two bytes: the turn, and
 * the rule's number in its thread's list, from 0. All other bytes keep their value. The depths are those of this schedule, as
 * turncheck_replay gives them; another one that is as short may have others. The schedule store has at least TURNCHECK_SCHEDULE_BYTES,
 * whatever the verdict. */
uint64_t turncheck_judge(const uint8_t *record, size_t record_size, uint8_t *lines, size_t lines_size, uint8_t *schedule,
                         size_t schedule_size);

/* Walks a schedule of a record's model from its start: TURNCHECK_STOPPED or TURNCHECK_REACHED with the last shared state and the
 * depths of A and of B; or refusal 1 to 6, 8 to 13 or 17. */
uint64_t turncheck_replay(const uint8_t *record, size_t record_size, const uint8_t *schedule, size_t schedule_size);

/* Walks a schedule of a record's model as turncheck_replay does, and writes its page to the front of the store, in ASCII: a line of 72
 * characters and a line feed for each step, with the shared state and both stacks after it, and a foot line. The bytes beyond keep their
 * value. Answers TURNCHECK_PAGED with how many bytes the page has, 73 for each step and 73 more; or refusal 1 to 6, 8 to 13 or 17, or then
 * 7 for a store with fewer. */
uint64_t turncheck_page(const uint8_t *record, size_t record_size, const uint8_t *schedule, size_t schedule_size, uint8_t *store,
                        size_t store_size);

/* Follows a log of a record's model from its start. A log has a byte for each step: bit 7 is set for B, bit 6 is zero, and the bits below
 * are the rule's number in its thread's list, from 0. Answers TURNCHECK_FOLLOWED with the last shared state and the fewest rounds that
 * could hold the log, which may be above K; an empty log takes 0. No placing of its steps in turns uses fewer, and with each step in the
 * earliest turn that it can have they use so many. If these are at most K, the log so placed is a schedule that turncheck_replay accepts,
 * with the same last state. Or a refusal: 1 to 6, 11, 13 or 17 of the record; then 18 for the log's length; then for each byte in turn 18
 * for bit 6, 12 for a change of thread after a held step, and 10; and last 12 for a held step at the log's end. */
uint64_t turncheck_follow(const uint8_t *record, size_t record_size, const uint8_t *log, size_t log_size);

/* Judges the records of a tray, 32 at most, with one schedule store for all: TURNCHECK_JUDGED with how many they are, 0 for an empty tray.
 * The list has a place of TURNCHECK_RESULT_BYTES for each, from its front. Verdict and steps are those that turncheck_judge gives for the
 * record alone, whatever its neighbours are. In the tray's order a Found record's least schedule is written right behind the last one
 * written, exactly if its steps fit in what is left of 4,095. One that does not fit is passed over, and a later, shorter one may still be
 * written. The place of a schedule is counted in steps from 0, so its bytes start at 2 * place; it is 0 where nothing was written. A
 * schedule of 0 steps always counts as written, at place 0. List bytes behind the last result and store bytes behind the last written step
 * keep their value, and line tables are not given. Or a refusal: the tray is read whole first, and the number of the first record that is
 * refused comes before all else, 1 to 5, 11, 13 or 17; then 19; then 20 for a list whose places, list_size / 6, are fewer than the records;
 * and last 7 for a store below TURNCHECK_SCHEDULE_BYTES, whatever the tray. */
uint64_t turncheck_batch(const uint8_t *tray, size_t tray_size, uint8_t *list, size_t list_size, uint8_t *store, size_t store_size);

/* Prints the sequential system of a record's model, a pushdown system with one stack for both threads, for checkers of single-threaded
 * rule tables: A makes all its turns on copies of the shared state that are guessed for the rounds, then B makes its turns on what A left,
 * and where B ends a round A must have begun the next. Writes its rules to the front of the store, in ASCII; the bytes beyond keep their
 * value. A rule is a line: state, top, next state, and the symbols that come in the top's place, none to two, the first on top; with one
 * blank between and a line feed behind. A state is a turn counter, 1 to K + 1, and K copies of the shared state, a digit each. Symbols are
 * in base ten: 0 to 15 are A's, 16 to 31 B's, 32 is the mark at the bottom for A and 33 for B, 34 is the check symbol, and 35 a helper. The
 * rules ascend by state, top, next state, number of new symbols and these, all as numbers, so each is there once. From counter 1 and copies
 * (start, g2 to gK), with A's first symbol over 32, the check symbol can come on top at counter 1 and copies (g2 to gK, e) exactly if a run
 * of K rounds has the shared states g2 to gK before rounds 2 to K and ends in e. Answers TURNCHECK_PRINTED with how many bytes the text
 * has; or refusal 1 to 6, 11, 13 or 17, then 21, or then 7 for a store with fewer. */
uint64_t turncheck_sequentialize(const uint8_t *record, size_t record_size, uint8_t *store, size_t store_size);

#ifdef __cplusplus
}
#endif

#endif
