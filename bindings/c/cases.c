/* Makes each call of a file of cases on a thread of its own, and compares the answer and every byte of every store.
 * Arguments: the file, and the size of the threads' stacks in KB. cases.txt says how a case is written. */
#define _POSIX_C_SOURCE 200809L
#include "../turncheck.h"

#include <inttypes.h>
#include <pthread.h>
#include <stdio.h>
#include <stdlib.h>
#include <string.h>

enum { MOST = 300000, FILLER = 0xAA };

/* Bytes that are lent to a call, or that are expected of it. */
struct bytes {
    uint8_t at[MOST];
    size_t size;
};

/* What a call is given and what it answers. */
static struct bytes record, first, second;
static const char *name;
static uint64_t answer;

static void *call(void *unused) {
    (void)unused;
    if (strcmp(name, "read") == 0)
        answer = turncheck_read(record.at, record.size);
    else if (strcmp(name, "first") == 0)
        answer = turncheck_first(record.at, record.size);
    else if (strcmp(name, "write") == 0)
        answer = turncheck_write(record.at, record.size, first.at, first.size);
    else if (strcmp(name, "lines") == 0)
        answer = turncheck_lines(record.at, record.size, first.at, first.size);
    else if (strcmp(name, "judge") == 0)
        answer = turncheck_judge(record.at, record.size, first.at, first.size, second.at, second.size);
    else if (strcmp(name, "replay") == 0)
        answer = turncheck_replay(record.at, record.size, first.at, first.size);
    else if (strcmp(name, "merge") == 0)
        answer = turncheck_merge(record.at, record.size, first.at, first.size, second.at, second.size);
    else if (strcmp(name, "page") == 0)
        answer = turncheck_page(record.at, record.size, first.at, first.size, second.at, second.size);
    else if (strcmp(name, "follow") == 0)
        answer = turncheck_follow(record.at, record.size, first.at, first.size);
    else if (strcmp(name, "batch") == 0)
        answer = turncheck_batch(record.at, record.size, first.at, first.size, second.at, second.size);
    else if (strcmp(name, "sequentialize") == 0)
        answer = turncheck_sequentialize(record.at, record.size, first.at, first.size);
    return NULL;
}

static void fail(const char *why) {
    fprintf(stderr, "cases: %s\n", why);
    exit(2);
}

/* Makes a call on a thread with a stack of so many KB. */
static uint64_t on_thread(const char *which, size_t stack) {
    pthread_attr_t attributes;
    pthread_t thread;
    name = which;
    answer = UINT64_MAX;
    if (pthread_attr_init(&attributes) != 0) fail("no attributes");
    if (pthread_attr_setstacksize(&attributes, stack * 1024) != 0) fail("no such stack size");
    if (pthread_create(&thread, &attributes, call, NULL) != 0) fail("no thread");
    if (pthread_join(thread, NULL) != 0) fail("the thread does not end");
    pthread_attr_destroy(&attributes);
    return answer;
}

/* Adds the bytes of the file whose name ends at a comma or with the text. */
static void load(const char *text, struct bytes *b) {
    char path[128];
    snprintf(path, sizeof path, "%.*s", (int)strcspn(text, ","), text);
    FILE *file = fopen(path, "rb");
    if (file == NULL) fail("no such file");
    b->size += fread(b->at + b->size, 1, MOST - b->size, file);
    fclose(file);
}

/* Bytes from their text: parts with a comma between them, each `-` for none, `@` and a name for those of a file, or base 16, with `*` and
 * how often they stand there. */
static void parse(const char *text, struct bytes *b) {
    unsigned value;
    b->size = 0;
    while (text != NULL && *text != 0) {
        if (*text == '@') load(text + 1, b);
        size_t start = b->size;
        for (; sscanf(text, "%2x", &value) == 1 && b->size < MOST; text += 2) b->at[b->size++] = (uint8_t)value;
        size_t once = b->size - start, times = *text == '*' ? strtoul(text + 1, NULL, 10) : 1;
        if (start + once * times > MOST) fail("a case is too long");
        for (; b->size < start + once * times; b->size++) b->at[b->size] = b->at[b->size - once];
        text = strchr(text, ',');
        if (text != NULL) text++;
    }
}

static size_t size_of(const char *text) {
    return text == NULL ? 0 : strtoul(text, NULL, 10);
}

/* A store of so many bytes, all the filler. */
static void lend(size_t size, struct bytes *b) {
    if (size > MOST) fail("a store is too large");
    b->size = size;
    memset(b->at, FILLER, MOST);
}

/* A store begins with what is expected, and all other bytes are as they were. */
static int begins(const struct bytes *store, const struct bytes *expected) {
    if (expected->size > store->size || memcmp(store->at, expected->at, expected->size) != 0) return 0;
    for (size_t i = expected->size; i < MOST; i++)
        if (store->at[i] != FILLER) return 0;
    return 1;
}

/* The same by a size and a sum: so many bytes have this FNV-1a sum of 64 bits. */
static int sums(const struct bytes *store, const char *text) {
    static struct bytes front;
    char *rest;
    uint64_t sum = 0xCBF29CE484222325;
    front = *store;
    front.size = strtoul(text, &rest, 10);
    if (front.size > store->size || *rest != ':') return 0;
    for (size_t i = 0; i < front.size; i++) sum = (sum ^ front.at[i]) * 0x100000001B3;
    return sum == strtoull(rest + 1, NULL, 16) && begins(store, &front);
}

/* The same by a word: `?` for anything, `=` for the record, `~` for a size and a sum, other words for their bytes, no word for no bytes. */
static int holds(const struct bytes *store, const char *word) {
    static struct bytes expected;
    if (word != NULL && strcmp(word, "?") == 0) return 1;
    if (word != NULL && strcmp(word, "=") == 0) return begins(store, &record);
    if (word != NULL && *word == '~') return sums(store, word + 1);
    parse(word, &expected);
    return begins(store, &expected);
}

/* An answer in words, by the number's kind. */
static void tell(uint64_t n, int read, char *words, size_t size) {
    static const char *const names[] = {"length", "clear", "long", "found", "state", "target", "taken", "none"};
    unsigned kind = TURNCHECK_KIND(n), field = TURNCHECK_FIELD1(n);
    if (n == TURNCHECK_DONE)
        snprintf(words, size, read ? "accepted" : "done");
    else if (TURNCHECK_IS_REFUSED(n) && n == kind)
        snprintf(words, size, "refused:%u", kind);
    else if ((kind == TURNCHECK_CLEAR || kind == TURNCHECK_LONG || kind == TURNCHECK_NONE) && n == kind)
        snprintf(words, size, "%s", names[kind - TURNCHECK_WRITTEN]);
    else if (kind >= TURNCHECK_FOUND && kind <= TURNCHECK_REACHED && (n & 0xFF00) == 0)
        snprintf(words, size, "%s:%u:%u:%u", names[kind - TURNCHECK_WRITTEN], field, TURNCHECK_DEPTH_A(n), TURNCHECK_DEPTH_B(n));
    else if ((kind == TURNCHECK_WRITTEN || kind == TURNCHECK_TAKEN) && n == ((uint64_t)field << 16 | kind))
        snprintf(words, size, "%s:%u", names[kind - TURNCHECK_WRITTEN], field);
    else if (kind == TURNCHECK_PAGED && n == ((uint64_t)TURNCHECK_PAGE_LENGTH(n) << 16 | kind))
        snprintf(words, size, "page:%zu", TURNCHECK_PAGE_LENGTH(n));
    else if (kind == TURNCHECK_FOLLOWED && n == ((uint64_t)TURNCHECK_ROUNDS(n) << 32 | (uint64_t)field << 16 | kind))
        snprintf(words, size, "rounds:%u:%u", field, TURNCHECK_ROUNDS(n));
    else if (kind == TURNCHECK_JUDGED && n == ((uint64_t)field << 16 | kind))
        snprintf(words, size, "judged:%u", field);
    else if (kind == TURNCHECK_PRINTED && n == ((uint64_t)TURNCHECK_TEXT_LENGTH(n) << 16 | kind))
        snprintf(words, size, "printed:%zu", TURNCHECK_TEXT_LENGTH(n));
    else
        snprintf(words, size, "number:%" PRIu64, n);
}

/* What a verdict left: the table that turncheck_lines fills, and a schedule that replay finds to reach the target, with the same depths. */
static int judged(uint64_t verdict, size_t stack) {
    static struct bytes table, found;
    table = first;
    found = second;
    lend(first.size, &first);
    if (on_thread("lines", stack) != TURNCHECK_DONE || memcmp(first.at, table.at, MOST) != 0) return 0;
    first = found;
    int is_found = TURNCHECK_KIND(verdict) == TURNCHECK_FOUND;
    first.size = is_found ? 2 * (size_t)TURNCHECK_STEPS(verdict) : 0;
    if (!begins(&found, &first)) return 0;
    if (!is_found) return 1;
    uint64_t last = on_thread("replay", stack);
    return TURNCHECK_KIND(last) == TURNCHECK_REACHED && TURNCHECK_DEPTH_A(last) == TURNCHECK_DEPTH_A(verdict) &&
           TURNCHECK_DEPTH_B(last) == TURNCHECK_DEPTH_B(verdict);
}

/* One result of a tray: the verdict and steps of its record alone, and where a schedule was written, the same one, which replay finds to
 * reach the target. */
static int is_alone(const uint8_t *result, const struct bytes *store, size_t stack) {
    lend(TURNCHECK_LINES_BYTES, &first);
    lend(TURNCHECK_SCHEDULE_BYTES, &second);
    uint64_t verdict = on_thread("judge", stack);
    size_t steps = TURNCHECK_RESULT_STEPS(result);
    if (TURNCHECK_KIND(verdict) != TURNCHECK_CLEAR + TURNCHECK_RESULT_VERDICT(result)) return 0;
    if (TURNCHECK_STEPS(verdict) != steps) return 0;
    if (!TURNCHECK_RESULT_WRITTEN(result)) return 1;
    first.size = 2 * steps;
    memcpy(first.at, store->at + 2 * TURNCHECK_RESULT_PLACE(result), first.size);
    if (memcmp(first.at, second.at, first.size) != 0) return 0;
    return TURNCHECK_KIND(on_thread("replay", stack)) == TURNCHECK_REACHED;
}

/* All results of a tray, one after another: the records take the whole of it. */
static int apart(uint64_t number, size_t stack) {
    static struct bytes tray, list, store;
    size_t at = 0;
    tray = record;
    list = first;
    store = second;
    for (unsigned i = 0; i < TURNCHECK_RECORDS(number); i++) {
        record.size = tray.size - at;
        memcpy(record.at, tray.at + at, record.size);
        uint64_t taken = on_thread("first", stack);
        record.size = TURNCHECK_LENGTH(taken);
        if (TURNCHECK_KIND(taken) != TURNCHECK_TAKEN || !is_alone(TURNCHECK_RESULT(list.at, i), &store, stack)) break;
        at += record.size;
    }
    record = tray;
    return at == tray.size;
}

/* What was taken from a tray is a record by itself. */
static int stands(uint64_t number, size_t stack) {
    size_t tray = record.size;
    if (TURNCHECK_LENGTH(number) > tray) return 0;
    record.size = TURNCHECK_LENGTH(number);
    int accepted = on_thread("read", stack) == TURNCHECK_DONE;
    record.size = tray;
    return accepted;
}

/* A log with each step in the earliest turn that it can have: replay accepts it, with the same last state, exactly if the rounds are at
 * most K, which stands behind the map and G. Otherwise a turn is above 2K-1 (9); later ones may be above 255, and are written as 255. */
static int placed(uint64_t number, size_t stack) {
    static struct bytes log;
    unsigned turn = 0, k = record.at[0] & 2 ? record.at[1 + (record.at[0] & 1)] : 2;
    log = first;
    first.size = 2 * log.size;
    for (size_t i = 0; i < log.size; i++) {
        turn += (turn + (log.at[i] >> 7)) % 2;
        first.at[2 * i] = (uint8_t)(turn < 255 ? turn : 255);
        first.at[2 * i + 1] = log.at[i] & 0x3F;
    }
    uint64_t last = on_thread("replay", stack);
    unsigned kind = TURNCHECK_KIND(last);
    if (TURNCHECK_ROUNDS(number) > k) return last == TURNCHECK_REFUSED_STEP_TURN;
    return (kind == TURNCHECK_STOPPED || kind == TURNCHECK_REACHED) && TURNCHECK_STATE(last) == TURNCHECK_STATE(number);
}

/* One case, by its words: the call, what is lent beside the record, the answer, what the stores then hold. */
static int agrees(char **word, size_t stack) {
    char words[40];
    int judge = strcmp(word[0], "judge") == 0, batch = strcmp(word[0], "batch") == 0;
    int pair = strcmp(word[0], "page") == 0 || strcmp(word[0], "merge") == 0; /* bytes that are read, and a store */
    int bytes = pair || strcmp(word[0], "replay") == 0 || strcmp(word[0], "follow") == 0;
    int one = strcmp(word[0], "write") == 0 || strcmp(word[0], "lines") == 0 || strcmp(word[0], "sequentialize") == 0;
    int stores = judge || batch ? 2 : one;
    char **wanted = word + 1 + stores + bytes + pair;
    if (bytes) parse(word[1], &first);
    if (stores > 0) lend(size_of(word[1]), &first);
    if (stores > 1 || pair) lend(size_of(word[2]), &second);
    uint64_t n = on_thread(word[0], stack);
    tell(n, strcmp(word[0], "read") == 0, words, sizeof words);
    if (*wanted == NULL || strcmp(words, *wanted) != 0) return 0;
    if (TURNCHECK_KIND(n) == TURNCHECK_TAKEN) return stands(n, stack);
    if (TURNCHECK_KIND(n) == TURNCHECK_FOLLOWED) return placed(n, stack);
    if (pair) return holds(&second, wanted[1]);
    if (stores > 0 && !holds(&first, wanted[1])) return 0;
    if (stores > 1 && !holds(&second, wanted[2])) return 0;
    if (TURNCHECK_IS_REFUSED(n)) return 1;
    return judge ? judged(n, stack) : !batch || apart(n, stack);
}

int main(int count, char **arguments) {
    static char line[4 * MOST];
    if (count != 3) fail("usage: cases FILE KB");
    size_t stack = size_of(arguments[2]);
    FILE *file = fopen(arguments[1], "r");
    if (file == NULL) fail("no such file");
    unsigned compared = 0, differ = 0;
    while (fgets(line, sizeof line, file) != NULL) {
        char shown[64], *word[16] = {NULL};
        snprintf(shown, sizeof shown, "%.60s", line);
        shown[strcspn(shown, "\n")] = 0;
        size_t words = 0;
        for (char *w = strtok(line, " \n"); w != NULL && words < 15; w = strtok(NULL, " \n")) word[words++] = w;
        if (words == 0 || word[0][0] == '#') continue;
        if (strcmp(word[0], "record") == 0) {
            parse(word[1], &record);
            continue;
        }
        compared++;
        if (!agrees(word, stack)) {
            differ++;
            printf("differs: %s\n", shown);
        }
    }
    fclose(file);
    printf("%u compared, %u differ\n", compared, differ);
    return differ != 0 || compared == 0;
}
