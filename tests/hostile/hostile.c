/* Random calls of every function in permissions.h with hostile input, each held against a model of the scope.
 *
 * After every call the result and every byte of every lent area must be what the model says, so a refusal that changed a
 * byte, a byte behind a table or a text, and a number that was not written all show. Every area ends at a page that can
 * neither be read nor written, so a call that leaves its areas ends the program. */
#define _DEFAULT_SOURCE
#include "areas.h"
#include "make.h"
#include "model.h"
#include "permissions.h"

#include <signal.h>
#include <stdarg.h>
#include <stdio.h>
#include <stdlib.h>
#include <string.h>
#include <unistd.h>

enum { EXTRA_BYTES = 4096, SLOTS = 12, GREATEST_CAUSE = 13, GREATEST_STATE = 5, PATIENCE_SECONDS = 120 };

/* ---- the functions, and which results the header names for each */

enum {
    FRESH, INSERT, SET_SWITCHES, QUERY, QUERY_ALL, CHECK_ASKS, CHECK_PATH, CHECK_ALL_ASKS, CHECK_ALL, REQUEST_ASKS,
    REQUEST_PATH, REQUEST_ALL_ASKS, REQUEST_ALL, REVOKE, REVOKE_ALL, MAKE_CHILD, BEGIN_RUN, LINKED_INSERT, LINKED_SWITCHES,
    LINKED_CHECK, LINKED_CHECK_ALL, LINKED_REQUEST, LINKED_REQUEST_ALL, LINKED_REVOKE, LINKED_REVOKE_ALL, LINKED_CHILD,
    ARRIVE, OWED, LINKED_IMAGE, ARRIVE_IMAGE, USED, HEAD, ENTRY, COMMON, UNIT_CHECKED, UNIT_REQUESTED, UNIT_REVOKED, FUNCTIONS
};

#define CAUSE(n) (1u << (n))
#define CAUSES(from, to) ((2u << (to)) - (1u << (from)))

static const struct {
    const char *name;
    uint32_t causes;
    int32_t least, greatest; /* of a call that is not refused */
} functions[FUNCTIONS] = {
    [FRESH] = {"fresh", CAUSE(1), 0, 0},
    [INSERT] = {"insert", CAUSE(1) | CAUSES(3, 8), 0, 0},
    [SET_SWITCHES] = {"switches", CAUSE(1) | CAUSE(3), 0, 0},
    [QUERY] = {"query", CAUSE(1) | CAUSES(3, 7), 0, 5},
    [QUERY_ALL] = {"query_all", CAUSE(1) | CAUSE(3), 0, 5},
    [CHECK_ASKS] = {"check_asks", CAUSES(1, 2) | CAUSES(4, 7), 0, 1},
    [CHECK_PATH] = {"check", CAUSES(1, 8), 0, 5},
    [CHECK_ALL_ASKS] = {"check_all_asks", CAUSES(1, 2), 0, 1},
    [CHECK_ALL] = {"check_all", CAUSES(1, 3), 0, 5},
    [REQUEST_ASKS] = {"request_asks", CAUSES(1, 2) | CAUSES(4, 7), 0, 1},
    [REQUEST_PATH] = {"request", CAUSES(1, 8), 0, 5},
    [REQUEST_ALL_ASKS] = {"request_all_asks", CAUSES(1, 2), 0, 1},
    [REQUEST_ALL] = {"request_all", CAUSES(1, 3), 0, 5},
    [REVOKE] = {"revoke", CAUSE(1) | CAUSES(4, 7), 0, 5},
    [REVOKE_ALL] = {"revoke_all", CAUSE(1), 0, 5},
    [MAKE_CHILD] = {"child", CAUSE(1) | CAUSES(3, 8) | CAUSE(10), 0, 0},
    [BEGIN_RUN] = {"begin_run", CAUSE(1) | CAUSE(3), 0, 0},
    [LINKED_INSERT] = {"linked_insert", CAUSES(1, 9), 0, 0},
    [LINKED_SWITCHES] = {"linked_switches", CAUSES(1, 3) | CAUSE(9), 0, 0},
    [LINKED_CHECK] = {"linked_check", CAUSES(1, 9), 0, 5},
    [LINKED_CHECK_ALL] = {"linked_check_all", CAUSES(1, 3) | CAUSE(9), 0, 5},
    [LINKED_REQUEST] = {"linked_request", CAUSES(1, 9), 0, 5},
    [LINKED_REQUEST_ALL] = {"linked_request_all", CAUSES(1, 3) | CAUSE(9), 0, 5},
    [LINKED_REVOKE] = {"linked_revoke", CAUSES(1, 7) | CAUSE(9), 0, 5},
    [LINKED_REVOKE_ALL] = {"linked_revoke_all", CAUSES(1, 3) | CAUSE(9), 0, 5},
    [LINKED_CHILD] = {"linked_child", CAUSES(1, 10), 0, 0},
    [ARRIVE] = {"arrive", CAUSE(1) | CAUSE(8) | CAUSE(11), APPLIED, EARLY},
    [OWED] = {"owed", CAUSE(1), 0, 0},
    [LINKED_IMAGE] = {"linked_image", CAUSES(1, 3) | CAUSE(9), 0, 0},
    [ARRIVE_IMAGE] = {"arrive_image", CAUSE(1) | CAUSE(13), REPEAT, TAKEN},
    [USED] = {"used", CAUSE(1), 4, TABLE_BYTES},
    [HEAD] = {"head", CAUSE(1), 0, 0},
    [ENTRY] = {"entry", CAUSE(1), 0, 1},
    [COMMON] = {"common", CAUSES(4, 7), EQUAL, GREATER},
    [UNIT_CHECKED] = {"unit_check", CAUSE(3) | CAUSE(12), 0, 5},
    [UNIT_REQUESTED] = {"unit_request", CAUSE(3) | CAUSE(12), 0, 5},
    [UNIT_REVOKED] = {"unit_revoke", CAUSE(12), 0, 5},
};

/* ---- what has happened so far */

static unsigned long calls, call_limit = 100000, seed = 1;
static unsigned long answers_seen[FUNCTIONS][GREATEST_STATE + 2]; /* the last is for greater results */
static unsigned long causes_seen[FUNCTIONS][GREATEST_CAUSE + 1];
static unsigned long tables_seen, none_seen, full_by_entries, full_by_bytes, refused_by_entries, refused_by_bytes;
static unsigned long records_seen, records_of_refused, arrivals_by_entries, full_elsewhere, mains_followed;
static unsigned long images_followed, images_wrong[WRONG_ALL + 1]; /* by what is wrong: a sum of WRONG_.. */
static size_t most_shared; /* components of two paths */
static int current; /* the function that runs */

static int is_child(void)
{
    return current == MAKE_CHILD || current == LINKED_CHILD;
}

static void violation(const char *format, ...)
{
    va_list values;

    printf("hostile: call %lu, seed %lu, permissions_%s: ", calls, seed, functions[current].name);
    va_start(values, format);
    vprintf(format, values);
    va_end(values);
    printf("\n");
    fflush(stdout);
    _exit(1);
}

/* A signal comes from the library alone, which holds no lock of libc's, so printing is safe enough. */
static void stopped(int number)
{
    if (number == SIGALRM)
        violation("does not end");
    violation("a byte outside the lent areas, or a trap (signal %d)", number);
}

static void watch_signals(void)
{
    static const int watched[] = {SIGSEGV, SIGBUS, SIGILL, SIGFPE, SIGABRT, SIGALRM};
    for (size_t i = 0; i < sizeof watched / sizeof watched[0]; i++)
        signal(watched[i], stopped);
}

/* ---- the tables, and the one that a call gets */

/* Tables that are kept from call to call, a standby's, and that of a main whose run has just begun. */
static struct slot {
    uint8_t bytes[TABLE_BYTES + EXTRA_BYTES];
    int style;
} slots[SLOTS], standby_slot, begun_slot;

/* A path that is compared with another. */
struct compared {
    struct bytes given, path; /* and as resolved */
    struct path resolved;
    int cause; /* 0, or 4 to 7 */
};

static struct turn {
    struct slot *slot;
    void *memory; /* what is handed in, as for the other areas */
    size_t memory_size;
    int holds;
    struct table table, after; /* by the model */
    struct bytes given, directory;
    struct path resolved;
    struct bytes path; /* as resolved */
    int cause;         /* of the path: 0, or 4 to 7 */
    void *text;
    size_t text_space;
    struct link *linked; /* NULL where the call is a plain one */
    struct link link;    /* by the model */
    uint32_t run;        /* the main's */
    uint64_t first;      /* its number before the call */
    uint64_t *number;
    uint32_t *records;
    size_t records_space;
    size_t *records_size;
    struct standby had, standby; /* before the arrival, and after it by the model */
    uint64_t *last, *highest;
    uint32_t *own_run, *highest_run;
    const uint32_t *words;
    size_t words_size;
    size_t image_space; /* of an image that is written */
    const struct compared *compared[2];
    size_t noise; /* in the number of what they share, before the call */
    struct {
        uint32_t state, prompt, answer; /* the state before the call */
    } unit;
} turn;

static uint32_t word_in(int area, size_t place)
{
    uint32_t word;
    memcpy(&word, areas[area].start + place * sizeof word, sizeof word);
    return word;
}

static uint32_t number_in(int area)
{
    return word_in(area, 0);
}

static size_t size_in(int area)
{
    size_t number;
    memcpy(&number, areas[area].start, sizeof number);
    return number;
}

static uint64_t long_in(int area)
{
    uint64_t number;
    memcpy(&number, areas[area].start, sizeof number);
    return number;
}

/* The run in the first word of the record or image that is lent, or 0. */
static uint32_t arriving_run(void)
{
    return turn.words_size > 0 ? word_in(WORDS, 0) & MAX_RUN : 0;
}

/* The number in its second word, or 0. */
static uint32_t arriving_number(void)
{
    return turn.words_size > 1 ? word_in(WORDS, 1) & MAX_NUMBER : 0;
}

/* The standby's numbers, as they are lent. */
static struct standby standby_in(void)
{
    struct standby standby = {long_in(LAST), long_in(HIGHEST), number_in(OWN_RUN), number_in(HIGHEST_RUN)};
    return standby;
}

/* Whether the table is too full for that record, if it were the next one. */
static int is_full_for_record(void)
{
    static struct table table;
    struct standby standby = {arriving_number() - 1u, arriving_number(), arriving_run(), arriving_run()};

    table = turn.table;
    return model_arrive(&table, &standby, turn.words, turn.words_size) == -8;
}

static void want_number(int area, uint32_t number)
{
    memcpy(wanted(area), &number, sizeof number);
}

static void want_size(int area, size_t number)
{
    memcpy(wanted(area), &number, sizeof number);
}

static void want_long(int area, uint64_t number)
{
    memcpy(wanted(area), &number, sizeof number);
}

static void want_standby(const struct standby *standby)
{
    want_long(LAST, standby->last);
    want_long(HIGHEST, standby->highest);
    want_number(OWN_RUN, standby->run);
    want_number(HIGHEST_RUN, standby->highest_run);
}

/* The memory must hold this table, and behind it what was there. */
static void want_table(int area, const struct table *table)
{
    model_writes(table, wanted(area));
}

/* The main's number, the records from their space's start, and how many words they are. */
static void want_sent(void)
{
    if (turn.linked == NULL)
        return;
    want_long(MAIN_NUMBER, turn.link.number);
    memcpy(wanted(RECORDS), turn.link.words, turn.link.size * sizeof turn.link.words[0]);
    want_size(NUMBER_3, turn.link.size);
}

#ifdef BREAK
enum { MOST_ARGUMENTS = 4 };
#include "broken.h"
#else
enum { MOST_ARGUMENTS = 3 };

static int is_without_model(void)
{
    return 0;
}
#endif

/* ---- after a call */

static void count_result(int32_t result)
{
    if (result < 0)
        causes_seen[current][-result]++;
    else
        answers_seen[current][result > GREATEST_STATE ? GREATEST_STATE + 1 : result]++;
    if (result == -8 && !is_child()) {
        refused_by_entries += turn.table.count == MAX_ENTRIES;
        refused_by_bytes += turn.table.count < MAX_ENTRIES;
        arrivals_by_entries += current == ARRIVE && turn.table.count == MAX_ENTRIES;
    }
    if (turn.linked != NULL) {
        records_seen += (unsigned long)(turn.link.number - turn.first);
        records_of_refused += result < 0 ? (unsigned long)(turn.link.number - turn.first) : 0;
    }
}

static void explain_difference(const struct area *area, long position, int32_t result)
{
    const char *why = "is not what the scope says";

    if (position < 0)
        why = "lies before its start and has changed";
    else if (area >= &areas[PATH] && area < &areas[NUMBER])
        why = "has changed, though it is only read";
    else if (result < 0 && area < &areas[NUMBER] && !is_child())
        why = "has changed, though the call is refused";
    else if (area == &areas[RECORDS] && (size_t)position >= turn.link.size * sizeof turn.link.words[0])
        why = "has changed, though it lies behind the records";
    else if (area == &areas[IMAGE] && (size_t)position >= size_in(NUMBER) * sizeof turn.words[0])
        why = "has changed, though it lies behind the image";
    else if (area == &areas[MEMORY] && (size_t)position >= model_used(&turn.after))
        why = "has changed, though it lies behind the table";
    violation("result %d: byte %ld of the %s %s", (int)result, position, area->name, why);
}

/* What the header says of every result, whatever the model. */
static void hold_to_header(int32_t result)
{
    int32_t cause = result < 0 ? -result : 0;

    if (cause > GREATEST_CAUSE || (cause > 0 && (functions[current].causes >> cause & 1) == 0))
        violation("refusal %d is none of its causes", (int)cause);
    if (cause == 0 && (result < functions[current].least || result > functions[current].greatest))
        violation("result %d is none of its answers", (int)result);
    if ((current == CHECK_PATH || current == CHECK_ALL || current == LINKED_CHECK || current == LINKED_CHECK_ALL)
        && result == GRANTED_PARTIAL)
        violation("fails with state %d", (int)result);
    if (current == ARRIVE_IMAGE && result == EARLY)
        violation("says Early to an image");
    if (current == UNIT_REQUESTED && result == PROMPT)
        violation("answers Prompt");
    if (current == UNIT_REVOKED && result == GRANTED)
        violation("leaves Granted");
}

/* What a linked call must leave, whatever the model: a number for each head among its words, one behind the other, and its run
 * before each head and nowhere else. */
static void hold_to_numbers(int32_t result)
{
    uint32_t run = UINT32_C(8) << 28 | turn.run, before = 0;
    uint64_t number = turn.first, last = long_in(MAIN_NUMBER);
    size_t size = size_in(NUMBER_3);

    if (size > turn.records_space || (size > 0 && result < 0 && !is_child()))
        violation("result %d with records of %zu words", (int)result, size);
    for (size_t i = 0; i < size; i++) {
        uint32_t word = word_in(RECORDS, i);
        if (word >> 28 == 1 && (word & MAX_NUMBER) != ++number)
            violation("result %d with a record of number %u", (int)result, (unsigned)(word & MAX_NUMBER));
        if ((word >> 28 == 1) != (before == run))
            violation("result %d for run %u, and word %zu of the records is %08x", (int)result, (unsigned)turn.run, i,
                      (unsigned)word);
        before = word;
    }
    if (last != number || before == run)
        violation("result %d with %zu words of records, and the main's number goes from %llu to %llu", (int)result, size,
                  (unsigned long long)turn.first, (unsigned long long)last);
}

/* The result and every lent byte must be as expected. */
static void hold_to_model(int32_t result, int32_t expected)
{
    const struct area *area;
    long position;

    if (result != expected)
        violation("result %d, expected %d", (int)result, (int)expected);
    area = find_difference(&position);
    if (area != NULL)
        explain_difference(area, position, result);
}

/* Looks at what a call did; its result. */
static int32_t settle(int32_t result, int32_t expected)
{
#ifdef BREAK
    result = broken(result);
#endif
    if (!is_without_model()) {
        hold_to_header(result);
        hold_to_model(result, expected);
        count_result(result);
    }
    if (turn.linked != NULL)
        hold_to_numbers(result);
    return result;
}

/* Whether an arrival that is not refused may have this answer, by its run and number. */
static int may_say(int32_t answer)
{
    uint32_t run = arriving_run(), own = turn.had.run;
    uint64_t number = arriving_number(), last = run > own ? 0 : turn.had.last;
    int is_image = current == ARRIVE_IMAGE;

    if (run == 0 || (number == 0 && !is_image))
        return 0;
    switch (answer) {
    case APPLIED: return !is_image && run >= own && number > last && number - last == 1;
    case REPEAT: return run < own || (run == own && number <= last);
    case EARLY: return !is_image && run >= own && number > last && number - last > 1;
    default: return is_image && (run > own || (run == own && number > last));
    }
}

/* The standby's numbers after an arrival with this answer or refusal. A repeat has nothing that is higher. */
static struct standby numbers_after(int32_t result)
{
    struct standby after = turn.had;
    uint32_t run = arriving_run();
    uint64_t number = arriving_number();

    if (result < 0 || result == REPEAT)
        return after;
    if (run > after.highest_run || (run == after.highest_run && number > after.highest)) {
        after.highest_run = run;
        after.highest = number;
    }
    if (result != EARLY) {
        after.run = run;
        after.last = number;
    }
    return after;
}

static int same_numbers(const struct standby *a, const struct standby *b)
{
    return a->last == b->last && a->highest == b->highest && a->run == b->run && a->highest_run == b->highest_run;
}

enum { SAID_BYTES = 80 };

/* A standby's numbers as text: n, h, the run and the highest one. */
static const char *say(const struct standby *standby, char *text)
{
    snprintf(text, SAID_BYTES, "%llu, %llu, %lu, %lu", (unsigned long long)standby->last, (unsigned long long)standby->highest,
             (unsigned long)standby->run, (unsigned long)standby->highest_run);
    return text;
}

/* Whether the memory has the count, switches and marks that an image says. */
static int has_head_of_image(void)
{
    const uint8_t *memory = areas[MEMORY].start;

    return word_in(WORDS, 2) == (UINT32_C(6) << 28 | (memory[0] * 256u + memory[1]) << 8 | (uint32_t)memory[3] << 5 | memory[2]);
}

/* What an arrival must leave, whatever the model: its numbers by its answer and its first two words, and the memory as it was
 * but for Applied and Taken. */
static void hold_to_answer(int32_t result)
{
    struct standby found = standby_in(), due = numbers_after(result);
    char had[SAID_BYTES], has[SAID_BYTES];
    int is_done = result == APPLIED || result == TAKEN;

    if ((result >= 0 && !may_say(result)) || !same_numbers(&found, &due))
        violation("result %d for number %u of run %u, and the standby's numbers go from %s to %s", (int)result,
                  (unsigned)arriving_number(), (unsigned)arriving_run(), say(&turn.had, had), say(&found, has));
    if (!is_done && memcmp(areas[MEMORY].start, standby_slot.bytes, turn.memory_size) != 0)
        violation("result %d, and the memory has changed", (int)result);
    if (result == TAKEN && !has_head_of_image())
        violation("Taken, and the table has another count, other switches or marks than the image");
}

/* Counts a call that is about to be made. */
static void next(int function)
{
    current = function;
    calls++;
}

/* Whether so many more may be made. */
static int is_room(unsigned long more)
{
    return call_limit - calls >= more;
}

/* What stays in the slot is a table: what a call did to memory that holds none is nothing. */
static void keep_table(void)
{
    static struct table kept;

    if (!turn.holds)
        return;
    if (!model_reads(areas[MEMORY].start, turn.memory_size, &kept))
        violation("memory that held a table holds none");
    memcpy(turn.slot->bytes, areas[MEMORY].start, turn.memory_size);
}

/* ---- lending */

static size_t table_memory_size(void)
{
    if (!one_in(24))
        return one_in(2) ? TABLE_BYTES : TABLE_BYTES + below(one_in(2) ? 9 : EXTRA_BYTES + 1);
    switch (below(4)) {
    case 0: return TABLE_BYTES - 1;
    case 1: return 0;
    case 2: return below(9);
    default: return below(TABLE_BYTES);
    }
}

/* Reads what is lent, by the model. */
static void read_memory(void)
{
    turn.holds = model_reads(areas[MEMORY].start, turn.memory_size, &turn.table);
    turn.after = turn.table;
    tables_seen += (unsigned long)turn.holds;
    none_seen += !turn.holds;
    full_by_entries += turn.holds && turn.table.count == MAX_ENTRIES;
    full_by_bytes += turn.holds && turn.table.sum > MAX_SUM - MAX_PATH;
}

static void lend_memory(void)
{
    turn.slot = &slots[below(SLOTS)];
    if (one_in(40))
        make_table(turn.slot->bytes, turn.slot->style);
    turn.memory_size = table_memory_size();
    turn.memory = lend(MEMORY, turn.slot->bytes, turn.memory_size);
    if (turn.memory_size >= TABLE_BYTES && one_in(10)) {
        make_damage(areas[MEMORY].start, turn.memory_size);
        memcpy(wanted(MEMORY), areas[MEMORY].start, turn.memory_size);
    }
    read_memory();
}

/* Keeps the lent memory as it is before the call: where the call sends records, a standby begins with it. */
static void copy_memory(void)
{
    memcpy(standby_slot.bytes, areas[MEMORY].start, turn.memory_size);
}

static void resolve_given(void)
{
    turn.cause = model_resolve(turn.given, turn.directory, &turn.resolved);
    turn.path.start = turn.resolved.bytes;
    turn.path.size = turn.resolved.size;
}

/* A path that is in the table, or next below or above one there. */
static size_t path_in_table(uint8_t *path)
{
    struct bytes there = turn.table.entries[below((uint32_t)turn.table.count)].path;
    size_t size = there.size;

    memcpy(path, there.start, size);
    if (one_in(3)) {
        memcpy(path + size, "/b", 2);
        size += 2;
    } else if (one_in(3)) {
        while (size > 1 && path[size - 1] != '/')
            size--;
    }
    return size;
}

/* A path as given. */
static size_t some_path(uint8_t *path)
{
    return turn.holds && turn.table.count > 0 && one_in(5) ? path_in_table(path) : make_path(path, turn.slot->style);
}

static void lend_path(void)
{
    uint8_t path[LONGEST_PATH], directory[LONGEST_PATH];

    turn.given.size = some_path(path);
    turn.given.start = lend(PATH, path, turn.given.size);
    turn.directory.size = make_directory(directory);
    turn.directory.start = lend(DIRECTORY, directory, turn.directory.size);
    if (one_in(32))
        turn.directory = turn.given; /* areas that are only read may overlap */
    resolve_given();
}

/* For a call that only reads its memory, the path may lie in there. */
static void point_into_memory(void)
{
    if (turn.memory_size == 0 || !one_in(12))
        return;
    turn.given.size = below((uint32_t)(turn.memory_size < 64 ? turn.memory_size : 64));
    turn.given.start = areas[MEMORY].start + below((uint32_t)(turn.memory_size - turn.given.size));
    if (turn.holds && turn.table.count > 0)
        turn.given = turn.table.entries[below((uint32_t)turn.table.count)].path;
    resolve_given();
}

static size_t text_space(void)
{
    static const size_t sizes[] = {TEXT_BYTES - 1, 0, 1, 11, 1024, TEXT_BYTES + 1, 2 * TEXT_BYTES, 8192};
    return one_in(6) ? sizes[below(sizeof sizes / sizeof sizes[0])] : TEXT_BYTES + below(2);
}

/* The words that a linked call with so many items must be lent. */
static size_t least_record_space(size_t items)
{
    return RECORD_WORDS * (items > 0 ? items : 1);
}

/* As many, or some other number. */
static size_t record_space(size_t items)
{
    size_t least = least_record_space(items);

    if (!one_in(6))
        return least;
    switch (below(6)) {
    case 0: return least - 1;
    case 1: return least + 1;
    case 2: return 0;
    case 3: return RECORD_WORDS;
    case 4: return below((uint32_t)least);
    default: return least + RECORD_WORDS;
    }
}

static void lend_main_number(uint64_t number)
{
    turn.first = number;
    turn.number = lend(MAIN_NUMBER, &turn.first, sizeof turn.first);
}

/* The call is linked: it gets this run, a number and a record space too. */
static void lend_main(uint32_t run, uint64_t number, size_t space)
{
    copy_memory();
    lend_main_number(number);
    turn.linked = &turn.link;
    turn.link.run = turn.run = run;
    turn.link.number = number;
    turn.link.size = 0;
    turn.records_space = space;
    turn.records = lend(RECORDS, NULL, turn.records_space * sizeof turn.records[0]);
    turn.records_size = lend(NUMBER_3, NULL, sizeof *turn.records_size);
}

/* Half of the calls are linked. */
static void lend_link(size_t items)
{
    if (!one_in(2))
        lend_main(make_main_run(), make_main_number(), record_space(items));
}

/* Refusals 2 and 3 of a linked call, or 0. */
static int32_t refused_link(size_t items)
{
    if (turn.linked == NULL)
        return 0;
    if (turn.records_space < least_record_space(items))
        return -2;
    return model_is_run(turn.run) ? 0 : -3;
}

/* ---- a table: fresh, insert, switches, used, head, entry */

/* The memory must hold a fresh table after a call that is not refused. */
static void want_fresh(int32_t expected)
{
    turn.holds = expected == 0;
    if (!turn.holds)
        return;
    memset(&turn.after, 0, sizeof turn.after);
    want_table(MEMORY, &turn.after);
}

static void run_fresh(void)
{
    int32_t expected;

    turn.slot = &slots[below(SLOTS)];
    turn.memory_size = table_memory_size();
    turn.memory = lend(MEMORY, NULL, turn.memory_size);
    expected = turn.memory_size < TABLE_BYTES ? -1 : 0;
    want_fresh(expected);
    next(FRESH);
    (void)settle(permissions_fresh(turn.memory, turn.memory_size), expected);
    turn.slot->style = (int)below(STYLES);
    keep_table();
}

static int32_t expected_insert(uint32_t kind)
{
    int32_t refused = refused_link(1);

    if (!turn.holds)
        return -1;
    if (refused != 0)
        return refused;
    if (kind >= KINDS)
        return -3;
    if (turn.cause != 0)
        return -turn.cause;
    return model_insert(&turn.after, kind, turn.path, turn.linked);
}

static int32_t call_insert(uint32_t kind)
{
    next(turn.linked != NULL ? LINKED_INSERT : INSERT);
    if (turn.linked != NULL)
        return permissions_linked_insert(turn.memory, turn.memory_size, turn.run, turn.number, kind, turn.given.start,
                                         turn.given.size, turn.directory.start, turn.directory.size, turn.records,
                                         turn.records_space, turn.records_size);
    return permissions_insert(turn.memory, turn.memory_size, kind, turn.given.start, turn.given.size, turn.directory.start,
                              turn.directory.size);
}

/* Inserts the lent path into the lent memory. */
static void do_insert(uint32_t kind)
{
    int32_t expected = expected_insert(kind);

    if (expected == 0)
        want_table(MEMORY, &turn.after);
    want_sent();
    (void)settle(call_insert(kind), expected);
    keep_table();
}

static void run_insert(void)
{
    lend_memory();
    lend_path();
    lend_link(1);
    do_insert(make_number(KINDS));
}

static int32_t expected_switches(uint32_t switches)
{
    int32_t refused = refused_link(1);

    if (!turn.holds)
        return -1;
    if (refused != 0)
        return refused;
    if (switches >= SWITCHES)
        return -3;
    return model_switches(&turn.after, switches, turn.linked);
}

static int32_t call_switches(uint32_t switches)
{
    next(turn.linked != NULL ? LINKED_SWITCHES : SET_SWITCHES);
    if (turn.linked != NULL)
        return permissions_linked_switches(turn.memory, turn.memory_size, turn.run, turn.number, switches, turn.records,
                                           turn.records_space, turn.records_size);
    return permissions_switches(turn.memory, turn.memory_size, switches);
}

/* Sets the switches in the lent memory. */
static void do_switches(uint32_t switches)
{
    int32_t expected = expected_switches(switches);

    if (expected == 0)
        want_table(MEMORY, &turn.after);
    want_sent();
    (void)settle(call_switches(switches), expected);
    keep_table();
}

static void run_switches(void)
{
    lend_memory();
    lend_link(1);
    do_switches(one_in(3) ? make_number(SWITCHES) : SWITCH_PROMPT | below(2)); /* 16 lets calls ask */
}

static void run_used(void)
{
    lend_memory();
    next(USED);
    (void)settle(permissions_used(turn.memory, turn.memory_size), turn.holds ? (int32_t)model_used(&turn.table) : -1);
    keep_table();
}

static void run_head(void)
{
    uint32_t *numbers[3];

    lend_memory();
    for (int i = 0; i < 3; i++)
        numbers[i] = lend(NUMBER + i, NULL, sizeof *numbers[i]);
    want_number(NUMBER, turn.holds ? (uint32_t)turn.table.count : 0);
    want_number(NUMBER_2, turn.holds ? turn.table.switches : 0);
    want_number(NUMBER_3, turn.holds ? turn.table.marks : 0);
    next(HEAD);
    (void)settle(permissions_head(turn.memory, turn.memory_size, numbers[0], numbers[1], numbers[2]), turn.holds ? 0 : -1);
    keep_table();
}

static void run_entry(void)
{
    uint32_t place;
    uint32_t *kind = lend(NUMBER, NULL, sizeof *kind);
    size_t *path_start = lend(NUMBER_2, NULL, sizeof *path_start), *path_size = lend(NUMBER_3, NULL, sizeof *path_size);
    int32_t expected = -1;

    lend_memory();
    place = make_number((uint32_t)(turn.holds ? turn.table.count : 0) + 2);
    want_number(NUMBER, 0);
    want_size(NUMBER_2, 0);
    want_size(NUMBER_3, 0);
    if (turn.holds)
        expected = place < turn.table.count ? 1 : 0;
    if (expected == 1) {
        want_number(NUMBER, turn.table.entries[place].kind);
        want_size(NUMBER_2, (size_t)(turn.table.entries[place].path.start - areas[MEMORY].start));
        want_size(NUMBER_3, turn.table.entries[place].path.size);
    }
    next(ENTRY);
    (void)settle(permissions_entry(turn.memory, turn.memory_size, place, kind, path_start, path_size), expected);
    keep_table();
}

/* ---- query and revoke */

static int32_t query(uint32_t mode, int with_path)
{
    int32_t expected = -1, result;

    if (turn.holds && mode >= MODES)
        expected = -3;
    else if (turn.holds && with_path && turn.cause != 0)
        expected = -turn.cause;
    else if (turn.holds)
        expected = model_query(&turn.table, mode, with_path ? &turn.path : NULL);
    next(with_path ? QUERY : QUERY_ALL);
    if (with_path)
        result = permissions_query(turn.memory, turn.memory_size, mode, turn.given.start, turn.given.size,
                                   turn.directory.start, turn.directory.size);
    else
        result = permissions_query_all(turn.memory, turn.memory_size, mode);
    return settle(result, expected);
}

static void run_query(void)
{
    int with_path = !one_in(4);

    lend_memory();
    if (with_path) {
        lend_path();
        point_into_memory();
    }
    (void)query(make_number(MODES), with_path);
    keep_table();
}

static int32_t expected_revoke(int with_path)
{
    int32_t refused = refused_link(1);

    if (!turn.holds)
        return -1;
    if (refused != 0)
        return refused;
    if (with_path && turn.cause != 0)
        return -turn.cause;
    return model_revoke(&turn.after, with_path ? &turn.path : NULL, turn.linked);
}

static int32_t call_revoke(int with_path)
{
    next((turn.linked != NULL ? LINKED_REVOKE : REVOKE) + !with_path);
    switch (current) {
    case REVOKE:
        return permissions_revoke(turn.memory, turn.memory_size, turn.given.start, turn.given.size, turn.directory.start,
                                  turn.directory.size);
    case REVOKE_ALL:
        return permissions_revoke_all(turn.memory, turn.memory_size);
    case LINKED_REVOKE:
        return permissions_linked_revoke(turn.memory, turn.memory_size, turn.run, turn.number, turn.given.start,
                                         turn.given.size, turn.directory.start, turn.directory.size, turn.records,
                                         turn.records_space, turn.records_size);
    default:
        return permissions_linked_revoke_all(turn.memory, turn.memory_size, turn.run, turn.number, turn.records,
                                             turn.records_space, turn.records_size);
    }
}

/* Revokes in the lent memory, the lent path or all. */
static void do_revoke(int with_path)
{
    int32_t expected = expected_revoke(with_path);

    if (expected >= 0)
        want_table(MEMORY, &turn.after);
    want_sent();
    (void)settle(call_revoke(with_path), expected);
    keep_table();
}

static void run_revoke(void)
{
    int with_path = !one_in(5);

    lend_memory();
    if (with_path)
        lend_path();
    lend_link(1);
    do_revoke(with_path);
}

/* ---- check and request */

struct asking {
    int call, with_path;
    uint32_t answer;
};

/* What a call would ask, as the library said. */
struct question {
    int32_t result;
    size_t size;
    uint8_t text[TEXT_BYTES];
};

/* Refusals 1, 2 and 4 to 7; 3 comes between. */
static int32_t refused_by_arguments(const struct asking *asking)
{
    int32_t refused = refused_link(1);

    if (!turn.holds)
        return -1;
    if (turn.text_space < TEXT_BYTES)
        return -2;
    if (refused != 0)
        return refused;
    if (asking->answer >= ANSWERS)
        return -3;
    return asking->with_path ? -turn.cause : 0;
}

/* Lends a text space, full of noise. */
static size_t *lend_text(void)
{
    turn.text = lend(TEXT, NULL, turn.text_space);
    return lend(NUMBER_2, NULL, sizeof(size_t));
}

static void want_text(const struct asking *asking, int written)
{
    uint8_t text[TEXT_BYTES + 4];
    size_t size = 0;

    if (written)
        size = model_text(asking->with_path ? &turn.given : NULL, &turn.resolved, text);
    memcpy(wanted(TEXT), text, size);
    want_size(NUMBER_2, size);
}

static int32_t call_asks(const struct asking *asking, size_t *text_size)
{
    const void *memory = turn.memory, *path = turn.given.start, *directory = turn.directory.start;
    size_t size = turn.memory_size, path_size = turn.given.size, directory_size = turn.directory.size;

    next((asking->call == CHECK ? CHECK_ASKS : REQUEST_ASKS) + (asking->with_path ? 0 : CHECK_ALL_ASKS - CHECK_ASKS));
    switch (current) {
    case CHECK_ASKS:
        return permissions_check_asks(memory, size, path, path_size, directory, directory_size, turn.text, turn.text_space,
                                      text_size);
    case REQUEST_ASKS:
        return permissions_request_asks(memory, size, path, path_size, directory, directory_size, turn.text,
                                        turn.text_space, text_size);
    case CHECK_ALL_ASKS:
        return permissions_check_all_asks(memory, size, turn.text, turn.text_space, text_size);
    default:
        return permissions_request_all_asks(memory, size, turn.text, turn.text_space, text_size);
    }
}

/* Asks whether the call would ask; it takes no answer, so any will do. */
static void put_question(struct asking asking, struct question *question)
{
    size_t *text_size = lend_text();
    int32_t expected;

    asking.answer = DENY;
    expected = refused_by_arguments(&asking);
    if (expected == 0)
        expected = model_asks(&turn.table, asking.call, asking.with_path ? &turn.path : NULL);
    want_text(&asking, expected == 1);
    question->result = settle(call_asks(&asking, text_size), expected);
    question->size = size_in(NUMBER_2);
    if (question->size > TEXT_BYTES || (question->size > 0) != (question->result == 1))
        violation("a question of %zu bytes", question->size);
    memcpy(question->text, areas[TEXT].start, question->size);
}

static int32_t call_plain_ask(const struct asking *asking, uint32_t *asked, size_t *text_size)
{
    void *memory = turn.memory;
    const void *path = turn.given.start, *directory = turn.directory.start;
    size_t size = turn.memory_size, path_size = turn.given.size, directory_size = turn.directory.size;

    next((asking->call == CHECK ? CHECK_PATH : REQUEST_PATH) + (asking->with_path ? 0 : CHECK_ALL - CHECK_PATH));
    switch (current) {
    case CHECK_PATH:
        return permissions_check(memory, size, path, path_size, directory, directory_size, asking->answer, turn.text,
                                 turn.text_space, asked, text_size);
    case REQUEST_PATH:
        return permissions_request(memory, size, path, path_size, directory, directory_size, asking->answer, turn.text,
                                   turn.text_space, asked, text_size);
    case CHECK_ALL:
        return permissions_check_all(memory, size, asking->answer, turn.text, turn.text_space, asked, text_size);
    default:
        return permissions_request_all(memory, size, asking->answer, turn.text, turn.text_space, asked, text_size);
    }
}

static int32_t call_linked_ask(const struct asking *asking, uint32_t *asked, size_t *text_size)
{
    void *memory = turn.memory;
    const void *path = turn.given.start, *directory = turn.directory.start;
    size_t size = turn.memory_size, path_size = turn.given.size, directory_size = turn.directory.size;

    next((asking->call == CHECK ? LINKED_CHECK : LINKED_REQUEST) + !asking->with_path);
    switch (current) {
    case LINKED_CHECK:
        return permissions_linked_check(memory, size, turn.run, turn.number, path, path_size, directory, directory_size,
                                        asking->answer, turn.text, turn.text_space, turn.records, turn.records_space, asked,
                                        text_size, turn.records_size);
    case LINKED_REQUEST:
        return permissions_linked_request(memory, size, turn.run, turn.number, path, path_size, directory, directory_size,
                                          asking->answer, turn.text, turn.text_space, turn.records, turn.records_space,
                                          asked, text_size, turn.records_size);
    case LINKED_CHECK_ALL:
        return permissions_linked_check_all(memory, size, turn.run, turn.number, asking->answer, turn.text, turn.text_space,
                                            turn.records, turn.records_space, asked, text_size, turn.records_size);
    default:
        return permissions_linked_request_all(memory, size, turn.run, turn.number, asking->answer, turn.text,
                                              turn.text_space, turn.records, turn.records_space, asked, text_size,
                                              turn.records_size);
    }
}

static int32_t ask(const struct asking *asking)
{
    size_t *text_size = lend_text();
    uint32_t *asked = lend(NUMBER, NULL, sizeof *asked);
    uint32_t asked_expected = 0;
    int32_t expected = refused_by_arguments(asking);

    if (expected == 0)
        expected = model_ask(&turn.after, asking->call, asking->with_path ? &turn.path : NULL, asking->answer, turn.linked,
                             &asked_expected);
    if (expected >= 0)
        want_table(MEMORY, &turn.after);
    want_number(NUMBER, asked_expected);
    want_text(asking, asked_expected == 1 || (asking->call == CHECK && expected > 0));
    want_sent();
    if (turn.linked != NULL)
        return settle(call_linked_ask(asking, asked, text_size), expected);
    return settle(call_plain_ask(asking, asked, text_size), expected);
}

/* The question and the call agree, whatever the model; only 3, 8 and, of a linked call, 2 and 9 can come between. */
static void hold_to_question(int32_t result, const struct question *question)
{
    uint32_t asked = number_in(NUMBER);
    size_t size = size_in(NUMBER_2);

    if (asked > 1 || size > TEXT_BYTES)
        violation("asked %u times, with a text of %zu bytes", (unsigned)asked, size);
    if (size > 0 && (size < 11 || memcmp(areas[TEXT].start, "read access", 11) != 0))
        violation("a text of %zu bytes that does not begin with its words", size);
    if (result == -3 || result == -8 || (turn.linked != NULL && (result == -2 || result == -9)))
        return;
    if (result < 0 ? question->result != result : question->result != (int32_t)asked)
        violation("the question before it said %d", (int)question->result);
    if (asked == 1 && (size != question->size || memcmp(areas[TEXT].start, question->text, size) != 0))
        violation("the question before it had another text, of %zu bytes", question->size);
}

/* A question, a query in the call's mode and the call, on one table and with the same arguments. */
static void run_ask(void)
{
    static struct question question;
    struct asking asking = {one_in(2) ? CHECK : REQUEST, !one_in(5), make_number(ANSWERS)};
    int32_t state, result;

    lend_memory();
    if (asking.with_path)
        lend_path();
    turn.text_space = text_space();
    put_question(asking, &question);
    areas[TEXT].lent = areas[NUMBER_2].lent = 0;
    state = query(asking.call == REQUEST ? MODE_PARTIAL : asking.with_path ? MODE_DENIED : MODE_GRANTED, asking.with_path);
    lend_link(1);
    result = ask(&asking);
    hold_to_question(result, &question);
    if (result == 0 && state != GRANTED && (number_in(NUMBER) == 0 || asking.answer == DENY))
        violation("granted, though the query said %d and nobody said yes", (int)state);
    keep_table();
}

/* ---- child */

/* Items as they should be: their bytes, end positions and answers. */
static struct items {
    uint8_t bytes[72 * LONGEST_PATH];
    uint32_t ends[80], answers[80];
    size_t size, ends_count, answers_count;
} made;

static void make_items(uint32_t code)
{
    size_t count = one_in(16) ? 60 + below(11) : below(one_in(3) ? 20 : 4);

    made.size = made.ends_count = 0;
    while (code == LIST && made.ends_count < count) {
        uint8_t *item = made.bytes + made.size;
        made.size += turn.holds && turn.table.count > 0 && one_in(2) ? path_in_table(item) : make_path(item, turn.slot->style);
        made.ends[made.ends_count++] = (uint32_t)made.size;
    }
    made.answers_count = code == LIST ? made.ends_count : code == CHILD_GRANTED;
    for (size_t i = 0; i < 80; i++)
        made.answers[i] = one_in(3) ? below(ANSWERS) : ALLOW;
}

/* Items without a list, positions that fall, lie or do not close, answers that are too many, too few or unknown. */
static void spoil_items(void)
{
    uint32_t *end = &made.ends[below((uint32_t)made.ends_count + 1)];

    switch (below(8)) {
    case 0: made.answers_count += 1 + below(5); break;
    case 1: made.answers_count -= made.answers_count > 0; break;
    case 2: made.answers[below((uint32_t)made.answers_count + 1)] = make_number(ANSWERS); break;
    case 3: made.size += 1 + below(9); break;
    case 4: made.size -= made.size > 0; break;
    case 5: *end = one_in(2) ? UINT32_MAX : (uint32_t)made.size + 1; break;
    case 6: *end = below((uint32_t)made.size + 1); break;
    default: made.ends[made.ends_count++] = (uint32_t)made.size; break;
    }
}

static void lend_items(struct child_call *call)
{
    uint8_t directory[LONGEST_PATH];

    make_items(call->code);
    if (one_in(6))
        spoil_items();
    call->items.size = made.size;
    call->items.start = lend(ITEMS, made.bytes, made.size);
    call->ends_count = made.ends_count;
    call->ends = lend(ENDS, made.ends, made.ends_count * sizeof made.ends[0]);
    call->answers_count = made.answers_count;
    call->answers = lend(RESPONSES, made.answers, made.answers_count * sizeof made.answers[0]);
    call->directory.size = make_directory(directory);
    call->directory.start = lend(DIRECTORY, directory, call->directory.size);
}

static int32_t refused_child_arguments(const struct child_call *call, size_t child_size)
{
    int32_t refused = refused_link(call->ends_count);

    if (!turn.holds || child_size < TABLE_BYTES)
        return -1;
    return refused != 0 ? refused : model_child_arguments(call);
}

/* What the call must leave in both memories; its result. After 4 and on the child is fresh, and the parent keeps what
 * came before. */
static int32_t want_child(const struct child_call *call, size_t child_size)
{
    static struct table child;
    uint32_t asked = 0;
    int32_t expected = refused_child_arguments(call, child_size);

    if (expected == 0) {
        expected = model_child(&turn.after, &child, call, turn.linked, &asked);
        want_table(MEMORY, &turn.after);
        if (expected != 0) {
            memset(wanted(CHILD), 0, 4);
            areas[CHILD].open_from = 4;
            areas[CHILD].open_to = TABLE_BYTES;
        } else {
            want_table(CHILD, &child);
        }
    }
    want_number(NUMBER, asked);
    want_sent();
    return expected;
}

static int32_t call_child(const struct child_call *call, void *child, size_t child_size, uint32_t *asked)
{
    next(turn.linked != NULL ? LINKED_CHILD : MAKE_CHILD);
    if (turn.linked != NULL)
        return permissions_linked_child(turn.memory, turn.memory_size, turn.run, turn.number, child, child_size, call->code,
                                        call->items.start, call->items.size, call->ends, call->ends_count, call->answers,
                                        call->answers_count, call->directory.start, call->directory.size, turn.records,
                                        turn.records_space, asked, turn.records_size);
    return permissions_child(turn.memory, turn.memory_size, child, child_size, call->code, call->items.start,
                             call->items.size, call->ends, call->ends_count, call->answers, call->answers_count,
                             call->directory.start, call->directory.size, asked);
}

static void run_child(void)
{
    static struct table kept;
    struct child_call call;
    size_t child_size = table_memory_size();
    void *child = lend(CHILD, NULL, child_size);
    uint32_t *asked = lend(NUMBER, NULL, sizeof *asked);
    int32_t expected, result;

    lend_memory();
    call.code = one_in(2) ? LIST : make_number(CODES);
    lend_items(&call);
    lend_link(call.ends_count);
    expected = want_child(&call, child_size);
    result = settle(call_child(&call, child, child_size, asked), expected);
    if (number_in(NUMBER) > (call.code == CHILD_GRANTED ? 1 : call.ends_count))
        violation("asked %u times", (unsigned)number_in(NUMBER));
    if ((result == 0 || result < -3) && !model_reads(areas[CHILD].start, child_size, &kept))
        violation("the child's memory holds no table");
    keep_table();
    if (result == 0 && one_in(4))
        memcpy(slots[below(SLOTS)].bytes, areas[CHILD].start, child_size);
}

/* ---- how two paths relate */

static void resolve_compared(struct compared *compared)
{
    compared->cause = model_resolve(compared->given, turn.directory, &compared->resolved);
    compared->path.start = compared->resolved.bytes;
    compared->path.size = compared->resolved.size;
}

static void lend_compared(struct compared *compared, int area, const uint8_t *given, size_t size)
{
    compared->given.size = size;
    compared->given.start = lend(area, given, size);
    resolve_compared(compared);
}

/* Areas that are only read may overlap: the directory is the first path, or the second is the first one's beginning. */
static void overlap_compared(struct compared *first, struct compared *second)
{
    if (one_in(2)) {
        turn.directory = first->given;
        resolve_compared(first);
    } else {
        second->given.start = first->given.start;
        second->given.size = below((uint32_t)first->given.size + 1);
    }
    resolve_compared(second);
}

/* A path that mostly has to do with the first, as it was given or as it is resolved. */
static size_t make_second(uint8_t *path, const struct compared *first, int style)
{
    struct bytes like = first->cause == 0 && one_in(2) ? first->path : first->given;

    return one_in(4) ? make_path(path, style) : make_related_path(path, like.start, like.size);
}

static void lend_two_paths(struct compared *first, struct compared *second)
{
    uint8_t path[LONGEST_PATH], directory[LONGEST_PATH];
    int style = (int)below(STYLES), are_wrong = one_in(12);
    size_t size = make_directory(directory);

    turn.directory.size = size;
    turn.directory.start = lend(DIRECTORY, directory, size);
    size = are_wrong ? make_wrong_path(path) : one_in(8) ? make_deep_path(path) : make_path(path, style);
    lend_compared(first, PATH, path, size);
    size = are_wrong ? make_wrong_path(path) : make_second(path, first, style);
    lend_compared(second, OTHER_PATH, path, size);
    if (one_in(16))
        overlap_compared(first, second);
}

/* What a call said of two paths. */
struct said {
    int32_t result;
    size_t shared;
};

static struct said compare_paths(const struct compared *first, const struct compared *second)
{
    size_t *common = lend(NUMBER, NULL, sizeof *common), shared = 0;
    int32_t expected = first->cause != 0 ? -first->cause : -second->cause;
    struct said said;

    if (expected == 0)
        expected = model_common(first->path, second->path, &shared);
    want_size(NUMBER, shared);
    most_shared = shared > most_shared ? shared : most_shared;
    turn.compared[0] = first;
    turn.compared[1] = second;
    turn.noise = size_in(NUMBER);
    next(COMMON);
    said.result = settle(permissions_common(first->given.start, first->given.size, second->given.start, second->given.size,
                                            turn.directory.start, turn.directory.size, common), expected);
    said.shared = size_in(NUMBER);
    return said;
}

/* Whether two paths may be said to relate so, by what was said of each with itself: that it is equal, and how many components it
 * has; or its refusal. */
static int may_relate(const struct said *said, const struct said *first, const struct said *second)
{
    int32_t refused = first->result < 0 ? first->result : second->result;

    if (refused != 0)
        return said->result == refused && said->shared == 0;
    if (said->shared > first->shared || said->shared > second->shared)
        return 0;
    if (said->shared < first->shared && said->shared < second->shared)
        return said->result == LESS || said->result == GREATER;
    if (first->shared == second->shared)
        return said->result == EQUAL;
    return said->result == (said->shared == first->shared ? PREFIX : EXTENSION);
}

/* What calls with the same two paths, both ways round and each with itself, must say of each other, whatever the model. */
static void hold_to_each_other(struct said said[2][2])
{
    static const int32_t turned[] = {EQUAL, EXTENSION, PREFIX, GREATER, LESS};

    for (int i = 0; i < 2; i++)
        if (said[i][i].result > 0 || !may_relate(&said[i][!i], &said[i][i], &said[!i][!i]))
            violation("result %d with %zu shared; each path with itself: %d with %zu, %d with %zu", (int)said[i][!i].result,
                      said[i][!i].shared, (int)said[i][i].result, said[i][i].shared, (int)said[!i][!i].result,
                      said[!i][!i].shared);
    if (said[0][1].result >= 0
        && (said[1][0].result != turned[said[0][1].result] || said[1][0].shared != said[0][1].shared))
        violation("result %d with %zu shared, and the other way round %d with %zu", (int)said[0][1].result, said[0][1].shared,
                  (int)said[1][0].result, said[1][0].shared);
}

/* One way round or the other, or both ways and each path with itself. */
static void run_common(void)
{
    static struct compared compared[2];
    struct said said[2][2];
    uint32_t first = below(2);

    lend_two_paths(&compared[0], &compared[1]);
    if (one_in(2)) {
        (void)compare_paths(&compared[first], &compared[!first]);
        return;
    }
    for (int i = 0; i < 2; i++)
        for (int j = 0; j < 2; j++)
            said[i][j] = compare_paths(&compared[i], &compared[j]);
    hold_to_each_other(said);
}

/* ---- the standby: arrivals */

enum { SENT_RECORDS = 32 };

/* Records that linked calls have sent. */
static struct sent_record {
    size_t size;
    uint32_t words[RECORD_WORDS];
} sent_records[SENT_RECORDS];

/* What a main has sent, record after record, and its table after that. */
static struct sent {
    size_t count, starts[MAX_ITEMS + 1]; /* behind the last one, where the next would begin */
    uint32_t words[MAX_ITEMS * RECORD_WORDS];
    uint8_t table[TABLE_BYTES];
} sent;

static void lend_standby(const struct standby *standby)
{
    turn.had = turn.standby = *standby;
    turn.last = lend(LAST, &standby->last, sizeof standby->last);
    turn.highest = lend(HIGHEST, &standby->highest, sizeof standby->highest);
    turn.own_run = lend(OWN_RUN, &standby->run, sizeof standby->run);
    turn.highest_run = lend(HIGHEST_RUN, &standby->highest_run, sizeof standby->highest_run);
}

static void lend_words(const uint32_t *words, size_t size)
{
    turn.words = lend(WORDS, words, size * sizeof words[0]);
    turn.words_size = size;
}

static int32_t expected_arrival(void)
{
    int32_t expected;

    if (!turn.holds || !model_is_standby(&turn.standby))
        return -1;
    expected = model_arrive(&turn.after, &turn.standby, turn.words, turn.words_size);
    if (expected == REPEAT || expected == EARLY)
        full_elsewhere += (unsigned long)is_full_for_record();
    return expected;
}

/* The lent numbers as the header's struct, and back. */
static void put_together(struct permissions_standby *standby)
{
    standby->last = *turn.last;
    standby->highest = *turn.highest;
    standby->run = *turn.own_run;
    standby->highest_run = *turn.highest_run;
}

static void take_apart(const struct permissions_standby *standby)
{
    *turn.last = standby->last;
    *turn.highest = standby->highest;
    *turn.own_run = standby->run;
    *turn.highest_run = standby->highest_run;
}

/* Lends the numbers one by one, at times all together. */
static int32_t call_arrive(void)
{
    struct permissions_standby standby;
    int32_t result;

    next(ARRIVE);
    if (!one_in(4))
        return permissions_arrive(turn.memory, turn.memory_size, turn.last, turn.highest, turn.own_run, turn.highest_run,
                                  turn.words, turn.words_size);
    put_together(&standby);
    result = permissions_standby_arrive(turn.memory, turn.memory_size, &standby, turn.words, turn.words_size);
    take_apart(&standby);
    return result;
}

/* The lent words arrive at the lent standby. */
static int32_t arrive(void)
{
    int32_t expected = expected_arrival(), result;

    if (expected == APPLIED)
        want_table(MEMORY, &turn.after);
    want_standby(&turn.standby);
    copy_memory();
    result = settle(call_arrive(), expected);
    hold_to_answer(result);
    keep_table();
    return result;
}

/* A record that a linked call sent or the model writes, as it is or damaged, an image, or words that are mostly none. */
static size_t make_arriving(uint32_t *words)
{
    const struct sent_record *record = &sent_records[below(SENT_RECORDS)];
    uint8_t path[LONGEST_PATH];
    size_t size = record->size, path_size;

    if (one_in(16))
        return make_words(words);
    if (one_in(64) && turn.holds)
        return model_image(&turn.table, make_run(), make_image_number(), words);
    if (size > 0 && one_in(3)) {
        memcpy(words, record->words, size * sizeof words[0]);
    } else {
        path_size = some_path(path);
        size = make_record(words, make_run(), make_record_number(), path, path_size);
    }
    return one_in(3) ? make_record_damage(words, size) : size;
}

static void run_arrive(void)
{
    static uint32_t words[MOST_WORDS];
    struct standby standby;
    uint32_t run, number;

    lend_memory();
    lend_words(words, make_arriving(words));
    run = arriving_run();
    number = arriving_number();
    make_standby(&standby, run > 0 ? run : make_run(), number > 0 ? number : make_record_number());
    lend_standby(&standby);
    (void)arrive();
}

static void forget_sent(void)
{
    sent.count = sent.starts[0] = 0;
}

/* Adds what a linked call sent, divided at its runs, and keeps one record of all. */
static void take_sent(void)
{
    struct sent_record *record = &sent_records[below(SENT_RECORDS)];
    size_t from = sent.starts[sent.count], size = size_in(NUMBER_3), some;

    memcpy(sent.table, areas[MEMORY].start, sizeof sent.table);
    memcpy(sent.words + from, areas[RECORDS].start, size * sizeof sent.words[0]);
    for (size_t i = from; i < from + size; i++)
        if (sent.words[i] >> 28 == 8)
            sent.starts[sent.count++] = i;
    sent.starts[sent.count] = from + size;
    if (sent.count == 0)
        return;
    some = below((uint32_t)sent.count);
    record->size = sent.starts[some + 1] - sent.starts[some];
    memcpy(record->words, sent.words + sent.starts[some], record->size * sizeof record->words[0]);
}

/* Lends the standby's memory, and nothing else yet. */
static void lend_standby_memory(void)
{
    lend_none();
    turn.slot = &standby_slot;
    turn.memory_size = TABLE_BYTES;
    turn.memory = lend(MEMORY, standby_slot.bytes, turn.memory_size);
    read_memory();
}

/* A record of those arrives at a standby that has the main's table after as many of them as it has applied. */
static int32_t arrive_sent(size_t some, struct standby *standby)
{
    int32_t result;

    lend_standby_memory();
    lend_standby(standby);
    lend_words(sent.words + sent.starts[some], sent.starts[some + 1] - sent.starts[some]);
    result = arrive();
    *standby = standby_in();
    return result;
}

/* ---- images */

/* The image that a call has written last, and the table that it is of. */
static struct sent_image {
    size_t size;
    uint32_t words[IMAGE_WORDS];
    uint8_t table[TABLE_BYTES];
} sent_image;

/* Refusals 2, 3 and 9 of an image of so many words, or 0. */
static int32_t refused_image(size_t size)
{
    if (turn.image_space < size)
        return -2;
    if (!model_is_run(turn.run))
        return -3;
    return turn.first > MAX_NUMBER ? -9 : 0;
}

/* What the writing of an image must leave, whatever the model. */
static void hold_to_image(int32_t result)
{
    size_t size = size_in(NUMBER);
    int as_said = size >= 3 && size <= IMAGE_WORDS && result == refused_image(size);

    if (result == -1)
        as_said = size == 0;
    if (!as_said)
        violation("result %d with an image of %zu words, run %u and number %llu, in a space of %zu", (int)result, size,
                  (unsigned)turn.run, (unsigned long long)turn.first, turn.image_space);
    if (result == 0 && (word_in(IMAGE, 0) != (UINT32_C(8) << 28 | turn.run)
                        || word_in(IMAGE, 1) != (UINT32_C(5) << 28 | (uint32_t)turn.first)))
        violation("an image with another run or number");
}

/* Writes the image of the lent memory with this run and number, into a space of so many words. */
static int32_t write_image(uint32_t run, uint64_t number, size_t space)
{
    static uint32_t words[IMAGE_WORDS];
    size_t size = turn.holds ? model_image(&turn.table, run, (uint32_t)number, words) : 0;
    uint32_t *image = lend(IMAGE, NULL, space * sizeof *image);
    size_t *image_size = lend(NUMBER, NULL, sizeof *image_size);
    int32_t expected, result;

    turn.image_space = space;
    turn.run = run;
    turn.first = number;
    expected = turn.holds ? refused_image(size) : -1;
    if (expected == 0)
        memcpy(wanted(IMAGE), words, size * sizeof words[0]);
    want_size(NUMBER, size);
    next(LINKED_IMAGE);
    result = settle(permissions_linked_image(turn.memory, turn.memory_size, run, number, image, space, image_size), expected);
    hold_to_image(result);
    return result;
}

/* The words of the lent memory's image, or any number of words if it holds no table. */
static size_t due_words(void)
{
    static uint32_t words[IMAGE_WORDS];

    return turn.holds ? model_image(&turn.table, 1, 0, words) : 1 + below(IMAGE_WORDS);
}

/* As many words as are due, or some other number. */
static size_t image_space(size_t due)
{
    if (!one_in(3))
        return due;
    switch (below(6)) {
    case 0: return due - 1;
    case 1: return due + 1;
    case 2: return 0;
    case 3: return IMAGE_WORDS;
    case 4: return below((uint32_t)due);
    default: return due + below(MORE_WORDS);
    }
}

/* Lends the numbers one by one, at times all together. */
static int32_t call_arrive_image(void)
{
    struct permissions_standby standby;
    int32_t result;

    next(ARRIVE_IMAGE);
    if (!one_in(4))
        return permissions_arrive_image(turn.memory, turn.memory_size, turn.last, turn.highest, turn.own_run,
                                        turn.highest_run, turn.words, turn.words_size);
    put_together(&standby);
    result = permissions_standby_arrive_image(turn.memory, turn.memory_size, &standby, turn.words, turn.words_size);
    take_apart(&standby);
    return result;
}

/* The lent words, an image or none, arrive at the lent standby. */
static int32_t arrive_image(void)
{
    int32_t expected = -1, result;

    if (turn.holds && model_is_standby(&turn.standby))
        expected = model_arrive_image(&turn.after, &turn.standby, turn.words, turn.words_size);
    if (expected == TAKEN)
        want_table(MEMORY, &turn.after);
    if (expected == -13)
        images_wrong[model_wrong_image(turn.words, turn.words_size)]++;
    want_standby(&turn.standby);
    copy_memory();
    result = settle(call_arrive_image(), expected);
    hold_to_answer(result);
    keep_table();
    return result;
}

/* The image that was just written arrives at a standby with some table and less than it: then that has the main's table,
 * whatever the model. */
static void take_image(struct standby *standby)
{
    static struct table table;

    sent_image.size = size_in(NUMBER);
    memcpy(sent_image.words, areas[IMAGE].start, sent_image.size * sizeof sent_image.words[0]);
    memcpy(sent_image.table, areas[MEMORY].start, sizeof sent_image.table);
    memcpy(standby_slot.bytes, slots[below(SLOTS)].bytes, TABLE_BYTES);
    lend_standby_memory();
    lend_words(sent_image.words, sent_image.size);
    make_behind_standby(standby, arriving_run(), arriving_number());
    lend_standby(standby);
    if (arrive_image() != TAKEN)
        violation("an image as a main wrote it is not taken");
    *standby = standby_in();
    if (!model_reads(sent_image.table, sizeof sent_image.table, &table)
        || memcmp(sent_image.table, standby_slot.bytes, model_used(&table)) != 0)
        violation("the standby has another table than its main");
    images_followed++;
}

/* The main's table from before the last linked call, which is still kept, goes to another standby by an image. */
static void join(struct standby *standby)
{
    lend_standby_memory();
    if (write_image(turn.run, turn.first, due_words()) != 0)
        violation("a main's table has no image");
    take_image(standby);
}

/* A standby that has taken an image takes it no second time, and has the same one. */
static void take_again(const struct standby *standby)
{
    lend_standby_memory();
    lend_words(sent_image.words, sent_image.size);
    lend_standby(standby);
    if (arrive_image() != REPEAT)
        violation("an image is taken twice");
    lend_standby_memory();
    if (write_image(standby->run, standby->last, due_words()) != 0 || size_in(NUMBER) != sent_image.size
        || memcmp(areas[IMAGE].start, sent_image.words, sent_image.size * sizeof sent_image.words[0]) != 0)
        violation("the standby has another image than its main");
}

/* Writes an image, at times after a look at its size; what is written is taken. */
static void run_image(void)
{
    uint32_t run = make_main_run();
    uint64_t number = one_in(8) ? below(3) : make_main_number();
    size_t due, said = 0;
    struct standby standby;

    lend_memory();
    due = due_words();
    if (one_in(3)) {
        (void)write_image(run, number, 0);
        said = size_in(NUMBER);
    }
    if (write_image(run, number, image_space(due)) != 0) {
        keep_table();
        return;
    }
    if (said > 0 && size_in(NUMBER) != said)
        violation("an image of %zu words, said to be of %zu", size_in(NUMBER), said);
    keep_table();
    take_image(&standby);
    if (one_in(3))
        take_again(&standby);
}

/* The image of a table, as it is or damaged, a record, or words that are mostly none. */
static size_t make_arriving_image(uint32_t *words)
{
    static struct table table;
    size_t size = sent_image.size;

    if (one_in(16))
        return make_image_words(words);
    if (one_in(64))
        return make_record(words, make_run(), make_record_number(), (const uint8_t *)"/a", 2);
    if (size > 0 && one_in(3)) {
        memcpy(words, sent_image.words, size * sizeof words[0]);
    } else if (one_in(2)) {
        (void)model_reads(slots[below(SLOTS)].bytes, TABLE_BYTES, &table);
        size = model_image(&table, make_run(), make_image_number(), words);
    } else {
        size = make_image(words, make_run(), make_image_number(), turn.slot->style);
    }
    return one_in(2) ? make_image_damage(words, size) : size;
}

static void run_arrive_image(void)
{
    static uint32_t words[MOST_WORDS];
    struct standby standby;
    uint32_t run;

    lend_memory();
    lend_words(words, make_arriving_image(words));
    run = arriving_run();
    make_standby(&standby, run > 0 ? run : make_run(), arriving_number());
    lend_standby(&standby);
    (void)arrive_image();
}

/* ---- a main followed */

/* All that a main sent arrives, some of it early or again, at a standby that has what came before, or is of a lower run where
 * nothing did: then that has the main's table, whatever the model. */
static void follow_sent(struct standby *standby)
{
    static struct table table;
    size_t applied = 0;

    while (applied < sent.count && calls < call_limit) {
        size_t some = one_in(4) ? below((uint32_t)sent.count) : applied;
        int32_t due = some < applied ? REPEAT : some == applied ? APPLIED : EARLY;
        int32_t result = arrive_sent(some, standby);
        if (result != due)
            violation("result %d for record %zu of those that a main sent, after %zu", (int)result, some + 1, applied);
        applied += some == applied;
    }
    if (applied < sent.count)
        return;
    if (!model_reads(sent.table, sizeof sent.table, &table)
        || memcmp(sent.table, standby_slot.bytes, model_used(&table)) != 0)
        violation("the standby has another table than its main");
    mains_followed++;
}

/* A standby with the main's table from before the last linked call, at times by an image, follows; at times it has met a higher
 * run, which makes no difference. */
static void follow_main(void)
{
    struct standby standby = {turn.first, turn.first, turn.run, turn.run};

    forget_sent();
    take_sent();
    turn.linked = NULL;
    if (one_in(4)) {
        standby.highest_run += 1 + below(3);
        standby.highest = make_main_number();
    }
    if (one_in(4) && is_room(2))
        join(&standby);
    follow_sent(&standby);
}

/* ---- a run begins */

/* What the beginning of a run must leave, whatever the model. */
static void hold_to_begun(int32_t result)
{
    static const uint8_t fresh[4] = {0};

    if (long_in(MAIN_NUMBER) != (result == 0 ? 0 : turn.first))
        violation("result %d, and the main's number goes from %llu to %llu", (int)result, (unsigned long long)turn.first,
                  (unsigned long long)long_in(MAIN_NUMBER));
    if (result == 0 && memcmp(areas[MEMORY].start, fresh, sizeof fresh) != 0)
        violation("a run begins with a table that is not fresh");
}

/* Begins a run in any memory, with whatever it holds. */
static int32_t begin_run(uint32_t run)
{
    int32_t expected, result;

    turn.slot = &begun_slot;
    turn.memory_size = table_memory_size();
    turn.memory = lend(MEMORY, one_in(2) ? slots[below(SLOTS)].bytes : NULL, turn.memory_size);
    if (turn.memory_size < TABLE_BYTES && one_in(2))
        run = MAX_RUN + 1; /* two things wrong */
    turn.run = run;
    lend_main_number(one_in(4) ? below(3) : make_main_number());
    expected = turn.memory_size < TABLE_BYTES ? -1 : model_is_run(run) ? 0 : -3;
    want_fresh(expected);
    if (expected == 0)
        want_long(MAIN_NUMBER, 0);
    next(BEGIN_RUN);
    result = settle(permissions_begin_run(turn.memory, turn.memory_size, run, turn.number), expected);
    hold_to_begun(result);
    keep_table();
    return result;
}

/* A linked call on the table of the run that has begun; its number afterwards. */
static uint64_t make_change(uint32_t run, uint64_t number)
{
    lend_none();
    turn.memory_size = TABLE_BYTES;
    turn.memory = lend(MEMORY, begun_slot.bytes, turn.memory_size);
    read_memory();
    lend_path();
    lend_main(run, number, RECORD_WORDS);
    switch (below(8)) {
    case 0: do_switches(below(SWITCHES)); break;
    case 1: do_revoke(0); break;
    case 2: do_revoke(1); break;
    default: do_insert(below(KINDS)); break;
    }
    return long_in(MAIN_NUMBER);
}

/* A main makes a few changes in its new run, and a standby of a lower one follows, whatever its table. */
static void follow_begun(uint32_t run)
{
    struct standby standby;
    uint64_t number = 0;

    forget_sent();
    for (uint32_t left = 1 + below(4); left > 0 && calls < call_limit; left--) {
        number = make_change(run, number);
        take_sent();
    }
    turn.linked = NULL;
    memcpy(standby_slot.bytes, slots[below(SLOTS)].bytes, TABLE_BYTES);
    make_lower_standby(&standby, run);
    if (sent.count > 0)
        follow_sent(&standby);
}

static void run_begin(void)
{
    uint32_t run = make_main_run();

    begun_slot.style = (int)below(STYLES);
    if (begin_run(run) == 0 && one_in(2))
        follow_begun(run);
}

/* ---- what is owed */

/* What is owed, whatever the model. */
static void hold_to_owed(int32_t result)
{
    uint64_t has = turn.had.run == turn.had.highest_run ? turn.had.last : 0, owed = long_in(NUMBER);

    if (owed != (result == 0 ? turn.had.highest - has : 0))
        violation("result %d, %llu owed, with %llu of %llu changes of the highest run", (int)result, (unsigned long long)owed,
                  (unsigned long long)has, (unsigned long long)turn.had.highest);
}

static int32_t call_owed(uint64_t *owed)
{
    struct permissions_standby standby = {turn.had.last, turn.had.highest, turn.had.run, turn.had.highest_run};

    next(OWED);
    if (one_in(4))
        return permissions_standby_owed(&standby, owed);
    return permissions_owed(standby.last, standby.highest, standby.run, standby.highest_run, owed);
}

static void run_owed(void)
{
    uint64_t *owed = lend(NUMBER, NULL, sizeof *owed);
    int32_t expected;

    make_standby(&turn.had, make_run(), make_record_number());
    expected = model_is_standby(&turn.had) ? 0 : -1;
    want_long(NUMBER, expected == 0 ? model_owed(&turn.had) : 0);
    hold_to_owed(settle(call_owed(owed), expected));
}

/* ---- a permission without a path */

enum { UNITS = 8 };

/* Their states, kept from call to call, and whether a check has passed since the last revoke. */
static struct unit {
    uint32_t state;
    int has_passed;
} units[UNITS];

static int32_t call_unit(int call, uint32_t *state, uint32_t prompt, uint32_t answer, uint32_t *asked)
{
    if (call == CHECK)
        return permissions_unit_check(state, prompt, answer, asked);
    if (call == REQUEST)
        return permissions_unit_request(state, prompt, answer, asked);
    return permissions_unit_revoke(state);
}

/* What a call must leave, whatever the model: the state that it answers, or as it was; and a pass until a revoke. */
static void hold_to_unit(struct unit *unit, int call, int32_t result)
{
    uint32_t state = number_in(STATE);

    if (state != (result < 0 ? unit->state : (uint32_t)result))
        violation("result %d, and the state goes from %u to %u", (int)result, (unsigned)unit->state, (unsigned)state);
    if (call != UNIT_REVOKE && result < 0 && number_in(NUMBER) != 0)
        violation("refused by %d, and asked", (int)-result);
    if (unit->has_passed && call == CHECK && result > 0)
        violation("fails with %d behind a pass", (int)result);
    unit->has_passed = (unit->has_passed && call != UNIT_REVOKE) || (call == CHECK && result == 0);
    unit->state = state;
}

static void run_unit(void)
{
    static const int made[] = {UNIT_CHECKED, UNIT_REQUESTED, UNIT_REVOKED};
    struct unit *unit = &units[below(UNITS)];
    int call = (int)below(3);
    uint32_t prompt = make_number(2), answer = make_number(ANSWERS), state, told, *lent, *asked = NULL;
    int32_t expected, result;

    if (one_in(3)) {
        unit->state = one_in(2) ? PROMPT : make_number(STATES);
        unit->has_passed = 0;
    }
    if (unit->state >= STATES && one_in(3))
        answer = ANSWERS + below(3); /* two things wrong */
    turn.unit.state = state = unit->state;
    turn.unit.prompt = prompt;
    turn.unit.answer = answer;
    lent = lend(STATE, &state, sizeof state);
    if (call != UNIT_REVOKE)
        asked = lend(NUMBER, NULL, sizeof *asked);
    expected = model_unit(call, &state, prompt, answer, &told);
    want_number(STATE, state);
    if (call != UNIT_REVOKE)
        want_number(NUMBER, told);
    next(made[call]);
    result = settle(call_unit(call, lent, prompt, answer, asked), expected);
    hold_to_unit(unit, call, result);
}

/* ---- the run */

static void run_turn(void)
{
    static void (*const turns[])(void) = {run_insert, run_insert,       run_insert,       run_ask,      run_ask,  run_ask,
                                          run_query,  run_revoke,       run_child,        run_child,    run_used, run_head,
                                          run_arrive, run_arrive,       run_arrive,       run_switches, run_owed, run_entry,
                                          run_image,  run_arrive_image, run_arrive_image, run_unit,     run_begin,
                                          run_common, run_common};
    void (*run)(void) = one_in(80) ? run_fresh : turns[below(sizeof turns / sizeof turns[0])];

    lend_none();
    turn.linked = NULL;
    if (!is_room(5) && (run == run_ask || run == run_image || run == run_common))
        run = run_used; /* the others make three calls, up to five, and up to four */
    run();
    if (turn.linked != NULL && size_in(NUMBER_3) > 0)
        follow_main();
}

static void print_count(unsigned long count)
{
    if (count > 0)
        printf(" %7lu", count);
    else
        printf("       .");
}

/* A row for each function: its calls, then how often each answer came and each refusal. */
static void print_row(int function)
{
    unsigned long sum = 0;

    for (int answer = 0; answer <= GREATEST_STATE + 1; answer++)
        sum += answers_seen[function][answer];
    for (int cause = 1; cause <= GREATEST_CAUSE; cause++)
        sum += causes_seen[function][cause];
    printf("%-18s", functions[function].name);
    print_count(sum);
    for (int answer = 0; answer <= GREATEST_STATE + 1; answer++)
        print_count(answers_seen[function][answer]);
    for (int cause = 1; cause <= GREATEST_CAUSE; cause++)
        print_count(causes_seen[function][cause]);
    printf("\n");
}

/* How many images had this one thing wrong, and nothing else. */
static void print_wrong_images(void)
{
    static const struct {
        const char *name;
        uint32_t wrong;
    } wrongs[] = {{"a kind", WRONG_KIND}, {"words missing", WRONG_SHORT}, {"a length", WRONG_LENGTH},
                  {"what is not used", WRONG_UNUSED}, {"words left over", WRONG_OVER}, {"a path", WRONG_PATH},
                  {"over 256 entries", WRONG_COUNT}, {"over 32,768 bytes", WRONG_SUM}, {"the marks", WRONG_MARKS},
                  {"run 0", WRONG_RUN}};

    printf("images with one thing wrong:");
    for (size_t i = 0; i < sizeof wrongs / sizeof wrongs[0]; i++)
        printf("%s %s %lu", i > 0 ? "," : "", wrongs[i].name, images_wrong[wrongs[i].wrong]);
    printf("\n");
}

static void print_report(void)
{
    printf("%-18s   calls", "function");
    for (int answer = 0; answer <= GREATEST_STATE; answer++)
        printf(" %7d", answer);
    printf("   above");
    for (int cause = 1; cause <= GREATEST_CAUSE; cause++)
        printf(" %7d", -cause);
    printf("\n");
    for (int i = 0; i < FUNCTIONS; i++)
        print_row(i);
    printf("memory held a table %lu times, with 256 entries %lu, with no room for 1,024 bytes %lu; none %lu times\n",
           tables_seen, full_by_entries, full_by_bytes, none_seen);
    printf("refusal 8 outside the child call: %lu with 256 entries, %lu by the sum of path lengths\n", refused_by_entries,
           refused_by_bytes);
    printf("%lu records, %lu of them of refused child calls\n", records_seen, records_of_refused);
    printf("%lu arrivals Applied, %lu Repeat, %lu Early\n", answers_seen[ARRIVE][APPLIED], answers_seen[ARRIVE][REPEAT],
           answers_seen[ARRIVE][EARLY]);
    printf("arrivals at a full table: %lu next ones refused by 8, %lu of them with 256 entries; %lu Repeat or Early\n",
           causes_seen[ARRIVE][8], arrivals_by_entries, full_elsewhere);
    printf("%lu times the records of a linked call brought a standby to the main's table\n", mains_followed);
    printf("%lu images written, %lu Taken, %lu Repeat, %lu refused by 13; %lu times one brought a standby to the main's table\n",
           answers_seen[LINKED_IMAGE][0], answers_seen[ARRIVE_IMAGE][TAKEN], answers_seen[ARRIVE_IMAGE][REPEAT],
           causes_seen[ARRIVE_IMAGE][13], images_followed);
    print_wrong_images();
    printf("two paths shared at most %zu components\n", most_shared);
    printf("hostile: %lu calls, seed %lu, 0 violations\n", calls, seed);
}

static unsigned long number_argument(const char *text)
{
    char *end;
    unsigned long number = strtoul(text, &end, 10);

    if (*text < '0' || *text > '9' || *end != '\0') {
        fprintf(stderr, "hostile: %s is no number; see hostile --help\n", text);
        exit(2);
    }
    return number;
}

static void read_arguments(int count, char **arguments)
{
    if (count == 2 && strcmp(arguments[1], "--help") == 0) {
        printf("usage: hostile [CALLS [SEED]]\n"
               "Makes CALLS random calls (100000) from SEED (1) with hostile input, and holds each against a model.\n"
               "Exit status: 0 no violation, 1 a violation (one line says which), 2 wrong usage.\n");
        exit(0);
    }
    if (count > MOST_ARGUMENTS) {
        fprintf(stderr, "usage: hostile [CALLS [SEED]]\n");
        exit(2);
    }
    if (count > 1)
        call_limit = number_argument(arguments[1]);
    if (count > 2)
        seed = number_argument(arguments[2]);
#ifdef BREAK
    if (count > 3)
        fault = number_argument(arguments[3]);
#endif
}

int main(int count, char **arguments)
{
    read_arguments(count, arguments);
    make_seed(seed);
    make_areas();
    watch_signals();
    for (int i = 0; i < SLOTS; i++) {
        make_noise(slots[i].bytes, sizeof slots[i].bytes);
        slots[i].style = i % STYLES;
        make_table(slots[i].bytes, slots[i].style);
    }
    for (unsigned long turns = 0; calls < call_limit; turns++) {
        if (turns % 1024 == 0)
            alarm(PATIENCE_SECONDS);
        run_turn();
    }
    print_report();
    return 0;
}
