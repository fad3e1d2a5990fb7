/* The main: runs that rise, random linked calls, what stands after each of its changes, and images. */
#include "mainside.h"
#include "areas.h"
#include "chance.h"
#include "link.h"
#include "permissions.h"
#include "words.h"

#include <stdlib.h>
#include <string.h>

enum { TABLE = PERMISSIONS_TABLE_BYTES, TEXT = PERMISSIONS_TEXT_BYTES, RECORD = PERMISSIONS_RECORD_WORDS };
enum { MOST_ITEMS = PERMISSIONS_MAX_ITEMS, MOST_WORDS = MOST_ITEMS * RECORD };
enum { IMAGE = PERMISSIONS_IMAGE_WORDS, IMAGE_EXTRA = 40 };
enum { PATTERN = 0xA5 };

struct history history;
struct caller the_main;

/* ---- tables */

size_t used(const unsigned char *memory)
{
    int32_t size = permissions_used(memory, TABLE);

    if (size < 0)
        fault("memory holds no table");
    return (size_t)size;
}

int same_table(const unsigned char *one, const unsigned char *other)
{
    size_t size = used(one);

    return size == used(other) && memcmp(one, other, size) == 0;
}

/* ---- the history */

static void *copy_of(const void *bytes, size_t size)
{
    void *copy = malloc(size);

    if (copy == NULL)
        fault("no memory is left");
    return memcpy(copy, bytes, size);
}

static void keep_table(struct place *place, const unsigned char *memory)
{
    place->table_size = used(memory);
    place->table = copy_of(memory, place->table_size);
}

static void clear_history(void)
{
    static const unsigned char fresh[FRESH_BYTES];

    for (size_t i = 0; i <= history.last; i++) {
        free(history.places[i].words);
        free(history.places[i].table);
        free(history.places[i].image);
    }
    memset(&history, 0, sizeof history);
    history.places[0].table_size = FRESH_BYTES;
    history.places[0].table = copy_of(fresh, FRESH_BYTES);
}

size_t place_of(uint32_t run, uint64_t number)
{
    size_t place = history.last;
    uint64_t back;

    while (history.places[place].run > run)
        place--;
    back = history.places[place].number - number;
    place -= back < place ? (size_t)back : place;
    if (history.places[place].run != run || history.places[place].number != number)
        fault("the main never had the number %lu in run %lu", (unsigned long)number, (unsigned long)run);
    return place;
}

/* ---- one call, with all that it is lent */

enum { INSERT, SWITCHES, CHECK, CHECK_ALL, REQUEST, REQUEST_ALL, REVOKE, REVOKE_ALL, CHILD, QUERY, CALLS };

/* Their names, and how often each is made, of a hundred. */
static const struct {
    const char *name;
    uint32_t share;
} calls[CALLS] = {
    [INSERT] = {"insert", 40},          [SWITCHES] = {"switches", 9},
    [CHECK] = {"check", 13},            [CHECK_ALL] = {"check_all", 3},
    [REQUEST] = {"request", 11},        [REQUEST_ALL] = {"request_all", 2},
    [REVOKE] = {"revoke", 7},           [REVOKE_ALL] = {"revoke_all", 1},
    [CHILD] = {"child", 10},            [QUERY] = {"query", 4},
};

/* What is wrong with a call on purpose. */
enum { RIGHT, SHORT_MEMORY, SHORT_TEXT, SHORT_RECORDS, UNKNOWN_NUMBER, REFUSED_PATH, WRONGS };

static struct call {
    int kind, wrong;
    uint32_t run; /* the caller's, or at times a number that no run has */
    struct given given;
    uint32_t word; /* the entry's kind, the switches or the mode */
    uint32_t answer;
    /* of a child call */
    uint32_t code;
    size_t items_size, count, answers_count;
    unsigned char items[MOST_ITEMS * PATH_ROOM];
    uint32_t ends[MOST_ITEMS], answers[MOST_ITEMS];
    /* what came out */
    int32_t result;
    uint32_t asked;
    size_t text_size, records_size;
} call;

/* The ends of the lent areas, and what the memory held before the call. */
static unsigned char *path_end, *directory_end, *text_end, *records_end, *child_end, *items_end, *ends_end, *answers_end;
static unsigned char *image_end;
static unsigned char before[TABLE];

static void make_areas(void)
{
    if (path_end != NULL)
        return;
    the_main.memory = make_area(TABLE) - TABLE;
    path_end = make_area(PATH_ROOM);
    directory_end = make_area(PATH_ROOM);
    text_end = make_area(TEXT);
    records_end = make_area(MOST_WORDS * sizeof(uint32_t));
    child_end = make_area(TABLE);
    items_end = make_area(sizeof call.items);
    ends_end = make_area(sizeof call.ends);
    answers_end = make_area(sizeof call.answers);
    image_end = make_area((IMAGE + IMAGE_EXTRA) * sizeof(uint32_t));
}

/* Contents as an area that ends where it must. */
static void *lend(unsigned char *end, const void *contents, size_t size)
{
    return size == 0 ? end : memcpy(end - size, contents, size);
}

/* Whether nothing was written from here up to an area's end. */
static int is_untouched(const void *from, const unsigned char *end)
{
    const unsigned char *byte = from;

    while (byte < end && *byte == PATTERN)
        byte++;
    return byte == end;
}

/* ---- what a call is handed, at random */

static uint32_t random_switches(void)
{
    if (one_in(6))
        return below(32);
    return PERMISSIONS_SWITCH_PROMPT | (one_in(6) ? 1u << below(4) : 0);
}

/* Mostly an answer about the one path. */
static uint32_t random_answer(void)
{
    return one_in(10) ? PERMISSIONS_ANSWER_ALLOW_ALL : below(2);
}

/* A number that no run has; it may have one in its low bits. */
static uint32_t no_run(void)
{
    switch (below(4)) {
    case 0: return PERMISSIONS_MAX_RUN + 1;
    case 1: return PERMISSIONS_MAX_RUN + 1 + below(UINT32_MAX - PERMISSIONS_MAX_RUN);
    case 2: return UINT32_MAX;
    default: return 0;
    }
}

static void add_item(const struct profile *profile, const unsigned char *memory)
{
    struct given item;

    if (one_in(20))
        make_refused_path(&item);
    else
        make_path(&item, profile, memory);
    if (item.directory_size > 0) {
        call.given.directory_size = item.directory_size;
        memcpy(call.given.directory, item.directory, item.directory_size);
    }
    memcpy(call.items + call.items_size, item.path, item.path_size);
    call.items_size += item.path_size;
    call.ends[call.count] = (uint32_t)call.items_size;
    call.answers[call.count] = one_in(2) ? PERMISSIONS_ANSWER_ALLOW : random_answer();
    call.count++;
}

static void make_child(const struct profile *profile, const unsigned char *memory)
{
    uint32_t items = one_in(10) ? below(MOST_ITEMS + 1) : below(6);

    call.code = percent(70) ? PERMISSIONS_CHILD_LIST : below(3);
    call.given.directory_size = 0;
    if (call.code == PERMISSIONS_CHILD_LIST)
        while (call.count < items)
            add_item(profile, memory);
    call.answers_count = call.count;
    if (call.code == PERMISSIONS_CHILD_GRANTED)
        call.answers[call.answers_count++] = random_answer();
    if (call.wrong == UNKNOWN_NUMBER)
        call.code = 4;
}

static int random_kind(void)
{
    uint32_t at = below(100);
    int kind = 0;

    while (at >= calls[kind].share)
        at -= calls[kind++].share;
    return kind;
}

static void make_call(const struct caller *caller, const struct profile *profile)
{
    call.kind = random_kind();
    call.wrong = percent(4) ? (int)below(WRONGS) : RIGHT;
    call.run = percent(2) ? no_run() : caller->run;
    call.count = call.items_size = call.answers_count = 0;
    if (call.wrong == REFUSED_PATH)
        make_refused_path(&call.given);
    else
        make_path(&call.given, profile, caller->memory);
    call.answer = random_answer();
    call.word = call.kind == SWITCHES ? random_switches() : below(call.kind == QUERY ? 3 : 4);
    if (call.wrong == UNKNOWN_NUMBER) {
        call.answer += 3;
        call.word += 32;
    }
    if (call.kind == CHILD)
        make_child(profile, caller->memory);
}

/* ---- the call is made */

/* What is lent to it. */
static struct {
    unsigned char *memory;
    size_t memory_size, path_size, directory_size, text_space, records_space;
    uint64_t *number;
    const void *path, *directory;
    void *text;
    uint32_t *records;
} lent;

static void lend_all(struct caller *caller)
{
    lent.memory = caller->memory;
    lent.memory_size = TABLE - (call.wrong == SHORT_MEMORY);
    lent.number = &caller->number;
    lent.path_size = call.given.path_size;
    lent.path = lend(path_end, call.given.path, lent.path_size);
    lent.directory_size = call.given.directory_size;
    lent.directory = lend(directory_end, call.given.directory, lent.directory_size);
    lent.text_space = TEXT - (call.wrong == SHORT_TEXT);
    lent.text = text_end - lent.text_space;
    lent.records_space = RECORD * (call.count > 1 ? call.count : 1) - (call.wrong == SHORT_RECORDS);
    lent.records = (uint32_t *)(void *)(records_end - lent.records_space * sizeof(uint32_t));
    memcpy(before, lent.memory, TABLE);
    memset(lent.records, PATTERN, lent.records_space * sizeof(uint32_t));
    memset(lent.text, PATTERN, lent.text_space);
    call.asked = 0;
    call.text_size = call.records_size = 0;
}

#define MEMORY lent.memory, lent.memory_size, call.run, lent.number
#define PATH lent.path, lent.path_size, lent.directory, lent.directory_size
#define ANSWER call.answer, lent.text, lent.text_space
#define RECORDS lent.records, lent.records_space
#define RESULTS &call.asked, &call.text_size, &call.records_size

static int32_t call_child(void)
{
    const void *items = lend(items_end, call.items, call.items_size);
    const void *ends = lend(ends_end, call.ends, call.count * sizeof(uint32_t));
    const void *answers = lend(answers_end, call.answers, call.answers_count * sizeof(uint32_t));

    return permissions_linked_child(MEMORY, child_end - TABLE, TABLE, call.code, items, call.items_size, ends, call.count, answers,
                                    call.answers_count, lent.directory, lent.directory_size, RECORDS, &call.asked,
                                    &call.records_size);
}

static int32_t result_of_call(void)
{
    switch (call.kind) {
    case INSERT: return permissions_linked_insert(MEMORY, call.word, PATH, RECORDS, &call.records_size);
    case SWITCHES: return permissions_linked_switches(MEMORY, call.word, RECORDS, &call.records_size);
    case CHECK: return permissions_linked_check(MEMORY, PATH, ANSWER, RECORDS, RESULTS);
    case CHECK_ALL: return permissions_linked_check_all(MEMORY, ANSWER, RECORDS, RESULTS);
    case REQUEST: return permissions_linked_request(MEMORY, PATH, ANSWER, RECORDS, RESULTS);
    case REQUEST_ALL: return permissions_linked_request_all(MEMORY, ANSWER, RECORDS, RESULTS);
    case REVOKE: return permissions_linked_revoke(MEMORY, PATH, RECORDS, &call.records_size);
    case REVOKE_ALL: return permissions_linked_revoke_all(MEMORY, RECORDS, &call.records_size);
    case CHILD: return call_child();
    default: return permissions_query(lent.memory, lent.memory_size, call.word, PATH);
    }
}

/* The refusal of a call that is handed a number which no run has: by 3, unless an area that is too small comes first. */
static int32_t refusal_of_no_run(void)
{
    int has_text = call.kind == CHECK || call.kind == CHECK_ALL || call.kind == REQUEST || call.kind == REQUEST_ALL;

    if (call.wrong == SHORT_MEMORY)
        return PERMISSIONS_REFUSAL_NO_TABLE;
    if (call.wrong == SHORT_RECORDS || (call.wrong == SHORT_TEXT && has_text))
        return PERMISSIONS_REFUSAL_NO_SPACE;
    return PERMISSIONS_REFUSAL_UNKNOWN;
}

/* Such a call leaves every area and the number as they were. */
static void hold_no_run(uint64_t number)
{
    const char *name = calls[call.kind].name;

    if (call.result != refusal_of_no_run())
        fault("%s with the run %lu is answered %d, not %d", name, (unsigned long)call.run, (int)call.result,
              (int)refusal_of_no_run());
    if (*lent.number != number || memcmp(before, lent.memory, TABLE) != 0)
        fault("%s with the run %lu changed the table or the number", name, (unsigned long)call.run);
    if (call.asked != 0 || call.text_size != 0 || call.records_size != 0 || !is_untouched(lent.text, text_end) ||
        !is_untouched(lent.records, records_end) || (call.kind == CHILD && !is_untouched(child_end - TABLE, child_end)))
        fault("%s with the run %lu asked, or wrote a text, records or a child", name, (unsigned long)call.run);
    counts.no_runs++;
}

/* A query is the one call that is handed no run. */
static void do_call(struct caller *caller)
{
    uint64_t number = caller->number;
    int has_no_run = call.run != caller->run && call.kind != QUERY;

    lend_all(caller);
    if (has_no_run)
        memset(child_end - TABLE, PATTERN, TABLE);
    call.result = result_of_call();
    if (has_no_run)
        hold_no_run(number);
}

/* ---- what came out */

/* What is behind the records that the call wrote must be as it was. */
static void hold_record_space(void)
{
    if (call.records_size > lent.records_space)
        fault("%s says that it wrote %lu words into %lu", calls[call.kind].name, (unsigned long)call.records_size,
              (unsigned long)lent.records_space);
    if (!is_untouched(lent.records + call.records_size, records_end))
        fault("%s wrote behind its records", calls[call.kind].name);
}

/* The words up to the next run word, at which the next record begins. */
static size_t record_length(const uint32_t *words, size_t count)
{
    size_t length = 1;

    while (length < count && words[length] >> 28 != RUN_KIND >> 28)
        length++;
    return length;
}

/* A record begins with the main's run and its number. */
static void hold_front(const uint32_t *words, uint64_t number)
{
    if (words[RUN_WORD] != (RUN_KIND | the_main.run))
        fault("a record begins with %08lX in run %lu", (unsigned long)words[RUN_WORD], (unsigned long)the_main.run);
    if (number_of_words(words) != number)
        fault("a record has the number %lu, not %lu", (unsigned long)number_of_words(words), (unsigned long)number);
}

/* The call's records go to the history, one for each act, numbered on. */
static void keep_records(size_t acts)
{
    const uint32_t *words = lent.records;
    size_t at = 0;

    for (size_t i = 1; i <= acts; i++) {
        struct place *place = &history.places[history.last + i];
        if (call.records_size - at <= NUMBER_WORD)
            fault("%s made %lu acts and fewer records", calls[call.kind].name, (unsigned long)acts);
        place->run = the_main.run;
        place->number = history.places[history.last].number + i;
        hold_front(words + at, place->number);
        place->words_count = record_length(words + at, call.records_size - at);
        place->words = copy_of(words + at, place->words_count * sizeof(uint32_t));
        at += place->words_count;
    }
    if (at != call.records_size)
        fault("%s wrote more records than it made acts", calls[call.kind].name);
}

/* The check of an item, or of no path for code GRANTED, as a plain call. */
static void check_item(unsigned char *memory, size_t item, uint32_t *asked)
{
    static char text[TEXT];
    size_t text_size, start = item == 0 ? 0 : call.ends[item - 1];
    int32_t result;

    if (call.code == PERMISSIONS_CHILD_LIST)
        result = permissions_check(memory, TABLE, call.items + start, call.ends[item] - start, call.given.directory,
                                   call.given.directory_size, call.answers[item], text, TEXT, asked, &text_size);
    else
        result = permissions_check_all(memory, TABLE, call.answers[item], text, TEXT, asked, &text_size);
    if (result == PERMISSIONS_REFUSAL_NO_TABLE)
        fault("a copy of the parent holds no table");
}

/* The tables after each act of a child call: the items' checks are made one by one, on a copy of the parent as it was. */
static void keep_tables_between(size_t acts)
{
    static unsigned char copy[TABLE];
    size_t made = 0;

    memcpy(copy, before, TABLE);
    for (size_t item = 0; item < call.answers_count && made < acts; item++) {
        uint32_t asked;
        check_item(copy, item, &asked);
        if (asked)
            keep_table(&history.places[history.last + ++made], copy);
    }
    if (made != acts)
        fault("a child call made %lu acts, and its items one by one make %lu", (unsigned long)acts, (unsigned long)made);
    if (!same_table(copy, the_main.memory))
        fault("a child call and its items one by one leave different tables");
}

static void count_call(size_t acts)
{
    counts.calls++;
    counts.changes += acts;
    if (call.result < 0)
        counts.refused[-call.result]++;
    counts.children_kept += call.result < 0 && acts > 0;
    counts.children_several += acts > 1;
}

/* ---- a run begins */

void begin_main(uint32_t run, uint64_t number)
{
    make_areas();
    clear_history();
    begin_run(run);
    history.places[history.last].number = the_main.number = number;
}

/* On another board neither the memory nor the number is what the main had. */
static void change_board(void)
{
    make_noise(the_main.memory, TABLE);
    make_noise(&the_main.number, sizeof the_main.number);
}

void begin_run(uint32_t run)
{
    struct place *place = &history.places[++history.last];

    if (one_in(2) || history.last == 1)
        change_board();
    memcpy(before, the_main.memory, TABLE);
    if (permissions_begin_run(the_main.memory, TABLE, run, &the_main.number) != 0)
        fault("run %lu does not begin", (unsigned long)run);
    if (the_main.number != 0)
        fault("run %lu begins with the number %lu", (unsigned long)run, (unsigned long)the_main.number);
    keep_table(place, the_main.memory);
    if (place->table_size != FRESH_BYTES || memcmp(place->table, history.places[0].table, FRESH_BYTES) != 0)
        fault("run %lu begins with a table that is not fresh", (unsigned long)run);
    if (memcmp(before + FRESH_BYTES, the_main.memory + FRESH_BYTES, TABLE - FRESH_BYTES) != 0)
        fault("the beginning of run %lu changed a byte behind the table", (unsigned long)run);
    place->run = the_main.run = run;
    history.begun = history.last;
    counts.runs++;
}

/* The memory is too small, which comes first, or the number is none of a run's. */
void begin_run_refused(void)
{
    size_t size = one_in(2) ? TABLE : below(TABLE);
    uint32_t run = size < TABLE && one_in(2) ? the_main.run : no_run();
    int32_t result, wanted = size < TABLE ? PERMISSIONS_REFUSAL_NO_TABLE : PERMISSIONS_REFUSAL_UNKNOWN;
    uint64_t number = the_main.number;

    memcpy(before, the_main.memory, TABLE);
    result = permissions_begin_run(the_main.memory + TABLE - size, size, run, &the_main.number);
    if (result != wanted)
        fault("the beginning of run %lu in %lu bytes is answered %d, not %d", (unsigned long)run, (unsigned long)size,
              (int)result, (int)wanted);
    if (the_main.number != number || memcmp(before, the_main.memory, TABLE) != 0)
        fault("a beginning that is refused by %d changed the table or the number", (int)-result);
    counts.begins_refused[-result]++;
}

/* ---- a call of the main */

void call_main(const struct profile *profile)
{
    uint64_t number = the_main.number;
    size_t acts;

    make_call(&the_main, profile);
    do_call(&the_main);
    hold_record_space();
    acts = (size_t)(the_main.number - number);
    if (acts > (call.kind == CHILD ? MOST_ACTS : 1))
        fault("%s made %lu acts", calls[call.kind].name, (unsigned long)acts);
    if (acts > 0 && call.kind != CHILD && call.result < 0)
        fault("%s was refused by %d and took a number", calls[call.kind].name, (int)-call.result);
    if (acts == 0 && memcmp(before, the_main.memory, TABLE) != 0)
        fault("%s changed the table without a record, result %d", calls[call.kind].name, (int)call.result);
    keep_records(acts);
    if (call.kind == CHILD)
        keep_tables_between(acts);
    else if (acts == 1)
        keep_table(&history.places[history.last + 1], the_main.memory);
    history.last += acts;
    history.changes += acts;
    count_call(acts);
}

/* ---- images */

/* Space for so many words, at the end of the lent area. */
static uint32_t *image_space(size_t words)
{
    return (uint32_t *)(void *)(image_end - words * sizeof(uint32_t));
}

/* What an image call is handed beside the memory and the space themselves. */
struct image_call {
    size_t memory_size;
    uint32_t run;
    uint64_t number;
    size_t space;
};

/* Makes the call, which may write the first `writes` words of its space and nothing else. */
static int32_t call_image(const struct caller *caller, const struct image_call *with, size_t writes, size_t *size)
{
    uint32_t *space = image_space(with->space);
    int32_t result;

    memcpy(before, caller->memory, TABLE);
    memset(space, PATTERN, with->space * sizeof(uint32_t));
    *size = 99;
    result = permissions_linked_image(caller->memory, with->memory_size, with->run, with->number, space, with->space, size);
    if (memcmp(before, caller->memory, TABLE) != 0)
        fault("an image changed the table");
    if (!is_untouched(space + writes, image_end))
        fault("an image, answered %d, wrote more than %lu words", (int)result, (unsigned long)writes);
    return result;
}

static uint64_t number_above(uint64_t number)
{
    switch (below(4)) {
    case 0: return PERMISSIONS_MAX_NUMBER + UINT64_C(1);
    case 1: return number + (UINT64_C(1) << 24);
    case 2: return number + (UINT64_C(1) << 32);
    default: return UINT64_MAX;
    }
}

/* Something is wrong with the call, or several things are. Of several the last one put in here is looked for first.
 * Result: the refusal; 0 where nothing is wrong. */
static int32_t make_image_refused(struct image_call *with)
{
    int32_t wanted = 0;

    if (one_in(3)) {
        with->number = number_above(with->number);
        wanted = PERMISSIONS_REFUSAL_NUMBERS_USED_UP;
    }
    if (one_in(3)) {
        with->run = no_run();
        wanted = PERMISSIONS_REFUSAL_UNKNOWN;
    }
    if (one_in(3)) {
        with->space -= 1 + (one_in(2) ? below((uint32_t)with->space) : 0);
        wanted = PERMISSIONS_REFUSAL_NO_SPACE;
    }
    if (one_in(3)) {
        with->memory_size--;
        wanted = PERMISSIONS_REFUSAL_NO_TABLE;
    }
    return wanted;
}

/* A call that must be refused, write nothing, and tell the image's size, if there is a table. */
static void try_refused_image(const struct caller *caller, size_t image_size)
{
    struct image_call with = {TABLE, caller->run, caller->number, image_size};
    int32_t result, wanted = make_image_refused(&with);
    size_t size, wanted_size = wanted == PERMISSIONS_REFUSAL_NO_TABLE ? 0 : image_size;

    if (wanted == 0)
        return;
    result = call_image(caller, &with, 0, &size);
    if (result != wanted || size != wanted_size)
        fault("an image with the run %lu is answered %d with %lu words, not %d with %lu", (unsigned long)with.run, (int)result,
              (unsigned long)size, (int)wanted, (unsigned long)wanted_size);
    counts.images_refused[-result]++;
}

/* The words of a caller's image, and how many: the size is asked for first, then there is room for it and at times for more. */
static const uint32_t *image_of(const struct caller *caller, size_t *size)
{
    struct image_call with = {TABLE, caller->run, caller->number, 0};
    size_t told;

    if (call_image(caller, &with, 0, &told) != PERMISSIONS_REFUSAL_NO_SPACE || told <= NEXT_WORD || told > IMAGE)
        fault("an image does not tell its size with no space");
    if (one_in(4))
        try_refused_image(caller, told);
    with.space = told + (one_in(2) ? below(IMAGE_EXTRA + 1) : 0);
    if (call_image(caller, &with, told, size) != 0 || *size != told)
        fault("an image of %lu words is refused, or has %lu", (unsigned long)told, (unsigned long)*size);
    return image_space(with.space);
}

void write_image(void)
{
    static unsigned char memory[TABLE];
    struct place *place = &history.places[history.last];
    size_t count;
    const uint32_t *words = image_of(&the_main, &count);

    if (read_image(words, count, memory) != place->table_size || memcmp(memory, place->table, place->table_size) != 0)
        fault("an image does not say the main's table");
    if (run_of_words(words) != place->run || number_of_words(words) != place->number)
        fault("an image has the run %lu and the number %lu, not %lu and %lu", (unsigned long)run_of_words(words),
              (unsigned long)number_of_words(words), (unsigned long)place->run, (unsigned long)place->number);
    counts.images++;
    if (count > counts.largest_image)
        counts.largest_image = count;
    if (place->image != NULL)
        return;
    place->image_count = count;
    place->image = copy_of(words, count * sizeof(uint32_t));
}

/* Takes the run out of every run word, each of which must have this one, so that what two callers wrote can be compared. */
static void take_run_out(uint32_t *words, size_t count, uint32_t run)
{
    for (size_t i = 0; i < count; i++)
        if (words[i] >> 28 == RUN_KIND >> 28) {
            if (words[i] != (RUN_KIND | run))
                fault("a run word is %08lX in run %lu", (unsigned long)words[i], (unsigned long)run);
            words[i] = RUN_KIND;
        }
}

static void copy_image(const struct caller *caller, uint32_t *copy, size_t *size)
{
    const uint32_t *words = image_of(caller, size);

    memcpy(copy, words, *size * sizeof(uint32_t));
    take_run_out(copy, *size, caller->run);
}

/* Whether two callers write the same image, but for their runs. */
static int same_image(const struct caller *one, const struct caller *other)
{
    static uint32_t first[IMAGE], second[IMAGE];
    size_t first_size, second_size;

    copy_image(one, first, &first_size);
    copy_image(other, second, &second_size);
    return first_size == second_size && memcmp(first, second, first_size * sizeof(uint32_t)) == 0;
}

/* ---- two callers with one table */

struct outcome {
    int32_t result;
    uint32_t asked;
    size_t text_size, records_size;
    uint64_t number;
    unsigned char text[TEXT], child[TABLE];
    uint32_t records[MOST_WORDS];
};

static void take_outcome(struct outcome *out, const struct caller *caller)
{
    out->result = call.result;
    out->asked = call.asked;
    out->text_size = call.text_size;
    out->records_size = call.records_size;
    out->number = caller->number;
    memcpy(out->text, text_end - TEXT, TEXT);
    memcpy(out->child, child_end - TABLE, TABLE);
    hold_record_space();
    memcpy(out->records, lent.records, call.records_size * sizeof(uint32_t));
    take_run_out(out->records, out->records_size, caller->run);
}

void go_on_alike(struct caller *one, struct caller *other, const struct profile *profile, int times)
{
    static struct outcome first, second;

    while (times-- > 0) {
        uint64_t drawn = chance;
        make_call(one, profile);
        do_call(one);
        take_outcome(&first, one);
        chance = drawn;
        make_call(other, profile);
        do_call(other);
        take_outcome(&second, other);
        if (first.result != second.result || first.asked != second.asked || first.number != second.number ||
            first.text_size != second.text_size || memcmp(first.text, second.text, first.text_size) != 0)
            fault("after the takeover %s answers %d, not %d", calls[call.kind].name, (int)second.result, (int)first.result);
        if (first.records_size != second.records_size ||
            memcmp(first.records, second.records, first.records_size * sizeof(uint32_t)) != 0)
            fault("after the takeover %s writes other records", calls[call.kind].name);
        if (!same_table(one->memory, other->memory))
            fault("after the takeover %s leaves another table", calls[call.kind].name);
        if (call.kind == CHILD && call.result == 0 && !same_table(first.child, second.child))
            fault("after the takeover the child is another one");
        counts.went_on++;
    }
    if (!same_image(one, other))
        fault("after the takeover the image is another one");
}
