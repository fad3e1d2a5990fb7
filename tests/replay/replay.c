/* replay: reads a call script from standard input, makes its calls on the library, and writes the answer to each. The
 * format is docs/CALL-SCRIPT.md; `calls`, near the end, names the calls that are known, and any other name makes a bad line.
 *
 * Whatever is lent to the library ends at a page that can neither be read nor written, so a byte touched behind it stops
 * the program.
 */
#define _DEFAULT_SOURCE /* mmap's MAP_ANONYMOUS, and getline */

#include <errno.h>
#include <inttypes.h>
#include <stdbool.h>
#include <stdio.h>
#include <stdlib.h>
#include <string.h>
#include <sys/mman.h>
#include <unistd.h>

#include "permissions.h"

/* Ends the program, with what errno says where the cause is the system's. */
static void fail(const char *what, int error)
{
    if (error != 0)
        fprintf(stderr, "replay: %s: %s\n", what, strerror(error));
    else
        fprintf(stderr, "replay: %s\n", what);
    exit(1);
}

/* ---- areas to lend ---- */

/* Memory that ends at a forbidden page. The end is NULL before the first use. */
struct area {
    unsigned char *end; /* the forbidden page */
    size_t size;        /* how many bytes before it there are */
};

static size_t page_size(void)
{
    return (size_t)sysconf(_SC_PAGESIZE);
}

/* Makes an area of whole pages, with room for `size` bytes. */
static void make_area(struct area *area, size_t size)
{
    size_t page = page_size();
    size_t usable = (size + page - 1) / page * page;
    unsigned char *start = mmap(NULL, usable + page, PROT_READ | PROT_WRITE, MAP_PRIVATE | MAP_ANONYMOUS, -1, 0);

    if (start == MAP_FAILED)
        fail("no memory to lend", errno);
    if (mprotect(start + usable, page, PROT_NONE) != 0)
        fail("no page can be forbidden", errno);
    area->end = start + usable;
    area->size = usable;
}

/* The last `size` bytes of an area, with anything in them; of no bytes, the forbidden page. */
static unsigned char *lend(struct area *area, size_t size)
{
    if (area->end != NULL && size > area->size) {
        munmap(area->end - area->size, area->size + page_size());
        area->end = NULL;
    }
    if (area->end == NULL)
        make_area(area, size);
    return area->end - size;
}

/* ---- the words of a line ---- */

struct bytes {
    unsigned char *start;
    size_t size;
};

/* A line without its end, and where its next word begins: behind the space that ends the word before, so past the line's
 * end once the last word is taken. */
struct line {
    struct bytes all;
    size_t next;
};

static bool is_over(const struct line *line)
{
    return line->next > line->all.size;
}

/* The functions that take words answer false where the line is a bad one. An empty word is bad: it comes of two spaces
 * together, or of one at the line's start or end. */
static bool take_word(struct line *line, struct bytes *word)
{
    const unsigned char *space;

    if (is_over(line))
        return false;
    word->start = line->all.start + line->next;
    word->size = line->all.size - line->next;
    space = memchr(word->start, ' ', word->size);
    if (space != NULL)
        word->size = (size_t)(space - word->start);
    line->next += word->size + 1;
    return word->size > 0;
}

static bool take_number(struct line *line, uint32_t *number)
{
    struct bytes word;
    uint64_t value = 0;
    size_t i;

    if (!take_word(line, &word))
        return false;
    for (i = 0; i < word.size; i++) {
        if (word.start[i] < '0' || word.start[i] > '9')
            return false;
        value = value * 10 + (uint64_t)(word.start[i] - '0');
        if (value > UINT32_MAX)
            return false;
    }
    *number = (uint32_t)value;
    return true;
}

/* The value of a hexadecimal digit, with capital letters; -1 where the byte is none. */
static int digit_value(unsigned char byte)
{
    if (byte >= '0' && byte <= '9')
        return byte - '0';
    if (byte >= 'A' && byte <= 'F')
        return byte - 'A' + 10;
    return -1;
}

/* Takes the byte that begins a word, plain or as an escape; -1 where there is none. */
static int take_byte(struct bytes *word)
{
    int byte = word->start[0];
    size_t taken = 1;

    if (byte == '%') {
        int high = word->size < 3 ? -1 : digit_value(word->start[1]);
        int low = word->size < 3 ? -1 : digit_value(word->start[2]);

        if (high < 0 || low < 0)
            return -1;
        byte = high * 16 + low;
        taken = 3;
    } else if (byte < 0x21 || byte > 0x7E) {
        return -1;
    }
    word->start += taken;
    word->size -= taken;
    return byte;
}

/* Takes a byte string. It is decoded where it stands, which has room: an escape is longer than its byte. */
static bool take_bytes(struct line *line, struct bytes *taken)
{
    struct bytes word;

    if (!take_word(line, &word) || word.start[0] != ':')
        return false;
    word.start++;
    word.size--;
    taken->start = word.start;
    taken->size = 0;
    while (word.size > 0) {
        int byte = take_byte(&word);

        if (byte < 0)
            return false;
        taken->start[taken->size] = (unsigned char)byte;
        taken->size++;
    }
    return true;
}

/* Takes a byte string and brings it to an area. */
static bool take_lent(struct line *line, struct area *area, struct bytes *lent)
{
    struct bytes taken;

    if (!take_bytes(line, &taken))
        return false;
    lent->start = lend(area, taken.size);
    lent->size = taken.size;
    memcpy(lent->start, taken.start, taken.size);
    return true;
}

/* Whether the next word is `-`. */
static bool is_dash_next(const struct line *line)
{
    struct line rest = *line;
    struct bytes word;

    return take_word(&rest, &word) && word.size == 1 && word.start[0] == '-';
}

/* ---- what the calls work on ---- */

struct replay {
    struct area table, child, standby;
    struct area path, second, directory, text, items, ends, answers, records, words;
    bool is_linked;                   /* whether calls are the linked ones */
    uint32_t run;                     /* what the linked calls hand in */
    uint64_t number;                  /* the main's */
    struct permissions_standby kept;  /* the standby's numbers */
    uint32_t state, prompt;           /* of the permission without a path */
};

static unsigned char *table_of(struct area *area)
{
    return lend(area, PERMISSIONS_TABLE_BYTES);
}

/* A path that may be absent, and a working directory. */
struct given {
    bool has_path;
    struct bytes path, directory;
};

static bool take_given(struct replay *replay, struct line *line, struct given *given)
{
    struct bytes dash;

    given->has_path = !is_dash_next(line);
    if (given->has_path ? !take_lent(line, &replay->path, &given->path) : !take_word(line, &dash))
        return false;
    return take_lent(line, &replay->directory, &given->directory);
}

/* Numbers that are lent. */
struct numbers {
    uint32_t *start;
    size_t count;
};

/* Takes a count, and lends an area for as many numbers. A count above the line's size does not fit its words. */
static bool take_count(struct line *line, struct area *area, struct numbers *numbers)
{
    uint32_t count;

    if (!take_number(line, &count) || count > line->all.size)
        return false;
    numbers->count = count;
    numbers->start = (uint32_t *)(void *)lend(area, count * sizeof *numbers->start);
    return true;
}

static bool take_answers(struct replay *replay, struct line *line, struct numbers *answers)
{
    size_t i;

    if (!take_count(line, &replay->answers, answers))
        return false;
    for (i = 0; i < answers->count; i++) {
        if (!take_number(line, &answers->start[i]))
            return false;
    }
    return true;
}

/* Takes the items of a child call. Their bytes are brought together, one behind the other, in the line and then lent. */
static bool take_items(struct replay *replay, struct line *line, struct bytes *items, struct numbers *ends)
{
    unsigned char *together = NULL;
    size_t i;

    items->size = 0;
    if (!take_count(line, &replay->ends, ends))
        return false;
    for (i = 0; i < ends->count; i++) {
        struct bytes item;

        if (!take_bytes(line, &item) || item.size > UINT32_MAX - items->size)
            return false;
        if (together == NULL)
            together = item.start;
        memmove(together + items->size, item.start, item.size);
        items->size += item.size;
        ends->start[i] = (uint32_t)items->size;
    }
    items->start = lend(&replay->items, items->size);
    if (items->size > 0)
        memcpy(items->start, together, items->size);
    return true;
}

/* Takes a word of eight hexadecimal digits. */
static bool take_hexadecimal(struct line *line, uint32_t *number)
{
    struct bytes word;
    size_t i;

    if (!take_word(line, &word) || word.size != 8)
        return false;
    *number = 0;
    for (i = 0; i < word.size; i++) {
        int digit = digit_value(word.start[i]);

        if (digit < 0)
            return false;
        *number = *number * 16 + (uint32_t)digit;
    }
    return true;
}

/* Takes all words that are left, as those of a record or an image. Each takes nine bytes of the line. */
static bool take_words(struct replay *replay, struct line *line, struct numbers *words)
{
    size_t i;

    words->count = is_over(line) ? 0 : (line->all.size - line->next + 1) / 9;
    words->start = (uint32_t *)(void *)lend(&replay->words, words->count * sizeof *words->start);
    for (i = 0; i < words->count; i++) {
        if (!take_hexadecimal(line, &words->start[i]))
            return false;
    }
    return is_over(line);
}

/* The space that a call is lent for its records or its image, and how many words it wrote. A plain call writes none. */
struct sent {
    uint32_t *words;
    size_t space, size;
};

/* Lends the least space that a call with so many items may have. */
static struct sent lend_records(struct replay *replay, size_t items)
{
    struct sent sent = { NULL, (items > 0 ? items : 1) * PERMISSIONS_RECORD_WORDS, 0 };

    if (replay->is_linked)
        sent.words = (uint32_t *)(void *)lend(&replay->records, sent.space * sizeof *sent.words);
    return sent;
}

/* ---- answer lines ---- */

static void print_escaped(const unsigned char *bytes, size_t size)
{
    size_t i;

    for (i = 0; i < size; i++) {
        if (bytes[i] >= 0x21 && bytes[i] <= 0x7E && bytes[i] != '%')
            putchar(bytes[i]);
        else
            printf("%%%02X", (unsigned)bytes[i]);
    }
}

static void print_words(const char *name, const struct sent *sent)
{
    size_t i;

    if (sent->size == 0)
        return;
    fputs(name, stdout);
    for (i = 0; i < sent->size; i++)
        printf(" %08" PRIX32, sent->words[i]);
    putchar('\n');
}

static void print_sent(const struct sent *sent)
{
    print_words("records", sent);
}

static void print_done(int32_t result)
{
    if (result < 0)
        printf("refused %d\n", (int)-result);
    else
        puts("ok");
}

static void print_state(int32_t result)
{
    if (result < 0)
        printf("refused %d\n", (int)-result);
    else
        puts(permissions_state_name(result));
}

static void print_common(int32_t result, size_t common)
{
    if (result > PERMISSIONS_RELATION_GREATER)
        fail("two paths relate in no known way", 0);
    if (result < 0)
        printf("refused %d\n", (int)-result);
    else
        printf("common %zu\n", common);
}

static void print_arrival(int32_t result)
{
    if (result < 0)
        printf("refused %d\n", (int)-result);
    else
        puts(permissions_arrival_name(result));
}

/* What a check or request tells beside its result. */
struct told {
    uint32_t asked;
    const unsigned char *text;
    size_t text_size;
};

static void print_told(const struct told *told)
{
    printf(" asked %u\n", (unsigned)told->asked);
    if (told->text_size > 0) {
        fputs("text ", stdout);
        print_escaped(told->text, told->text_size);
        putchar('\n');
    }
}

static void print_check(int32_t result, const struct told *told)
{
    if (result < 0) {
        printf("refused %d\n", (int)-result);
        return;
    }
    if (result == 0)
        fputs("passed", stdout);
    else
        printf("failed %s", permissions_state_name(result));
    print_told(told);
}

static void print_request(int32_t result, const struct told *told)
{
    if (result < 0) {
        printf("refused %d\n", (int)-result);
        return;
    }
    fputs(permissions_state_name(result), stdout);
    print_told(told);
}

static void print_entry(const unsigned char *memory, uint32_t place)
{
    uint32_t kind;
    size_t start, size;

    if (permissions_entry(memory, PERMISSIONS_TABLE_BYTES, place, &kind, &start, &size) != 1 || kind > 3)
        fail("the table does not show an entry that it counts", 0);
    printf("%c ", "GDPI"[kind]);
    print_escaped(memory + start, size);
    putchar('\n');
}

/* Prints a table. What is to stand behind the count of entries is printed by the function handed in, if there is one. */
static void print_table_with(const unsigned char *memory, void (*print_more)(const struct replay *replay),
                             const struct replay *replay)
{
    uint32_t count, switches, marks, place;
    int32_t result = permissions_head(memory, PERMISSIONS_TABLE_BYTES, &count, &switches, &marks);

    if (result < 0) {
        printf("refused %d\n", (int)-result);
        return;
    }
    printf("entries %u", (unsigned)count);
    if (print_more != NULL)
        print_more(replay);
    printf(" switches %u marks %u\n", (unsigned)switches, (unsigned)marks);
    for (place = 0; place < count; place++)
        print_entry(memory, place);
}

static void print_table(const unsigned char *memory)
{
    print_table_with(memory, NULL, NULL);
}

/* The standby's last number, and what is owed to it. */
static void print_numbers(const struct replay *replay)
{
    uint64_t owed;
    int32_t result = permissions_standby_owed(&replay->kept, &owed);

    printf(" changes %" PRIu64 " owed ", replay->kept.last);
    if (result < 0)
        printf("refused%d", (int)-result);
    else
        printf("%" PRIu64, owed);
}

/* ---- calls ----
 *
 * Each takes the words behind its name, makes the call and prints the answer. It answers false, with no call made, where
 * the line is a bad one. */

static bool call_fresh(struct replay *replay, struct line *line)
{
    if (!is_over(line))
        return false;
    print_done(permissions_fresh(table_of(&replay->table), PERMISSIONS_TABLE_BYTES));
    replay->number = 0;
    return true;
}

static bool call_insert(struct replay *replay, struct line *line)
{
    uint32_t kind;
    struct bytes path, directory;
    struct sent sent = lend_records(replay, 0);
    unsigned char *table = table_of(&replay->table);

    if (!take_number(line, &kind) || !take_lent(line, &replay->path, &path)
        || !take_lent(line, &replay->directory, &directory) || !is_over(line))
        return false;
    if (replay->is_linked)
        print_done(permissions_linked_insert(table, PERMISSIONS_TABLE_BYTES, replay->run, &replay->number, kind, path.start,
                                             path.size, directory.start, directory.size, sent.words, sent.space,
                                             &sent.size));
    else
        print_done(permissions_insert(table, PERMISSIONS_TABLE_BYTES, kind, path.start, path.size, directory.start,
                                      directory.size));
    print_sent(&sent);
    return true;
}

static bool call_switches(struct replay *replay, struct line *line)
{
    uint32_t switches;
    struct sent sent = lend_records(replay, 0);
    unsigned char *table = table_of(&replay->table);

    if (!take_number(line, &switches) || !is_over(line))
        return false;
    if (replay->is_linked)
        print_done(permissions_linked_switches(table, PERMISSIONS_TABLE_BYTES, replay->run, &replay->number, switches,
                                               sent.words, sent.space, &sent.size));
    else
        print_done(permissions_switches(table, PERMISSIONS_TABLE_BYTES, switches));
    print_sent(&sent);
    return true;
}

static bool call_query(struct replay *replay, struct line *line)
{
    uint32_t mode;
    struct given given;
    const unsigned char *table = table_of(&replay->table);

    if (!take_number(line, &mode) || !take_given(replay, line, &given) || !is_over(line))
        return false;
    if (given.has_path)
        print_state(permissions_query(table, PERMISSIONS_TABLE_BYTES, mode, given.path.start, given.path.size,
                                      given.directory.start, given.directory.size));
    else
        print_state(permissions_query_all(table, PERMISSIONS_TABLE_BYTES, mode));
    return true;
}

/* A check or a request: of a path and with no path, plain and linked, and how its answer is printed. */
struct asking {
    int32_t (*of_path)(void *memory, size_t memory_size, const void *path, size_t path_size, const void *directory,
                       size_t directory_size, uint32_t answer, void *text, size_t text_space, uint32_t *asked,
                       size_t *text_size);
    int32_t (*of_all)(void *memory, size_t memory_size, uint32_t answer, void *text, size_t text_space, uint32_t *asked,
                      size_t *text_size);
    int32_t (*linked_of_path)(void *memory, size_t memory_size, uint32_t run, uint64_t *number, const void *path,
                              size_t path_size, const void *directory, size_t directory_size, uint32_t answer,
                              void *text, size_t text_space, uint32_t *records, size_t records_space, uint32_t *asked,
                              size_t *text_size, size_t *records_size);
    int32_t (*linked_of_all)(void *memory, size_t memory_size, uint32_t run, uint64_t *number, uint32_t answer,
                             void *text, size_t text_space, uint32_t *records, size_t records_space, uint32_t *asked,
                             size_t *text_size, size_t *records_size);
    void (*print)(int32_t result, const struct told *told);
};

static const struct asking checking = { permissions_check, permissions_check_all, permissions_linked_check,
                                        permissions_linked_check_all, print_check };
static const struct asking requesting = { permissions_request, permissions_request_all, permissions_linked_request,
                                          permissions_linked_request_all, print_request };

/* Makes the call with what is given; its result. */
static int32_t ask_with(const struct asking *asking, struct replay *replay, const struct given *given, uint32_t answer,
                        struct told *told, struct sent *sent)
{
    unsigned char *table = table_of(&replay->table);
    unsigned char *text = lend(&replay->text, PERMISSIONS_TEXT_BYTES);
    const struct bytes *path = &given->path, *directory = &given->directory;

    told->text = text;
    if (replay->is_linked && given->has_path)
        return asking->linked_of_path(table, PERMISSIONS_TABLE_BYTES, replay->run, &replay->number, path->start,
                                      path->size, directory->start, directory->size, answer, text, PERMISSIONS_TEXT_BYTES,
                                      sent->words, sent->space, &told->asked, &told->text_size, &sent->size);
    if (replay->is_linked)
        return asking->linked_of_all(table, PERMISSIONS_TABLE_BYTES, replay->run, &replay->number, answer, text,
                                     PERMISSIONS_TEXT_BYTES, sent->words, sent->space, &told->asked, &told->text_size,
                                     &sent->size);
    if (given->has_path)
        return asking->of_path(table, PERMISSIONS_TABLE_BYTES, path->start, path->size, directory->start,
                               directory->size, answer, text, PERMISSIONS_TEXT_BYTES, &told->asked, &told->text_size);
    return asking->of_all(table, PERMISSIONS_TABLE_BYTES, answer, text, PERMISSIONS_TEXT_BYTES, &told->asked,
                          &told->text_size);
}

static bool ask(const struct asking *asking, struct replay *replay, struct line *line)
{
    struct given given;
    struct told told;
    struct sent sent = lend_records(replay, 0);
    uint32_t answer;
    int32_t result;

    if (!take_given(replay, line, &given) || !take_number(line, &answer) || !is_over(line))
        return false;
    result = ask_with(asking, replay, &given, answer, &told, &sent);
    asking->print(result, &told);
    print_sent(&sent);
    return true;
}

static bool call_check(struct replay *replay, struct line *line)
{
    return ask(&checking, replay, line);
}

static bool call_request(struct replay *replay, struct line *line)
{
    return ask(&requesting, replay, line);
}

/* Makes the call with what is given; its result. */
static int32_t revoke_with(struct replay *replay, const struct given *given, struct sent *sent)
{
    unsigned char *table = table_of(&replay->table);
    const struct bytes *path = &given->path, *directory = &given->directory;

    if (replay->is_linked && given->has_path)
        return permissions_linked_revoke(table, PERMISSIONS_TABLE_BYTES, replay->run, &replay->number, path->start,
                                         path->size, directory->start, directory->size, sent->words, sent->space,
                                         &sent->size);
    if (replay->is_linked)
        return permissions_linked_revoke_all(table, PERMISSIONS_TABLE_BYTES, replay->run, &replay->number, sent->words,
                                             sent->space, &sent->size);
    if (given->has_path)
        return permissions_revoke(table, PERMISSIONS_TABLE_BYTES, path->start, path->size, directory->start,
                                  directory->size);
    return permissions_revoke_all(table, PERMISSIONS_TABLE_BYTES);
}

static bool call_revoke(struct replay *replay, struct line *line)
{
    struct given given;
    struct sent sent = lend_records(replay, 0);

    if (!take_given(replay, line, &given) || !is_over(line))
        return false;
    print_state(revoke_with(replay, &given, &sent));
    print_sent(&sent);
    return true;
}

static bool call_child(struct replay *replay, struct line *line)
{
    uint32_t code, asked;
    int32_t result;
    struct bytes directory, items;
    struct numbers answers, ends;
    struct sent sent;
    unsigned char *table = table_of(&replay->table), *child = table_of(&replay->child);

    if (!take_number(line, &code) || !take_lent(line, &replay->directory, &directory)
        || !take_answers(replay, line, &answers) || !take_items(replay, line, &items, &ends) || !is_over(line))
        return false;
    sent = lend_records(replay, ends.count);
    if (replay->is_linked)
        result = permissions_linked_child(table, PERMISSIONS_TABLE_BYTES, replay->run, &replay->number, child,
                                          PERMISSIONS_TABLE_BYTES, code, items.start, items.size, ends.start, ends.count,
                                          answers.start, answers.count, directory.start, directory.size, sent.words,
                                          sent.space, &asked, &sent.size);
    else
        result = permissions_child(table, PERMISSIONS_TABLE_BYTES, child, PERMISSIONS_TABLE_BYTES, code, items.start,
                                   items.size, ends.start, ends.count, answers.start, answers.count, directory.start,
                                   directory.size, &asked);
    if (result < 0)
        printf("refused %d asked %u\n", (int)-result, (unsigned)asked);
    else
        printf("child asked %u\n", (unsigned)asked);
    print_sent(&sent);
    return true;
}

/* Both paths are lent at once, so the second has an area of its own. No table is lent, and so nothing is recorded. */
static bool call_common(struct replay *replay, struct line *line)
{
    struct bytes first, second, directory;
    size_t common;
    int32_t result;

    if (!take_lent(line, &replay->path, &first) || !take_lent(line, &replay->second, &second)
        || !take_lent(line, &replay->directory, &directory) || !is_over(line))
        return false;
    result = permissions_common(first.start, first.size, second.start, second.size, directory.start, directory.size,
                                &common);
    print_common(result, common);
    return true;
}

static bool call_linked(struct replay *replay, struct line *line)
{
    uint32_t is_linked;

    if (!take_number(line, &is_linked) || is_linked > 1 || !is_over(line))
        return false;
    replay->is_linked = is_linked == 1;
    puts("ok");
    return true;
}

static bool call_number(struct replay *replay, struct line *line)
{
    uint32_t number;

    if (!take_number(line, &number) || !is_over(line))
        return false;
    replay->number = number;
    puts("ok");
    return true;
}

/* The main begins a run. Whether it is refused or not, the linked calls that follow hand in its number. */
static bool call_run(struct replay *replay, struct line *line)
{
    uint32_t run;

    if (!take_number(line, &run) || !is_over(line))
        return false;
    print_done(permissions_begin_run(table_of(&replay->table), PERMISSIONS_TABLE_BYTES, run, &replay->number));
    replay->run = run;
    return true;
}

static bool call_list(struct replay *replay, struct line *line)
{
    if (!is_over(line))
        return false;
    print_table(table_of(&replay->table));
    return true;
}

static bool call_childlist(struct replay *replay, struct line *line)
{
    if (!is_over(line))
        return false;
    print_table(table_of(&replay->child));
    return true;
}

static bool call_standby(struct replay *replay, struct line *line)
{
    if (!is_over(line))
        return false;
    print_done(permissions_fresh(table_of(&replay->standby), PERMISSIONS_TABLE_BYTES));
    memset(&replay->kept, 0, sizeof replay->kept);
    return true;
}

static bool call_numbers(struct replay *replay, struct line *line)
{
    uint32_t last, highest;

    if (!take_number(line, &last) || !take_number(line, &highest) || !is_over(line))
        return false;
    replay->kept.last = last;
    replay->kept.highest = highest;
    puts("ok");
    return true;
}

static bool call_runs(struct replay *replay, struct line *line)
{
    uint32_t run, highest;

    if (!take_number(line, &run) || !take_number(line, &highest) || !is_over(line))
        return false;
    replay->kept.run = run;
    replay->kept.highest_run = highest;
    puts("ok");
    return true;
}

static bool call_standbyruns(struct replay *replay, struct line *line)
{
    if (!is_over(line))
        return false;
    printf("run %" PRIu32 " highest %" PRIu32 "\n", replay->kept.run, replay->kept.highest_run);
    return true;
}

static bool call_arrive(struct replay *replay, struct line *line)
{
    struct numbers record;

    if (!take_words(replay, line, &record))
        return false;
    print_arrival(permissions_standby_arrive(table_of(&replay->standby), PERMISSIONS_TABLE_BYTES, &replay->kept,
                                             record.start, record.count));
    return true;
}

/* The image's size is asked for with no space at all; then the space has that very size. */
static bool call_image(struct replay *replay, struct line *line)
{
    struct sent sent = { NULL, 0, 0 };
    const unsigned char *table = table_of(&replay->table);
    int32_t result;

    if (!is_over(line))
        return false;
    sent.words = (uint32_t *)(void *)lend(&replay->records, 0);
    result = permissions_linked_image(table, PERMISSIONS_TABLE_BYTES, replay->run, replay->number, sent.words, 0,
                                      &sent.space);
    if (result != PERMISSIONS_REFUSAL_NO_SPACE || sent.space > PERMISSIONS_IMAGE_WORDS)
        fail("an image does not tell its size", 0);
    sent.words = (uint32_t *)(void *)lend(&replay->records, sent.space * sizeof *sent.words);
    result = permissions_linked_image(table, PERMISSIONS_TABLE_BYTES, replay->run, replay->number, sent.words, sent.space,
                                      &sent.size);
    print_done(result);
    if (result == 0)
        print_words("image", &sent);
    return true;
}

static bool call_load(struct replay *replay, struct line *line)
{
    struct numbers image;

    if (!take_words(replay, line, &image))
        return false;
    print_arrival(permissions_standby_arrive_image(table_of(&replay->standby), PERMISSIONS_TABLE_BYTES, &replay->kept,
                                                   image.start, image.count));
    return true;
}

static bool call_standbylist(struct replay *replay, struct line *line)
{
    if (!is_over(line))
        return false;
    print_table_with(table_of(&replay->standby), print_numbers, replay);
    return true;
}

static bool call_unit(struct replay *replay, struct line *line)
{
    uint32_t state, prompt;

    if (!take_number(line, &state) || !take_number(line, &prompt) || prompt > 1 || !is_over(line))
        return false;
    replay->state = state;
    replay->prompt = prompt;
    puts("ok");
    return true;
}

/* A check or request without a path, and how its answer is printed. */
static bool ask_unit(int32_t (*call)(uint32_t *state, uint32_t prompt, uint32_t answer, uint32_t *asked),
                     void (*print)(int32_t result, const struct told *told), struct replay *replay, struct line *line)
{
    struct told told = { 0, NULL, 0 };
    uint32_t answer;
    int32_t result;

    if (!take_number(line, &answer) || !is_over(line))
        return false;
    result = call(&replay->state, replay->prompt, answer, &told.asked);
    print(result, &told);
    return true;
}

static bool call_unitrequest(struct replay *replay, struct line *line)
{
    return ask_unit(permissions_unit_request, print_request, replay, line);
}

static bool call_unitcheck(struct replay *replay, struct line *line)
{
    return ask_unit(permissions_unit_check, print_check, replay, line);
}

static bool call_unitrevoke(struct replay *replay, struct line *line)
{
    if (!is_over(line))
        return false;
    print_state(permissions_unit_revoke(&replay->state));
    return true;
}

static bool call_unitstate(struct replay *replay, struct line *line)
{
    if (!is_over(line))
        return false;
    printf("state %" PRIu32 " prompt %" PRIu32 "\n", replay->state, replay->prompt);
    return true;
}

static const struct call {
    const char *name;
    bool (*make)(struct replay *replay, struct line *line);
} calls[] = {
    { "fresh", call_fresh },
    { "insert", call_insert },
    { "switches", call_switches },
    { "query", call_query },
    { "check", call_check },
    { "request", call_request },
    { "revoke", call_revoke },
    { "child", call_child },
    { "common", call_common },
    { "linked", call_linked },
    { "number", call_number },
    { "run", call_run },
    { "list", call_list },
    { "childlist", call_childlist },
    { "standby", call_standby },
    { "numbers", call_numbers },
    { "runs", call_runs },
    { "arrive", call_arrive },
    { "image", call_image },
    { "load", call_load },
    { "standbylist", call_standbylist },
    { "standbyruns", call_standbyruns },
    { "unit", call_unit },
    { "unitrequest", call_unitrequest },
    { "unitrevoke", call_unitrevoke },
    { "unitcheck", call_unitcheck },
    { "unitstate", call_unitstate },
};

enum { CALLS = sizeof calls / sizeof calls[0] };

/* ---- the script ---- */

static bool answer_line(struct replay *replay, struct bytes all)
{
    struct line line = { all, 0 };
    struct bytes name;
    size_t i;

    if (!take_word(&line, &name))
        return false;
    for (i = 0; i < CALLS; i++) {
        if (strlen(calls[i].name) == name.size && memcmp(calls[i].name, name.start, name.size) == 0)
            return calls[i].make(replay, &line);
    }
    return false;
}

/* The next line, without its end; false where there is none. A failed read is looked for first, as it may leave the first
 * part of a line. */
static bool read_line(struct bytes *line, size_t *space)
{
    char *start = (char *)line->start;
    ssize_t size = getline(&start, space, stdin);
    int error = errno;

    if (ferror(stdin))
        fail("cannot read the script", error);
    if (size < 0 && !feof(stdin))
        fail("no memory for a line of the script", error);
    line->start = (unsigned char *)start;
    line->size = size < 0 ? 0 : (size_t)size;
    if (line->size > 0 && line->start[line->size - 1] == '\n')
        line->size--;
    return size >= 0;
}

/* Answers every line, up to the first bad one. */
static void answer_script(struct replay *replay)
{
    struct bytes line = { NULL, 0 };
    size_t space = 0, number;
    bool is_good = true;

    for (number = 1; is_good && read_line(&line, &space); number++) {
        if (line.size == 0 || line.start[0] == '#')
            continue;
        is_good = answer_line(replay, line);
        if (!is_good)
            printf("bad line %zu\n", number);
        if (ferror(stdout))
            fail("cannot write the answers", errno);
    }
    free(line.start);
}

/* A fresh table, made of memory that holds anything. */
static void make_table(struct area *area)
{
    unsigned char *table = table_of(area);

    memset(table, 0xA5, PERMISSIONS_TABLE_BYTES);
    if (permissions_fresh(table, PERMISSIONS_TABLE_BYTES) != 0)
        fail("a fresh table is refused", 0);
}

static void print_calls(void)
{
    size_t i;

    for (i = 0; i < CALLS; i++)
        printf("%s%s", i == 0 ? "" : ",", calls[i].name);
    putchar('\n');
}

static void print_usage(FILE *out)
{
    fputs("usage: replay <SCRIPT      answers a call script\n"
          "       replay --calls      prints the names of the calls that it knows\n"
          "       replay --help\n"
          "\n"
          "Reads a call script from standard input, makes its calls on the library, and writes one answer for each.\n"
          "docs/CALL-SCRIPT.md has the format. A malformed line is answered `bad line N`, and ends the run.\n"
          "\n"
          "Exit status: 0 answered, a bad line too; 1 reading, writing or memory failed; 2 wrong usage.\n",
          out);
}

int main(int count, char **words)
{
    static struct replay replay;

    if (count == 2 && strcmp(words[1], "--calls") == 0) {
        print_calls();
    } else if (count == 2 && strcmp(words[1], "--help") == 0) {
        print_usage(stdout);
    } else if (count > 1) {
        print_usage(stderr);
        return 2;
    } else {
        make_table(&replay.table);
        make_table(&replay.child);
        make_table(&replay.standby);
        replay.run = 1;
        replay.state = PERMISSIONS_STATE_PROMPT;
        answer_script(&replay);
    }
    if (fflush(stdout) != 0 || ferror(stdout))
        fail("cannot write the answers", errno);
    return 0;
}
