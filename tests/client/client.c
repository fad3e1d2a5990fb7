/* A client of permissions.h: fills tables, asks, and prints what it learns.
 * It shows the trap of a list without a proper order, and that a refusal
 * changes nothing. It compiles as C and as C++. */
#include "permissions.h"

#include <stdio.h>
#include <stdlib.h>
#include <string.h>

static unsigned char table[PERMISSIONS_TABLE_BYTES];
static char text[PERMISSIONS_TEXT_BYTES + 1];
static uint32_t asked;
static size_t text_size;
static uint32_t run;
static uint64_t number;
static uint32_t records[2 * PERMISSIONS_RECORD_WORDS];
static size_t records_size;

static void show(const char *what, int32_t result)
{
    if (result < 0)
        printf("%s: refused %d, %s\n", what, (int)-result, permissions_refusal_name(result));
    else
        printf("%s: %s\n", what, permissions_state_name(result));
}

/* For calls whose result is 0 or a refusal. */
static void must(const char *what, int32_t result)
{
    if (result != 0)
        show(what, result);
}

static void fresh(void)
{
    must("fresh", permissions_fresh(table, sizeof table));
}

static void switches(uint32_t value)
{
    must("switches", permissions_switches(table, sizeof table, value));
}

static void insert(uint32_t kind, const char *path)
{
    must(path, permissions_insert(table, sizeof table, kind, path, strlen(path), NULL, 0));
}

static void ask(uint32_t mode, const char *path, const char *directory)
{
    char what[128];
    snprintf(what, sizeof what, "query %u %s in %s", (unsigned)mode, path, directory);
    show(what, permissions_query(table, sizeof table, mode, path, strlen(path), directory, strlen(directory)));
}

static void show_asked_and_text(void)
{
    if (asked)
        printf(", asked");
    if (text_size > 0)
        printf(", text: %.*s", (int)text_size, text);
    printf("\n");
}

static void show_check(const char *path, const char *directory, uint32_t answer, int32_t result)
{
    printf("check %s in %s, answer %u: ", path, directory, (unsigned)answer);
    if (result < 0)
        printf("refused %d", (int)-result);
    else if (result == 0)
        printf("passes");
    else
        printf("fails with %s", permissions_state_name(result));
    show_asked_and_text();
}

static void check(const char *path, const char *directory, uint32_t answer)
{
    show_check(path, directory, answer,
               permissions_check(table, sizeof table, path, strlen(path), directory, strlen(directory),
                                 answer, text, sizeof text, &asked, &text_size));
}

static void request(const char *path, const char *directory, uint32_t answer)
{
    int32_t result = permissions_request(table, sizeof table, path, strlen(path), directory, strlen(directory),
                                         answer, text, sizeof text, &asked, &text_size);

    printf("request %s in %s, answer %u: ", path, directory, (unsigned)answer);
    if (result < 0)
        printf("refused %d", (int)-result);
    else
        printf("%s", permissions_state_name(result));
    show_asked_and_text();
}

/* Every entry of a table, and its head, without a word about the layout. */
static void list(const void *memory, size_t size)
{
    uint32_t count, set, marks, kind, place;
    size_t start, path_size;

    if (permissions_head(memory, size, &count, &set, &marks) != 0) {
        puts("no table");
        return;
    }
    printf("entries %u switches %u marks %u bytes %d\n", (unsigned)count, (unsigned)set, (unsigned)marks,
           (int)permissions_used(memory, size));
    for (place = 0; permissions_entry(memory, size, place, &kind, &start, &path_size) == 1; place++)
        printf("%s %.*s\n", permissions_kind_name(kind), (int)path_size, (const char *)memory + start);
}

static void the_same_entries_in_two_sequences(void)
{
    puts("-- D /z, G /c, G /z/b");
    fresh();
    insert(PERMISSIONS_KIND_FLAG_DENIED, "/z");
    insert(PERMISSIONS_KIND_GRANTED, "/c");
    insert(PERMISSIONS_KIND_GRANTED, "/z/b");
    ask(PERMISSIONS_MODE_PARTIAL, "/z/b/f", "/");

    puts("-- G /z/b, D /z, G /c");
    fresh();
    insert(PERMISSIONS_KIND_GRANTED, "/z/b");
    insert(PERMISSIONS_KIND_FLAG_DENIED, "/z");
    insert(PERMISSIONS_KIND_GRANTED, "/c");
    ask(PERMISSIONS_MODE_PARTIAL, "/z/b/f", "/");
}

static void partial_and_switches(void)
{
    puts("-- G /a, D /a/k");
    fresh();
    insert(PERMISSIONS_KIND_GRANTED, "/a");
    insert(PERMISSIONS_KIND_FLAG_DENIED, "/a/k");
    ask(PERMISSIONS_MODE_PARTIAL, "/a", "/");
    ask(PERMISSIONS_MODE_DENIED, "/a", "/");
    ask(PERMISSIONS_MODE_GRANTED, "./k/../b", "/a");
    ask(PERMISSIONS_MODE_PARTIAL, "/other", "/");
    switches(PERMISSIONS_SWITCH_GRANTED | PERMISSIONS_SWITCH_PROMPT);
    ask(PERMISSIONS_MODE_PARTIAL, "/other", "/");
    show("query with no path", permissions_query_all(table, sizeof table, PERMISSIONS_MODE_PARTIAL));
}

static void refusals(void)
{
    static unsigned char before[sizeof table];
    static char long_path[PERMISSIONS_MAX_PATH_BYTES + 1];

    puts("-- refusals");
    memset(long_path, '/', sizeof long_path);
    memcpy(before, table, sizeof table);
    show("memory one byte too small", permissions_query_all(table, sizeof table - 1, 0));
    show("no memory", permissions_query_all(NULL, 0, 0));
    show("mode 3", permissions_query_all(table, sizeof table, 3));
    show("kind 4", permissions_insert(table, sizeof table, 4, "/a", 2, "/", 1));
    show("switches 32", permissions_switches(table, sizeof table, 32));
    show("empty path", permissions_insert(table, sizeof table, 0, NULL, 0, "/", 1));
    show("path of 1,025 bytes", permissions_insert(table, sizeof table, 0, long_path, sizeof long_path, "/", 1));
    show("relative path, no directory", permissions_insert(table, sizeof table, 0, "a", 1, NULL, 0));
    puts(memcmp(before, table, sizeof table) == 0 ? "the table is unchanged" : "the table has changed");

    table[4] = 9; /* the kind of the first entry */
    show("memory that holds no table", permissions_query_all(table, sizeof table, 0));
    list(table, sizeof table);
}

static void checks(void)
{
    static unsigned char before[sizeof table];
    int32_t result;

    puts("-- checks");
    fresh();
    check("runhours", "/var/log", PERMISSIONS_ANSWER_ALLOW); /* nobody may be asked */
    switches(PERMISSIONS_SWITCH_PROMPT);
    check("runhours", "/var/log", PERMISSIONS_ANSWER_ALLOW);
    check("runhours", "/var/log", PERMISSIONS_ANSWER_DENY); /* granted by now */
    check("/etc//set/../points", "/", PERMISSIONS_ANSWER_DENY);
    check("/etc/points", "/", PERMISSIONS_ANSWER_ALLOW); /* denied by now */
    check("<in>", "/", PERMISSIONS_ANSWER_DENY);

    memcpy(before, table, sizeof table);
    memset(text, '.', sizeof text);
    check("/a", "/", 3);
    check("", "/", PERMISSIONS_ANSWER_ALLOW);
    show("text space one byte too small",
         permissions_check_all(table, sizeof table, PERMISSIONS_ANSWER_ALLOW, text, PERMISSIONS_TEXT_BYTES - 1,
                               &asked, &text_size));
    puts(memcmp(before, table, sizeof table) == 0 && text[0] == '.' ? "nothing is changed" : "something has changed");

    /* a path that was denied once denies reading as a whole */
    result = permissions_check_all(table, sizeof table, PERMISSIONS_ANSWER_ALLOW, text, sizeof text, &asked, &text_size);
    printf("check with no path: fails with %s, text: %.*s\n", permissions_state_name(result), (int)text_size, text);
    puts(text[text_size] == '.' ? "behind the text nothing is written" : "the text is followed by more");
    fresh();
    switches(PERMISSIONS_SWITCH_PROMPT);
    result = permissions_check_all(table, sizeof table, PERMISSIONS_ANSWER_ALLOW_ALL, text, sizeof text, &asked, &text_size);
    printf("check with no path, answer 2: %s%s\n", result == 0 ? "passes" : "fails", asked ? ", asked" : "");
    check("/etc/points", "/", PERMISSIONS_ANSWER_DENY); /* nobody is asked any more */
}

/* The pattern for a host that asks: look, put the question, check with the answer. */
static void look_first(const char *path, uint32_t operator_says)
{
    uint32_t answer = PERMISSIONS_ANSWER_DENY;
    int32_t asks = permissions_check_asks(table, sizeof table, path, strlen(path), NULL, 0, text, sizeof text, &text_size);

    if (asks == 1) {
        printf("question: %.*s?\n", (int)text_size, text);
        answer = operator_says;
    }
    check(path, "/", answer);
}

static void questions(void)
{
    puts("-- questions");
    fresh();
    look_first("/etc/points", PERMISSIONS_ANSWER_ALLOW); /* nobody may be asked */
    switches(PERMISSIONS_SWITCH_PROMPT);
    look_first("/etc/points", PERMISSIONS_ANSWER_ALLOW);
    look_first("/etc/points", PERMISSIONS_ANSWER_ALLOW); /* granted by now */
    look_first("/etc/keys", PERMISSIONS_ANSWER_DENY);
    show("a look with a relative path and no directory",
         permissions_request_asks(table, sizeof table, "a", 1, NULL, 0, text, sizeof text, &text_size));
    printf("a request of /etc/points asks: %d; of /var: %d; of reading as a whole: %d\n",
           (int)permissions_request_asks(table, sizeof table, "/etc/points", 11, NULL, 0, text, sizeof text, &text_size),
           (int)permissions_request_asks(table, sizeof table, "/var", 4, NULL, 0, text, sizeof text, &text_size),
           (int)permissions_request_all_asks(table, sizeof table, text, sizeof text, &text_size));
    fresh();
    switches(PERMISSIONS_SWITCH_PROMPT);
    printf("on a fresh table a check of reading as a whole asks: %d",
           (int)permissions_check_all_asks(table, sizeof table, text, sizeof text, &text_size));
    printf(", %.*s\n", (int)text_size, text);
}

static void requests(void)
{
    puts("-- requests");
    fresh();
    request("points", "/etc", PERMISSIONS_ANSWER_ALLOW); /* nobody may be asked */
    switches(PERMISSIONS_SWITCH_PROMPT);
    request("points", "/etc", PERMISSIONS_ANSWER_ALLOW);
    request("/etc/points/3", "/", PERMISSIONS_ANSWER_DENY); /* granted by now */
    request("points", "etc", PERMISSIONS_ANSWER_ALLOW);
    show("request with no path, answer 0",
         permissions_request_all(table, sizeof table, PERMISSIONS_ANSWER_DENY, text, sizeof text, &asked, &text_size));
    ask(PERMISSIONS_MODE_PARTIAL, "/etc/points", "/");
    list(table, sizeof table);
    show("revoke /etc/points/3", permissions_revoke(table, sizeof table, "points/3", 8, "/etc", 4));
    show("revoke all", permissions_revoke_all(table, sizeof table));
    list(table, sizeof table);
}

static void children(void)
{
    static unsigned char child[sizeof table];
    static const char items[] = "/etc/pointslogs";
    const uint32_t ends[] = {11, 15}, answers[] = {PERMISSIONS_ANSWER_ALLOW, PERMISSIONS_ANSWER_DENY};

    puts("-- children");
    fresh();
    switches(PERMISSIONS_SWITCH_PROMPT);
    insert(PERMISSIONS_KIND_GRANTED, "/var");
    insert(PERMISSIONS_KIND_FLAG_DENIED, "/var/keys");
    must("inherit", permissions_child(table, sizeof table, child, sizeof child, PERMISSIONS_CHILD_INHERIT,
                                      NULL, 0, NULL, 0, NULL, 0, NULL, 0, &asked));
    printf("inherited, asked %u\n", (unsigned)asked);
    list(child, sizeof child);
    show("list of /etc/points and logs, the second not allowed",
         permissions_child(table, sizeof table, child, sizeof child, PERMISSIONS_CHILD_LIST,
                           items, sizeof items - 1, ends, 2, answers, 2, "/home", 5, &asked));
    printf("asked %u\n", (unsigned)asked);
    list(table, sizeof table);
    list(child, sizeof child);
    must("list of /etc/points",
         permissions_child(table, sizeof table, child, sizeof child, PERMISSIONS_CHILD_LIST,
                           items, 11, ends, 1, answers, 1, NULL, 0, &asked));
    list(child, sizeof child);
    show("an end position that does not close",
         permissions_child(table, sizeof table, child, sizeof child, PERMISSIONS_CHILD_LIST,
                           items, 10, ends, 1, answers, 1, NULL, 0, &asked));
}

/* Begins a run of the main. Refused or not, the calls that follow hand in its number. */
static void begin_run(uint32_t value)
{
    char what[32];

    snprintf(what, sizeof what, "run %u", (unsigned)value);
    run = value;
    must(what, permissions_begin_run(table, sizeof table, run, &number));
}

/* The main's number, and the words of the records that a linked call wrote. */
static void show_records(void)
{
    size_t i;

    printf("number %u%s", (unsigned)number, records_size > 0 ? ":" : "");
    for (i = 0; i < records_size; i++)
        printf(" %08X", (unsigned)records[i]);
    printf("\n");
}

static void linked_insert(uint32_t kind, const char *path)
{
    must(path, permissions_linked_insert(table, sizeof table, run, &number, kind, path, strlen(path), NULL, 0,
                                         records, PERMISSIONS_RECORD_WORDS, &records_size));
    show_records();
}

static void linked_switches(uint32_t value, size_t space)
{
    must("switches", permissions_linked_switches(table, sizeof table, run, &number, value, records, space, &records_size));
    show_records();
}

static void linked_check(const char *path, const char *directory, uint32_t answer)
{
    show_check(path, directory, answer,
               permissions_linked_check(table, sizeof table, run, &number, path, strlen(path), directory, strlen(directory),
                                        answer, text, sizeof text, records, PERMISSIONS_RECORD_WORDS,
                                        &asked, &text_size, &records_size));
    show_records();
}

/* Every act makes a record with the next number; what makes no act needs none. */
static void a_main(void)
{
    static unsigned char before[sizeof table];

    puts("-- a main");
    begin_run(1);
    linked_insert(PERMISSIONS_KIND_GRANTED, "/c");
    linked_insert(PERMISSIONS_KIND_GRANTED, "/c"); /* an equal entry is found */
    linked_switches(PERMISSIONS_SWITCH_PROMPT, PERMISSIONS_RECORD_WORDS);
    linked_check("run", "/var", PERMISSIONS_ANSWER_ALLOW);
    linked_check("run", "/var", PERMISSIONS_ANSWER_DENY); /* granted by now */
    linked_check("/k", "/", PERMISSIONS_ANSWER_DENY);
    show("request /c/d", permissions_linked_request(table, sizeof table, run, &number, "/c/d", 4, NULL, 0,
                                                    PERMISSIONS_ANSWER_DENY, text, sizeof text, records,
                                                    PERMISSIONS_RECORD_WORDS, &asked, &text_size, &records_size));
    show_records();
    show("revoke /c/d", permissions_linked_revoke(table, sizeof table, run, &number, "d", 1, "/c", 2,
                                                  records, PERMISSIONS_RECORD_WORDS, &records_size));
    show_records();

    memcpy(before, table, sizeof table);
    linked_switches(0, PERMISSIONS_RECORD_WORDS - 1);
    number = PERMISSIONS_MAX_NUMBER;
    linked_insert(PERMISSIONS_KIND_GRANTED, "/var/run");
    linked_check("/var/run", "/", PERMISSIONS_ANSWER_DENY); /* no act */
    puts(memcmp(before, table, sizeof table) == 0 ? "the table is unchanged" : "the table has changed");
    number = PERMISSIONS_MAX_NUMBER - 1;
    show("revoke all", permissions_linked_revoke_all(table, sizeof table, run, &number, records, PERMISSIONS_RECORD_WORDS,
                                                     &records_size));
    show_records();
}

/* A run begins with a fresh table and the number 0. With a number that no run has every call is refused, and changes nothing. */
static void a_main_that_starts_over(void)
{
    static const uint32_t none[] = {PERMISSIONS_MAX_RUN + 1u, UINT32_MAX, 0};
    static unsigned char before[sizeof table];
    size_t i, size;

    puts("-- a main that starts over");
    begin_run(1);
    linked_switches(PERMISSIONS_SWITCH_PROMPT, PERMISSIONS_RECORD_WORDS);
    linked_insert(PERMISSIONS_KIND_FLAG_DENIED, "/z");
    memcpy(before, table, sizeof table);
    memset(text, '.', sizeof text);
    for (i = 0; i < sizeof none / sizeof none[0]; i++) {
        begin_run(none[i]);
        linked_insert(PERMISSIONS_KIND_GRANTED, "/c");
    }
    linked_switches(0, PERMISSIONS_RECORD_WORDS - 1); /* 2 before 3 */
    linked_insert(PERMISSIONS_KIND_GRANTED, "");      /* 3 before 4 */
    linked_check("/c", "/", PERMISSIONS_ANSWER_ALLOW);
    show("an image in no space", permissions_linked_image(table, sizeof table, run, number, NULL, 0, &size));
    show("number 16777216", permissions_linked_image(table, sizeof table, run, PERMISSIONS_MAX_NUMBER + 1u, records,
                                                     PERMISSIONS_RECORD_WORDS, &size)); /* 3 before 9 */
    printf("it would take %u words\n", (unsigned)size);
    show("memory one byte too small", permissions_begin_run(table, sizeof table - 1, run, &number)); /* 1 before 3 */
    puts(memcmp(before, table, sizeof table) == 0 && text[0] == '.' && number == 2 ? "nothing is changed"
                                                                                 : "something has changed");
    begin_run(PERMISSIONS_MAX_RUN);
    list(table, sizeof table);
    linked_insert(PERMISSIONS_KIND_GRANTED, "/c");
}

/* A child that gets the first of two items, or both. */
static void linked_child(void *child, size_t count, size_t space)
{
    static const char items[] = "/etc/pointslogs";
    const uint32_t ends[] = {11, 15}, answers[] = {PERMISSIONS_ANSWER_ALLOW, PERMISSIONS_ANSWER_DENY};

    must("child", permissions_linked_child(table, sizeof table, run, &number, child, sizeof table, PERMISSIONS_CHILD_LIST,
                                           items, ends[count - 1], ends, count, answers, count, "/home", 5,
                                           records, space, &asked, &records_size));
    printf("asked %u, ", (unsigned)asked);
    show_records();
}

static void a_main_with_children(void)
{
    static unsigned char child[sizeof table];

    puts("-- a main with children");
    begin_run(1);
    linked_switches(PERMISSIONS_SWITCH_PROMPT, PERMISSIONS_RECORD_WORDS);
    linked_child(child, 2, 2 * PERMISSIONS_RECORD_WORDS - 1);
    linked_child(child, 2, 2 * PERMISSIONS_RECORD_WORDS); /* refused, and the parent keeps its acts with their records */
    list(table, sizeof table);
    list(child, sizeof child);
    linked_child(child, 1, PERMISSIONS_RECORD_WORDS); /* granted by now */
    list(child, sizeof child);
}

/* An arrival's answer, with the standby's numbers and what is owed after it. */
static void show_arrival(int32_t result, const struct permissions_standby *standby)
{
    uint64_t owed;

    if (result < 0)
        printf("refused %d, %s", (int)-result, permissions_refusal_name(result));
    else
        printf("%s", permissions_arrival_name(result));
    printf(": last %u of run %u, highest %u of run %u, ", (unsigned)standby->last, (unsigned)standby->run,
           (unsigned)standby->highest, (unsigned)standby->highest_run);
    if (permissions_standby_owed(standby, &owed) == 0)
        printf("%u owed\n", (unsigned)owed);
    else
        puts("owed refused");
}

static void arrive(const uint32_t *record, size_t size, struct permissions_standby *standby)
{
    show_arrival(permissions_standby_arrive(table, sizeof table, standby, record, size), standby);
}

static void arrive_image(const uint32_t *image, size_t size, struct permissions_standby *standby)
{
    show_arrival(permissions_standby_arrive_image(table, sizeof table, standby, image, size), standby);
}

static const uint32_t one[] = {0x80000001, 0x11000001, 0x20000002, 0x302F6300},
                      two[] = {0x80000001, 0x12000002, 0x20000002, 0x302F7A00}, three[] = {0x80000001, 0x15000003, 0x40000010};

/* Two records, the second first and the first twice. */
static void a_standby(void)
{
    struct permissions_standby standby = {0, 0, 0, 0};

    puts("-- a standby");
    fresh();
    arrive(two, 4, &standby);
    arrive(one, 4, &standby);
    arrive(one, 4, &standby);
    arrive(two, 4, &standby);
    list(table, sizeof table);
    arrive(two, 3, &standby);
    arrive(two + 1, 3, &standby);
    arrive(NULL, 0, &standby);
    standby.last = 3;
    arrive(one, 4, &standby);
    standby.last = 2;
    standby.run = 2;
    arrive(one, 4, &standby);
}

/* The main has begun run 5: its change 2 comes first, then run 4, between the two, then all of run 5, and run 1 late. */
static void a_standby_that_follows(void)
{
    static const uint32_t next_one[] = {0x80000005, 0x13000001, 0x20000002, 0x302F6900}, next_two[] = {0x80000005, 0x17000002},
                          between[] = {0x80000004, 0x15000001, 0x40000001};
    struct permissions_standby standby = {0, 0, 0, 0};

    puts("-- a standby that follows");
    fresh();
    arrive(one, 4, &standby);
    arrive(two, 4, &standby);
    arrive(next_two, 2, &standby);
    list(table, sizeof table);
    arrive(between, 3, &standby);
    list(table, sizeof table);
    arrive(next_one, 4, &standby);
    arrive(next_two, 2, &standby);
    arrive(three, 3, &standby);
    list(table, sizeof table);
}

/* A main's table after change 2 as an image, for a standby that has none of the records; then the first one late, and the next;
 * and the image of a run that has just begun. */
static void an_image(void)
{
    static uint32_t image[PERMISSIONS_IMAGE_WORDS];
    struct permissions_standby standby = {0, 0, 0, 0};
    size_t size, i;

    puts("-- an image");
    fresh();
    insert(PERMISSIONS_KIND_GRANTED, "/c");
    insert(PERMISSIONS_KIND_FLAG_DENIED, "/z");
    show("an image in no space", permissions_linked_image(table, sizeof table, 1, 2, NULL, 0, &size));
    printf("it takes %u words\n", (unsigned)size);
    show("number 16777216", permissions_linked_image(table, sizeof table, 1, PERMISSIONS_MAX_NUMBER + 1u, image,
                                                     PERMISSIONS_IMAGE_WORDS, &size));
    must("image", permissions_linked_image(table, sizeof table, 1, 2, image, PERMISSIONS_IMAGE_WORDS, &size));
    printf("image:");
    for (i = 0; i < size; i++)
        printf(" %08X", (unsigned)image[i]);
    printf("\n");

    fresh();
    arrive_image(image, size - 1, &standby);
    arrive_image(image + 1, size - 1, &standby);
    arrive_image(image, size, &standby);
    arrive(one, 4, &standby);
    arrive(three, 3, &standby);
    arrive_image(image, size, &standby);
    list(table, sizeof table);

    image[0] = 0x80000002;
    image[1] = 0x50000000;
    image[2] = 0x60000000;
    arrive_image(image, 3, &standby);
    arrive_image(image, 3, &standby);
    list(table, sizeof table);
}

/* A table is saved as the bytes that it takes, and comes back as the same table. */
static void saving(void)
{
    static unsigned char again[sizeof table];
    int32_t used;
    unsigned char *file;

    puts("-- saving");
    fresh();
    insert(PERMISSIONS_KIND_GRANTED, "/var/log");
    used = permissions_used(table, sizeof table);
    file = (unsigned char *)malloc((size_t)used);
    if (used < 0 || file == NULL)
        return;
    memcpy(file, table, (size_t)used);
    memset(again, 0xAA, sizeof again);
    memcpy(again, file, (size_t)used);
    free(file);
    puts(permissions_used(again, sizeof again) == used && memcmp(table, again, (size_t)used) == 0 ? "the same table"
                                                                                              : "another table");
    list(again, sizeof again);
}

static void a_full_table(void)
{
    char path[16];
    int i;

    puts("-- a full table");
    fresh();
    for (i = 0; i < 257; i++) {
        snprintf(path, sizeof path, "/entry%03d", i);
        insert(PERMISSIONS_KIND_GRANTED, path);
    }
    ask(PERMISSIONS_MODE_PARTIAL, "/entry255", "/");
    ask(PERMISSIONS_MODE_PARTIAL, "/entry256", "/");
    switches(PERMISSIONS_SWITCH_PROMPT);
    look_first("/entry256", PERMISSIONS_ANSWER_ALLOW);
    check("/entry255", "/", PERMISSIONS_ANSWER_ALLOW);
}

/* How the first path relates to the second, and how many components they share. */
static void relate(const char *first, size_t first_size, const char *second, size_t second_size, const char *directory)
{
    size_t common = 99;
    int32_t result = permissions_common(first, first_size, second, second_size, directory,
                                        directory == NULL ? 0 : strlen(directory), &common);

    if (result < 0)
        printf("refused %d, %s", (int)-result, permissions_refusal_name(result));
    else
        printf("%s", permissions_relation_name(result));
    printf(", %u shared\n", (unsigned)common);
}

static void relate_texts(const char *first, const char *second, const char *directory)
{
    printf("%s and %s in %s: ", first, second, directory == NULL ? "no directory" : directory);
    relate(first, strlen(first), second, strlen(second), directory);
}

/* Each relation, then paths that must be resolved first. */
static void two_paths(void)
{
    int32_t relation;

    puts("-- two paths");
    relate_texts("/a/b", "/a/b", NULL);
    relate_texts("/a", "/a/b", NULL);
    relate_texts("/a/b/c", "/a", NULL);
    relate_texts("/a/b", "/a/bc", NULL);
    relate_texts("/b", "/a", NULL);
    relate_texts("/", "/", NULL);
    relate_texts("/", "/a/b", NULL);
    relate_texts("/a/b", "/", NULL);
    relate_texts("/a/b", "/a-b", NULL); /* by components: 'a' is less than 'a-b' */
    relate_texts("/plant/hours/unit1", "/plant/setpoints", NULL);
    relate_texts("//a/./b/", "/c/../a/b", NULL);
    relate_texts("/..", "/", NULL);
    relate_texts("hours", "/plant/hours", "/plant");
    relate_texts("/plant", "hours/unit1", "/plant/");
    relate_texts("./c/../b", "b/c", "/a");
    relate_texts("../../..", "..", "/a/b");
    relate_texts("/a", "/b", "no/directory"); /* not looked at */
    printf("a zero byte: ");
    relate("/a\0b", 4, "/a\0c", 4, NULL);
    printf("a byte above 0x7F: ");
    relate("/a\xFF", 3, "/ab", 3, NULL);
    for (relation = -1; relation <= 5; relation++)
        printf("%s%s", permissions_relation_name(relation), relation < 5 ? ", " : "\n");
}

/* The first path's cause comes before the second's, and nothing is shared then. */
static void two_paths_refused(void)
{
    static char deep[PERMISSIONS_MAX_PATH_BYTES + 1], directory[PERMISSIONS_MAX_PATH_BYTES];
    size_t i;

    puts("-- two paths, refused");
    for (i = 0; i < sizeof deep; i++)
        deep[i] = i % 2 == 0 ? '/' : 'a';
    memset(directory, 'd', sizeof directory - 1); /* 1,023 bytes */
    directory[0] = '/';
    relate_texts("", "/a", NULL);
    relate_texts("/a", "", NULL);
    relate_texts("a", "/a", NULL);
    relate_texts("/a", "a", NULL);
    relate_texts("a", "/a", "a");
    relate_texts("/a", "a", "a");
    relate_texts("a", "", NULL);
    relate_texts("", "a", NULL);
    printf("no bytes at all: ");
    relate(NULL, 0, NULL, 0, NULL);
    printf("1,024 bytes: ");
    relate(deep, sizeof deep - 1, deep, sizeof deep - 1, NULL);
    printf("1,025 bytes and 1,024: ");
    relate(deep, sizeof deep, deep, sizeof deep - 1, NULL);
    printf("1,024 bytes and 1,025: ");
    relate(deep, sizeof deep - 1, deep, sizeof deep, NULL);
    printf("1,025 bytes and none: ");
    relate(deep, sizeof deep, NULL, 0, NULL);
    printf("none and 1,025 bytes: ");
    relate(NULL, 0, deep, sizeof deep, NULL);
    printf("resolved of 1,025 bytes and /: ");
    relate("a", 1, "/", 1, directory);
    printf("/ and resolved of 1,025 bytes: ");
    relate("/", 1, "a", 1, directory);
    printf("resolved of 1,025 bytes and 1,025 bytes: ");
    relate("a", 1, deep, sizeof deep, directory);
    printf("resolved of 1,023 bytes and 1,025 bytes: ");
    relate(".", 1, deep, sizeof deep, directory);
}

static void show_unit(const char *what, int32_t result, uint32_t state)
{
    if (result < 0)
        printf("%s: refused %d, %s", what, (int)-result, permissions_refusal_name(result));
    else
        printf("%s: %s", what, permissions_state_name(result));
    printf(", state %u%s\n", (unsigned)state, asked ? ", asked" : "");
}

static void a_permission_without_a_path(void)
{
    uint32_t modem = PERMISSIONS_STATE_PROMPT;
    int32_t result;

    puts("-- a permission without a path");
    asked = 0;
    result = permissions_unit_check(&modem, 0, PERMISSIONS_ANSWER_ALLOW, &asked);
    show_unit("check without the setting, Allow", result, modem);
    result = permissions_unit_check(&modem, 1, PERMISSIONS_ANSWER_ALLOW_ALL, &asked);
    show_unit("check with it, AllowAll", result, modem);
    result = permissions_unit_check(&modem, 0, PERMISSIONS_ANSWER_DENY, &asked);
    show_unit("check again, Deny", result, modem);
    result = permissions_unit_revoke(&modem);
    show_unit("revoke", result, modem);
    result = permissions_unit_request(&modem, 0, PERMISSIONS_ANSWER_ALLOW, &asked);
    show_unit("request without the setting, Allow", result, modem);
    asked = 0;
    result = permissions_unit_revoke(&modem);
    show_unit("revoke", result, modem);
    result = permissions_unit_request(&modem, 1, PERMISSIONS_ANSWER_ALLOW_ALL, &asked);
    show_unit("request, AllowAll", result, modem);
    asked = 0;
    result = permissions_unit_revoke(&modem);
    show_unit("revoke", result, modem);
    result = permissions_unit_check(&modem, 1, 3, &asked);
    show_unit("check, answer 3", result, modem);
    modem = 6;
    result = permissions_unit_check(&modem, 1, 3, &asked);
    show_unit("check of state 6, answer 3", result, modem);
    result = permissions_unit_revoke(&modem);
    show_unit("revoke of state 6", result, modem);
}

int main(void)
{
    printf("permissions %s, in numbers %d.%d.%d\n", PERMISSIONS_VERSION,
           PERMISSIONS_VERSION_MAJOR, PERMISSIONS_VERSION_MINOR, PERMISSIONS_VERSION_PATCH);
    the_same_entries_in_two_sequences();
    partial_and_switches();
    refusals();
    checks();
    questions();
    requests();
    children();
    a_main();
    a_main_that_starts_over();
    a_main_with_children();
    a_standby();
    a_standby_that_follows();
    an_image();
    saving();
    a_full_table();
    two_paths();
    two_paths_refused();
    a_permission_without_a_path();
    return 0;
}
