/* What ./demo shows of main and standby: a main's changes over a bad link, what the standby makes of them, a new standby that joins
 * by an image, a main whose board is swapped, and the takeover. What the link does is fixed below; all else comes from calls of
 * permissions.h. */
#include "permissions.h"

#include <stdio.h>
#include <string.h>

enum { TABLE = PERMISSIONS_TABLE_BYTES, RECORD = PERMISSIONS_RECORD_WORDS, MOST_RUNS = 2, MOST_CHANGES = 9 };

static unsigned char main_table[TABLE], standby_table[TABLE];
static unsigned char careless_table[TABLE]; /* of a standby that does whatever comes */
static uint32_t run; /* the main's */
static uint64_t number;
static struct permissions_standby standby;

/* The records, by run and number. */
static struct {
    uint32_t words[RECORD];
    size_t size;
} sent[MOST_RUNS + 1][MOST_CHANGES + 1];

static char did[80]; /* what the main did, for the first column */

/* Ends the program where a call that must succeed does not. */
static int stop(const char *what, int32_t result)
{
    if (result >= 0)
        return 0;
    printf("%s: refused %d, %s\n", what, (int)-result, permissions_refusal_name(result));
    return 1;
}

/* ---- the main makes a change */

enum act { ASK, GRANT, DENY, YES, NO, REVOKE, SEND_AGAIN };

static uint32_t records[RECORD];
static size_t records_size;

static int32_t let_ask(void)
{
    snprintf(did, sizeof did, "the operator may be asked");
    return permissions_linked_switches(main_table, TABLE, run, &number, PERMISSIONS_SWITCH_PROMPT, records, RECORD, &records_size);
}

static int32_t insert(uint32_t kind, const char *path)
{
    snprintf(did, sizeof did, "%s %s", permissions_kind_name(kind), path);
    return permissions_linked_insert(main_table, TABLE, run, &number, kind, path, strlen(path), NULL, 0, records, RECORD,
                                     &records_size);
}

/* A script wants to read the path: the main looks whether it must ask, puts the question, and checks with the answer. */
static int32_t check(const char *path, uint32_t operator_says)
{
    char text[PERMISSIONS_TEXT_BYTES];
    uint32_t asked, answer = PERMISSIONS_ANSWER_DENY;
    size_t size;

    if (permissions_check_asks(main_table, TABLE, path, strlen(path), NULL, 0, text, sizeof text, &size) == 1) {
        answer = operator_says;
        snprintf(did, sizeof did, "%.*s? the operator says %s", (int)size, text, answer ? "yes" : "no");
    }
    return permissions_linked_check(main_table, TABLE, run, &number, path, strlen(path), NULL, 0, answer, text, sizeof text, records,
                                    RECORD, &asked, &size, &records_size);
}

static int32_t revoke(const char *path)
{
    snprintf(did, sizeof did, "revoked %s", path);
    return permissions_linked_revoke(main_table, TABLE, run, &number, path, strlen(path), NULL, 0, records, RECORD, &records_size);
}

/* The change of the highest run met that the standby wants next. */
static uint64_t wanted(void)
{
    return standby.run == standby.highest_run ? standby.last + 1 : 1;
}

/* The standby has said which change it wants: nothing is changed, the records go out again. */
static int32_t send_again(void)
{
    snprintf(did, sizeof did, "the standby wants %lu:%lu: sent again", (unsigned long)run, (unsigned long)wanted());
    records_size = 0;
    return 0;
}

static int32_t act(enum act what, const char *path)
{
    switch (what) {
    case ASK: return let_ask();
    case GRANT: return insert(PERMISSIONS_KIND_GRANTED, path);
    case DENY: return insert(PERMISSIONS_KIND_FLAG_DENIED, path);
    case YES: return check(path, PERMISSIONS_ANSWER_ALLOW);
    case NO: return check(path, PERMISSIONS_ANSWER_DENY);
    case REVOKE: return revoke(path);
    default: return send_again();
    }
}

/* ---- a record arrives */

/* A standby that does not look at runs and numbers: to it each record is the next. */
static int32_t do_carelessly(uint32_t of_run, uint64_t k)
{
    struct permissions_standby careless = {k - 1, k - 1, of_run, of_run};

    return permissions_standby_arrive(careless_table, TABLE, &careless, sent[of_run][k].words, sent[of_run][k].size);
}

/* What came, and what the standby says and has. */
static int show(const char *came, int32_t result)
{
    uint64_t owed;
    char has[48];

    if (stop("arrival", result) || stop("owed", permissions_standby_owed(&standby, &owed)))
        return 1;
    snprintf(has, sizeof has, "%lu:%lu", (unsigned long)standby.run, (unsigned long)standby.last);
    printf("%-7s%-15s%-6s%lu\n", came, permissions_arrival_name(result), has, (unsigned long)owed);
    return 0;
}

static int arrive(uint32_t of_run, uint64_t k)
{
    char came[48];

    snprintf(came, sizeof came, "%lu:%lu", (unsigned long)of_run, (unsigned long)k);
    return stop("arrival", do_carelessly(of_run, k)) ||
           show(came, permissions_standby_arrive(standby_table, TABLE, &standby, sent[of_run][k].words, sent[of_run][k].size));
}

/* The records that the link brings, in its own sequence: a digit is a change of the main's run, a letter, from `a` on, one of the run
 * before. */
static int bring(const char *changes)
{
    if (*changes == '\0')
        puts("lost");
    for (; *changes != '\0'; changes++) {
        if (*changes >= 'a' ? arrive(run - 1, (uint64_t)(*changes - 'a' + 1)) : arrive(run, (uint64_t)(*changes - '0')))
            return 1;
        if (changes[1] != '\0')
            printf("%61s", "");
    }
    return 0;
}

/* One step of the main, and the records that the link then brings. */
static int step(enum act what, const char *path, const char *brought)
{
    uint64_t from = what == SEND_AGAIN ? wanted() : number + 1;
    char numbers[48];

    if (stop(path, act(what, path)))
        return 1;
    if (records_size > 0) {
        memcpy(sent[run][number].words, records, records_size * sizeof records[0]);
        sent[run][number].size = records_size;
    }
    if (from == number)
        snprintf(numbers, sizeof numbers, "%lu:%lu", (unsigned long)run, (unsigned long)from);
    else
        snprintf(numbers, sizeof numbers, "%lu:%lu to %lu", (unsigned long)run, (unsigned long)from, (unsigned long)number);
    printf("  %-50s%-9s", did, numbers);
    return bring(brought);
}

static void print_columns(void)
{
    printf("  %-50s%-9s%-7s%-15s%-6s%s\n", "the main", "sends", "comes", "standby says", "has", "is owed");
}

/* The main begins its next run: a fresh table, and the number 0. */
static int begin(void)
{
    run++;
    return stop("run", permissions_begin_run(main_table, TABLE, run, &number));
}

static int over_a_bad_link(void)
{
    puts("The link: the main sends each change with its run and number; the link loses, repeats and reorders them.\n");
    print_columns();
    return begin() || step(ASK, "", "1") ||
           step(GRANT, "/plant/hours", "") ||
           step(DENY, "/plant", "3") ||
           step(GRANT, "/home", "44") ||
           step(SEND_AGAIN, "", "324") ||
           step(SEND_AGAIN, "", "34") ||
           step(YES, "/srv/log", "5") ||
           step(NO, "/srv/keys", "626") ||
           step(REVOKE, "/home", "7") ||
           puts("\n  Applied: it was the next, and is done. Early: one before it is missing. Repeat: it was done before."
                "\n  What is owed goes from what the standby has to the highest number that came.") < 0;
}

/* ---- a new standby */

/* The main's table with its number, as an image; and records that come behind it. */
static int send_image(const char *brought)
{
    static uint32_t image[PERMISSIONS_IMAGE_WORDS];
    size_t size;

    if (stop("image", permissions_linked_image(main_table, TABLE, run, number, image, PERMISSIONS_IMAGE_WORDS, &size)))
        return 1;
    snprintf(did, sizeof did, "its table after change %lu, as an image of %lu words", (unsigned long)number, (unsigned long)size);
    printf("  %-50s%-9s", did, "image");
    if (show("image", permissions_standby_arrive_image(standby_table, TABLE, &standby, image, size)))
        return 1;
    printf("%61s", "");
    return bring(brought);
}

static int a_new_standby(void)
{
    puts("\nA new standby takes the old one's place. It has nothing, and the main no longer has the old records.\n");
    memset(&standby, 0, sizeof standby);
    if (stop("fresh", permissions_fresh(standby_table, TABLE)))
        return 1;
    print_columns();
    return step(GRANT, "/srv/report", "8") ||
           send_image("3") ||
           step(DENY, "/srv/dump", "9") ||
           puts("\n  Taken: its table is now the image's, and it goes on with the next change. What the image has is a Repeat.") < 0;
}

/* ---- a new main */

static int the_board_swap(void)
{
    puts("\nThe board swap: in the middle of run 1 the main's board is swapped. The new one has nothing: it begins run 2, with a fresh table,"
         "\nand counts from 1 again.\n");
    print_columns();
    return begin() ||
           step(ASK, "", "") ||
           step(GRANT, "/plant/hours", "2i") ||
           step(DENY, "/plant", "3") ||
           step(SEND_AGAIN, "", "3123") ||
           step(YES, "/srv/log", "4c") ||
           puts("\n  A change of the lower run that comes late is a Repeat. Change 1 of the higher one clears the standby's table; until it comes,"
                "\n  all of run 2 is owed, and the standby has the main's table of run 1.") < 0;
}

/* ---- the takeover */

static const char *answer(const unsigned char *table, const char *path)
{
    return permissions_state_name(permissions_query(table, TABLE, PERMISSIONS_MODE_DENIED, path, strlen(path), NULL, 0));
}

static int the_takeover(void)
{
    static const char *const paths[] = {"/plant/hours/unit1", "/plant/setpoints", "/srv/log/today", "/srv/keys", "/home/notes",
                                        "/srv/report/may", "/srv/dump"};
    int32_t main_size = permissions_used(main_table, TABLE), standby_size = permissions_used(standby_table, TABLE);
    size_t i;

    puts("\nThe takeover: the main is gone, and the standby answers in its place.\n");
    printf("  %-24s%-14s%-14s%s\n", "may it be read?", "the main", "the standby", "a standby that does whatever comes");
    for (i = 0; i < sizeof paths / sizeof paths[0]; i++)
        printf("  %-24s%-14s%-14s%s\n", paths[i], answer(main_table, paths[i]), answer(standby_table, paths[i]),
               answer(careless_table, paths[i]));
    printf("\n  The main's table has %d bytes and the standby's %d: they are %s.\n", (int)main_size, (int)standby_size,
           main_size == standby_size && memcmp(main_table, standby_table, (size_t)main_size) == 0 ? "the same" : "NOT the same");
    return 0;
}

int main(void)
{
    return stop("fresh", permissions_fresh(standby_table, TABLE)) || stop("fresh", permissions_fresh(careless_table, TABLE)) ||
           over_a_bad_link() || a_new_standby() || the_board_swap() || the_takeover();
}
