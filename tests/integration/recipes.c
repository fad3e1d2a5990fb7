/* What docs/INTEGRATION.md tells a program to do, and what it warns of, tried over a link that loses, repeats and reorders.
 *
 * usage: recipes right               the names of the recipes that are right, a line each
 *        recipes wrong               the names of those that are wrong
 *        recipes NAME [ROUNDS [SEED]]     500 rounds and seed 1 if not given
 *
 * In each round a main makes changes and sends records and images, which are lost, come again, and overtake each other; three times
 * the recipe is followed. After each arrival the standby's table must be the one that the main had in that run after that change. A
 * recipe that is wrong has faults, and some that nobody notices: run and number are the main's, nothing is owed, and the tables differ.
 *
 * Exit status: 0 no fault; 1 faults, or a call that must succeed was refused; 2 wrong usage. */
#include "chance.h"
#include "permissions.h"

#include <stdio.h>
#include <stdlib.h>
#include <string.h>

enum { TABLE = PERMISSIONS_TABLE_BYTES, RECORD = PERMISSIONS_RECORD_WORDS, IMAGE = PERMISSIONS_IMAGE_WORDS };
enum { MOST_MESSAGES = 2000, MOST_POINTS = 2000, MOST_OLD = 3, TIMES = 3 };

struct a_main {
    unsigned char table[TABLE];
    uint32_t run;
    uint64_t number;
};

static struct a_main the_main, old_mains[MOST_OLD]; /* old ones still make changes, and send them */
static size_t old_count;
static unsigned char standby_table[TABLE];
static struct permissions_standby standby;
static unsigned char parent[TABLE]; /* of the children whose tables are handed over */
static uint32_t last_run;

static unsigned long arrivals, faults, unnoticed;

static void stop(const char *why)
{
    printf("recipes: %s\n", why);
    exit(1);
}

static void must(int32_t result, const char *what)
{
    if (result < 0) {
        printf("recipes: %s: refused %d, %s\n", what, (int)-result, permissions_refusal_name(result));
        exit(1);
    }
}

static void *copy_of(const void *bytes, size_t size)
{
    void *copy = malloc(size);

    if (copy == NULL)
        stop("no memory is left");
    return memcpy(copy, bytes, size);
}

static size_t used(const unsigned char *table)
{
    int32_t size = permissions_used(table, TABLE);

    must(size, "used");
    return (size_t)size;
}

static int same_table(const unsigned char *one, const unsigned char *other)
{
    size_t size = used(one);

    return size == used(other) && memcmp(one, other, size) == 0;
}

/* ---- what was sent, and the tables that mains had */

static struct message {
    uint32_t *words;
    size_t size;
} messages[MOST_MESSAGES];
static size_t messages_count;

static struct point {
    uint32_t run;
    uint64_t number;
    unsigned char *table;
    size_t size;
} points[MOST_POINTS];
static size_t points_count;

static void forget_round(void)
{
    while (messages_count > 0)
        free(messages[--messages_count].words);
    while (points_count > 0)
        free(points[--points_count].table);
    old_count = 0;
    last_run = 0;
}

static void send(const uint32_t *words, size_t size)
{
    if (messages_count == MOST_MESSAGES)
        stop("too many messages");
    messages[messages_count].words = copy_of(words, size * sizeof words[0]);
    messages[messages_count++].size = size;
}

static void send_image(const struct a_main *main)
{
    static uint32_t image[IMAGE];
    size_t size;

    must(permissions_linked_image(main->table, TABLE, main->run, main->number, image, IMAGE, &size), "image");
    send(image, size);
}

/* The main's table, with its run and number, is what a standby there must have. */
static void note(const struct a_main *main)
{
    struct point *point = &points[points_count];

    if (points_count++ == MOST_POINTS)
        stop("too many changes");
    point->run = main->run;
    point->number = main->number;
    point->size = used(main->table);
    point->table = copy_of(main->table, point->size);
}

/* ---- arrivals */

/* Whether the standby has the table of every main that had its run and number, and of one at least. */
static int is_a_mains(void)
{
    size_t size = used(standby_table), found = 0;

    if (standby.run == 0)
        return standby.last == 0 && size == 4;
    for (size_t i = 0; i < points_count; i++)
        if (points[i].run == standby.run && points[i].number == standby.last) {
            if (points[i].size != size || memcmp(points[i].table, standby_table, size) != 0)
                return 0;
            found++;
        }
    return found > 0;
}

static int seems_caught_up(void)
{
    uint64_t owed;

    must(permissions_standby_owed(&standby, &owed), "owed");
    return owed == 0 && standby.run == the_main.run && standby.last == the_main.number;
}

static void arrive(const struct message *message)
{
    int32_t result = message->words[1] >> 28 == 5
                         ? permissions_standby_arrive_image(standby_table, TABLE, &standby, message->words, message->size)
                         : permissions_standby_arrive(standby_table, TABLE, &standby, message->words, message->size);

    arrivals++;
    if (result < 0 || !is_a_mains())
        faults++;
    if (seems_caught_up() && !same_table(standby_table, the_main.table))
        unnoticed++;
}

/* One of the last few messages, or any that was ever sent; some are never chosen. */
static void bring(void)
{
    size_t recent = messages_count < 4 ? messages_count : 4;

    if (messages_count > 0)
        arrive(&messages[one_in(3) ? below((uint32_t)messages_count) : messages_count - 1 - below((uint32_t)recent)]);
}

/* ---- a main at work */

static const char *any_path(void)
{
    static const char *const paths[] = {"/a", "/b", "/a/c", "/b/d/e", "/b/d", "/a/c/f", "/g", "/"};

    return paths[below(8)];
}

static void change(struct a_main *main)
{
    static uint32_t records[RECORD];
    char text[PERMISSIONS_TEXT_BYTES];
    const char *path = any_path();
    uint64_t before = main->number;
    size_t size, text_size;
    uint32_t asked;

    switch (below(6)) {
    case 0:
        must(permissions_linked_switches(main->table, TABLE, main->run, &main->number, 16 + (one_in(2) ? 0 : below(16)), records,
                                         RECORD, &size), "switches");
        break;
    case 1:
        must(permissions_linked_revoke(main->table, TABLE, main->run, &main->number, path, strlen(path), NULL, 0, records, RECORD,
                                       &size), "revoke");
        break;
    case 2:
        must(permissions_linked_check(main->table, TABLE, main->run, &main->number, path, strlen(path), NULL, 0, below(3), text,
                                      sizeof text, records, RECORD, &asked, &text_size, &size), "check");
        break;
    default:
        must(permissions_linked_insert(main->table, TABLE, main->run, &main->number, below(4), path, strlen(path), NULL, 0, records,
                                       RECORD, &size), "insert");
        break;
    }
    if (main->number != before) {
        note(main);
        send(records, size);
    }
}

static void work(void)
{
    for (uint32_t steps = 10 + below(30); steps > 0; steps--) {
        if (one_in(2))
            change(&the_main);
        if (one_in(12))
            send_image(&the_main);
        if (old_count > 0 && one_in(4))
            change(&old_mains[below((uint32_t)old_count)]);
        for (uint32_t comes = below(3); comes > 0; comes--)
            bring();
    }
}

static uint32_t next_run(void)
{
    return last_run += 1 + below(3);
}

/* A run with a fresh table. */
static void begin(uint32_t run)
{
    the_main.run = run;
    must(permissions_begin_run(the_main.table, TABLE, run, &the_main.number), "run");
    note(&the_main);
}

/* The main's table goes on in a run of its own: a new run number, this number set by hand, and an image first. */
static void go_on(uint64_t number)
{
    the_main.run = next_run();
    the_main.number = number;
    note(&the_main);
    send_image(&the_main);
}

static void new_standby(void)
{
    memset(&standby, 0, sizeof standby);
    must(permissions_fresh(standby_table, TABLE), "fresh");
}

/* The standby's table is the main's from here on. The old main does not know, and a new standby takes the standby's place. */
static void change_places(void)
{
    old_mains[old_count++ % MOST_OLD] = the_main;
    memcpy(the_main.table, standby_table, TABLE);
}

/* ---- the recipes */

static void take_over(void)
{
    change_places();
    go_on(1);
    new_standby();
}

/* Not by a takeover, but where the change numbers are used up, say. */
static void renew(void)
{
    go_on(1);
}

/* The parent goes on, and a child's table, with every entry that it inherits, takes the place of the last one's. */
static void make_child(void)
{
    uint32_t asked;

    for (int times = 0; times < 5; times++) {
        const char *path = any_path();
        must(permissions_insert(parent, TABLE, below(4), path, strlen(path), NULL, 0), "insert");
    }
    must(permissions_child(parent, TABLE, the_main.table, TABLE, PERMISSIONS_CHILD_INHERIT, NULL, 0, NULL, 0, NULL, 0, NULL, 0,
                           &asked), "child");
}

static void hand_child_over(void)
{
    make_child();
    go_on(1);
}

/* Others use the table while nobody holds it. */
static void others_call(void)
{
    for (uint32_t times = below(3); times > 0; times--)
        change(&the_main);
}

static int32_t looks(const char *path)
{
    char text[PERMISSIONS_TEXT_BYTES];
    size_t size;
    int32_t result = permissions_check_asks(the_main.table, TABLE, path, strlen(path), NULL, 0, text, sizeof text, &size);

    must(result, "look");
    return result;
}

/* The check itself: to ask where the operator has not spoken is a fault, and nobody notices. */
static void checks(const char *path, uint32_t answer, int spoken)
{
    static uint32_t records[RECORD];
    char text[PERMISSIONS_TEXT_BYTES];
    uint64_t before = the_main.number;
    uint32_t asked;
    size_t size, text_size;

    must(permissions_linked_check(the_main.table, TABLE, the_main.run, &the_main.number, path, strlen(path), NULL, 0, answer, text,
                                  sizeof text, records, RECORD, &asked, &text_size, &size), "check");
    if (the_main.number != before) {
        note(&the_main);
        send(records, size);
    }
    if (asked && !spoken) {
        faults++;
        unnoticed++;
    }
}

/* The table is held over a look and the check after it, and let go only while the operator thinks. */
static void look_again_at(const char *path)
{
    uint32_t answer = PERMISSIONS_ANSWER_DENY;
    int spoken = 0;

    while (looks(path) == 1 && !spoken) {
        others_call();
        answer = below(3);
        spoken = 1;
    }
    checks(path, answer, spoken);
}

static void stale_look_at(const char *path)
{
    uint32_t answer = PERMISSIONS_ANSWER_DENY;
    int spoken = looks(path) == 1;

    if (spoken)
        answer = below(3);
    others_call();
    checks(path, answer, spoken);
}

static void look_again(void)
{
    for (int times = 0; times < 20; times++)
        look_again_at(any_path());
}

static void stale_look(void)
{
    for (int times = 0; times < 20; times++)
        stale_look_at(any_path());
}

static void same_run(void)
{
    if (standby.run == 0)
        return;
    change_places();
    the_main.run = standby.run;
    the_main.number = standby.last;
    new_standby();
}

static void number_0(void)
{
    make_child();
    go_on(0);
}

static void run_again(void)
{
    begin(the_main.run);
}

static void plain_change(void)
{
    const char *path = any_path();

    must(permissions_insert(the_main.table, TABLE, below(4), path, strlen(path), NULL, 0), "insert");
}

static void changed_standby(void)
{
    const char *path = any_path();

    must(permissions_insert(standby_table, TABLE, below(4), path, strlen(path), NULL, 0), "insert");
}

/* The entries of a child are inserted anew in a run that begins with a fresh table: the list need not be the child's. */
static void entries_anew(void)
{
    static unsigned char child[TABLE];
    static uint32_t records[RECORD];
    uint32_t kind;
    size_t start, size, words;

    make_child();
    memcpy(child, the_main.table, TABLE);
    begin(next_run());
    for (uint32_t place = 0; permissions_entry(child, TABLE, place, &kind, &start, &size) == 1; place++) {
        must(permissions_linked_insert(the_main.table, TABLE, the_main.run, &the_main.number, kind, child + start, size, NULL, 0,
                                       records, RECORD, &words), "insert");
        note(&the_main);
        send(records, words);
    }
    if (!same_table(child, the_main.table)) {
        faults++;
        unnoticed++;
    }
}

static const struct recipe {
    const char *name;
    int right;
    void (*follow)(void);
} recipes[] = {
    {"take_over", 1, take_over},
    {"renew", 1, renew},
    {"hand_child_over", 1, hand_child_over},
    {"look_again", 1, look_again},
    {"same_run", 0, same_run},               /* a takeover that goes on in the old run, from n */
    {"number_0", 0, number_0},               /* a child's table with the number 0, and an image */
    {"entries_anew", 0, entries_anew},       /* a child's entries, inserted anew by linked calls */
    {"run_again", 0, run_again},             /* a run number that is used again, after a board swap */
    {"plain_change", 0, plain_change},       /* a change of the main's table by a plain call */
    {"changed_standby", 0, changed_standby}, /* a change of the standby's table that is no arrival */
    {"stale_look", 0, stale_look},           /* a look, a call by somebody else, and the check with Deny */
};
enum { RECIPES = sizeof recipes / sizeof recipes[0] };

/* All that the main sent of its run comes once more, in the sequence in which it was sent, and an image of its table. */
static void catch_up(void)
{
    send_image(&the_main);
    for (size_t i = 0; i < messages_count; i++)
        if ((messages[i].words[0] & PERMISSIONS_MAX_RUN) == the_main.run)
            arrive(&messages[i]);
    if (!seems_caught_up())
        faults++;
}

static void play(const struct recipe *recipe)
{
    forget_round();
    must(permissions_fresh(parent, TABLE), "fresh");
    new_standby();
    begin(next_run());
    work();
    for (int times = 0; times < TIMES; times++) {
        recipe->follow();
        work();
    }
    catch_up();
}

static int list(int right)
{
    for (size_t i = 0; i < RECIPES; i++)
        if (recipes[i].right == right)
            puts(recipes[i].name);
    return 0;
}

int main(int arguments, char **argument)
{
    unsigned long rounds = arguments > 2 ? strtoul(argument[2], NULL, 10) : 500;
    size_t i = 0;

    if (arguments == 2 && (strcmp(argument[1], "right") == 0 || strcmp(argument[1], "wrong") == 0))
        return list(strcmp(argument[1], "right") == 0);
    while (i < RECIPES && (arguments < 2 || strcmp(argument[1], recipes[i].name) != 0))
        i++;
    if (i == RECIPES || arguments > 4 || rounds == 0) {
        fputs("usage: recipes right | wrong | NAME [ROUNDS [SEED]]\n", stderr);
        return 2;
    }
    chance = arguments > 3 ? strtoul(argument[3], NULL, 10) : 1;
    for (unsigned long round = 0; round < rounds; round++)
        play(&recipes[i]);
    printf("%s: %lu rounds, %lu arrivals, %lu faults, %lu unnoticed\n", recipes[i].name, rounds, arrivals, faults, unnoticed);
    return faults > 0;
}
