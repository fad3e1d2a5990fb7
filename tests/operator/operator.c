/* Scripts against an operator who says no.
 *
 * usage: operator [CALLS [SEED [WRONG]]]     1,000,000 calls and seed 1 if not given
 *
 * A run begins with a table whose list is in any order and may have duplicates, whatever switches are set, and with a path that query in
 * mode partial gives neither Granted nor GrantedPartial. A script then makes random query, check, request and revoke calls, plain and
 * linked, with a path and without, some of them refused. Where a call would ask, the operator never answers Allow for a prefix of the path
 * or with no path, and never AllowAll; where it would not, any answer is handed in. After each call the path must be as shut as before, and
 * a path that was asked about and allowed must be open. A linked call with a number that no run has must be refused by 3 and change
 * nothing. Every area that is lent ends at a page that can neither be read nor written.
 *
 * WRONG, 1 to 11, makes one thing wrong, which must be noticed: 1 to 5 and 11 the calls, 6 to 10 the operator, or someone beside the script.
 *
 * Exit status: 0; 1 a fault, with the call and the seed; 2 wrong usage; 3 there is no such WRONG. */
#include "areas.h"
#include "chance.h"
#include "permissions.h"

#include <stdio.h>
#include <stdlib.h>
#include <string.h>

enum { NAMES = 3, DEPTH = 4, PATH_ROOM = 64, CALLS_IN_A_RUN = 25, MOST_ENTRIES = 16 };
enum wrong {
    RIGHT,
    DENY_GRANTS,      /* Deny inserts G */
    INSERTS_PARTIAL,  /* a request inserts G though the state is GrantedPartial */
    DROPS_DENIED,     /* a revoke drops D, and keeps the marks of what is left */
    ANSWERS_UNASKED,  /* a request without switch 16 takes Allow without asking */
    ALLOWS_NOTHING,   /* Allow inserts nothing */
    ALLOWS_PREFIX,    /* the operator answers Allow for a prefix */
    ALLOWS_NO_PATH,   /* Allow with no path */
    ALLOWS_ALL,       /* AllowAll */
    OTHERS_INSERT,    /* someone inserts entries directly */
    OTHERS_SWITCH,    /* someone sets switches */
    TAKES_NO_RUN,     /* a number that no run has is taken for another */
    WRONGS
};

static unsigned long seed = 1, calls, limit = 1000000, runs, asked_count, allowed_count, unasked_yes, refused_count, linked_count,
    no_run_count;
static enum wrong wrong;
static unsigned char *table;
static char *text;
static uint32_t *records;

/* ---- paths: names a, b and c, up to four deep */

struct path {
    unsigned depth, names[DEPTH];
};

static struct path any_path(void)
{
    struct path path = {0, {0}};

    path.depth = below(DEPTH + 1);
    for (unsigned i = 0; i < path.depth; i++)
        path.names[i] = below(NAMES);
    return path;
}

static int is_prefix(const struct path *p, const struct path *q)
{
    if (p->depth > q->depth)
        return 0;
    for (unsigned i = 0; i < p->depth; i++)
        if (p->names[i] != q->names[i])
            return 0;
    return 1;
}

/* Its names from one on, each behind a slash; the root is a slash. */
static size_t spell(char *to, const struct path *path, unsigned from)
{
    size_t size = 0;

    for (unsigned i = from; i < path->depth; i++) {
        to[size++] = '/';
        to[size++] = (char)('a' + path->names[i]);
    }
    if (size == 0)
        to[size++] = '/';
    return size;
}

/* As a script may give it: resolved, with what resolving drops, or relative to a directory. */
struct given {
    char path[PATH_ROOM], directory[PATH_ROOM];
    size_t size, directory_size;
};

static void give(struct given *given, const struct path *path)
{
    given->directory_size = 0;
    if (percent(20)) {
        memcpy(given->path, "/x/..", 5);
        given->size = 5 + spell(given->path + 5, path, 0);
    } else if (path->depth > 1 && percent(30)) {
        struct path front = *path;

        front.depth = 1 + below(path->depth - 1);
        given->directory_size = spell(given->directory, &front, 0);
        given->path[0] = '.';
        given->size = 1 + spell(given->path + 1, path, front.depth);
    } else
        given->size = spell(given->path, path, 0);
}

/* ---- the table */

static int32_t state_of(const struct path *path)
{
    char name[PATH_ROOM];
    size_t size = spell(name, path, 0);

    return permissions_query(table, PERMISSIONS_TABLE_BYTES, PERMISSIONS_MODE_PARTIAL, name, size, NULL, 0);
}

static int is_open(int32_t state)
{
    return state == PERMISSIONS_STATE_GRANTED || state == PERMISSIONS_STATE_GRANTED_PARTIAL;
}

static void fault(const char *what)
{
    printf("operator: call %lu of run %lu, seed %lu: %s\n", calls, runs, seed, what);
    exit(1);
}

static unsigned char mark_of(unsigned char kind)
{
    static const unsigned char marks[] = {0, 1, 2, 4};

    return marks[kind];
}

/* Entries one behind the other as they come, in no order: what memory may hold, not what inserts make. */
static void make_table(void)
{
    unsigned count = below(MOST_ENTRIES), at = 4;
    unsigned char marks = 0;

    for (unsigned i = 0; i < count; i++) {
        struct path path = any_path();
        unsigned char kind = (unsigned char)(percent(70) ? below(2) : below(4));
        size_t size = spell((char *)table + at + 3, &path, 0);

        table[at] = kind;
        table[at + 1] = 0;
        table[at + 2] = (unsigned char)size;
        at += 3 + (unsigned)size;
        marks = (unsigned char)(marks | mark_of(kind));
    }
    table[0] = 0;
    table[1] = (unsigned char)count;
    table[2] = (unsigned char)(percent(70) ? 16 + below(2) : below(32));
    table[3] = marks;
    if (permissions_used(table, PERMISSIONS_TABLE_BYTES) != (int32_t)at)
        fault("memory with a table in it is not taken for one");
}

/* What a revoke that drops D would leave. */
static void drop_denied(const char *name, size_t name_size)
{
    unsigned count = 0, from = 4, to = 4;
    unsigned char marks = 0;

    for (unsigned left = table[1]; left > 0; left--) {
        unsigned size = 3u + table[from + 2], length = table[from + 2];
        int root = length == 1;
        int prefix = root || (length <= name_size && memcmp(table + from + 3, name, length) == 0 && (length == name_size || name[length] == '/'));

        if (!(table[from] == PERMISSIONS_KIND_FLAG_DENIED && prefix)) {
            memmove(table + to, table + from, size);
            marks = (unsigned char)(marks | mark_of(table[to]));
            to += size;
            count++;
        }
        from += size;
    }
    table[1] = (unsigned char)count;
    table[3] = marks;
}

/* ---- the operator */

static int may_answer(uint32_t answer, const struct path *shut, const struct path *about)
{
    switch (answer) {
    case PERMISSIONS_ANSWER_DENY:
        return 1;
    case PERMISSIONS_ANSWER_ALLOW:
        if (about == NULL)
            return wrong == ALLOWS_NO_PATH;
        return !is_prefix(about, shut) || (wrong == ALLOWS_PREFIX && about->depth < shut->depth);
    default:
        return wrong == ALLOWS_ALL;
    }
}

/* ---- one call */

enum call { QUERY, CHECK, REQUEST, REVOKE };

static int32_t look(enum call call, const struct given *g, int all)
{
    size_t size;

    if (all)
        return call == CHECK ? permissions_check_all_asks(table, PERMISSIONS_TABLE_BYTES, text, PERMISSIONS_TEXT_BYTES, &size)
                             : permissions_request_all_asks(table, PERMISSIONS_TABLE_BYTES, text, PERMISSIONS_TEXT_BYTES, &size);
    return (call == CHECK ? permissions_check_asks : permissions_request_asks)(table, PERMISSIONS_TABLE_BYTES, g->path, g->size, g->directory,
                                                                               g->directory_size, text, PERMISSIONS_TEXT_BYTES, &size);
}

/* What a linked call is handed: the run, and lent, the main's number and the room for a record. */
struct link {
    uint32_t run;
    uint64_t number;
    size_t room, written;
};

static int is_run(uint32_t run)
{
    return run >= 1 && run <= PERMISSIONS_MAX_RUN;
}

/* Mostly some run; else a number that none has. */
static uint32_t any_run(void)
{
    static const uint32_t none[] = {0, PERMISSIONS_MAX_RUN + 1u, UINT32_MAX};
    static const uint32_t ends[] = {1, PERMISSIONS_MAX_RUN};

    if (percent(5))
        return none[below(3)];
    return percent(20) ? ends[below(2)] : 1 + below(PERMISSIONS_MAX_RUN);
}

static int32_t make_ask(enum call call, const struct given *g, int all, uint32_t answer, struct link *link, uint32_t *asked)
{
    size_t size;

    if (all)
        return (call == CHECK ? permissions_linked_check_all : permissions_linked_request_all)(table, PERMISSIONS_TABLE_BYTES, link->run, &link->number, answer, text,
                                                                                               PERMISSIONS_TEXT_BYTES, records, link->room, asked, &size,
                                                                                               &link->written);
    return (call == CHECK ? permissions_linked_check : permissions_linked_request)(table, PERMISSIONS_TABLE_BYTES, link->run, &link->number, g->path, g->size,
                                                                                   g->directory, g->directory_size, answer, text, PERMISSIONS_TEXT_BYTES, records,
                                                                                   link->room, asked, &size, &link->written);
}

static int32_t make_revoke(const struct given *g, int all, struct link *link)
{
    if (all)
        return permissions_linked_revoke_all(table, PERMISSIONS_TABLE_BYTES, link->run, &link->number, records, link->room, &link->written);
    return permissions_linked_revoke(table, PERMISSIONS_TABLE_BYTES, link->run, &link->number, g->path, g->size, g->directory, g->directory_size, records, link->room,
                                     &link->written);
}

/* A linked check, request or revoke. Where no run has the number handed in, it must be refused, by 3 or the one cause before it, and change nothing. */
static int32_t make_linked(enum call call, const struct given *g, int all, uint32_t answer, uint32_t *asked)
{
    static unsigned char before[PERMISSIONS_TABLE_BYTES];
    uint32_t run = any_run();
    uint64_t number = percent(90) ? 7 : 16777215;
    size_t room = percent(95) ? PERMISSIONS_RECORD_WORDS : PERMISSIONS_RECORD_WORDS - 1;
    struct link link = {run, number, room, 0};
    int no_run = !is_run(run);
    int32_t result;

    linked_count++;
    if (no_run) {
        no_run_count++;
        memcpy(before, table, PERMISSIONS_TABLE_BYTES);
        text[0] = '.';
        records[0] = 0;
        if (wrong == TAKES_NO_RUN)
            link.run = 1;
    }
    result = call == REVOKE ? make_revoke(g, all, &link) : make_ask(call, g, all, answer, &link, asked);
    if (no_run) {
        if (result != (room < PERMISSIONS_RECORD_WORDS ? PERMISSIONS_REFUSAL_NO_SPACE : PERMISSIONS_REFUSAL_UNKNOWN))
            fault("a number that no run has is not refused by 3");
        if (memcmp(before, table, PERMISSIONS_TABLE_BYTES) != 0 || link.number != number || link.written != 0 || text[0] != '.' || records[0] != 0)
            fault("a number that no run has changed something");
    }
    return result;
}

static int32_t ask(enum call call, const struct given *g, int all, uint32_t answer, int linked, uint32_t *asked)
{
    size_t size;

    if (linked)
        return make_linked(call, g, all, answer, asked);
    if (all)
        return (call == CHECK ? permissions_check_all : permissions_request_all)(table, PERMISSIONS_TABLE_BYTES, answer, text, PERMISSIONS_TEXT_BYTES, asked, &size);
    return (call == CHECK ? permissions_check : permissions_request)(table, PERMISSIONS_TABLE_BYTES, g->path, g->size, g->directory, g->directory_size, answer, text,
                                                                     PERMISSIONS_TEXT_BYTES, asked, &size);
}

static int32_t revoke(const struct given *g, int all, int linked)
{
    if (linked)
        return make_linked(REVOKE, g, all, PERMISSIONS_ANSWER_DENY, NULL);
    if (all)
        return permissions_revoke_all(table, PERMISSIONS_TABLE_BYTES);
    return permissions_revoke(table, PERMISSIONS_TABLE_BYTES, g->path, g->size, g->directory, g->directory_size);
}

static int32_t insert_granted(const struct path *path)
{
    char name[PATH_ROOM];
    size_t size = spell(name, path, 0);

    return permissions_insert(table, PERMISSIONS_TABLE_BYTES, PERMISSIONS_KIND_GRANTED, name, size, NULL, 0);
}

/* Check or request, with an answer that the operator may give if asked. */
static void ask_once(enum call call, const struct path *shut, const struct path *path, const struct given *g, int all)
{
    uint32_t asked = 0, answer = below(4), handed;
    int would = look(call, g, all) == 1, linked = percent(40);
    int32_t before = all ? -1 : state_of(path), result;

    if (would) {
        answer = below(3);
        if (!may_answer(answer, shut, all ? NULL : path))
            answer = PERMISSIONS_ANSWER_DENY;
    }
    handed = answer;
    if (wrong == DENY_GRANTS && would && !all && answer == PERMISSIONS_ANSWER_DENY)
        handed = PERMISSIONS_ANSWER_ALLOW;
    if (wrong == ALLOWS_NOTHING && would && !all && answer == PERMISSIONS_ANSWER_ALLOW) {
        asked = 1;
        result = 0;
    } else
        result = ask(call, g, all, handed, linked, &asked);
    if (wrong == INSERTS_PARTIAL && call == REQUEST && !all && result == PERMISSIONS_STATE_GRANTED_PARTIAL)
        result = insert_granted(path) < 0 ? result : PERMISSIONS_STATE_GRANTED_PARTIAL;
    if (wrong == ANSWERS_UNASKED && call == REQUEST && !all && before == PERMISSIONS_STATE_PROMPT && !would && answer == PERMISSIONS_ANSWER_ALLOW)
        result = insert_granted(path) < 0 ? result : PERMISSIONS_STATE_GRANTED;

    refused_count += result < 0;
    if (result < 0 && asked)
        fault("a refused call says that it asked");
    if (asked && !would)
        fault("a call asked that would not ask");
    asked_count += asked;
    unasked_yes += !asked && (answer == PERMISSIONS_ANSWER_ALLOW || answer == PERMISSIONS_ANSWER_ALLOW_ALL);
    if (asked && !all && answer == PERMISSIONS_ANSWER_ALLOW) {
        allowed_count++;
        if (!is_open(state_of(path)))
            fault("a path that was asked about and allowed is not open");
    }
}

static void call_once(const struct path *shut)
{
    struct path path = percent(30) ? *shut : any_path();
    struct given g;
    enum call call = (enum call)below(4);
    int all = percent(20);

    /* often what lies above the path */
    if (percent(25)) {
        path = *shut;
        path.depth = below(path.depth + 1);
    }
    give(&g, &path);
    if (percent(3))
        g.size = 0;
    if (call == CHECK || call == REQUEST)
        ask_once(call, shut, &path, &g, all);
    else if (call == REVOKE) {
        if (revoke(&g, all, percent(40)) < 0)
            refused_count++;
        else if (wrong == DROPS_DENIED && !all) {
            char name[PATH_ROOM];
            size_t size = spell(name, &path, 0);

            drop_denied(name, size);
        }
    } else if (all)
        refused_count += permissions_query_all(table, PERMISSIONS_TABLE_BYTES, below(4)) < 0;
    else
        refused_count += permissions_query(table, PERMISSIONS_TABLE_BYTES, below(4), g.path, g.size, g.directory, g.directory_size) < 0;
    if (wrong == OTHERS_INSERT && one_in(20))
        refused_count += insert_granted(&path) < 0;
    if (wrong == OTHERS_SWITCH && one_in(20))
        refused_count += permissions_switches(table, PERMISSIONS_TABLE_BYTES, below(32)) < 0;
    if (is_open(state_of(shut)))
        fault("a path that was shut is open");
}

static int number_of(const char *word, unsigned long *number)
{
    char *end;

    *number = strtoul(word, &end, 10);
    return word[0] >= '0' && word[0] <= '9' && *end == 0;
}

int main(int count, char **words)
{
    unsigned long version = 0;

    if (count > 4 || (count > 1 && !number_of(words[1], &limit)) || (count > 2 && !number_of(words[2], &seed)) || (count > 3 && !number_of(words[3], &version))) {
        fprintf(stderr, "usage: operator [CALLS [SEED [WRONG]]]\n");
        return 2;
    }
    if (version >= WRONGS)
        return 3;
    wrong = (enum wrong)version;
    chance = seed;
    table = make_area(PERMISSIONS_TABLE_BYTES) - PERMISSIONS_TABLE_BYTES;
    text = (char *)make_area(PERMISSIONS_TEXT_BYTES) - PERMISSIONS_TEXT_BYTES;
    records = (uint32_t *)(void *)(make_area(PERMISSIONS_RECORD_WORDS * 4) - PERMISSIONS_RECORD_WORDS * 4);
    while (calls < limit) {
        struct path shut;

        make_table();
        shut = any_path();
        if (is_open(state_of(&shut)))
            continue;
        runs++;
        for (int i = 0; i < CALLS_IN_A_RUN && calls < limit; i++) {
            calls++;
            call_once(&shut);
        }
    }
    printf("operator: %lu calls in %lu runs, seed %lu: %lu linked, %lu with a number that no run has, %lu refused, asked %lu times, %lu paths allowed, %lu yeses to "
           "nobody's question; no path that was shut is open\n",
           calls, runs, seed, linked_count, no_run_count, refused_count, asked_count, allowed_count, unasked_yes);
    return 0;
}
