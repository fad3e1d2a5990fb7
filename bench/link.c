/* Makes one call of the link, or a plain one beside it, again and again; bench/run-link counts and times it.
 *
 * usage: link CALL ENTRIES REPEATS     CALL as in `calls` below
 *
 * The table has paths as a plant has them, those of bench/calls.rs, and one entry less than ENTRIES. A call brings the last: an insert,
 * a check or request that the operator allows, a child's item, an arrival. A revoke drops one. Each of sixteen paths has its turn, and
 * before each call the table and the numbers are set back, which `none` does alone.
 *
 * An image is that of a table with all ENTRIES. A fresh standby takes it, or gets the same entries by as many records (`by-records`, which
 * counts as one call). */
#include "permissions.h"

#include <stdio.h>
#include <stdlib.h>
#include <string.h>

enum {
    TABLE = PERMISSIONS_TABLE_BYTES,
    RECORD = PERMISSIONS_RECORD_WORDS,
    IMAGE = PERMISSIONS_IMAGE_WORDS,
    ENTRIES = PERMISSIONS_MAX_ENTRIES,
    RUN = 1,
    PATHS = 16,
    PATH_ROOM = 64
};

static unsigned char table[TABLE], before[TABLE], child[TABLE];
static size_t before_size;
static uint64_t number, entries;
static struct permissions_standby standby;
static uint32_t records[RECORD], asked;
static size_t records_size, text_size;
static char text[PERMISSIONS_TEXT_BYTES];

/* For each turn: a path that lies below no entry, its record with the next number, and the path of an entry. */
static struct turn {
    char path[PATH_ROOM], present[PATH_ROOM];
    uint32_t record[RECORD];
    size_t record_size;
} turns[PATHS];

/* The table with all entries, the records that make it of a fresh one, and its image. */
static struct {
    unsigned char table[TABLE];
    struct {
        uint32_t words[RECORD];
        size_t size;
    } records[ENTRIES];
    uint32_t image[IMAGE];
    size_t image_size;
} whole;

static void must(int32_t result)
{
    if (result == 0)
        return;
    printf("result %d\n", (int)result);
    exit(1);
}

/* ---- the calls */

#define PATH turn->path, strlen(turn->path), NULL, 0
#define RECORDS records, RECORD

static int32_t none(struct turn *turn)
{
    (void)turn;
    return 0;
}

static int32_t insert(struct turn *turn)
{
    return permissions_insert(table, TABLE, 0, PATH);
}

static int32_t linked_insert(struct turn *turn)
{
    return permissions_linked_insert(table, TABLE, RUN, &number, 0, PATH, RECORDS, &records_size);
}

static int32_t check(struct turn *turn)
{
    return permissions_check(table, TABLE, PATH, 1, text, sizeof text, &asked, &text_size);
}

static int32_t linked_check(struct turn *turn)
{
    return permissions_linked_check(table, TABLE, RUN, &number, PATH, 1, text, sizeof text, RECORDS, &asked, &text_size, &records_size);
}

static int32_t request(struct turn *turn)
{
    return permissions_request(table, TABLE, PATH, 1, text, sizeof text, &asked, &text_size);
}

static int32_t linked_request(struct turn *turn)
{
    return permissions_linked_request(table, TABLE, RUN, &number, PATH, 1, text, sizeof text, RECORDS, &asked, &text_size,
                                      &records_size);
}

static int32_t revoke(struct turn *turn)
{
    return permissions_revoke(table, TABLE, turn->present, strlen(turn->present), NULL, 0);
}

static int32_t linked_revoke(struct turn *turn)
{
    return permissions_linked_revoke(table, TABLE, RUN, &number, turn->present, strlen(turn->present), NULL, 0, RECORDS, &records_size);
}

static int32_t switches(struct turn *turn)
{
    (void)turn;
    return permissions_switches(table, TABLE, PERMISSIONS_SWITCH_PROMPT);
}

static int32_t linked_switches(struct turn *turn)
{
    (void)turn;
    return permissions_linked_switches(table, TABLE, RUN, &number, PERMISSIONS_SWITCH_PROMPT, RECORDS, &records_size);
}

static int32_t linked_child(struct turn *turn)
{
    uint32_t end = (uint32_t)strlen(turn->path), yes = PERMISSIONS_ANSWER_ALLOW;

    return permissions_linked_child(table, TABLE, RUN, &number, child, TABLE, PERMISSIONS_CHILD_LIST, turn->path, end, &end, 1, &yes, 1,
                                    NULL, 0, RECORDS, &asked, &records_size);
}

/* A standby in the main's run that has this change, and has heard of no later one. */
static void stand(uint64_t change)
{
    standby = (struct permissions_standby){change, change, RUN, RUN};
}

static int32_t arrive(const struct turn *turn, uint64_t change)
{
    stand(change);
    return permissions_standby_arrive(table, TABLE, &standby, turn->record, turn->record_size);
}

static int32_t applied(struct turn *turn) { return arrive(turn, entries - 1); }
static int32_t repeat(struct turn *turn) { return arrive(turn, entries) - PERMISSIONS_ARRIVAL_REPEAT; }
static int32_t early(struct turn *turn) { return arrive(turn, entries - 2) - PERMISSIONS_ARRIVAL_EARLY; }

static int32_t owed(struct turn *turn)
{
    uint64_t changes;

    (void)turn;
    return permissions_owed(entries - 2, entries, RUN, RUN, &changes);
}

static int32_t image(struct turn *turn)
{
    (void)turn;
    return permissions_linked_image(whole.table, TABLE, RUN, entries, whole.image, IMAGE, &whole.image_size);
}

static void begin(void)
{
    must(permissions_fresh(table, TABLE));
    standby = (struct permissions_standby){0, 0, 0, 0};
}

static int32_t arrive_image(void)
{
    return permissions_standby_arrive_image(table, TABLE, &standby, whole.image, whole.image_size);
}

static int32_t taken(struct turn *turn)
{
    (void)turn;
    begin();
    return arrive_image() - PERMISSIONS_ARRIVAL_TAKEN;
}

static int32_t image_repeat(struct turn *turn)
{
    (void)turn;
    stand(entries);
    return arrive_image() - PERMISSIONS_ARRIVAL_REPEAT;
}

static int32_t by_records(struct turn *turn)
{
    int32_t result = 0;

    (void)turn;
    begin();
    for (size_t i = 0; i < entries && result == 0; i++)
        result = permissions_standby_arrive(table, TABLE, &standby, whole.records[i].words, whole.records[i].size);
    return result;
}

/* Each gives 0, or for a revoke a state. */
static const struct {
    const char *name;
    int32_t (*make)(struct turn *turn);
    int needs_whole; /* the table with all entries */
} calls[] = {
    {"none", none, 0},
    {"insert", insert, 0},
    {"check", check, 0},
    {"request", request, 0},
    {"revoke", revoke, 0},
    {"switches", switches, 0},
    {"linked-insert", linked_insert, 0},
    {"linked-check", linked_check, 0},
    {"linked-request", linked_request, 0},
    {"linked-revoke", linked_revoke, 0},
    {"linked-switches", linked_switches, 0},
    {"linked-child", linked_child, 0},
    {"applied", applied, 0},
    {"repeat", repeat, 0},
    {"early", early, 0},
    {"owed", owed, 0},
    {"image", image, 1},
    {"taken", taken, 1},
    {"image-repeat", image_repeat, 1},
    {"by-records", by_records, 1},
};

/* ---- the table */

/* Path i of a plant, of a unit or of a pump. */
static void write_path(char *to, unsigned long i, const char *machine)
{
    static const char *const parts[] = {"scripts/lead.js", "log/run-hours", "config/setpoints.json", "data/suction", "alarms"};

    snprintf(to, PATH_ROOM, "/srv/plant/hall%lu/%s%02lu/%s", i % 3, machine, i / 5, parts[i % 5]);
}

static uint32_t kind(unsigned long i)
{
    switch (i % 10) {
    case 3: return PERMISSIONS_KIND_FLAG_DENIED;
    case 6: return PERMISSIONS_KIND_PROMPT_DENIED;
    case 8: return PERMISSIONS_KIND_FLAG_IGNORED;
    default: return PERMISSIONS_KIND_GRANTED;
    }
}

static void fill(void)
{
    char path[PATH_ROOM];

    must(permissions_fresh(table, TABLE));
    must(permissions_switches(table, TABLE, PERMISSIONS_SWITCH_PROMPT));
    for (unsigned long i = 0; i + 1 < entries; i++) {
        write_path(path, i, "unit");
        must(permissions_insert(table, TABLE, kind(i), path, strlen(path), NULL, 0));
    }
    before_size = (size_t)permissions_used(table, TABLE);
    memcpy(before, table, before_size);
}

/* The whole table, its records and its image; by either a fresh standby must come to it. */
static void fill_whole(void)
{
    char path[PATH_ROOM];
    size_t size;

    must(permissions_fresh(whole.table, TABLE));
    number = 0;
    for (unsigned long i = 0; i < entries; i++) {
        write_path(path, i, "unit");
        must(permissions_linked_insert(whole.table, TABLE, RUN, &number, kind(i), path, strlen(path), NULL, 0, whole.records[i].words,
                                       RECORD, &whole.records[i].size));
    }
    size = (size_t)permissions_used(whole.table, TABLE);
    must(image(NULL));
    must(taken(NULL));
    must(memcmp(table, whole.table, size));
    must(by_records(NULL));
    must(memcmp(table, whole.table, size));
}

static void set_back(void)
{
    memcpy(table, before, before_size);
    number = entries - 1;
}

static void prepare(struct turn *turn, unsigned long i)
{
    write_path(turn->path, i, "pump");
    write_path(turn->present, i, "unit");
    set_back();
    must(permissions_linked_insert(table, TABLE, RUN, &number, 0, PATH, turn->record, RECORD, &turn->record_size));
}

int main(int arguments, char **argument)
{
    size_t call = 0;
    unsigned long repeats;

    if (arguments != 4) {
        fprintf(stderr, "usage: link CALL ENTRIES REPEATS\n");
        return 2;
    }
    while (call < sizeof calls / sizeof calls[0] && strcmp(calls[call].name, argument[1]) != 0)
        call++;
    entries = strtoul(argument[2], NULL, 10);
    repeats = strtoul(argument[3], NULL, 10);
    if (call == sizeof calls / sizeof calls[0] || entries < 3 || entries > PERMISSIONS_MAX_ENTRIES)
        return 2;
    if (calls[call].needs_whole)
        fill_whole();
    fill();
    for (unsigned long i = 0; i < PATHS; i++)
        prepare(&turns[i], i * (unsigned long)(entries - 1) / PATHS);
    while (repeats-- > 0)
        for (int i = 0; i < PATHS; i++) {
            int32_t result;
            set_back();
            result = calls[call].make(&turns[i]);
            if (result != 0 && strstr(calls[call].name, "revoke") == NULL)
                must(result);
        }
    return 0;
}
