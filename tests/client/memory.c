/* Memory that is too small or holds no table: every call but fresh and begin_run refuses it by 1, and no byte changes. Then
 * memory written byte by byte, to see which paths are in resolved form, and refused acts on full tables, which change no byte
 * either. */
#include "permissions.h"

#include <stdio.h>
#include <string.h>

enum { SIZE = PERMISSIONS_TABLE_BYTES };

static unsigned char table[SIZE], before[SIZE], child[SIZE];
static char text[PERMISSIONS_TEXT_BYTES];
static uint32_t asked, number, second, third, records[PERMISSIONS_RECORD_WORDS];
static const uint32_t record[2] = {0x80000001, 0x17000001}, image[3] = {0x80000001, 0x50000001, 0x60000000};
static struct permissions_standby standby;
static uint64_t change;
static size_t start, size;

/* The four numbers of the standby, lent one by one. */
#define NUMBERS &standby.last, &standby.highest, &standby.run, &standby.highest_run

/* One call on memory of a size, by its number; -100 behind the last. */
static int32_t call(int which, size_t lent)
{
    switch (which) {
    case 0: return permissions_insert(table, lent, 0, "/a", 2, NULL, 0);
    case 1: return permissions_insert(table, lent, 4, NULL, 0, NULL, 0); /* 1 comes before 3 and 4 */
    case 2: return permissions_switches(table, lent, 1);
    case 3: return permissions_switches(table, lent, 32);
    case 4: return permissions_query(table, lent, 1, "/a", 2, NULL, 0);
    case 5: return permissions_query_all(table, lent, 3);
    case 6: return permissions_check(table, lent, "/a", 2, NULL, 0, 1, text, sizeof text, &asked, &size);
    case 7: return permissions_check(table, lent, "/a", 2, NULL, 0, 1, text, 1040, &asked, &size); /* 1 before 2 */
    case 8: return permissions_check_asks(table, lent, "/a", 2, NULL, 0, text, 1040, &size);
    case 9: return permissions_request_all(table, lent, 1, text, sizeof text, &asked, &size);
    case 10: return permissions_revoke(table, lent, "/a", 2, NULL, 0);
    case 11: return permissions_revoke_all(table, lent);
    case 12: return permissions_child(table, lent, child, sizeof child, 0, NULL, 0, NULL, 0, NULL, 0, NULL, 0, &asked);
    case 13: return permissions_used(table, lent);
    case 14: return permissions_head(table, lent, &number, &second, &third);
    case 15: return permissions_entry(table, lent, 0, &number, &start, &size);
    case 16: return permissions_linked_image(table, lent, 1, 1, NULL, 0, &size); /* 1 before 2 */
    case 17: return permissions_linked_image(table, lent, 0, 1, NULL, 0, &size);
    case 18: return permissions_arrive_image(table, lent, NUMBERS, image, 3);
    case 19: return permissions_arrive_image(table, lent, NUMBERS, image, 2); /* 1 before 13 */
    case 20: return permissions_arrive(table, lent, NUMBERS, record, 2);
    case 21: return permissions_arrive(table, lent, NUMBERS, record + 1, 1); /* 1 before 11 */
    case 22: return permissions_linked_insert(table, lent, 1, &change, 0, "/a", 2, NULL, 0, records, PERMISSIONS_RECORD_WORDS, &size);
    case 23: return permissions_linked_switches(table, lent, 0, &change, 1, records, PERMISSIONS_RECORD_WORDS, &size); /* 1 before 3 */
    case 24: return permissions_linked_revoke_all(table, lent, 0, &change, records, 0, &size); /* 1 before 2 and 3 */
    default: return -100;
    }
}

/* Every call on the memory as it is: each is to answer 1 and change nothing. */
static void all_refused(const char *what, size_t lent)
{
    int32_t result;
    int which, refused = 0, changed = 0;

    memset(child, 0x55, sizeof child);
    memset(text, '.', sizeof text);
    memcpy(before, table, sizeof table);
    for (which = 0; (result = call(which, lent)) != -100; which++) {
        refused += result == PERMISSIONS_REFUSAL_NO_TABLE;
        changed += memcmp(before, table, sizeof table) != 0 || child[0] != 0x55 || text[0] != '.' || records[0] != 0
                   || change + standby.last + standby.highest + standby.run + standby.highest_run != 0;
    }
    printf("%s: %d of %d calls refused by 1, %d changed something\n", what, refused, which, changed);
}

static void short_memory(void)
{
    puts("-- memory one byte too small");
    memset(table, 0, sizeof table);
    all_refused("a fresh table", SIZE - 1);
    printf("fresh: %d\n", (int)permissions_fresh(table, SIZE - 1));
    change = 7;
    printf("begin_run: %d", (int)permissions_begin_run(table, SIZE - 1, 1, &change));
    printf(", %d with run 0, number %d\n", (int)permissions_begin_run(table, SIZE - 1, 0, &change), (int)change);
    change = 0;
}

/* What a call made of memory that was damaged before. */
static void show_made(const char *what, int32_t made)
{
    printf("  %s: %d, bytes %d, behind it as it was: %d\n", what, (int)made, (int)permissions_used(table, SIZE),
           memcmp(before + 4, table + 4, SIZE - 4) == 0);
}

static void damaged(const char *what, size_t at, unsigned char byte)
{
    if (permissions_fresh(table, SIZE) != 0 || permissions_insert(table, SIZE, 1, "/z", 2, NULL, 0) != 0)
        puts("no table to damage");
    table[at] = byte;
    all_refused(what, SIZE);
    memcpy(before, table, sizeof table);
    show_made("begin_run with run 0", permissions_begin_run(table, SIZE, 0, &change)); /* only the size counts before 3 */
    show_made("fresh", permissions_fresh(table, SIZE));
    memcpy(table, before, sizeof table);
    show_made("begin_run", permissions_begin_run(table, SIZE, 1, &change));
}

static void damaged_memory(void)
{
    puts("-- one byte of a table with the entry D /z changed");
    damaged("kind 4", 4, 4);
    damaged("a mark without its entry", 3, 3);
    damaged("an entry without its mark", 3, 0);
    damaged("257 entries", 0, 1);
    damaged("switches 32", 2, 32);
    damaged("a path not in resolved form", 8, '/');
    damaged("a path length past the memory", 5, 255);
}

/* A table with one granted entry, written byte by byte. */
static void resolved(const char *path)
{
    memset(table, 0, sizeof table);
    table[1] = 1;
    table[6] = (unsigned char)strlen(path);
    memcpy(table + 7, path, strlen(path));
    printf("\"%s\": bytes %d, query /a/b %d\n", path, (int)permissions_used(table, SIZE),
           (int)permissions_query(table, SIZE, 1, "/a/b", 4, NULL, 0));
}

static void resolved_form(void)
{
    static const char *const paths[] = {"/",   "/a/b", "/...", "/a/", "/a//b",  "/a/../b",
                                        "/./a", "/.",   "/..",  "//",  "/a/./b", "a",       ""};
    size_t i;

    puts("-- which paths memory may hold");
    for (i = 0; i < sizeof paths / sizeof paths[0]; i++)
        resolved(paths[i]);
}

/* An insert that is refused, with every byte compared. */
static void refused(const char *what, uint32_t kind, const void *path, size_t path_size, const void *directory, size_t directory_size)
{
    int32_t result;

    memcpy(before, table, sizeof table);
    result = permissions_insert(table, SIZE, kind, path, path_size, directory, directory_size);
    printf("%s: %d, unchanged %d\n", what, (int)result, memcmp(before, table, sizeof table) == 0);
}

/* A table with a sum of path lengths: 31 of 1,024 bytes, and one of the rest. */
static void fill_bytes(size_t rest)
{
    static char path[1024];
    int i;

    if (permissions_fresh(table, SIZE) != 0)
        puts("not fresh");
    memset(path, 'p', sizeof path);
    path[0] = '/';
    for (i = 0; i < 32; i++) {
        path[1] = (char)('a' + i);
        if (permissions_insert(table, SIZE, 0, path, i < 31 ? sizeof path : rest, NULL, 0) != 0)
            puts("not inserted");
    }
}

static void full_tables(void)
{
    static char long_path[1025], directory[1025];
    char path[16];
    int i;

    puts("-- refused inserts");
    memset(long_path, 'q', sizeof long_path);
    memset(directory, 'd', sizeof directory);
    long_path[0] = directory[0] = '/';
    fill_bytes(1024);
    refused("sum 32,768, granted /", 0, "/", 1, NULL, 0);
    refused("sum 32,768, denied /b", 1, "/b", 2, NULL, 0);
    refused("sum 32,768, 1,023 bytes", 0, long_path, 1023, NULL, 0);
    fill_bytes(1023);
    refused("sum 32,767, granted /b", 0, "/b", 2, NULL, 0);
    printf("sum 32,767, granted /: %d\n", (int)permissions_insert(table, SIZE, 0, "/", 1, NULL, 0));
    refused("then denied /", 1, "/", 1, NULL, 0);
    if (permissions_fresh(table, SIZE) != 0)
        puts("not fresh");
    for (i = 0; i < 256; i++) {
        snprintf(path, sizeof path, "/n%03d", i);
        if (permissions_insert(table, SIZE, 0, path, strlen(path), NULL, 0) != 0)
            puts("not inserted");
    }
    refused("256 entries, granted /n256", 0, "/n256", 5, NULL, 0);
    refused("256 entries, denied /n256", 1, "/n256", 5, NULL, 0);
    printf("256 entries, granted /n000 again: %d\n", (int)permissions_insert(table, SIZE, 0, "/n000", 5, NULL, 0));
    refused("kind 4", 4, "/b", 2, NULL, 0);
    refused("empty path", 0, NULL, 0, NULL, 0);
    refused("1,025 bytes", 0, long_path, 1025, NULL, 0);
    refused("b in a directory of 1,023 bytes", 0, "b", 1, directory, 1023);
    refused("b in a directory of 1,025 bytes", 0, "b", 1, directory, 1025);
    refused("b in no directory", 0, "b", 1, NULL, 0);
    refused("b in a", 0, "b", 1, "a", 1);
}

int main(void)
{
    short_memory();
    damaged_memory();
    resolved_form();
    full_tables();
    return 0;
}
