/* What ./demo shows first: the trap, by calls of permissions.h. */
#include "permissions.h"

#include <stdio.h>
#include <string.h>

static unsigned char table[PERMISSIONS_TABLE_BYTES];

/* Ends the program where a call that must succeed does not. */
static int stop(const char *what, int32_t result)
{
    if (result == 0)
        return 0;
    printf("%s: refused %d, %s\n", what, (int)-result, permissions_refusal_name(result));
    return 1;
}

static int begin(void)
{
    return stop("fresh", permissions_fresh(table, sizeof table));
}

static int insert(uint32_t kind, const char *path)
{
    return stop(path, permissions_insert(table, sizeof table, kind, path, strlen(path), NULL, 0));
}

static void list(void)
{
    uint32_t kind, place;
    size_t start, size;

    for (place = 0; permissions_entry(table, sizeof table, place, &kind, &start, &size) == 1; place++)
        printf("    %u. %-13s %.*s\n", (unsigned)place + 1, permissions_kind_name(kind), (int)size, (const char *)table + start);
}

static void query(const char *path)
{
    printf("    may %s be read? %s\n", path,
           permissions_state_name(permissions_query(table, sizeof table, PERMISSIONS_MODE_DENIED, path, strlen(path), NULL, 0)));
}

static int the_trap(void)
{
    puts("The trap: the same three entries, loaded in two sequences.\n");
    puts("  loaded as denied /plant, granted /home, granted /plant/hours; the list is then");
    if (begin() || insert(PERMISSIONS_KIND_FLAG_DENIED, "/plant") || insert(PERMISSIONS_KIND_GRANTED, "/home") ||
        insert(PERMISSIONS_KIND_GRANTED, "/plant/hours"))
        return 1;
    list();
    query("/plant/hours/unit1");
    puts("\n  loaded as granted /plant/hours, denied /plant, granted /home; the list is then");
    if (begin() || insert(PERMISSIONS_KIND_GRANTED, "/plant/hours") || insert(PERMISSIONS_KIND_FLAG_DENIED, "/plant") ||
        insert(PERMISSIONS_KIND_GRANTED, "/home"))
        return 1;
    list();
    query("/plant/hours/unit1");
    puts("\n  A standby that loaded them in the other sequence would refuse a script its run hours.");
    return 0;
}

int main(void)
{
    return the_trap();
}
