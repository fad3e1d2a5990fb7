/* Random paths. */
#include "paths.h"
#include "chance.h"
#include "permissions.h"

#include <string.h>

/* Name k: the same each time, of any bytes but '/'. Its last bytes tell it from the others. */
static size_t write_name(unsigned char *to, const struct profile *profile, uint32_t k)
{
    static const unsigned char odd[] = {0x00, 0xFF, ' ', '%', '"', '.'};
    size_t size = 0, padding = profile->longest < 4 ? 0 : k * 37 % (profile->longest - 3);

    memset(to, 'p', padding);
    size += padding;
    if (k % 7 == 3)
        to[size++] = odd[k % sizeof odd];
    do {
        to[size++] = (unsigned char)('a' + k % 26);
        k /= 26;
    } while (k > 0);
    return size;
}

/* An absolute path in resolved form, of at most so many bytes; seldom the root, below which everything lies. */
static size_t write_path(unsigned char *to, const struct profile *profile, size_t most)
{
    uint32_t depth = one_in(2000) ? 0 : 1 + below(profile->depth);
    size_t size = 0;

    while (depth-- > 0) {
        unsigned char name[1024];
        size_t name_size = write_name(name, profile, below(profile->names));
        if (size + 1 + name_size > most)
            break;
        to[size++] = '/';
        memcpy(to + size, name, name_size);
        size += name_size;
    }
    if (size == 0)
        to[size++] = '/';
    return size;
}

/* A path of the table, or with one name less or more; at times none, of 0 bytes. */
static size_t write_near(unsigned char *to, const struct profile *profile, const unsigned char *memory)
{
    uint32_t count, switches, marks, kind;
    size_t start, size;

    if (permissions_head(memory, PERMISSIONS_TABLE_BYTES, &count, &switches, &marks) != 0 || count == 0)
        return 0;
    if (permissions_entry(memory, PERMISSIONS_TABLE_BYTES, below(count), &kind, &start, &size) != 1)
        return 0;
    memcpy(to, memory + start, size);
    switch (below(3)) {
    case 0:
        while (size > 1 && to[--size] != '/')
            ;
        if (size == 1 && !one_in(20))
            return 0;
        break;
    case 1:
        if (size == 1)
            size = 0;
        size += write_path(to + size, profile, 1024 - size);
        break;
    default:
        break;
    }
    return size;
}

/* Puts something behind a slash of the path that resolving takes out again. */
static void make_unresolved(struct given *given)
{
    static const char *const detours[] = {"/", "./", "x/../", "..//../x/../"};
    const char *detour = detours[below(4)];
    size_t size = strlen(detour), at = 1 + (size_t)below((uint32_t)given->path_size);

    while (given->path[at - 1] != '/')
        at--;
    memmove(given->path + at + size, given->path + at, given->path_size - at);
    memcpy(given->path + at, detour, size);
    given->path_size += size;
}

/* Takes the slash off the path's front, and gives a directory that it counts from. */
static void make_relative(struct given *given, const struct profile *profile)
{
    if (given->path_size == 1)
        return;
    given->path_size--;
    memmove(given->path, given->path + 1, given->path_size);
    given->directory_size = one_in(2) ? 1 : write_path(given->directory, profile, 512);
    given->directory[0] = '/';
}

void make_path(struct given *given, const struct profile *profile, const unsigned char *memory)
{
    given->path_size = given->directory_size = 0;
    if (one_in(3))
        given->path_size = write_near(given->path, profile, memory);
    if (given->path_size == 0)
        given->path_size = write_path(given->path, profile, 1024);
    if (one_in(8))
        make_unresolved(given);
    if (one_in(8))
        make_relative(given, profile);
}

void make_refused_path(struct given *given)
{
    memset(given->path, 'q', sizeof given->path);
    memset(given->directory, 'r', sizeof given->directory);
    given->directory[0] = '/';
    given->path_size = given->directory_size = 3;
    switch (below(5)) {
    case 0: given->path_size = 0; break;
    case 1: given->path_size = 1025; break;
    case 2: given->directory_size = 0; break;
    case 3: given->directory_size = 1025; break;
    default: given->path_size = given->directory_size = 512; break; /* with the slash between them 1,025 bytes */
    }
}
