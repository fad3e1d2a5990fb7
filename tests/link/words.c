/* Reading words by the scope, with no help of the library's. A table's bytes are those of the README, "A table in memory". */
#include "words.h"
#include "permissions.h"

enum { HEAD_BYTES = 4, ENTRY_BYTES = 3 };

/* Components that are not empty, "." or "..", each behind a slash; or the root. */
static int is_resolved(const unsigned char *path, size_t size)
{
    size_t from = 1;

    if (path[0] != '/')
        return 0;
    if (size == 1)
        return 1;
    for (size_t at = 1; at <= size; at++) {
        if (at < size && path[at] != '/')
            continue;
        if (at == from || (at == from + 1 && path[from] == '.') || (at == from + 2 && path[from] == '.' && path[from + 1] == '.'))
            return 0;
        from = at + 1;
    }
    return 1;
}

int reads_run(const uint32_t *words, size_t count)
{
    return count > RUN_WORD && words[RUN_WORD] >> 28 == RUN_KIND >> 28 && run_of_words(words) != 0;
}

uint32_t run_of_words(const uint32_t *words)
{
    return words[RUN_WORD] & 0xFFFFFFF;
}

uint32_t number_of_words(const uint32_t *words)
{
    return words[NUMBER_WORD] & 0xFFFFFF;
}

int reads_path(const uint32_t *words, size_t count, unsigned char *path, size_t size)
{
    size_t needed = (size + 2) / 3;

    if (count < needed)
        return 0;
    for (size_t i = 0; i < needed * 3; i++) {
        unsigned char byte = (unsigned char)(words[i / 3] >> (16 - 8 * (i % 3)));
        if (words[i / 3] >> 24 != 0x30 || (i >= size && byte != 0))
            return 0;
        if (i < size)
            path[i] = byte;
    }
    return is_resolved(path, size);
}

static void write_two_bytes(unsigned char *to, size_t number)
{
    to[0] = (unsigned char)(number >> 8);
    to[1] = (unsigned char)number;
}

size_t read_image(const uint32_t *words, size_t count, unsigned char *memory)
{
    static const uint32_t mark_of[] = {0, PERMISSIONS_MARK_FLAG_DENIED, PERMISSIONS_MARK_PROMPT_DENIED,
                                       PERMISSIONS_MARK_FLAG_IGNORED};
    size_t entries, at = NEXT_WORD + 1, used = HEAD_BYTES, sum = 0;
    uint32_t marks = 0;

    if (count <= NEXT_WORD || !reads_run(words, count) || words[NUMBER_WORD] >> 24 != 0x50 ||
        words[NEXT_WORD] >> 17 != 0x60000000u >> 17)
        return 0;
    entries = words[NEXT_WORD] >> 8 & 0x1FF;
    if (entries > PERMISSIONS_MAX_ENTRIES)
        return 0;
    for (size_t i = 0; i < entries; i++) {
        uint32_t kind;
        size_t size;
        if (at == count || words[at] >> 18 != 0x70000000u >> 18)
            return 0;
        kind = words[at] >> 16 & 3;
        size = words[at] & 0xFFFF;
        sum += size;
        if (size < 1 || size > PERMISSIONS_MAX_PATH_BYTES || sum > PERMISSIONS_MAX_PATH_SUM_BYTES ||
            !reads_path(words + at + 1, count - at - 1, memory + used + ENTRY_BYTES, size))
            return 0;
        memory[used] = (unsigned char)kind;
        write_two_bytes(memory + used + 1, size);
        marks |= mark_of[kind];
        used += ENTRY_BYTES + size;
        at += 1 + (size + 2) / 3;
    }
    if (at != count || marks != (words[NEXT_WORD] >> 5 & 7))
        return 0;
    write_two_bytes(memory, entries);
    memory[2] = (unsigned char)(words[NEXT_WORD] & 31);
    memory[3] = (unsigned char)marks;
    return used;
}
