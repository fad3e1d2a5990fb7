/* Linked into replay in place of four calls of the library (the linker's --wrap): each first reads the byte behind the lent
 * area that the variable OUTSIDE names, and then makes the call. tests/replay-test expects the program to be stopped there.
 */
#include <stddef.h>
#include <stdint.h>
#include <stdlib.h>
#include <string.h>

static void read_behind(const char *name, const void *area, size_t size)
{
    const char *wanted = getenv("OUTSIDE");

    if (wanted != NULL && strcmp(wanted, name) == 0)
        (void)((const volatile unsigned char *)area)[size];
}

int32_t __real_permissions_check(void *memory, size_t memory_size, const void *path, size_t path_size,
                                 const void *directory, size_t directory_size, uint32_t answer, void *text,
                                 size_t text_space, uint32_t *asked, size_t *text_size);
int32_t __wrap_permissions_check(void *memory, size_t memory_size, const void *path, size_t path_size,
                                 const void *directory, size_t directory_size, uint32_t answer, void *text,
                                 size_t text_space, uint32_t *asked, size_t *text_size);

int32_t __wrap_permissions_check(void *memory, size_t memory_size, const void *path, size_t path_size,
                                 const void *directory, size_t directory_size, uint32_t answer, void *text,
                                 size_t text_space, uint32_t *asked, size_t *text_size)
{
    read_behind("path", path, path_size);
    read_behind("text", text, text_space);
    return __real_permissions_check(memory, memory_size, path, path_size, directory, directory_size, answer, text,
                                    text_space, asked, text_size);
}

int32_t __real_permissions_child(void *parent, size_t parent_size, void *child, size_t child_size, uint32_t code,
                                 const void *items, size_t items_size, const uint32_t *ends, size_t ends_count,
                                 const uint32_t *answers, size_t answers_count, const void *directory,
                                 size_t directory_size, uint32_t *asked);
int32_t __wrap_permissions_child(void *parent, size_t parent_size, void *child, size_t child_size, uint32_t code,
                                 const void *items, size_t items_size, const uint32_t *ends, size_t ends_count,
                                 const uint32_t *answers, size_t answers_count, const void *directory,
                                 size_t directory_size, uint32_t *asked);

int32_t __wrap_permissions_child(void *parent, size_t parent_size, void *child, size_t child_size, uint32_t code,
                                 const void *items, size_t items_size, const uint32_t *ends, size_t ends_count,
                                 const uint32_t *answers, size_t answers_count, const void *directory,
                                 size_t directory_size, uint32_t *asked)
{
    read_behind("table", parent, parent_size);
    read_behind("child", child, child_size);
    read_behind("items", items, items_size);
    read_behind("ends", ends, ends_count * sizeof *ends);
    read_behind("answers", answers, answers_count * sizeof *answers);
    read_behind("directory", directory, directory_size);
    return __real_permissions_child(parent, parent_size, child, child_size, code, items, items_size, ends, ends_count,
                                    answers, answers_count, directory, directory_size, asked);
}

int32_t __real_permissions_common(const void *first, size_t first_size, const void *second, size_t second_size,
                                  const void *directory, size_t directory_size, size_t *common);
int32_t __wrap_permissions_common(const void *first, size_t first_size, const void *second, size_t second_size,
                                  const void *directory, size_t directory_size, size_t *common);

int32_t __wrap_permissions_common(const void *first, size_t first_size, const void *second, size_t second_size,
                                  const void *directory, size_t directory_size, size_t *common)
{
    read_behind("first", first, first_size);
    read_behind("second", second, second_size);
    read_behind("directory of two", directory, directory_size);
    return __real_permissions_common(first, first_size, second, second_size, directory, directory_size, common);
}

int32_t __real_permissions_linked_child(void *parent, size_t parent_size, uint32_t run, uint64_t *number, void *child,
                                        size_t child_size, uint32_t code, const void *items, size_t items_size,
                                        const uint32_t *ends, size_t ends_count, const uint32_t *answers,
                                        size_t answers_count, const void *directory, size_t directory_size,
                                        uint32_t *records, size_t records_space, uint32_t *asked,
                                        size_t *records_size);
int32_t __wrap_permissions_linked_child(void *parent, size_t parent_size, uint32_t run, uint64_t *number, void *child,
                                        size_t child_size, uint32_t code, const void *items, size_t items_size,
                                        const uint32_t *ends, size_t ends_count, const uint32_t *answers,
                                        size_t answers_count, const void *directory, size_t directory_size,
                                        uint32_t *records, size_t records_space, uint32_t *asked,
                                        size_t *records_size);

int32_t __wrap_permissions_linked_child(void *parent, size_t parent_size, uint32_t run, uint64_t *number, void *child,
                                        size_t child_size, uint32_t code, const void *items, size_t items_size,
                                        const uint32_t *ends, size_t ends_count, const uint32_t *answers,
                                        size_t answers_count, const void *directory, size_t directory_size,
                                        uint32_t *records, size_t records_space, uint32_t *asked,
                                        size_t *records_size)
{
    read_behind("records", records, records_space * sizeof *records);
    return __real_permissions_linked_child(parent, parent_size, run, number, child, child_size, code, items, items_size,
                                           ends, ends_count, answers, answers_count, directory, directory_size, records,
                                           records_space, asked, records_size);
}
