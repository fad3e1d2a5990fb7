/* The lent areas: memory from the system, with an unreadable page behind each. */
#define _DEFAULT_SOURCE
#include "areas.h"
#include "make.h"
#include "model.h"

#include <stdio.h>
#include <stdlib.h>
#include <string.h>
#include <sys/mman.h>
#include <unistd.h>

struct area areas[AREAS] = {
    [MEMORY] = {.name = "memory", .room = TABLE_BYTES + 8192},
    [CHILD] = {.name = "child", .room = TABLE_BYTES + 8192},
    [TEXT] = {.name = "text", .room = 8192},
    [RECORDS] = {.name = "record space", .room = 80 * RECORD_WORDS * sizeof(uint32_t)},
    [IMAGE] = {.name = "image space", .room = (IMAGE_WORDS + MORE_WORDS) * sizeof(uint32_t)},
    [MAIN_NUMBER] = {.name = "main's number", .room = sizeof(uint64_t)},
    [LAST] = {.name = "last number", .room = sizeof(uint64_t)},
    [HIGHEST] = {.name = "highest number", .room = sizeof(uint64_t)},
    [OWN_RUN] = {.name = "standby's run", .room = sizeof(uint32_t)},
    [HIGHEST_RUN] = {.name = "highest run", .room = sizeof(uint32_t)},
    [STATE] = {.name = "state", .room = sizeof(uint32_t)},
    [PATH] = {.name = "path", .room = LONGEST_PATH},
    [OTHER_PATH] = {.name = "second path", .room = LONGEST_PATH},
    [DIRECTORY] = {.name = "directory", .room = LONGEST_PATH},
    [ITEMS] = {.name = "items", .room = 80 * LONGEST_PATH},
    [ENDS] = {.name = "ends", .room = 80 * sizeof(uint32_t)},
    [RESPONSES] = {.name = "answers", .room = 80 * sizeof(uint32_t)},
    [WORDS] = {.name = "record or image", .room = MOST_WORDS * sizeof(uint32_t)},
    [NUMBER] = {.name = "first lent number", .room = sizeof(size_t)},
    [NUMBER_2] = {.name = "second lent number", .room = sizeof(size_t)},
    [NUMBER_3] = {.name = "third lent number", .room = sizeof(size_t)},
};

static void make_area(struct area *area, size_t page)
{
    size_t whole = (area->room + LEAD_BYTES + page - 1) / page * page;
    uint8_t *start = mmap(NULL, whole + page, PROT_READ | PROT_WRITE, MAP_PRIVATE | MAP_ANONYMOUS, -1, 0);

    area->wanted = malloc(area->room + LEAD_BYTES);
    if (start == MAP_FAILED || area->wanted == NULL || mprotect(start + whole, page, PROT_NONE) != 0) {
        perror("hostile");
        exit(2);
    }
    area->end = start + whole;
}

void make_areas(void)
{
    for (int i = 0; i < AREAS; i++)
        make_area(&areas[i], (size_t)sysconf(_SC_PAGESIZE));
}

void lend_none(void)
{
    for (int i = 0; i < AREAS; i++)
        areas[i].lent = 0;
}

void *lend(int area, const void *contents, size_t size)
{
    struct area *lent = &areas[area];

    lent->start = lent->end - size;
    lent->size = size;
    make_noise(lent->start - LEAD_BYTES, LEAD_BYTES);
    if (contents == NULL)
        make_noise(lent->start, size);
    else if (size > 0)
        memcpy(lent->start, contents, size);
    memcpy(lent->wanted, lent->start - LEAD_BYTES, LEAD_BYTES + size);
    lent->open_from = lent->open_to = 0;
    lent->lent = 1;
    return size == 0 && one_in(2) ? NULL : lent->start;
}

uint8_t *wanted(int area)
{
    return areas[area].wanted + LEAD_BYTES;
}

const struct area *find_difference(long *position)
{
    for (int i = 0; i < AREAS; i++) {
        const struct area *area = &areas[i];
        const uint8_t *found;
        size_t at = 0, size = LEAD_BYTES + area->size;
        if (!area->lent)
            continue;
        found = area->start - LEAD_BYTES;
        if (area->open_to > area->open_from)
            memcpy(wanted(i) + area->open_from, area->start + area->open_from, area->open_to - area->open_from);
        if (memcmp(found, area->wanted, size) == 0)
            continue;
        while (found[at] == area->wanted[at])
            at++;
        *position = (long)at - LEAD_BYTES;
        return area;
    }
    return NULL;
}
