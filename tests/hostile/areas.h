/* The lent areas. Each ends at a page that can neither be read nor written, and has a few bytes of its own before its
 * start; beside it stands what it must hold after the call. */
#ifndef AREAS_H
#define AREAS_H

#include <stddef.h>
#include <stdint.h>

enum { LEAD_BYTES = 32 };

/* Those from PATH to WORDS are only read; NUMBER and on are numbers that every call writes. */
enum {
    MEMORY, CHILD, TEXT, RECORDS, IMAGE, MAIN_NUMBER, LAST, HIGHEST, OWN_RUN, HIGHEST_RUN, STATE, PATH, OTHER_PATH, DIRECTORY,
    ITEMS, ENDS, RESPONSES, WORDS, NUMBER, NUMBER_2, NUMBER_3, AREAS
};

struct area {
    const char *name;
    size_t room;
    uint8_t *end;   /* the page behind it */
    uint8_t *start; /* of what is lent now */
    size_t size;
    uint8_t *wanted;           /* as many bytes as the room: the lead, then what the area must hold */
    size_t open_from, open_to; /* bytes that may hold anything after the call */
    int lent;
};

extern struct area areas[AREAS];

void make_areas(void);

/* No area is lent. */
void lend_none(void);

/* Lends `size` bytes, with these contents, or with noise if `contents` is NULL. Returns what to hand in: with size 0 at
 * times NULL. */
void *lend(int area, const void *contents, size_t size);

/* Where what the area must hold begins; until it is changed, that is what it holds now. */
uint8_t *wanted(int area);

/* The first area with another byte than wanted, and its position, below 0 in the lead; or NULL. */
const struct area *find_difference(long *position);

#endif
