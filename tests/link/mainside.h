/* The main: runs that rise, random linked calls, what stands after each of its changes, and images. */
#ifndef MAINSIDE_H
#define MAINSIDE_H

#include "paths.h"

#include <stddef.h>
#include <stdint.h>

enum { MOST_PLACES = 4096, MOST_ACTS = 64 };
enum { FRESH_BYTES = 4 }; /* of a fresh table, each of them 0 */

/* One place of the main's history, the beginning of a run or a change: the main's run and number, the change's record, which a
 * beginning has none of, the bytes of the main's table, and an image of that table, if the main wrote one. */
struct place {
    uint32_t run;
    uint64_t number;
    uint32_t *words;
    size_t words_count;
    unsigned char *table;
    size_t table_size;
    uint32_t *image;
    size_t image_count;
};

/* All runs of a main, one behind the other: each begins at a place, and its changes follow, numbered on. Runs rise. Place 0 is
 * before any run: run 0, number 0 and a fresh table. */
struct history {
    size_t last;    /* the last place */
    size_t begun;   /* where the last run begins */
    size_t changes; /* how many of the places are changes */
    struct place places[MOST_PLACES + 1];
};

/* What the main sends of a place: the record of its change, or an image of the table there. */
struct message {
    size_t place;
    int is_image;
};

/* Whoever makes linked calls: a table in lent memory, its run and its number. */
struct caller {
    unsigned char *memory;
    uint32_t run;
    uint64_t number;
};

extern struct history history;
extern struct caller the_main;

/* A main with no history that begins this run; then its number is set to this one, as if it had come so far. */
void begin_main(uint32_t run, uint64_t number);

/* The main begins a run, which must be above its own: as after a swap of its board, or with what it had still in its memory. */
void begin_run(uint32_t run);

/* The main tries to begin a run in a way that must be refused and change nothing. */
void begin_run_refused(void);

/* One random linked call of the main. It is held to what every such call keeps, and its changes go to the history. */
void call_main(const struct profile *profile);

/* The main writes an image of its table as it stands. It is held to what its words must say, and goes to the history. */
void write_image(void);

/* Where the main's history has this number of this run. */
size_t place_of(uint32_t run, uint64_t number);

/* The same random calls on two tables that are the same, by two callers with the same number, each in its own run: all must come
 * out alike but for the runs in the records, their images too. */
void go_on_alike(struct caller *one, struct caller *other, const struct profile *profile, int times);

/* The bytes that the table in this memory takes. */
size_t used(const unsigned char *memory);

/* Whether two memories hold the same table. */
int same_table(const unsigned char *one, const unsigned char *other);

#endif
