/* Hostile input from a seed: numbers, paths, directories, tables of every size, records, images, and damage to these three. */
#ifndef MAKE_H
#define MAKE_H

#include <stddef.h>
#include <stdint.h>

struct standby;

enum {
    LONGEST_PATH = 2000,
    MOST_WORDS = 22000, /* that arrive */
    MORE_WORDS = 1000   /* of an image's space, behind the largest image */
};

/* What the paths are like: few names, so that they meet; many, so that tables fill by entries; long, so that they fill by
 * bytes. */
enum { FEW_NAMES, MANY_NAMES, LONG_NAMES, STYLES };

void make_seed(uint64_t seed);
uint64_t any(void);
uint32_t below(uint32_t limit);
int one_in(uint32_t n);

/* Bytes that mean nothing. */
void make_noise(uint8_t *bytes, size_t size);

/* Mostly below `known`, else a number that is close to one, or huge. */
uint32_t make_number(uint32_t known);

/* A number of the main's: mostly one that is left, else next to the limit or far above it. */
uint64_t make_main_number(void);

/* 1 to MAX_RUN, at times next to one of them. */
uint32_t make_run(void);

/* A run as a main hands it in: mostly one that there is, else 0, just above the limit or far above it. */
uint32_t make_main_run(void);

/* At most LONGEST_PATH bytes; their count. */
size_t make_path(uint8_t *path, int style);
size_t make_directory(uint8_t *directory);

/* A path of many components, up to one more than there can be. */
size_t make_deep_path(uint8_t *path);

/* A path that is refused in any working directory, by one cause or another. */
size_t make_wrong_path(uint8_t *path);

/* A path that has to do with another one: the same, with more at its end or less, with another byte, or one that goes on
 * otherwise. */
size_t make_related_path(uint8_t *related, const uint8_t *path, size_t size);

/* A table with entries in any order, of any size up to the largest; `memory` has TABLE_BYTES at least. */
void make_table(uint8_t *memory, int style);

/* Damages memory of `size` bytes that holds a table; at times another table comes out. */
void make_damage(uint8_t *memory, size_t size);

/* 1 to MAX_NUMBER, at times next to one of them. */
uint32_t make_record_number(void);

/* The numbers of a standby for which a record of this run and number is mostly the next one, else a repeat, early or of another
 * run; each may be above its limit, n above h, and the run above the highest one. */
void make_standby(struct standby *standby, uint32_t run, uint32_t number);

/* Numbers that a standby of a run below this one may have. */
void make_lower_standby(struct standby *standby, uint32_t run);

/* Numbers that a standby may have that is behind this number of this run. */
void make_behind_standby(struct standby *standby, uint32_t run, uint32_t number);

/* A record as a main writes it, or the same with a path that is not resolved or too long; the count of its words, at most
 * MOST_WORDS as in all of these. */
size_t make_record(uint32_t *words, uint32_t run, uint32_t number, const uint8_t *path, size_t path_size);

/* Damages a record; at times another one comes out. The new count of words. */
size_t make_record_damage(uint32_t *words, size_t size);

/* Words of any bits, or with the kinds of a record; seldom they are one. */
size_t make_words(uint32_t *words);

/* 0 to MAX_NUMBER, at times next to one of them. */
uint32_t make_image_number(void);

/* An image of a table of any size, or one that no table has: of too many entries or bytes, or with a path that is not resolved
 * or too long. */
size_t make_image(uint32_t *words, uint32_t run, uint32_t number, int style);

/* Damages an image of three words or more, at one place or a few; at times another one comes out. The new count of words. */
size_t make_image_damage(uint32_t *words, size_t size);

/* Words of any bits, or with the kinds of an image; seldom they are one. */
size_t make_image_words(uint32_t *words);

#endif
