/* What the words of records and images say, by the scope. */
#ifndef WORDS_H
#define WORDS_H

#include <stddef.h>
#include <stdint.h>

/* Where the words at the front stand: a record has a head and an image its number behind the run, and then comes a record's length
 * or switches, or an image's table word. */
enum { RUN_WORD, NUMBER_WORD, NEXT_WORD };

/* A run word without its number. */
#define RUN_KIND UINT32_C(0x80000000)

/* Whether words begin with a run word. */
int reads_run(const uint32_t *words, size_t count);

/* The run that a run word says, and the number of the record or image behind it. */
uint32_t run_of_words(const uint32_t *words);
uint32_t number_of_words(const uint32_t *words);

/* Whether words begin with those of a path of so many bytes, in resolved form; it then stands in `path`. */
int reads_path(const uint32_t *words, size_t count, unsigned char *path, size_t size);

/* Reads the table of an image into memory of a table's size, from its start: how many bytes it takes, or 0 where the words are
 * malformed or their content is no table. */
size_t read_image(const uint32_t *words, size_t count, unsigned char *memory);

#endif
