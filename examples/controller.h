/* What a main and a standby have in common: a table, its numbers, and a file of records from which both are had again after a
 * power cut. docs/INTEGRATION.md explains it. */
#ifndef CONTROLLER_H
#define CONTROLLER_H

#include "permissions.h"

#include <stdio.h>

extern unsigned char table[PERMISSIONS_TABLE_BYTES];
extern struct permissions_standby numbers; /* of a main too: run and last are its run and its number */

/* Hands a record or an image to permissions_arrive or permissions_arrive_image, with the controller's table and numbers. */
int32_t hand_in(const uint32_t *record, size_t size);

/* Called with each record of the file that was applied and each image that was taken, in sequence. */
typedef void applied_record(const uint32_t *record, size_t size);

/* Opens the controller's file of records and images and hands each in: then table and numbers stand as they stood. What a power cut
 * left of a frame at the file's end is cut off. The file must be there, be it empty. `each` may be NULL. */
void start(const char *name, applied_record *each);

/* Adds a record or an image to the file, and comes back when it is there to stay. */
void keep(const uint32_t *record, size_t size);

/* Writes a record or an image as a frame; reads one. A frame is the count of the words, the words, and a CRC-32 of all these, each a
 * 32-bit number with the most significant byte first. */
void write_frame(FILE *to, const uint32_t *record, size_t size);

/* 1: a frame; 0: the end; -1: a damaged frame, which is passed over; -2: the end comes inside a frame, or there is no telling where
 * it ends. `record` has room for PERMISSIONS_IMAGE_WORDS. */
int read_frame(FILE *from, uint32_t *record, size_t *size);

/* Prints run and change number, and the entries. */
void list_table(FILE *to, uint32_t run, uint64_t number);

/* Says why, and ends the program: a controller that cannot keep what it has done must not go on. */
void stop(const char *why);

#endif
