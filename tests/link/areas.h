/* Lent memory that ends at a page which can neither be read nor written, so that a call that goes behind it ends the program. */
#ifndef AREAS_H
#define AREAS_H

#include <stddef.h>

/* The end of so many bytes: an area of n bytes begins n before it. */
unsigned char *make_area(size_t room);

#endif
