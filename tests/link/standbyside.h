/* The standby: each arrival is followed by a takeover, which is held to the main's history. */
#ifndef STANDBYSIDE_H
#define STANDBYSIDE_H

#include "mainside.h"
#include "paths.h"
#include "permissions.h"

#include <stddef.h>
#include <stdint.h>

enum { MOST_ARRIVALS = 1 << 14 };

struct standby {
    unsigned char *memory;
    struct permissions_standby numbers; /* lent with each arrival */
};

extern struct standby the_standby;

/* A standby to which nothing has come, with a fresh table and the run and the number of this place of the history, which must have
 * a fresh table too. */
void begin_standby(size_t place);

/* A record or an image of the history arrives, and the standby is taken over. */
void arrive(struct message message, const struct profile *profile);

/* The place of the history at which the standby must be, by the arrivals so far. */
size_t reached(void);

#endif
