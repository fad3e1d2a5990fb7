/* Damaged records and images, of which the claim says nothing. */
#ifndef DAMAGE_H
#define DAMAGE_H

#include "paths.h"

/* A damaged record, or one at a damaged standby, arrives at a copy of the standby, and is held to what its words say. */
void arrive_damaged(const struct profile *profile);

/* The same for an image. */
void arrive_damaged_image(const struct profile *profile);

#endif
