/* Random paths: of a profile's own making, or near those that a table has. */
#ifndef PATHS_H
#define PATHS_H

#include <stddef.h>
#include <stdint.h>

enum { PATH_ROOM = 4096 };

/* How the paths of a run are made. */
struct profile {
    uint32_t names;   /* how many names there are */
    uint32_t depth;   /* most names in a path */
    uint32_t longest; /* bytes of a name */
};

/* A path as given, with its working directory. */
struct given {
    unsigned char path[PATH_ROOM], directory[PATH_ROOM];
    size_t path_size, directory_size;
};

/* A path that may be given: absolute or relative, resolved or not; at times one of the table in this memory, or one near it. */
void make_path(struct given *given, const struct profile *profile, const unsigned char *memory);

/* One that is refused: by 4, 5, 6 or 7. */
void make_refused_path(struct given *given);

#endif
