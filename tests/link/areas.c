/* Memory from the system, with a forbidden page behind it. */
#define _DEFAULT_SOURCE
#include "areas.h"

#include <stdio.h>
#include <stdlib.h>
#include <sys/mman.h>
#include <unistd.h>

unsigned char *make_area(size_t room)
{
    size_t page = (size_t)sysconf(_SC_PAGESIZE), whole = (room + page - 1) / page * page;
    unsigned char *start = mmap(NULL, whole + page, PROT_READ | PROT_WRITE, MAP_PRIVATE | MAP_ANONYMOUS, -1, 0);

    if (start == MAP_FAILED || mprotect(start + whole, page, PROT_NONE) != 0) {
        perror("link");
        exit(2);
    }
    return start + whole;
}
