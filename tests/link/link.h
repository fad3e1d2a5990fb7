/* What the parts of the link test share: a fault ends the program, and things are counted. */
#ifndef LINK_H
#define LINK_H

#include <stddef.h>
#include <stdint.h>

enum { GREATEST_REFUSAL = 13, ANSWERS = 4 }; /* how many answers an arrival has that are no refusals */

/* Says what is wrong, with the round and the seed, and ends the program with status 1. */
#if defined(__GNUC__)
__attribute__((format(printf, 1, 2), noreturn))
#endif
void fault(const char *format, ...);

struct counts {
    unsigned long rounds, calls, changes, refused[GREATEST_REFUSAL + 1];
    unsigned long runs, begins_refused[GREATEST_REFUSAL + 1]; /* runs that the main began, and beginnings that were refused */
    unsigned long no_runs;                                    /* calls that were handed a number which no run has */
    unsigned long children_kept, children_several; /* refused child calls that keep acts; child calls with several acts */
    unsigned long used_up;                         /* rounds that came to the last number */
    unsigned long images, images_refused[GREATEST_REFUSAL + 1], largest_image; /* written by the main; words */
    unsigned long records_came[ANSWERS], images_came[ANSWERS], swapped, takeovers, queries, caught_up, went_on;
    unsigned long lower_came, higher_came[ANSWERS]; /* records and images of a run below or above the standby's */
    unsigned long empty_taken;                      /* images with the number 0 that were taken */
    unsigned long skipped; /* changes of its run that an image which was taken has and the standby never got */
    unsigned long full_entries, full_bytes; /* takeovers with 256 entries, and with no room for 1,024 bytes more */
    unsigned long damaged[ANSWERS], damaged_refused[GREATEST_REFUSAL + 1];
    unsigned long damaged_images[ANSWERS], damaged_images_refused[GREATEST_REFUSAL + 1];
    unsigned long damaged_moves; /* damaged records and images that took the standby's copy to a higher run */
    uint64_t longest_gap;
};

extern struct counts counts;

#endif
