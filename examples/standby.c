/* The smallest complete standby: takes the records and images that come on standard input, and writes to standard output the number of
 * the change from which on it wants records again, a line each time that one is missing.
 *
 * usage: standby FILE <LINK >WANTED
 *
 * FILE is the controller's file of records. To take over, end this program and run `main FILE takeover RUN`. */
#include "controller.h"

/* Asks once for each change that is missing, and not for each record after it. Of a higher run that was met it wants all: change 1, or
 * the image with which the run begins. */
static void ask_for_next(void)
{
    static uint64_t asked_for;
    static uint32_t of_run;
    uint64_t wanted = numbers.run == numbers.highest_run ? numbers.last + 1 : 1;

    if (asked_for == wanted && of_run == numbers.highest_run)
        return;
    asked_for = wanted;
    of_run = numbers.highest_run;
    printf("%lu\n", (unsigned long)asked_for);
    fflush(stdout);
}

/* What is applied or taken is kept, and so is what raises the numbers met. */
static void arrive(const uint32_t *record, size_t size)
{
    struct permissions_standby before = numbers;
    int32_t result = hand_in(record, size);

    if (result < 0)
        stop(permissions_refusal_name(result));
    if (result == PERMISSIONS_ARRIVAL_APPLIED || result == PERMISSIONS_ARRIVAL_TAKEN ||
        numbers.highest != before.highest || numbers.highest_run != before.highest_run)
        keep(record, size);
    if (result == PERMISSIONS_ARRIVAL_EARLY)
        ask_for_next();
}

int main(int arguments, char **argument)
{
    static uint32_t record[PERMISSIONS_IMAGE_WORDS];
    size_t size;
    uint64_t owed;
    int got;

    if (arguments != 2)
        stop("usage: standby FILE");
    start(argument[1], NULL);
    if (permissions_standby_owed(&numbers, &owed) == 0 && owed > 0)
        ask_for_next();
    while ((got = read_frame(stdin, record, &size)) == 1 || got == -1)
        if (got == 1) /* a damaged frame counts as lost */
            arrive(record, size);
    list_table(stderr, numbers.run, numbers.last);
    return 0;
}
