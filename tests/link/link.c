/* A main, a link that loses, repeats and reorders, and a standby that is taken over after every arrival.
 *
 * usage: link [ARRIVALS [SEED]]     20,000 arrivals and seed 1 if not given
 *
 * A round begins with a fresh main and a fresh standby. The main makes random linked calls and writes images; records and images go
 * over the link; each arrival is held to the main's history (standbyside.c). The main's board is swapped now and then: it begins a
 * higher run, while records and images of its old runs are still on the way. Where there are images, the standby is swapped for a
 * fresh one now and then. A round ends with the standby caught up, and with calls on it in the main's place. Every area that is
 * lent ends at a page that can neither be read nor written.
 *
 * Exit status: 0; 1 a fault, with the round and the seed; 2 wrong usage. */
#include "link.h"
#include "chance.h"
#include "damage.h"
#include "mainside.h"
#include "permissions.h"
#include "standbyside.h"

#include <signal.h>
#include <stdarg.h>
#include <stdio.h>
#include <stdlib.h>
#include <unistd.h>

struct counts counts;

static unsigned long seed = 1, arrival_limit = 20000;

static unsigned long arrivals_made(void)
{
    unsigned long made = 0;

    for (int answer = 0; answer < ANSWERS; answer++)
        made += counts.records_came[answer] + counts.images_came[answer];
    return made;
}

void fault(const char *format, ...)
{
    va_list values;

    printf("link: round %lu, arrival %lu, seed %lu: ", counts.rounds, arrivals_made(), seed);
    va_start(values, format);
    vprintf(format, values);
    va_end(values);
    printf("\n");
    fflush(stdout);
    _exit(1);
}

/* ---- the link */

static const struct regime {
    uint32_t lost, repeated, overtaken; /* of a hundred records and images that are sent */
    uint32_t old;    /* of a hundred steps, those at which any record or image of the past comes again, of old runs too */
    uint32_t resent; /* and those at which the main sends again what the standby waits for */
} regimes[] = {
    {1, 1, 1, 1, 10},     /* nearly clean */
    {30, 25, 40, 10, 15}, /* bad */
    {80, 60, 90, 40, 15}, /* very bad */
};
enum { REGIMES = sizeof regimes / sizeof regimes[0] };

enum { MOST_ON_THE_WAY = 4096 };
static struct message on_the_way[MOST_ON_THE_WAY];
static size_t on_the_way_count;

static void send(struct message message, const struct regime *regime)
{
    if (percent(regime->lost))
        return;
    do
        if (on_the_way_count < MOST_ON_THE_WAY)
            on_the_way[on_the_way_count++] = message;
    while (percent(regime->repeated));
}

static struct message record_of(size_t place)
{
    struct message message = {place, 0};

    return message;
}

static struct message image_of(size_t place)
{
    struct message message = {place, 1};

    return message;
}

/* The change of the main's run that the standby waits for: the one behind its last, or change 1 if it is not yet in that run. */
static size_t awaited(void)
{
    size_t place = reached();

    return 1 + (place < history.begun ? history.begun : place);
}

static void send_again(const struct regime *regime)
{
    size_t from = awaited(), most = 1 + below(16);

    for (size_t place = from; place <= history.last && place < from + most; place++)
        send(record_of(place), regime);
}

/* Any record of the past, or the image that the main wrote at its place, if there is one. Where a run begins there is no record. */
static void send_old(const struct regime *regime)
{
    size_t at = 1 + below((uint32_t)history.last);
    const struct place *place = &history.places[at];

    if (place->image != NULL && (one_in(2) || place->words == NULL))
        send(image_of(at), regime);
    else if (place->words != NULL)
        send(record_of(at), regime);
}

static void send_image(const struct regime *regime)
{
    write_image();
    send(image_of(history.last), regime);
}

/* The oldest message on the way, or any. */
static struct message take_from_link(const struct regime *regime)
{
    size_t at = percent(regime->overtaken) ? below((uint32_t)on_the_way_count) : 0;
    struct message message = on_the_way[at];

    on_the_way_count--;
    for (; at < on_the_way_count; at++)
        on_the_way[at] = on_the_way[at + 1];
    return message;
}

/* ---- the board swaps */

/* A run above this one, which is not the last: mostly the next, else one not far off or any, the last one at times. */
static uint32_t run_above(uint32_t run)
{
    uint32_t left = PERMISSIONS_MAX_RUN - run;

    switch (below(20)) {
    case 0: return PERMISSIONS_MAX_RUN;
    case 1: case 2: return run + 1 + below(left);
    case 3: case 4: case 5: case 6: return run + 1 + below(left < 100 ? left : 100);
    default: return run + 1;
    }
}

static int has_room(void)
{
    return history.last + MOST_ACTS <= MOST_PLACES;
}

/* The main goes on in a higher run; what it sent before is still on the way. A main that sends images does so at once half of the
 * time, with the number 0. */
static void swap_main(const struct regime *regime, uint32_t images)
{
    if (the_main.run == PERMISSIONS_MAX_RUN || !has_room())
        return;
    begin_run(run_above(the_main.run));
    if (images > 0 && one_in(2))
        send_image(regime);
}

/* A fresh standby in the place of the old one, in no run and with the number 0. What is on the way comes to it. */
static void swap_standby(void)
{
    begin_standby(0);
    counts.swapped++;
}

/* ---- a round */

static const struct profile profiles[] = {
    {5, 4, 1},    /* paths that lie above and below each other */
    {3000, 3, 8}, /* so many that 256 entries fill a table */
    {60, 6, 400}, /* so long that their bytes fill a table */
};
enum { PROFILES = sizeof profiles / sizeof profiles[0] };

/* Of a hundred steps, those at which the main sends an image. */
static const uint32_t image_shares[] = {0, 1, 4, 12};
enum { IMAGE_SHARES = sizeof image_shares / sizeof image_shares[0] };

/* One step of so many at which the main's board is swapped; 0 for none. */
static const uint32_t swap_shares[] = {0, 500, 60};
enum { SWAP_SHARES = sizeof swap_shares / sizeof swap_shares[0] };

static void main_calls(const struct profile *profile, const struct regime *regime)
{
    size_t sent = history.last;

    if (!has_room())
        return;
    call_main(profile);
    while (sent < history.last)
        send(record_of(++sent), regime);
}

static void step(const struct profile *profile, const struct regime *regime, uint32_t images, uint32_t swaps)
{
    if (one_in(2))
        main_calls(profile, regime);
    if (percent(images))
        send_image(regime);
    if (swaps > 0 && one_in(swaps))
        swap_main(regime, images);
    if (one_in(100))
        begin_run_refused();
    if (images > 0 && one_in(300))
        swap_standby();
    if (percent(regime->resent))
        send_again(regime);
    if (percent(regime->old))
        send_old(regime);
    if (one_in(4))
        arrive_damaged(profile);
    if (one_in(20))
        arrive_damaged_image(profile);
    if (on_the_way_count > 0)
        arrive(take_from_link(regime), profile);
}

/* Whether records alone cannot take the standby to where the main is: it is not yet in the main's run, and that has no change 1. */
static int needs_image(void)
{
    return reached() < history.begun && (history.begun == history.last || history.places[history.begun].number > 0);
}

/* What is missing comes at last, record after record or in an image, and the two tables are the same. */
static void catch_up(const struct profile *profile)
{
    if (needs_image() || one_in(4)) {
        write_image();
        arrive(image_of(history.last), profile);
    }
    for (size_t place = awaited(); place <= history.last; place++)
        arrive(record_of(place), profile);
    if (the_standby.numbers.run != the_main.run || the_standby.numbers.last != the_main.number ||
        !same_table(the_standby.memory, the_main.memory))
        fault("the standby has caught up, and is not as the main");
    counts.caught_up++;
}

/* The standby's table and its last number go on where the main's would, in a run above all that it met, if there is one. */
static void take_the_place(const struct profile *profile)
{
    struct caller standby;

    standby.memory = the_standby.memory;
    standby.run = the_standby.numbers.highest_run;
    standby.number = the_standby.numbers.last;
    if (standby.run < PERMISSIONS_MAX_RUN)
        standby.run = run_above(standby.run);
    go_on_alike(&the_main, &standby, profile, 20);
}

/* In one round of five the numbers begin near their end, with a standby that is there already; else with a fresh one, in no run. */
static void begin_both(unsigned long round)
{
    if (round % 5 == 4) {
        begin_main(run_above(0), PERMISSIONS_MAX_NUMBER - 1 - below(300));
        begin_standby(history.last);
    } else {
        begin_main(run_above(0), 0);
        begin_standby(0);
    }
}

/* Rounds go through all profiles, regimes and shares of images, each with each. Half of the mains that send images keep no old
 * records: an image alone closes a gap. */
static void one_round(void)
{
    unsigned long round = counts.rounds++;
    const struct profile *profile = &profiles[round % PROFILES];
    struct regime regime = regimes[round / PROFILES % REGIMES];
    uint32_t images = image_shares[round % IMAGE_SHARES], swaps = swap_shares[below(SWAP_SHARES)];
    unsigned long steps = 100 + below(1900), ahead = one_in(2) ? below(800) : 0;

    on_the_way_count = 0;
    if (images > 0 && one_in(2))
        regime.resent = 0;
    begin_both(round);
    if (images > 0 && one_in(4))
        send_image(&regime);
    while (ahead-- > 0)
        main_calls(profile, &regime);
    for (; steps > 0 && arrivals_made() < arrival_limit; steps--)
        step(profile, &regime, images, swaps);
    catch_up(profile);
    take_the_place(profile);
    counts.used_up += the_main.number == PERMISSIONS_MAX_NUMBER;
}

/* ---- the program */

/* A signal comes from the library alone, which holds no lock of libc's, so printing is safe enough. */
static void stopped(int number)
{
    fault("a byte outside the lent areas, or a trap (signal %d)", number);
}

static void print_refusals(const unsigned long *refused)
{
    const char *between = "";

    for (int cause = 1; cause <= GREATEST_REFUSAL; cause++)
        if (refused[cause] > 0) {
            printf("%s%d: %lu", between, cause, refused[cause]);
            between = ", ";
        }
}

static void print_counts(void)
{
    const unsigned long *records = counts.records_came, *images = counts.images_came;

    printf("calls of the main %lu, changes %lu, refused ", counts.calls, counts.changes);
    print_refusals(counts.refused);
    printf("\nruns begun %lu; calls with a run number that is none %lu; beginnings refused ", counts.runs, counts.no_runs);
    print_refusals(counts.begins_refused);
    printf("\nchild calls with several acts %lu, refused ones that keep acts %lu; rounds that used up the numbers %lu\n",
           counts.children_several, counts.children_kept, counts.used_up);
    printf("images of the main %lu, the largest of %lu words, refused ", counts.images, counts.largest_image);
    print_refusals(counts.images_refused);
    printf("\nimages that came: Taken %lu, Repeat %lu; changes passed over by them %lu; standbys swapped %lu\n",
           images[PERMISSIONS_ARRIVAL_TAKEN], images[PERMISSIONS_ARRIVAL_REPEAT], counts.skipped, counts.swapped);
    printf("of a run below the standby's %lu; of one above it: Applied %lu, Early %lu, Taken %lu; taken with the number 0 %lu\n",
           counts.lower_came, counts.higher_came[PERMISSIONS_ARRIVAL_APPLIED], counts.higher_came[PERMISSIONS_ARRIVAL_EARLY],
           counts.higher_came[PERMISSIONS_ARRIVAL_TAKEN], counts.empty_taken);
    printf("takeovers with 256 entries %lu, with no room for 1,024 bytes more %lu\n", counts.full_entries, counts.full_bytes);
    printf("damaged records: Applied %lu, Repeat %lu, Early %lu, refused ", counts.damaged[PERMISSIONS_ARRIVAL_APPLIED],
           counts.damaged[PERMISSIONS_ARRIVAL_REPEAT], counts.damaged[PERMISSIONS_ARRIVAL_EARLY]);
    print_refusals(counts.damaged_refused);
    printf("\ndamaged images: Taken %lu, Repeat %lu, refused ", counts.damaged_images[PERMISSIONS_ARRIVAL_TAKEN],
           counts.damaged_images[PERMISSIONS_ARRIVAL_REPEAT]);
    print_refusals(counts.damaged_images_refused);
    printf("\ndamaged ones that led to a higher run %lu", counts.damaged_moves);
    printf("\nqueries compared %lu; standbys caught up %lu; calls made in the main's place %lu\n", counts.queries,
           counts.caught_up, counts.went_on);
    printf("link: %lu arrivals in %lu rounds, seed %lu: Applied %lu, Repeat %lu, Early %lu, Taken %lu; %lu takeovers; "
           "longest gap %lu\n",
           arrivals_made(), counts.rounds, seed, records[PERMISSIONS_ARRIVAL_APPLIED],
           records[PERMISSIONS_ARRIVAL_REPEAT] + images[PERMISSIONS_ARRIVAL_REPEAT], records[PERMISSIONS_ARRIVAL_EARLY],
           images[PERMISSIONS_ARRIVAL_TAKEN], counts.takeovers, (unsigned long)counts.longest_gap);
}

static int read_number(const char *text, unsigned long *number)
{
    char *end;

    *number = strtoul(text, &end, 10);
    return text[0] >= '0' && text[0] <= '9' && *end == '\0';
}

int main(int arguments, char **argument)
{
    if (arguments > 3 || (arguments > 1 && !read_number(argument[1], &arrival_limit)) ||
        (arguments > 2 && !read_number(argument[2], &seed))) {
        fprintf(stderr, "usage: link [ARRIVALS [SEED]]\n");
        return 2;
    }
    signal(SIGSEGV, stopped);
    signal(SIGBUS, stopped);
    signal(SIGILL, stopped);
    chance = seed;
    while (arrivals_made() < arrival_limit)
        one_round();
    print_counts();
    return 0;
}
