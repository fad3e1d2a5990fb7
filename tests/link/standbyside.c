/* The standby: each arrival is followed by a takeover, which is held to the main's history. */
#include "standbyside.h"
#include "areas.h"
#include "chance.h"
#include "link.h"

#include <string.h>

enum { TABLE = PERMISSIONS_TABLE_BYTES, IMAGE = PERMISSIONS_IMAGE_WORDS, PATHS_ASKED = 2 };

struct standby the_standby;

static unsigned char *expected;  /* every byte that the standby's memory must hold */
static unsigned char *reference; /* memory with the main's table after change n, and other bytes behind it */
static unsigned char *words_end, *path_end, *directory_end;

/* What the standby began with, and all that has come to it since, in sequence. */
static struct arrival {
    uint32_t run;
    uint64_t number;
    int is_image;
} begun, arrivals[MOST_ARRIVALS];
static size_t arrivals_count;

static void make_areas(void)
{
    if (path_end != NULL)
        return;
    the_standby.memory = make_area(TABLE) - TABLE;
    expected = make_area(TABLE) - TABLE;
    reference = make_area(TABLE) - TABLE;
    words_end = make_area(IMAGE * sizeof(uint32_t));
    path_end = make_area(PATH_ROOM);
    directory_end = make_area(PATH_ROOM);
}

static struct arrival arrival_of(struct message message)
{
    struct arrival arrival = {history.places[message.place].run, history.places[message.place].number, message.is_image};

    return arrival;
}

void begin_standby(size_t place)
{
    struct message beginning = {place, 0};

    make_areas();
    begun = arrival_of(beginning);
    arrivals_count = 0;
    the_standby.numbers.last = the_standby.numbers.highest = begun.number;
    the_standby.numbers.run = the_standby.numbers.highest_run = begun.run;
    make_noise(the_standby.memory, TABLE);
    make_noise(reference, TABLE);
    if (permissions_fresh(the_standby.memory, TABLE) != 0 || permissions_fresh(reference, TABLE) != 0)
        fault("no fresh table");
    memcpy(expected, the_standby.memory, TABLE);
}

/* ---- what the arrivals so far say */

/* The highest run whose change 1 or image came. */
static uint32_t reached_run(void)
{
    uint32_t run = begun.run;

    for (size_t i = 0; i < arrivals_count; i++)
        if ((arrivals[i].is_image || arrivals[i].number == 1) && arrivals[i].run > run)
            run = arrivals[i].run;
    return run;
}

/* The number that a run's changes are counted on from where none of its images came. */
static uint64_t begun_number(uint32_t run)
{
    return run == begun.run ? begun.number : 0;
}

/* The greatest number of a run reached in sequence from the last of its images that was taken, with anything between. An image is
 * taken if its number is above the one reached before it; with the number 0 it leaves the count where it is without it. */
static uint64_t reached_number(uint32_t run)
{
    uint64_t n = begun_number(run);

    for (size_t i = 0; i < arrivals_count; i++)
        if (arrivals[i].run == run && (arrivals[i].is_image ? arrivals[i].number > n : arrivals[i].number == n + 1))
            n = arrivals[i].number;
    return n;
}

/* The number that a run's records from a place of the arrivals on reach in sequence from n. */
static uint64_t reached_from(uint32_t run, uint64_t n, size_t place)
{
    for (; place < arrivals_count; place++)
        if (!arrivals[place].is_image && arrivals[place].run == run && arrivals[place].number == n + 1)
            n++;
    return n;
}

/* The greatest number of a run reached in sequence from its beginning or from any of its images that came, taken or not. */
static uint64_t greatest_reached(uint32_t run)
{
    uint64_t greatest = reached_from(run, begun_number(run), 0);

    for (size_t i = 0; i < arrivals_count; i++) {
        int counts_on = arrivals[i].is_image && arrivals[i].run == run;
        uint64_t n = counts_on ? reached_from(run, arrivals[i].number, i + 1) : 0;
        if (n > greatest)
            greatest = n;
    }
    return greatest;
}

static uint32_t highest_run_met(void)
{
    uint32_t highest = begun.run;

    for (size_t i = 0; i < arrivals_count; i++)
        if (arrivals[i].run > highest)
            highest = arrivals[i].run;
    return highest;
}

/* The highest number of a run that came. */
static uint64_t highest_met(uint32_t run)
{
    uint64_t highest = begun_number(run);

    for (size_t i = 0; i < arrivals_count; i++)
        if (arrivals[i].run == run && arrivals[i].number > highest)
            highest = arrivals[i].number;
    return highest;
}

/* What the standby's numbers must be. */
static struct permissions_standby numbers_reached(void)
{
    struct permissions_standby numbers;

    numbers.run = reached_run();
    numbers.last = reached_number(numbers.run);
    numbers.highest_run = highest_run_met();
    numbers.highest = highest_met(numbers.highest_run);
    return numbers;
}

size_t reached(void)
{
    uint32_t run = reached_run();

    return place_of(run, reached_number(run));
}

/* ---- the takeover */

/* Counting from every image that came takes long, and is done now and then. */
static void hold_numbers(const struct permissions_standby *wanted)
{
    const struct permissions_standby *numbers = &the_standby.numbers;

    if (numbers->run != wanted->run)
        fault("the standby says run %lu, not %lu", (unsigned long)numbers->run, (unsigned long)wanted->run);
    if (numbers->last != wanted->last)
        fault("the standby says change %lu, and %lu came in sequence", (unsigned long)numbers->last,
              (unsigned long)wanted->last);
    if (one_in(300) && greatest_reached(wanted->run) != wanted->last)
        fault("from some image on %lu came in sequence, not %lu", (unsigned long)greatest_reached(wanted->run),
              (unsigned long)wanted->last);
    if (numbers->highest_run != wanted->highest_run)
        fault("the standby's highest run is %lu, not %lu", (unsigned long)numbers->highest_run,
              (unsigned long)wanted->highest_run);
    if (numbers->highest != wanted->highest)
        fault("the standby's highest number is %lu, not %lu", (unsigned long)numbers->highest, (unsigned long)wanted->highest);
}

/* The table is the main's at this place, byte for byte, and what is behind it is as it was. */
static void hold_table(const struct place *place)
{
    if (permissions_used(the_standby.memory, TABLE) != (int32_t)place->table_size ||
        memcmp(the_standby.memory, place->table, place->table_size) != 0)
        fault("the table is not the main's in run %lu after change %lu", (unsigned long)place->run,
              (unsigned long)place->number);
    memcpy(expected, place->table, place->table_size);
    if (memcmp(the_standby.memory, expected, TABLE) != 0)
        fault("a byte behind the table has changed");
}

/* What is owed goes from the number reached to the highest that came, by the test's own count of both; of a run in which the
 * standby is not yet, all is owed. */
static void hold_owed(const struct permissions_standby *wanted)
{
    int in_highest = wanted->run == wanted->highest_run;
    uint64_t owed = 99, gap = in_highest ? wanted->highest - wanted->last : wanted->highest;

    if (permissions_standby_owed(&the_standby.numbers, &owed) != 0)
        fault("what is owed is refused");
    if (owed != gap)
        fault("%lu owed, with a gap of %lu%s", (unsigned long)owed, (unsigned long)gap, in_highest ? "" : " in a higher run");
    if (in_highest && gap > counts.longest_gap)
        counts.longest_gap = gap;
}

static void hold_query(uint32_t mode, const void *path, size_t path_size, const void *directory, size_t directory_size)
{
    int32_t here = permissions_query(the_standby.memory, TABLE, mode, path, path_size, directory, directory_size);
    int32_t there = permissions_query(reference, TABLE, mode, path, path_size, directory, directory_size);

    if (here != there)
        fault("a query in mode %u is answered %d, not %d", (unsigned)mode, (int)here, (int)there);
    counts.queries++;
}

/* Random queries, in all modes and with no path too, are answered as on the main's table at this place. */
static void hold_queries(const struct place *place, const struct profile *profile)
{
    memcpy(reference, place->table, place->table_size);
    for (int i = 0; i < PATHS_ASKED; i++) {
        struct given given;
        make_path(&given, profile, reference);
        memcpy(path_end - given.path_size, given.path, given.path_size);
        memcpy(directory_end - given.directory_size, given.directory, given.directory_size);
        for (uint32_t mode = 0; mode < 3; mode++)
            hold_query(mode, path_end - given.path_size, given.path_size, directory_end - given.directory_size,
                       given.directory_size);
    }
    for (uint32_t mode = 0; mode < 3; mode++) {
        if (permissions_query_all(the_standby.memory, TABLE, mode) != permissions_query_all(reference, TABLE, mode))
            fault("a query with no path in mode %u is answered otherwise", (unsigned)mode);
        counts.queries++;
    }
}

static void count_takeover(size_t table_size)
{
    uint32_t entries, switches, marks;

    counts.takeovers++;
    if (permissions_head(the_standby.memory, TABLE, &entries, &switches, &marks) != 0)
        fault("the standby has no table");
    counts.full_entries += entries == PERMISSIONS_MAX_ENTRIES;
    counts.full_bytes += table_size - 4 - 3 * entries > PERMISSIONS_MAX_PATH_SUM_BYTES - PERMISSIONS_MAX_PATH_BYTES;
}

static void take_over(const struct profile *profile)
{
    struct permissions_standby wanted = numbers_reached();
    const struct place *place = &history.places[place_of(wanted.run, wanted.last)];

    hold_numbers(&wanted);
    hold_table(place);
    hold_owed(&wanted);
    hold_queries(place, profile);
    count_takeover(place->table_size);
}

/* ---- the arrival */

/* What it must answer a standby with these numbers. */
static int32_t wanted_answer(struct arrival arrival, const struct permissions_standby *numbers)
{
    uint64_t next = arrival.run == numbers->run ? numbers->last + 1 : 1;

    if (arrival.run < numbers->run || (arrival.run == numbers->run && arrival.number <= numbers->last))
        return PERMISSIONS_ARRIVAL_REPEAT;
    if (arrival.is_image)
        return PERMISSIONS_ARRIVAL_TAKEN;
    return arrival.number == next ? PERMISSIONS_ARRIVAL_APPLIED : PERMISSIONS_ARRIVAL_EARLY;
}

static void count_arrival(struct arrival arrival, int32_t result, const struct permissions_standby *numbers)
{
    int is_taken = result == PERMISSIONS_ARRIVAL_TAKEN;

    if (arrival.is_image)
        counts.images_came[result]++;
    else
        counts.records_came[result]++;
    if (arrival.run == numbers->run)
        counts.skipped += is_taken ? (unsigned long)(arrival.number - numbers->last) : 0;
    else if (arrival.run < numbers->run)
        counts.lower_came++;
    else
        counts.higher_came[result]++;
    counts.empty_taken += is_taken && arrival.number == 0;
}

void arrive(struct message message, const struct profile *profile)
{
    const struct place *place = &history.places[message.place];
    const uint32_t *words = message.is_image ? place->image : place->words;
    size_t count = message.is_image ? place->image_count : place->words_count, size = count * sizeof(uint32_t);
    const uint32_t *lent = (const uint32_t *)(const void *)(words_end - size);
    struct permissions_standby before = numbers_reached();
    struct arrival arrival = arrival_of(message);
    int32_t result, wanted = wanted_answer(arrival, &before);

    memcpy(words_end - size, words, size);
    if (message.is_image)
        result = permissions_standby_arrive_image(the_standby.memory, TABLE, &the_standby.numbers, lent, count);
    else
        result = permissions_standby_arrive(the_standby.memory, TABLE, &the_standby.numbers, lent, count);
    if (result != wanted)
        fault("%s %lu of run %lu is answered %d, not %d, with %lu of run %lu come in sequence",
              message.is_image ? "image" : "change", (unsigned long)arrival.number, (unsigned long)arrival.run, (int)result,
              (int)wanted, (unsigned long)before.last, (unsigned long)before.run);
    if (memcmp(words_end - size, words, size) != 0)
        fault("an arrival changed its words");
    count_arrival(arrival, result, &before);
    arrivals[arrivals_count++] = arrival;
    take_over(profile);
}
