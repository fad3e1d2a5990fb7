/* Damaged records and images, of which the claim says nothing: a refusal must change nothing, and what is accepted must do what its
 * words say. What they say is read by the scope (words.c); a record's act is done by a plain call. */
#include "damage.h"
#include "areas.h"
#include "chance.h"
#include "link.h"
#include "mainside.h"
#include "permissions.h"
#include "standbyside.h"
#include "words.h"

#include <string.h>

enum { TABLE = PERMISSIONS_TABLE_BYTES, RECORD = PERMISSIONS_RECORD_WORDS, IMAGE = PERMISSIONS_IMAGE_WORDS };
enum { MOST_WORDS = 2 * IMAGE };

static uint32_t words[MOST_WORDS];
static size_t count;
static struct standby copy;
static unsigned char wanted[TABLE]; /* every byte that the copy's memory must hold */
static unsigned char *words_end;

static void make_areas(void)
{
    if (words_end != NULL)
        return;
    copy.memory = make_area(TABLE) - TABLE;
    words_end = make_area(sizeof words);
}

/* Whether a standby can have these numbers. */
static int are_numbers(const struct permissions_standby *numbers)
{
    if (numbers->run == numbers->highest_run)
        return numbers->last <= numbers->highest;
    return numbers->run < numbers->highest_run;
}

/* ---- the damage */

/* The change behind the standby's last, if there is one, or any. */
static const struct place *random_change(void)
{
    size_t at = reached() + 1;

    if (at > history.last || one_in(2))
        at = 1 + below((uint32_t)history.last);
    while (history.places[at].words == NULL)
        at = 1 + below((uint32_t)history.last);
    return &history.places[at];
}

static void take_record(const struct place *place)
{
    count = place->words_count;
    memcpy(words, place->words, count * sizeof(uint32_t));
}

static void flip_bit(void)
{
    words[below((uint32_t)count)] ^= 1u << below(32);
}

/* A word less, the run at times. */
static void drop_word(void)
{
    size_t at = one_in(4) ? RUN_WORD : below((uint32_t)count);

    memmove(words + at, words + at + 1, (count - at - 1) * sizeof(uint32_t));
    count--;
}

static void cut_words(void)
{
    count = below((uint32_t)count);
}

/* A word of noise, or one that is there once more. */
static void add_word(void)
{
    size_t at = below((uint32_t)count + 1);
    uint32_t word = words[below((uint32_t)count)];

    if (one_in(2))
        make_noise(&word, sizeof word);
    memmove(words + at + 1, words + at, (count - at) * sizeof(uint32_t));
    words[at] = word;
    count++;
}

/* The front of one record and the end of another; mostly a run with another's change, or run and head with another's path. */
static void mix_records(void)
{
    const struct place *other = random_change();
    size_t front = one_in(3) ? below((uint32_t)count + 1) : 1 + below(2);
    size_t from = one_in(3) || front > other->words_count ? below((uint32_t)other->words_count + 1) : front;

    count = front + other->words_count - from;
    memcpy(words + front, other->words + from, (count - front) * sizeof(uint32_t));
}

/* Another run: none, one that is or is not near the standby's; or a word of another kind. */
static void change_run(void)
{
    uint32_t *word = &words[RUN_WORD];

    switch (below(5)) {
    case 0: *word = RUN_KIND; break;
    case 1: *word = RUN_KIND | (copy.numbers.run + below(5) - 2) % (PERMISSIONS_MAX_RUN + 1); break;
    case 2: *word = RUN_KIND | (copy.numbers.highest_run + below(5) - 2) % (PERMISSIONS_MAX_RUN + 1); break;
    case 3: *word = RUN_KIND | below(PERMISSIONS_MAX_RUN + 1); break;
    default: *word ^= 1u << (28 + below(4)); break;
    }
}

/* Another number: one of the first, or one near the standby's. */
static void change_number(void)
{
    uint32_t number = one_in(2) ? below(3) : ((uint32_t)copy.numbers.last + below(5) - 2) % (PERMISSIONS_MAX_NUMBER + 1);

    words[NUMBER_WORD] = (words[NUMBER_WORD] & 0xFF000000) | number;
}

/* Another run, another number, or both: so the standby's next change and a higher run's first come about too. */
static void change_front(void)
{
    if (!one_in(3))
        change_run();
    if (!one_in(3))
        change_number();
}

/* The next record, as another main would write it, or the first one of its next run. */
static void invent_record(const struct profile *profile)
{
    static unsigned char memory[TABLE];
    int is_first = one_in(4);
    uint32_t run = copy.numbers.run + (uint32_t)is_first;
    uint64_t number = is_first ? 0 : copy.numbers.last;
    struct given given;

    make_path(&given, profile, copy.memory);
    if (permissions_fresh(memory, TABLE) != 0 ||
        permissions_linked_insert(memory, TABLE, run, &number, below(4), given.path, given.path_size, given.directory,
                                  given.directory_size, words, RECORD, &count) != 0)
        take_record(random_change());
}

static void damage_memory(void)
{
    copy.memory[below((uint32_t)used(copy.memory))] ^= (unsigned char)(1u << below(8));
}

/* Numbers that another standby has, or none. */
static void change_numbers(void)
{
    struct permissions_standby *numbers = &copy.numbers;

    do
        switch (below(7)) {
        case 0: case 1: numbers->last = numbers->highest + 1 + below(3); break;
        case 2: numbers->run = numbers->highest_run + 1 + below(3); break;
        case 3: numbers->highest_run += 1 + below(3); break;
        case 4: numbers->run /= 2; break;
        case 5: numbers->last /= 2; break;
        default:
            numbers->last = numbers->highest = UINT64_MAX;
            numbers->highest_run = UINT32_MAX;
            break;
        }
    while (one_in(2));
}

/* The standby is looked at first: at times the words are malformed too. */
static void damage_standby(void)
{
    if (one_in(2))
        damage_memory();
    else
        change_numbers();
    if (one_in(4))
        flip_bit();
}

/* The image of the table at a place, as the main could have written it. */
static void take_image(const struct place *place)
{
    static unsigned char memory[TABLE];

    memcpy(memory, place->table, place->table_size);
    if (permissions_linked_image(memory, TABLE, place->run, place->number, words, IMAGE, &count) != 0)
        fault("no image of the table in run %lu after change %lu", (unsigned long)place->run, (unsigned long)place->number);
}

static const struct place *random_place(void)
{
    return &history.places[1 + below((uint32_t)history.last)];
}

static void damage_record(const struct profile *profile)
{
    take_record(random_change());
    switch (below(29)) {
    case 0: take_image(random_place()); break; /* an image comes as a record */
    case 1: case 2: case 3: case 4: case 5: case 6: flip_bit(); break;
    case 7: cut_words(); break;
    case 8: case 9: case 10: drop_word(); break;
    case 11: case 12: case 13: case 14: add_word(); break;
    case 15: case 16: case 17: case 18: mix_records(); break;
    case 19: case 20: invent_record(profile); break;
    case 21: case 22: case 23: case 24: change_front(); break;
    default: damage_standby(); break;
    }
}

/* ---- the damage of an image */

static size_t entry_size(size_t at)
{
    return 1 + ((words[at] & 0xFFFF) + 2) / 3;
}

/* Where the words of any entry begin; 0 where there is none. */
static size_t random_entry(void)
{
    uint32_t entries = words[NEXT_WORD] >> 8 & 0x1FF, skipped = entries > 0 ? below(entries) : 0;
    size_t at = NEXT_WORD + 1;

    while (skipped-- > 0)
        at += entry_size(at);
    return entries > 0 ? at : 0;
}

/* A word less at the end, or one that is there once more. */
static void change_end(void)
{
    uint32_t word = words[below((uint32_t)count)];

    if (one_in(2))
        count--;
    else
        words[count++] = word;
}

/* An entry less; the marks stay. */
static void drop_entry(void)
{
    size_t at = random_entry(), size;

    if (at == 0)
        return;
    size = entry_size(at);
    memmove(words + at, words + at + size, (count - at - size) * sizeof(uint32_t));
    count -= size;
    words[NEXT_WORD] -= 0x100;
}

/* Entries once more, before any of them, up to so many: one above 256 is too many, and the bytes of the paths can be. */
static void double_entries(uint32_t most)
{
    static uint32_t entry[RECORD];
    size_t from, at, size;

    while ((from = random_entry()) != 0 && (words[NEXT_WORD] >> 8 & 0x1FF) < most && count + entry_size(from) <= MOST_WORDS) {
        at = random_entry();
        size = entry_size(from);
        memcpy(entry, words + from, size * sizeof(uint32_t));
        memmove(words + at + size, words + at, (count - at) * sizeof(uint32_t));
        memcpy(words + at, entry, size * sizeof(uint32_t));
        count += size;
        words[NEXT_WORD] += 0x100;
    }
}

static void double_entry(void)
{
    double_entries((words[NEXT_WORD] >> 8 & 0x1FF) + 1);
}

/* More bytes at the end of an entry's path. */
static void append_bytes(size_t at, const unsigned char *bytes, size_t size)
{
    size_t old = words[at] & 0xFFFF, end = at + entry_size(at), added = (old + size + 2) / 3 - (old + 2) / 3;

    memmove(words + end + added, words + end, (count - end) * sizeof(uint32_t));
    for (size_t i = 0; i < added; i++)
        words[end + i] = 0x30000000;
    for (size_t i = 0; i < size; i++)
        words[at + 1 + (old + i) / 3] |= (uint32_t)bytes[i] << (16 - 8 * ((old + i) % 3));
    words[at] += (uint32_t)size;
    count += added;
}

/* A path that is longer, up to the limit or above it; mostly still in resolved form. */
static void lengthen_path(void)
{
    static const char *const ends[] = {"/..", "/.", "/", "//x", "/../x", "/x", "/...", "x"};
    unsigned char bytes[PERMISSIONS_MAX_PATH_BYTES + 2];
    const char *end = ends[below(8)];
    size_t at = random_entry();

    if (at == 0)
        return;
    memset(bytes, 'x', sizeof bytes);
    if (one_in(2))
        append_bytes(at, (const unsigned char *)end, strlen(end));
    else
        append_bytes(at, bytes, sizeof bytes - 1 - below(2) - (words[at] & 0xFFFF));
}

/* Another kind, or a length that is other by one or far. */
static void change_entry(void)
{
    size_t at = random_entry();

    if (at == 0)
        return;
    switch (below(4)) {
    case 0: words[at]++; break;
    case 1: words[at]--; break;
    case 2: words[at] = (words[at] & 0xFFFF0000) | below(0x10000); break;
    default: words[at] ^= (1 + below(3)) << 16; break;
    }
}

/* A byte that can take a path out of its resolved form. */
static void change_path(void)
{
    size_t at = random_entry();
    uint32_t byte = one_in(2) ? '/' : '.', shift = 8 * below(3);

    if (at == 0)
        return;
    at += 1 + below((uint32_t)entry_size(at) - 1);
    words[at] = (words[at] & ~(UINT32_C(0xFF) << shift)) | byte << shift;
}

/* The front of one image and the end of another; mostly the run, and the number and the table word or not, with what follows in
 * the other. */
static void mix_images(void)
{
    static uint32_t front[IMAGE];
    size_t size = one_in(3) ? below((uint32_t)count + 1) : 1 + below(3), from;

    memcpy(front, words, size * sizeof(uint32_t));
    take_image(random_place());
    from = one_in(3) || size > count ? below((uint32_t)count + 1) : size;
    memmove(words + size, words + from, (count - from) * sizeof(uint32_t));
    memcpy(words, front, size * sizeof(uint32_t));
    count += size - from;
}

/* Other switches, marks or another count; or another run or number. */
static void change_image_front(void)
{
    if (one_in(3))
        words[NEXT_WORD] ^= 1u << below(17);
    else
        change_front();
}

/* A standby that would take the image, if it was not refused: one of a lower run, or of the image's with a lower number. Numbers
 * that no standby has stay. */
static void fall_behind(void)
{
    struct permissions_standby *numbers = &copy.numbers;
    uint32_t run = count <= NUMBER_WORD ? 0 : run_of_words(words);
    uint64_t number = count <= NUMBER_WORD ? 0 : number_of_words(words);

    if (!are_numbers(numbers))
        return;
    if (numbers->run >= run) {
        numbers->run = one_in(4) ? run / 2 : run;
        number = number < numbers->highest ? number : numbers->highest;
        numbers->last = below((uint32_t)number + 1);
    }
}

static void damage_image(const struct profile *profile)
{
    (void)profile;
    take_image(random_place());
    switch (below(22)) {
    case 0: take_record(random_change()); break; /* a record comes as an image */
    case 1: case 2: flip_bit(); break;
    case 3: words[below(NEXT_WORD + 1)] ^= 1u << below(32); break;
    case 4: drop_word(); break;
    case 5: add_word(); break;
    case 6: change_end(); break;
    case 7: case 8: mix_images(); break;
    case 9: case 10: drop_entry(); break;
    case 11: double_entry(); break;
    case 12: double_entries(PERMISSIONS_MAX_ENTRIES + below(2)); break;
    case 13: case 14: change_entry(); break;
    case 15: change_path(); break;
    case 16: case 17: lengthen_path(); break;
    case 18: case 19: change_image_front(); break;
    default: damage_standby(); break;
    }
    if (!one_in(3))
        fall_behind();
}

/* ---- what the words say, by the scope */

static unsigned char path[PERMISSIONS_MAX_PATH_BYTES];
static size_t path_size;

static int has_path(void)
{
    const size_t front = NEXT_WORD + 1;

    if (count < front || words[NEXT_WORD] >> 16 != 0x2000)
        return 0;
    path_size = words[NEXT_WORD] & 0xFFFF;
    return path_size >= 1 && path_size <= sizeof path && count == front + (path_size + 2) / 3 &&
           reads_path(words + front, count - front, path, path_size);
}

static uint32_t act(void)
{
    return words[NUMBER_WORD] >> 24 & 15;
}

/* The record's number, or 0 where the words are malformed. */
static uint32_t read_record(void)
{
    int is_read;

    if (count <= NUMBER_WORD || !reads_run(words, count) || words[NUMBER_WORD] >> 28 != 1)
        return 0;
    switch (act()) {
    case 1: case 2: case 3: case 4: case 6: is_read = has_path(); break;
    case 5: is_read = count == NEXT_WORD + 1 && words[NEXT_WORD] >> 5 == 0x40000000u >> 5; break;
    case 7: is_read = count == NUMBER_WORD + 1; break;
    default: is_read = 0; break;
    }
    return is_read ? number_of_words(words) : 0;
}

/* Does the record's act by a plain call. */
static int32_t do_act(unsigned char *memory)
{
    static const uint32_t kinds[] = {0, PERMISSIONS_KIND_GRANTED, PERMISSIONS_KIND_FLAG_DENIED, PERMISSIONS_KIND_FLAG_IGNORED,
                                     PERMISSIONS_KIND_PROMPT_DENIED};

    switch (act()) {
    case 5: return permissions_switches(memory, TABLE, words[NEXT_WORD] & 31);
    case 6: return permissions_revoke(memory, TABLE, path, path_size, NULL, 0);
    case 7: return permissions_revoke_all(memory, TABLE);
    default: return permissions_insert(memory, TABLE, kinds[act()], path, path_size, NULL, 0);
    }
}

/* The words are met: the highest run, and the highest number in it. */
static void meet(struct permissions_standby *numbers)
{
    uint32_t run = run_of_words(words), number = number_of_words(words);

    if (run > numbers->highest_run || (run == numbers->highest_run && number > numbers->highest))
        numbers->highest = number;
    if (run > numbers->highest_run)
        numbers->highest_run = run;
}

/* The words' run is the standby's now, and their number its last. */
static void reach(struct permissions_standby *numbers)
{
    numbers->run = run_of_words(words);
    numbers->last = number_of_words(words);
    meet(numbers);
}

/* Whether the words are of a lower run than the standby's, or of its own with a number that is not above its last. */
static int is_repeat(const struct permissions_standby *numbers)
{
    uint32_t run = run_of_words(words);

    return run < numbers->run || (run == numbers->run && number_of_words(words) <= numbers->last);
}

/* What the arrival must answer; the numbers and `wanted` are then as it must leave them. */
static int32_t foretell_record(struct permissions_standby *numbers)
{
    uint32_t number = read_record();
    int is_higher = number > 0 && run_of_words(words) > numbers->run;
    int32_t done;

    if (!are_numbers(numbers) || permissions_used(wanted, TABLE) < 0)
        return PERMISSIONS_REFUSAL_NO_TABLE;
    if (number == 0)
        return PERMISSIONS_REFUSAL_MALFORMED_RECORD;
    if (is_repeat(numbers))
        return PERMISSIONS_ARRIVAL_REPEAT;
    if (number != (is_higher ? 1 : numbers->last + 1)) {
        meet(numbers);
        return PERMISSIONS_ARRIVAL_EARLY;
    }
    if (is_higher)
        memset(wanted, 0, FRESH_BYTES);
    done = do_act(wanted);
    if (done < 0)
        return done;
    reach(numbers);
    return PERMISSIONS_ARRIVAL_APPLIED;
}

static int32_t foretell_image(struct permissions_standby *numbers)
{
    static unsigned char table[TABLE];
    size_t size = read_image(words, count, table);

    if (!are_numbers(numbers) || permissions_used(wanted, TABLE) < 0)
        return PERMISSIONS_REFUSAL_NO_TABLE;
    if (size == 0)
        return PERMISSIONS_REFUSAL_MALFORMED_IMAGE;
    if (is_repeat(numbers))
        return PERMISSIONS_ARRIVAL_REPEAT;
    memcpy(wanted, table, size);
    reach(numbers);
    return PERMISSIONS_ARRIVAL_TAKEN;
}

/* ---- the arrival */

/* Of a record, and of an image. */
struct way {
    const char *name;
    void (*damage)(const struct profile *profile);
    int32_t (*foretell)(struct permissions_standby *numbers);
    int32_t (*arrive)(void *memory, size_t memory_size, struct permissions_standby *numbers, const uint32_t *words, size_t count);
    unsigned long *answered, *refused;
};

static int same_numbers(const struct permissions_standby *one, const struct permissions_standby *other)
{
    return one->last == other->last && one->highest == other->highest && one->run == other->run &&
           one->highest_run == other->highest_run;
}

/* What other numbers than the standby's owe, or that it is refused. */
static void hold_owed(void)
{
    const struct permissions_standby *numbers = &copy.numbers;
    uint64_t owed = 99, gap = numbers->run == numbers->highest_run ? numbers->highest - numbers->last : numbers->highest;
    int32_t result, expected = are_numbers(numbers) ? 0 : PERMISSIONS_REFUSAL_NO_TABLE;

    if (same_numbers(numbers, &the_standby.numbers))
        return;
    result = permissions_standby_owed(numbers, &owed);
    if (result != expected || owed != (expected == 0 ? gap : 0))
        fault("a copy owes %lu, answered %d, with a gap of %lu", (unsigned long)owed, (int)result, (unsigned long)gap);
}

static void make_copy(void)
{
    make_areas();
    memcpy(copy.memory, the_standby.memory, TABLE);
    copy.numbers = the_standby.numbers;
}

/* Hands the words to the copy, at the end of an area. */
static int32_t hand_over(const struct way *way)
{
    size_t size = count * sizeof(uint32_t);

    memcpy(words_end - size, words, size);
    return way->arrive(copy.memory, TABLE, &copy.numbers, (const uint32_t *)(const void *)(words_end - size), count);
}

/* The copy is as foretold: its answer, its numbers and every byte of its memory. */
static void hold_copy(const struct way *way, int32_t result, int32_t expected, const struct permissions_standby *numbers)
{
    if (result != expected)
        fault("a damaged %s is answered %d, not %d", way->name, (int)result, (int)expected);
    if (!same_numbers(&copy.numbers, numbers))
        fault("a damaged %s, answered %d, leaves the numbers %lu and %lu, and the runs %lu and %lu", way->name, (int)result,
              (unsigned long)copy.numbers.last, (unsigned long)copy.numbers.highest, (unsigned long)copy.numbers.run,
              (unsigned long)copy.numbers.highest_run);
    if (memcmp(copy.memory, wanted, TABLE) != 0)
        fault("a damaged %s, answered %d, changed another byte", way->name, (int)result);
}

static void count_damaged(const struct way *way, int32_t result, int has_moved)
{
    if (result < 0)
        way->refused[-result]++;
    else
        way->answered[result]++;
    counts.damaged_moves += (unsigned long)has_moved;
}

static void arrive_by(const struct way *way, const struct profile *profile)
{
    struct permissions_standby numbers;
    int32_t result, expected;
    uint32_t run;

    if (history.changes == 0)
        return;
    make_copy();
    way->damage(profile);
    hold_owed();
    memcpy(wanted, copy.memory, TABLE);
    numbers = copy.numbers;
    run = numbers.run;
    expected = way->foretell(&numbers);
    result = hand_over(way);
    hold_copy(way, result, expected, &numbers);
    hold_owed();
    count_damaged(way, result, numbers.run > run);
}

void arrive_damaged(const struct profile *profile)
{
    static const struct way way = {"record", damage_record, foretell_record, permissions_standby_arrive, counts.damaged,
                                   counts.damaged_refused};

    arrive_by(&way, profile);
}

void arrive_damaged_image(const struct profile *profile)
{
    static const struct way way = {"image", damage_image, foretell_image, permissions_standby_arrive_image,
                                   counts.damaged_images, counts.damaged_images_refused};

    arrive_by(&way, profile);
}
