/* Wrong versions of the link's calls, each of which the test must notice. They stand between the test and the library by
 * -Wl,--wrap, and the variable WRONG says which one it is; 0 is none. */
#include "permissions.h"
#include "standbyside.h"
#include "words.h"

#include <stdlib.h>
#include <string.h>

enum { TABLE = PERMISSIONS_TABLE_BYTES, RECORD = PERMISSIONS_RECORD_WORDS, IMAGE = PERMISSIONS_IMAGE_WORDS };

enum {
    NONE,
    COUNTED_ONLY,      /* change 1 is applied, and the rest merely counted */
    EARLY_TO_NEXT,     /* Early said to number n + 1 */
    ONE_LEFT_OUT,      /* n + 2 applied */
    INVENTED,          /* n taken from h */
    REPEAT_RAISES,     /* a Repeat raises n */
    REPEAT_APPLIED,    /* a Repeat is done again */
    EARLY_APPLIED,     /* an Early one is done */
    EARLY_UNHEARD,     /* an Early one does not raise h */
    HEARD_TOO_MUCH,    /* h raised by one too many */
    REFUSED_HEARD,     /* a malformed record raises h */
    REFUSED_CHANGES,   /* a refused record changes the switches */
    MALFORMED_PASSES,  /* a malformed record is answered Repeat */
    FULL_PASSES,       /* 8 is answered Applied */
    CROSSED_PASSES,    /* n above h is not refused */
    OTHER_SEQUENCE,    /* the same entries, inserted in another sequence */
    SWITCH_LOST,       /* the operator is never asked again */
    BYTE_BEHIND,       /* a byte behind the table is written */
    WORD_BEHIND,       /* a word behind the record is read */
    NONE_OWED,         /* nothing is owed, ever */
    ONE_OWED,          /* something is owed, always */
    TOO_MUCH_OWED,     /* one more than h - n is owed */
    ONE_LESS_OWED,     /* one less */
    HIGHEST_OWED,      /* h */
    LAST_OWED,         /* n */
    SOME_OWED,         /* 1, for any number */
    SENT_OTHER_KIND,   /* an insert is recorded as one of another kind */
    SENT_NOTHING,      /* an insert takes a number and has no record */
    SENT_UNNUMBERED,   /* an insert raises no number */
    SENT_SAME_NUMBER,  /* a revoke's record has the number before */
    SENT_BEHIND,       /* a word behind the records is written */
    CHILD_LAST_UNSENT, /* a child call's last record is dropped, with its number */
    CHILD_REFUSED_UNSENT, /* a refused child call drops its records */
    IMAGE_TAIL_KEPT,      /* the old list's last entries stay behind the image's */
    IMAGE_UNHEARD,        /* an image that is taken leaves h below n */
    IMAGE_UNHEARS,        /* h becomes the image's number, where it was higher */
    IMAGE_AGAIN,          /* an image with the number n is taken again */
    IMAGE_OLD,            /* an image below n is taken, and n falls */
    IMAGE_NEXT_ONLY,      /* an image is taken with the number n + 1 alone */
    IMAGE_BY_HIGHEST,     /* an image is taken above h alone */
    IMAGE_COUNTED_ONLY,   /* an image raises n, and the table stays */
    IMAGE_UNCOUNTED,      /* an image's table is taken, and n stays */
    IMAGE_INSERTED,       /* an image's entries are inserted one by one */
    IMAGE_CLEARS,         /* the byte behind an image's table is cleared */
    IMAGE_WORD_BEHIND,    /* a word behind the image is read */
    SKIPPED_APPLIED,      /* a change that an image passed over is done when it comes */
    IMAGE_REFUSED_HEARD,  /* a malformed image raises h */
    IMAGE_REFUSED_CHANGES, /* a refused image changes the switches */
    IMAGE_MALFORMED_PASSES, /* a malformed image is answered Repeat */
    IMAGE_MARKS_PASS,     /* an image with other marks than those of its entries is taken */
    IMAGE_LEFT_OVER,      /* a word behind the image's last entry is not looked at */
    IMAGE_CROSSED_PASSES, /* n above h is not refused for an image */
    SENT_IMAGE_NUMBER,    /* an image has the number before */
    SENT_IMAGE_SEQUENCE,  /* an image has its last entry first */
    SENT_IMAGE_SWITCHES,  /* an image has no switches */
    SENT_IMAGE_BEHIND,    /* a word behind the image is written */
    SENT_IMAGE_ANYWAY,    /* an image that is refused by 2 is begun */
    SENT_IMAGE_UNTOLD,    /* an image that is refused by 2 does not tell its size */
    SENT_IMAGE_CUT,       /* a number above 24 bits is cut */
    HIGHER_SECOND_APPLIED, /* a higher run's change 2 is applied */
    MOVE_KEEPS_TABLE,     /* a higher run's change 1 is done on the old table */
    MOVE_KEEPS_NUMBER,    /* it leaves the old n */
    MOVE_KEEPS_HIGHEST,   /* h is kept from the old run, if it was higher there */
    MOVE_LOWERS_RUN,      /* the highest run becomes the one moved to, though a higher one was met */
    LOWER_APPLIED,        /* a lower run's record with the number n + 1 is applied */
    LOWER_DONE,           /* a lower run's record is done, and answered Repeat */
    LOWER_HEARD,          /* a lower run's record raises h */
    EARLY_RUN_UNHEARD,    /* an Early one does not raise the highest run */
    RUN_ZERO_PASSES,      /* a record of run 0 is not refused */
    RUNS_CROSSED_PASS,    /* a standby's run above the highest run is not refused */
    IMAGE_EMPTY_REPEAT,   /* an image of a higher run with the number 0 is answered Repeat */
    IMAGE_LOWER_TAKEN,    /* a lower run's image is taken */
    IMAGE_RUN_ZERO_PASSES, /* an image of run 0 is not refused */
    OWED_ACROSS_RUNS,     /* h - n is owed, though n is of a lower run than h */
    OWED_CROSSED_PASSES,  /* what is owed is not refused with a run above the highest run */
    BEGUN_KEEPS_NUMBER,   /* a run begins with the old number */
    BEGUN_KEEPS_TABLE,    /* a run begins with the old table */
    BEGUN_ANYWAY,         /* a beginning that is refused takes the number back to 0 */
    SENT_OTHER_RUN,       /* a revoke's record has the run before */
    SENT_RUN_ZERO,        /* an insert accepts run 0 */
    SENT_IMAGE_RUN,       /* an image has the run before */
    SENT_IMAGE_RUN_ZERO,  /* an image accepts run 0 */
    LAST_WRONG = SENT_IMAGE_RUN_ZERO
};

static int wrong(void)
{
    static int which = -1;

    if (which < 0)
        which = getenv("WRONG") == NULL ? NONE : atoi(getenv("WRONG"));
    if (which > LAST_WRONG)
        exit(3);
    return which;
}

/* ---- the standby's half */

int32_t __real_permissions_arrive(void *, size_t, uint64_t *, uint64_t *, uint32_t *, uint32_t *, const uint32_t *, size_t);
int32_t __wrap_permissions_arrive(void *, size_t, uint64_t *, uint64_t *, uint32_t *, uint32_t *, const uint32_t *, size_t);
int32_t __real_permissions_arrive_image(void *, size_t, uint64_t *, uint64_t *, uint32_t *, uint32_t *, const uint32_t *, size_t);
int32_t __wrap_permissions_arrive_image(void *, size_t, uint64_t *, uint64_t *, uint32_t *, uint32_t *, const uint32_t *, size_t);
int32_t __real_permissions_owed(uint64_t, uint64_t, uint32_t, uint32_t, uint64_t *);
int32_t __wrap_permissions_owed(uint64_t, uint64_t, uint32_t, uint32_t, uint64_t *);

/* The library's own arrivals, with the numbers lent together. */
static int32_t arrive_rightly(void *memory, size_t size, struct permissions_standby *numbers, const uint32_t *record,
                              size_t record_size)
{
    return __real_permissions_arrive(memory, size, &numbers->last, &numbers->highest, &numbers->run, &numbers->highest_run, record,
                                     record_size);
}

static int32_t image_rightly(void *memory, size_t size, struct permissions_standby *numbers, const uint32_t *image,
                             size_t image_size)
{
    return __real_permissions_arrive_image(memory, size, &numbers->last, &numbers->highest, &numbers->run, &numbers->highest_run,
                                           image, image_size);
}

/* Does the record's act, whatever its run and number. */
static int32_t apply(void *memory, size_t size, const uint32_t *record, size_t record_size)
{
    uint32_t copy[RECORD];
    struct permissions_standby numbers = {0, 0, 1, 1};

    memcpy(copy, record, record_size * sizeof(uint32_t));
    copy[RUN_WORD] = RUN_KIND | 1;
    copy[NUMBER_WORD] = (copy[NUMBER_WORD] & 0xFF000000) | 1;
    return arrive_rightly(memory, size, &numbers, copy, record_size);
}

/* The same, or nothing where it is refused. */
static void apply_if_possible(unsigned char *memory, const unsigned char *before, const uint32_t *record, size_t record_size)
{
    if (apply(memory, TABLE, record, record_size) != 0)
        memcpy(memory, before, TABLE);
}

/* The same entries and switches, with the entries inserted from the last to the first or from the first to the last. */
static void insert_anew(unsigned char *memory, int from_last)
{
    static unsigned char other[TABLE];
    uint32_t count, switches, marks, kind;
    size_t start, size;
    int32_t done;

    if (permissions_head(memory, TABLE, &count, &switches, &marks) != 0)
        return;
    done = permissions_fresh(other, TABLE);
    for (uint32_t i = 0; done == 0 && i < count; i++)
        if (permissions_entry(memory, TABLE, from_last ? count - 1 - i : i, &kind, &start, &size) == 1)
            done = permissions_insert(other, TABLE, kind, memory + start, size, NULL, 0);
    if (done == 0 && permissions_switches(other, TABLE, switches) == 0)
        memcpy(memory, other, (size_t)permissions_used(other, TABLE));
}

/* The entries of an old list that lie behind as many as the new list has are put behind these. */
static void keep_tail(unsigned char *memory, const unsigned char *old)
{
    uint32_t count, old_count, switches, marks, old_marks, kind;
    size_t start, size, used = (size_t)permissions_used(memory, TABLE);

    if (permissions_head(memory, TABLE, &count, &switches, &marks) != 0 ||
        permissions_head(old, TABLE, &old_count, &switches, &old_marks) != 0)
        return;
    for (; count < old_count; count++) {
        if (permissions_entry(old, TABLE, count, &kind, &start, &size) != 1 || used + 3 + size > TABLE)
            break;
        memcpy(memory + used, old + start - 3, 3 + size);
        used += 3 + size;
        memory[3] |= (unsigned char)(kind == 0 ? 0 : 1u << (kind - 1));
    }
    memory[0] = (unsigned char)(count >> 8);
    memory[1] = (unsigned char)count;
}

/* The numbers of a run that its last image passed over and that have not been done since: above `from`, up to `to`. */
static struct {
    uint32_t run;
    uint64_t from, to;
} skipped;

/* Makes numbers with n above h, which no standby has, into some that one has. */
static void uncross_numbers(struct permissions_standby *numbers)
{
    if (numbers->run == numbers->highest_run && numbers->last > numbers->highest)
        numbers->highest = numbers->last;
}

/* The same for a run above the highest run. */
static void uncross_runs(struct permissions_standby *numbers)
{
    if (numbers->run > numbers->highest_run)
        numbers->highest_run = numbers->run;
}

/* The arrival of words of run 0, where that is a run like any other: the same with all runs one higher. */
static int32_t arrive_in_run_zero(int32_t (*arrive)(void *, size_t, struct permissions_standby *, const uint32_t *, size_t),
                                  void *memory, struct permissions_standby *numbers, const uint32_t *words, size_t count)
{
    static uint32_t copy[2 * IMAGE];
    int32_t result;

    memcpy(copy, words, count * sizeof(uint32_t));
    copy[RUN_WORD]++;
    numbers->run++;
    numbers->highest_run++;
    result = arrive(memory, TABLE, numbers, copy, count);
    numbers->run--;
    numbers->highest_run--;
    return result;
}

/* Applies a record as if it was the next one, whatever its run and number; -99 if it is refused. */
static int32_t apply_as_next(void *memory, struct permissions_standby *numbers, const uint32_t *record, size_t record_size)
{
    if (apply(memory, TABLE, record, record_size) != 0)
        return -99;
    numbers->last = number_of_words(record);
    if (numbers->highest < numbers->last)
        numbers->highest = numbers->last;
    return PERMISSIONS_ARRIVAL_APPLIED;
}

/* What is done with a record of the main's, in place of the arrival; -99 if the arrival is to be made. */
static int32_t instead(void *memory, struct permissions_standby *numbers, const uint32_t *record, size_t record_size)
{
    uint32_t run = run_of_words(record);
    uint64_t number = number_of_words(record);
    int is_own = run == numbers->run;

    switch (wrong()) {
    case EARLY_TO_NEXT: return is_own && number == numbers->last + 1 && number % 16 == 0 ? PERMISSIONS_ARRIVAL_EARLY : -99;
    case ONE_LEFT_OUT: return is_own && number == numbers->last + 2 ? apply_as_next(memory, numbers, record, record_size) : -99;
    case LOWER_APPLIED:
        return run < numbers->run && number == numbers->last + 1 ? apply_as_next(memory, numbers, record, record_size) : -99;
    case HIGHER_SECOND_APPLIED:
        if (run <= numbers->run || number != 2 || permissions_fresh(memory, TABLE) != 0)
            return -99;
        numbers->run = numbers->highest_run = run;
        return apply_as_next(memory, numbers, record, record_size);
    default: return -99;
    }
}

/* What is done behind the arrival of a record of the standby's own run. */
static void afterwards_in_run(unsigned char *memory, const unsigned char *before, struct permissions_standby *numbers,
                              const struct permissions_standby *were, const uint32_t *record, size_t record_size, int32_t result)
{
    int is_early = result == PERMISSIONS_ARRIVAL_EARLY, is_repeat = result == PERMISSIONS_ARRIVAL_REPEAT;

    switch (wrong()) {
    case COUNTED_ONLY:
        if (result == PERMISSIONS_ARRIVAL_APPLIED && numbers->last > 1)
            memcpy(memory, before, TABLE);
        break;
    case INVENTED: numbers->last = numbers->highest; break;
    case REPEAT_RAISES: numbers->last += is_repeat && numbers->last < numbers->highest; break;
    case REPEAT_APPLIED:
        if (is_repeat)
            apply_if_possible(memory, before, record, record_size);
        break;
    case EARLY_APPLIED:
        if (is_early)
            apply_if_possible(memory, before, record, record_size);
        break;
    case EARLY_UNHEARD:
        if (is_early)
            numbers->highest = were->highest;
        break;
    case HEARD_TOO_MUCH: numbers->highest += is_early && numbers->highest > were->highest; break;
    case SKIPPED_APPLIED:
        if (numbers->run == skipped.run && numbers->last >= skipped.to && skipped.from < skipped.to &&
            number_of_words(record) == skipped.from + 1 && apply(memory, TABLE, record, record_size) == 0)
            skipped.from++;
        break;
    default: break;
    }
}

/* What is done behind the arrival of a record of another run, which may have become the standby's. */
static void afterwards_across_runs(unsigned char *memory, const unsigned char *before, struct permissions_standby *numbers,
                                   const struct permissions_standby *were, const uint32_t *record, size_t record_size)
{
    int has_moved = numbers->run > were->run, is_lower = run_of_words(record) < were->run;

    switch (wrong()) {
    case MOVE_KEEPS_TABLE:
        if (has_moved) {
            memcpy(memory, before, TABLE);
            apply_if_possible(memory, before, record, record_size);
        }
        break;
    case MOVE_KEEPS_NUMBER:
        if (has_moved && were->run > 0)
            numbers->last = were->last;
        break;
    case MOVE_LOWERS_RUN:
        if (has_moved && numbers->highest_run > numbers->run) {
            numbers->highest_run = numbers->run;
            numbers->highest = numbers->last;
        }
        break;
    case LOWER_DONE:
        if (is_lower)
            apply_if_possible(memory, before, record, record_size);
        break;
    case LOWER_HEARD:
        if (is_lower && number_of_words(record) > numbers->highest)
            numbers->highest = number_of_words(record);
        break;
    case EARLY_RUN_UNHEARD:
        if (!has_moved && numbers->highest_run > were->highest_run)
            *numbers = *were;
        break;
    default: break;
    }
}

/* h is kept where a record or an image has raised the highest run. */
static void keep_highest(struct permissions_standby *numbers, const struct permissions_standby *were)
{
    if (numbers->highest_run > were->highest_run && numbers->highest < were->highest)
        numbers->highest = were->highest;
}

/* What is done behind the arrival of any record of the main's. */
static void afterwards(unsigned char *memory, const unsigned char *before, struct permissions_standby *numbers,
                       const struct permissions_standby *were, const uint32_t *record, size_t record_size, int32_t result)
{
    if (run_of_words(record) == were->run)
        afterwards_in_run(memory, before, numbers, were, record, record_size, result);
    else
        afterwards_across_runs(memory, before, numbers, were, record, record_size);
    switch (wrong()) {
    case OTHER_SEQUENCE: insert_anew(memory, 1); break;
    case SWITCH_LOST: memory[2] &= 15; break;
    case BYTE_BEHIND: memory[TABLE - 1] ^= 1; break;
    case MOVE_KEEPS_HIGHEST: keep_highest(numbers, were); break;
    default: break;
    }
}

/* What is done behind the refusal of a damaged record. */
static int32_t refused(unsigned char *memory, struct permissions_standby *numbers, const uint32_t *record, size_t record_size,
                       int32_t result)
{
    int malformed = result == PERMISSIONS_REFUSAL_MALFORMED_RECORD;

    switch (wrong()) {
    case REFUSED_HEARD: numbers->highest += (uint64_t)malformed; break;
    case REFUSED_CHANGES: memory[2] ^= 1; break;
    case MALFORMED_PASSES: return malformed ? PERMISSIONS_ARRIVAL_REPEAT : result;
    case RUN_ZERO_PASSES:
        if (malformed && record_size > 0 && record[RUN_WORD] == RUN_KIND)
            return arrive_in_run_zero(arrive_rightly, memory, numbers, record, record_size);
        break;
    case FULL_PASSES:
        if (result != PERMISSIONS_REFUSAL_TABLE_FULL)
            break;
        numbers->highest += numbers->highest == numbers->last++;
        return PERMISSIONS_ARRIVAL_APPLIED;
    default: break;
    }
    return result;
}

static int32_t arrive_wrongly(void *memory, size_t size, struct permissions_standby *numbers, const uint32_t *record,
                              size_t record_size)
{
    static unsigned char before[TABLE];
    int undamaged = memory == the_standby.memory;
    struct permissions_standby were = *numbers;
    int32_t result = -99;

    memcpy(before, memory, TABLE);
    if (wrong() == CROSSED_PASSES)
        uncross_numbers(numbers);
    if (wrong() == RUNS_CROSSED_PASS)
        uncross_runs(numbers);
    if (undamaged)
        result = instead(memory, numbers, record, record_size);
    if (result != -99)
        return result;
    if (wrong() == WORD_BEHIND)
        (void)*(const volatile uint32_t *)(record + record_size);
    result = arrive_rightly(memory, size, numbers, record, record_size);
    if (result < 0)
        return refused(memory, numbers, record, record_size, result);
    if (undamaged)
        afterwards(memory, before, numbers, &were, record, record_size, result);
    return result;
}

int32_t __wrap_permissions_arrive(void *memory, size_t size, uint64_t *last, uint64_t *highest, uint32_t *run,
                                  uint32_t *highest_run, const uint32_t *record, size_t record_size)
{
    struct permissions_standby numbers = {*last, *highest, *run, *highest_run};
    int32_t result = arrive_wrongly(memory, size, &numbers, record, record_size);

    *last = numbers.last;
    *highest = numbers.highest;
    *run = numbers.run;
    *highest_run = numbers.highest_run;
    return result;
}

/* An image is taken whatever the standby has; h and the highest run stay. */
static int32_t take_anyway(void *memory, struct permissions_standby *numbers, const uint32_t *image, size_t image_size)
{
    struct permissions_standby fresh = {0, 0, 0, 0};
    int32_t result = image_rightly(memory, TABLE, &fresh, image, image_size);

    numbers->run = fresh.run;
    numbers->last = fresh.last;
    return result;
}

/* What is done with an image of the main's, in place of the arrival; -99 if the arrival is to be made. */
static int32_t image_instead(void *memory, struct permissions_standby *numbers, const uint32_t *image, size_t image_size)
{
    uint32_t run = run_of_words(image);
    uint64_t number = number_of_words(image);
    int is_own = run == numbers->run;

    switch (wrong()) {
    case IMAGE_NEXT_ONLY: return is_own && number > numbers->last + 1 ? PERMISSIONS_ARRIVAL_EARLY : -99;
    case IMAGE_BY_HIGHEST:
        return is_own && run == numbers->highest_run && number <= numbers->highest ? PERMISSIONS_ARRIVAL_REPEAT : -99;
    case IMAGE_AGAIN: return is_own && number == numbers->last ? take_anyway(memory, numbers, image, image_size) : -99;
    case IMAGE_OLD: return is_own && number < numbers->last ? take_anyway(memory, numbers, image, image_size) : -99;
    case IMAGE_EMPTY_REPEAT: return run > numbers->run && number == 0 ? PERMISSIONS_ARRIVAL_REPEAT : -99;
    case IMAGE_LOWER_TAKEN: return run < numbers->run ? take_anyway(memory, numbers, image, image_size) : -99;
    default: return -99;
    }
}

/* What is done behind an image of the main's that is taken, of the standby's own run or of a higher one. */
static void image_afterwards(unsigned char *memory, const unsigned char *before, struct permissions_standby *numbers,
                             const struct permissions_standby *were)
{
    int is_own = numbers->run == were->run;

    switch (wrong()) {
    case IMAGE_TAIL_KEPT: keep_tail(memory, before); break;
    case IMAGE_UNHEARD:
        if (is_own)
            numbers->highest = were->highest;
        break;
    case IMAGE_UNHEARS: numbers->highest = numbers->last; break;
    case IMAGE_COUNTED_ONLY: memcpy(memory, before, TABLE); break;
    case IMAGE_UNCOUNTED:
        if (is_own)
            numbers->last = were->last;
        break;
    case IMAGE_INSERTED: insert_anew(memory, 0); break;
    case MOVE_KEEPS_HIGHEST: keep_highest(numbers, were); break;
    case IMAGE_CLEARS:
        if (permissions_used(memory, TABLE) < TABLE)
            memory[permissions_used(memory, TABLE)] = 0;
        break;
    case SKIPPED_APPLIED:
        skipped.run = numbers->run;
        skipped.from = is_own ? were->last : 0;
        skipped.to = numbers->last;
        break;
    default: break;
    }
}

/* The arrival of an image that is altered first, so that it is no longer refused; the real answer if it still is. */
static int32_t arrive_altered(unsigned char *memory, struct permissions_standby *numbers, const uint32_t *image, size_t image_size)
{
    static uint32_t copy[IMAGE];
    uint32_t marks;
    int32_t result = PERMISSIONS_REFUSAL_MALFORMED_IMAGE;

    if (image_size <= NEXT_WORD || image_size > IMAGE)
        return result;
    memcpy(copy, image, image_size * sizeof(uint32_t));
    if (wrong() == IMAGE_LEFT_OVER)
        return image_rightly(memory, TABLE, numbers, copy, image_size - 1);
    for (marks = 0; marks < 8 && result == PERMISSIONS_REFUSAL_MALFORMED_IMAGE; marks++) {
        copy[NEXT_WORD] = (image[NEXT_WORD] & ~UINT32_C(0xE0)) | marks << 5;
        result = image_rightly(memory, TABLE, numbers, copy, image_size);
    }
    return result;
}

/* What is done behind the refusal of a damaged image. */
static int32_t image_refused(unsigned char *memory, struct permissions_standby *numbers, const uint32_t *image, size_t image_size,
                             int32_t result)
{
    int malformed = result == PERMISSIONS_REFUSAL_MALFORMED_IMAGE;

    switch (wrong()) {
    case IMAGE_REFUSED_HEARD: numbers->highest += (uint64_t)malformed; break;
    case IMAGE_REFUSED_CHANGES: memory[2] ^= 1; break;
    case IMAGE_MALFORMED_PASSES: return malformed ? PERMISSIONS_ARRIVAL_REPEAT : result;
    case IMAGE_MARKS_PASS: case IMAGE_LEFT_OVER:
        return malformed ? arrive_altered(memory, numbers, image, image_size) : result;
    case IMAGE_RUN_ZERO_PASSES:
        if (malformed && image_size > 0 && image[RUN_WORD] == RUN_KIND)
            return arrive_in_run_zero(image_rightly, memory, numbers, image, image_size);
        break;
    default: break;
    }
    return result;
}

static int32_t arrive_image_wrongly(void *memory, size_t size, struct permissions_standby *numbers, const uint32_t *image,
                                    size_t image_size)
{
    static unsigned char before[TABLE];
    int undamaged = memory == the_standby.memory;
    struct permissions_standby were = *numbers;
    int32_t result = -99;

    memcpy(before, memory, TABLE);
    if (wrong() == IMAGE_CROSSED_PASSES)
        uncross_numbers(numbers);
    if (undamaged)
        result = image_instead(memory, numbers, image, image_size);
    if (result != -99)
        return result;
    if (wrong() == IMAGE_WORD_BEHIND)
        (void)*(const volatile uint32_t *)(image + image_size);
    result = image_rightly(memory, size, numbers, image, image_size);
    if (result < 0)
        return image_refused(memory, numbers, image, image_size, result);
    if (undamaged && result == PERMISSIONS_ARRIVAL_TAKEN)
        image_afterwards(memory, before, numbers, &were);
    return result;
}

int32_t __wrap_permissions_arrive_image(void *memory, size_t size, uint64_t *last, uint64_t *highest, uint32_t *run,
                                        uint32_t *highest_run, const uint32_t *image, size_t image_size)
{
    struct permissions_standby numbers = {*last, *highest, *run, *highest_run};
    int32_t result = arrive_image_wrongly(memory, size, &numbers, image, image_size);

    *last = numbers.last;
    *highest = numbers.highest;
    *run = numbers.run;
    *highest_run = numbers.highest_run;
    return result;
}

/* What is owed by the standby itself; with other numbers it is right. */
static uint64_t owed_wrongly(const struct permissions_standby *numbers, uint64_t owed)
{
    switch (wrong()) {
    case NONE_OWED: return 0;
    case ONE_OWED: return 1;
    case TOO_MUCH_OWED: return owed > 0 ? owed + 1 : 0;
    case ONE_LESS_OWED: return owed > 0 ? owed - 1 : 0;
    case HIGHEST_OWED: return owed > 0 ? numbers->highest : 0;
    case LAST_OWED: return owed > 0 ? numbers->last : 0;
    case SOME_OWED: return owed > 0;
    case OWED_ACROSS_RUNS: return numbers->highest - numbers->last;
    default: return owed;
    }
}

int32_t __wrap_permissions_owed(uint64_t last, uint64_t highest, uint32_t run, uint32_t highest_run, uint64_t *owed)
{
    struct permissions_standby numbers = {last, highest, run, highest_run};
    int32_t result;

    if (wrong() == OWED_CROSSED_PASSES)
        uncross_runs(&numbers);
    result = __real_permissions_owed(numbers.last, numbers.highest, numbers.run, numbers.highest_run, owed);
    if (last == the_standby.numbers.last && highest == the_standby.numbers.highest && run == the_standby.numbers.run &&
        highest_run == the_standby.numbers.highest_run)
        *owed = owed_wrongly(&numbers, *owed);
    return result;
}

/* ---- the main's half */

int32_t __real_permissions_begin_run(void *, size_t, uint32_t, uint64_t *);
int32_t __wrap_permissions_begin_run(void *, size_t, uint32_t, uint64_t *);
int32_t __real_permissions_linked_insert(void *, size_t, uint32_t, uint64_t *, uint32_t, const void *, size_t, const void *, size_t,
                                         uint32_t *, size_t, size_t *);
int32_t __wrap_permissions_linked_insert(void *, size_t, uint32_t, uint64_t *, uint32_t, const void *, size_t, const void *, size_t,
                                         uint32_t *, size_t, size_t *);
int32_t __real_permissions_linked_revoke(void *, size_t, uint32_t, uint64_t *, const void *, size_t, const void *, size_t,
                                         uint32_t *, size_t, size_t *);
int32_t __wrap_permissions_linked_revoke(void *, size_t, uint32_t, uint64_t *, const void *, size_t, const void *, size_t,
                                         uint32_t *, size_t, size_t *);
int32_t __real_permissions_linked_child(void *, size_t, uint32_t, uint64_t *, void *, size_t, uint32_t, const void *, size_t,
                                        const uint32_t *, size_t, const uint32_t *, size_t, const void *, size_t, uint32_t *,
                                        size_t, uint32_t *, size_t *);
int32_t __wrap_permissions_linked_child(void *, size_t, uint32_t, uint64_t *, void *, size_t, uint32_t, const void *, size_t,
                                        const uint32_t *, size_t, const uint32_t *, size_t, const void *, size_t, uint32_t *,
                                        size_t, uint32_t *, size_t *);

int32_t __wrap_permissions_begin_run(void *memory, size_t size, uint32_t run, uint64_t *number)
{
    static unsigned char before[TABLE];
    uint64_t old = *number;
    int32_t result;

    memcpy(before, memory, size);
    result = __real_permissions_begin_run(memory, size, run, number);
    if (result == 0 && wrong() == BEGUN_KEEPS_NUMBER)
        *number = old;
    if (result == 0 && wrong() == BEGUN_KEEPS_TABLE && permissions_used(before, TABLE) > 0)
        memcpy(memory, before, TABLE);
    if (result != 0 && wrong() == BEGUN_ANYWAY)
        *number = 0;
    return result;
}

/* Takes the words from a place on back, as if they had not been written. */
static void unwrite(uint32_t *records, size_t from, size_t *records_size)
{
    memset(records + from, 0xA5, (*records_size - from) * sizeof(uint32_t));
    *records_size = from;
}

/* Run 0 is accepted, and written. */
static uint32_t accepted(uint32_t run, int zero_passes)
{
    return run == 0 && zero_passes ? 1 : run;
}

int32_t __wrap_permissions_linked_insert(void *memory, size_t size, uint32_t run, uint64_t *number, uint32_t kind,
                                         const void *path, size_t path_size, const void *directory, size_t directory_size,
                                         uint32_t *records, size_t space, size_t *records_size)
{
    int32_t result = __real_permissions_linked_insert(memory, size, accepted(run, wrong() == SENT_RUN_ZERO), number, kind, path,
                                                      path_size, directory, directory_size, records, space, records_size);

    if (result != 0)
        return result;
    switch (wrong()) {
    case SENT_OTHER_KIND:
        records[NUMBER_WORD] = (records[NUMBER_WORD] & 0xF0FFFFFF) | ((records[NUMBER_WORD] >> 24 & 3) + 1) << 24;
        break;
    case SENT_NOTHING: unwrite(records, 0, records_size); break;
    case SENT_UNNUMBERED: --*number; break;
    case SENT_BEHIND: records[*records_size < space ? *records_size : 0] = 0; break;
    case SENT_RUN_ZERO: records[RUN_WORD] = RUN_KIND | run; break;
    default: break;
    }
    return result;
}

int32_t __wrap_permissions_linked_revoke(void *memory, size_t size, uint32_t run, uint64_t *number, const void *path,
                                         size_t path_size, const void *directory, size_t directory_size, uint32_t *records,
                                         size_t space, size_t *records_size)
{
    int32_t result = __real_permissions_linked_revoke(memory, size, run, number, path, path_size, directory, directory_size,
                                                      records, space, records_size);

    if (result >= 0 && wrong() == SENT_SAME_NUMBER)
        records[NUMBER_WORD]--;
    if (result >= 0 && wrong() == SENT_OTHER_RUN)
        records[RUN_WORD]--;
    return result;
}

int32_t __wrap_permissions_linked_child(void *parent, size_t parent_size, uint32_t run, uint64_t *number, void *child,
                                        size_t child_size, uint32_t code, const void *items, size_t items_size,
                                        const uint32_t *ends, size_t ends_count, const uint32_t *answers, size_t answers_count,
                                        const void *directory, size_t directory_size, uint32_t *records, size_t space,
                                        uint32_t *asked, size_t *records_size)
{
    int32_t result = __real_permissions_linked_child(parent, parent_size, run, number, child, child_size, code, items, items_size,
                                                     ends, ends_count, answers, answers_count, directory, directory_size,
                                                     records, space, asked, records_size);
    size_t front = *records_size;

    if (*records_size > 0 && wrong() == CHILD_LAST_UNSENT) {
        while (records[--front] >> 28 != RUN_KIND >> 28)
            ;
        unwrite(records, front, records_size);
        --*number;
    }
    if (*records_size > 0 && result < 0 && wrong() == CHILD_REFUSED_UNSENT)
        unwrite(records, 0, records_size);
    return result;
}

int32_t __real_permissions_linked_image(const void *, size_t, uint32_t, uint64_t, uint32_t *, size_t, size_t *);
int32_t __wrap_permissions_linked_image(const void *, size_t, uint32_t, uint64_t, uint32_t *, size_t, size_t *);

/* Brings the last entry of an image to the front. */
static void put_last_first(uint32_t *image, size_t image_size)
{
    static uint32_t last[RECORD];
    size_t at = image_size, first = NEXT_WORD + 1;

    if (at == first)
        return;
    while (image[--at] >> 28 != 7)
        ;
    memcpy(last, image + at, (image_size - at) * sizeof(uint32_t));
    memmove(image + first + image_size - at, image + first, (at - first) * sizeof(uint32_t));
    memcpy(image + first, last, (image_size - at) * sizeof(uint32_t));
}

int32_t __wrap_permissions_linked_image(const void *memory, size_t size, uint32_t run, uint64_t number, uint32_t *image,
                                        size_t space, size_t *image_size)
{
    int32_t result = __real_permissions_linked_image(memory, size, accepted(run, wrong() == SENT_IMAGE_RUN_ZERO),
                                                     wrong() == SENT_IMAGE_CUT ? number & 0xFFFFFF : number, image, space,
                                                     image_size);

    if (result == PERMISSIONS_REFUSAL_NO_SPACE && wrong() == SENT_IMAGE_ANYWAY && space > 0)
        image[RUN_WORD] = RUN_KIND | run;
    if (result == PERMISSIONS_REFUSAL_NO_SPACE && wrong() == SENT_IMAGE_UNTOLD && space > 0)
        *image_size = 0;
    if (result != 0)
        return result;
    switch (wrong()) {
    case SENT_IMAGE_NUMBER: image[NUMBER_WORD] -= number > 0; break;
    case SENT_IMAGE_SEQUENCE: put_last_first(image, *image_size); break;
    case SENT_IMAGE_SWITCHES: image[NEXT_WORD] &= ~UINT32_C(31); break;
    case SENT_IMAGE_BEHIND:
        if (*image_size < space)
            image[*image_size] = 0;
        break;
    case SENT_IMAGE_RUN: image[RUN_WORD]--; break;
    case SENT_IMAGE_RUN_ZERO: image[RUN_WORD] = RUN_KIND | run; break;
    default: break;
    }
    return result;
}
