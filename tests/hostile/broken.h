/* Faults that a build with -DBREAK puts into what a call did, one at a time, by a third argument: hostile CALLS SEED FAULT.
 * From FIRST_WITHOUT_MODEL to LAST_WITHOUT_MODEL, from IMAGE_WITHOUT_MODEL to LAST_IMAGE_WITHOUT_MODEL, from RUN_WITHOUT_MODEL
 * to LAST_RUN_WITHOUT_MODEL, and from COMMON_WITHOUT_MODEL on, nothing is held against the model, so that what calls say of
 * each other must notice the fault. tests/hostile-test sees that each up to LAST_FAULT is noticed. */
enum {
    FIRST_BROKEN_CALL = 1000,
    FIRST_WITHOUT_MODEL = 59,
    LAST_WITHOUT_MODEL = 77,
    IMAGE_WITHOUT_MODEL = 127,
    LAST_IMAGE_WITHOUT_MODEL = 140,
    RUN_WITHOUT_MODEL = 205,
    LAST_RUN_WITHOUT_MODEL = 230,
    COMMON_WITHOUT_MODEL = 262,
    LAST_FAULT = 271
};

static unsigned long fault;

static void change(int area, size_t position)
{
    if (areas[area].lent && position < areas[area].size)
        areas[area].start[position] ^= 1;
}

static int is_asking(void)
{
    return current == CHECK_PATH || current == CHECK_ALL || current == REQUEST_PATH || current == REQUEST_ALL
           || (current >= LINKED_CHECK && current <= LINKED_REQUEST_ALL);
}

static int has_text(void)
{
    return areas[TEXT].lent && size_in(NUMBER_2) > 0;
}

static int has_records(void)
{
    return turn.linked != NULL && size_in(NUMBER_3) > 0;
}

static void hide_records(void)
{
    memset(areas[NUMBER_3].start, 0, sizeof(size_t));
}

static void set_long(int area, uint64_t number)
{
    memcpy(areas[area].start, &number, sizeof number);
}

static void set_number(int area, uint32_t number)
{
    memcpy(areas[area].start, &number, sizeof number);
}

static void skip_number(void)
{
    set_long(MAIN_NUMBER, long_in(MAIN_NUMBER) + 1);
}

/* ---- arrivals */

/* An arrival with this one result. */
static int arrives(int32_t result, int32_t one)
{
    return current == ARRIVE && result == one;
}

static void restore_memory(void)
{
    memcpy(areas[MEMORY].start, standby_slot.bytes, turn.memory_size);
}

/* What arrives is of the standby's run, or of a higher one. */
static int is_own(void)
{
    return arriving_run() == turn.had.run;
}

static int is_higher(void)
{
    return arriving_run() > turn.had.run;
}

/* Does the act, whatever its run and number. */
static void do_anyway(void)
{
    uint64_t last = arriving_number() - 1u, highest = last;
    uint32_t run = arriving_run(), highest_run = run;

    if (permissions_arrive(turn.memory, turn.memory_size, &last, &highest, &run, &highest_run, turn.words, turn.words_size) < 0)
        restore_memory();
}

/* Whether words are a record. To a standby above every run each one is a repeat. */
static int is_record(const uint32_t *words, size_t size)
{
    static struct table table;
    struct standby standby = {0, 0, UINT32_MAX, UINT32_MAX};

    return model_arrive(&table, &standby, words, size) == REPEAT;
}

static int is_malformed(void)
{
    return !is_record(turn.words, turn.words_size);
}

/* The next one to whoever looks at the low 24 bits of n alone. */
static int looks_next(void)
{
    return is_own() && ((turn.had.last + 1) & MAX_NUMBER) == arriving_number();
}

/* The next one said to be early, and left. */
static void put_off(void)
{
    restore_memory();
    set_long(LAST, turn.had.last);
    set_number(OWN_RUN, turn.had.run);
}

/* The memory holds a table, and n is above h in the highest run. */
static int is_above_h(void)
{
    return turn.holds && turn.had.run == turn.had.highest_run && turn.had.last > turn.had.highest;
}

/* The call said that something is owed. */
static int owes(void)
{
    return current == OWED && long_in(NUMBER) > 0;
}

/* Faults of arrivals and of what is owed, in the lent areas. */
static void break_standby(int32_t result)
{
    switch (fault) {
    case 33: if (arrives(result, APPLIED)) restore_memory(); break;                       /* n raised, and nothing applied */
    case 34: if (arrives(result, APPLIED)) set_long(LAST, long_in(LAST) + 1); break;      /* n raised by two */
    case 35: if (arrives(result, APPLIED)) set_long(LAST, turn.had.last); break;          /* applied, and n not raised */
    case 36: if (arrives(result, APPLIED)) set_long(HIGHEST, long_in(LAST)); break;       /* h falls to n */
    case 37: if (arrives(result, EARLY)) set_long(HIGHEST, turn.had.highest); break;      /* an early one not heard of */
    case 38: if (arrives(result, EARLY)) set_long(HIGHEST, arriving_number()); break;     /* h falls to an early one */
    case 39: if (arrives(result, -11)) set_long(HIGHEST, turn.had.highest + 1); break;    /* h raised by a refusal */
    case 40: if (arrives(result, -8)) set_long(HIGHEST, arriving_number()); break;        /* the same by a full table */
    case 41: if (arrives(result, -8)) set_long(LAST, arriving_number()); break;           /* n raised by a refusal */
    case 42: if (arrives(result, REPEAT)) do_anyway(); break;                             /* a repeat applied */
    case 43: if (arrives(result, EARLY)) do_anyway(); break;                              /* an early one applied */
    case 44: if (arrives(result, -11)) change(WORDS, 0); break;                           /* a word that is only read */
    case 45: if (owes()) set_long(NUMBER, 0); break;                                      /* nothing owed */
    case 46: if (owes()) set_long(NUMBER, long_in(NUMBER) + 1); break;                    /* too much owed */
    case 47: if (current == OWED && !owes()) change(NUMBER, 0); break;                    /* owed with h not above n */
    case 68: if (arrives(result, APPLIED) && arriving_number() > 1) restore_memory(); break; /* change 1 alone applied */
    case 69: if (arrives(result, APPLIED)) set_long(LAST, long_in(LAST) + 1); break;      /* an invented n */
    case 70: if (arrives(result, APPLIED)) put_off(); break;                              /* Early said to number n + 1 */
    case 71: if (arrives(result, -11)) set_long(HIGHEST, turn.had.highest + 1); break;    /* h raised by a refusal */
    case 72: if (arrives(result, REPEAT)) do_anyway(); break;                             /* a repeat applied */
    case 73: if (arrives(result, EARLY)) do_anyway(); break;                              /* an early one applied */
    case 74: if (owes()) set_long(NUMBER, 0); break;                                      /* nothing owed */
    case 137: if (owes()) set_long(NUMBER, turn.had.highest); break;                      /* h owed */
    case 138: if (owes()) set_long(NUMBER, turn.had.last); break;                         /* n owed */
    case 139: if (owes()) set_long(NUMBER, long_in(NUMBER) - 1); break;                   /* one less owed */
    case 140: if (owes()) set_long(NUMBER, 1); break;                                     /* one owed, for any number */
    }
}

/* ---- images */

/* An image's writing, or its arrival, with this one result. */
static int writes_image(int32_t result, int32_t one)
{
    return current == LINKED_IMAGE && result == one;
}

static int takes_image(int32_t result, int32_t one)
{
    return current == ARRIVE_IMAGE && result == one;
}

/* Whether this one thing is wrong with the image that arrives. */
static int is_wrong_by(uint32_t wrong)
{
    return model_wrong_image(turn.words, turn.words_size) == wrong;
}

/* The count of entries that an image says. */
static uint32_t image_count(void)
{
    return word_in(WORDS, 2) >> 8 & 511;
}

static void keep_old_count(void)
{
    memcpy(areas[MEMORY].start, standby_slot.bytes, 2);
}

static void set_size(int area, size_t size)
{
    memcpy(areas[area].start, &size, sizeof size);
}

/* Exchanges the kinds P and I, as acts have them, in a table or in an image. */
static void exchange_in_table(void)
{
    uint8_t *entry = areas[MEMORY].start + 4;

    for (uint32_t left = image_count(); left > 0; left--) {
        *entry ^= *entry > KIND_D;
        entry += 3 + entry[1] * 256 + entry[2];
    }
}

static void exchange_in_image(void)
{
    for (size_t i = 3; i < size_in(NUMBER); i++) {
        uint32_t word = word_in(IMAGE, i);
        if (word >> 28 == 7 && (word >> 17 & 1) != 0)
            change(IMAGE, 4 * i + 2); /* bit 16 */
    }
}

/* Takes the image, whatever its run and number. */
static int32_t take_anyway(void)
{
    uint64_t last = 0, highest = 0;
    uint32_t run = 0, highest_run = 0;

    return permissions_arrive_image(turn.memory, turn.memory_size, &last, &highest, &run, &highest_run, turn.words,
                                    turn.words_size);
}

/* An image with the number n is taken once more. */
static int32_t take_at_n(int32_t result)
{
    if (!takes_image(result, REPEAT) || !is_own() || arriving_number() != turn.had.last)
        return result;
    return take_anyway();
}

/* Whether the table has a path of 1,024 bytes, by the model. */
static int has_longest_path(void)
{
    for (size_t i = 0; i < turn.after.count; i++)
        if (turn.after.entries[i].path.size == MAX_PATH)
            return 1;
    return 0;
}

/* Faults of images in the lent areas. */
static void break_image_areas(int32_t result)
{
    int taken = takes_image(result, TAKEN), written = writes_image(result, 0);

    switch (fault) {
    case 83: if (taken) keep_old_count(); break;                                   /* the old table's tail */
    case 84: if (taken) set_long(LAST, turn.had.last); break;                      /* n not set */
    case 85: if (taken) set_long(LAST, long_in(LAST) + 1); break;                  /* n raised by one */
    case 86: if (taken) set_long(HIGHEST, turn.had.highest); break;                /* h left as it was */
    case 87: if (taken) set_long(HIGHEST, long_in(LAST)); break;                   /* h falls to n */
    case 88: if (taken) change(MEMORY, areas[MEMORY].size - 1); break;             /* a byte behind the table */
    case 89: if (taken) exchange_in_table(); break;                                /* P for I */
    case 90: if (takes_image(result, -13)) change(MEMORY, 2); break;               /* a refused image changes a byte */
    case 91: if (takes_image(result, -13)) set_long(HIGHEST, turn.had.highest + 1); break; /* h raised by a refusal */
    case 92: if (takes_image(result, REPEAT)) change(MEMORY, 2); break;            /* a repeat changes a byte */
    case 93: if (written) change(IMAGE, 4); break;                                 /* another number */
    case 94: if (written) change(IMAGE, 4 * size_in(NUMBER)); break;               /* a word behind the image */
    case 95: if (writes_image(result, -2)) change(IMAGE, 0); break;                /* a word written, though refused by 2 */
    case 96: if (writes_image(result, -9)) change(IMAGE, 0); break;                /* the same by 9 */
    case 97: if (writes_image(result, -2)) set_size(NUMBER, 0); break;             /* no size told under 2 */
    case 98: if (writes_image(result, -9)) set_size(NUMBER, 0); break;             /* nor under 9 */
    case 99: if (writes_image(result, -1)) change(NUMBER, 0); break;               /* a size told under 1 */
    case 100: if (written) change(MEMORY, 2); break;                               /* a byte that is only read */
    case 101: if (written) exchange_in_image(); break;                             /* P for I */
    case 102: if (written) change(IMAGE, 4 * size_in(NUMBER) - 4); break;          /* another byte in the last word */
    case 127: if (taken) keep_old_count(); break;                                  /* the old table's tail */
    case 128: if (taken) set_long(LAST, turn.had.last); break;                     /* n not set */
    case 129: if (taken) set_long(HIGHEST, turn.had.highest); break;               /* h left as it was */
    case 130: if (taken) change(MEMORY, 8); break;                                 /* another path */
    case 131: if (takes_image(result, -13)) change(MEMORY, 2); break;              /* a refused image changes a byte */
    case 132: if (written) change(IMAGE, 4); break;                                /* another number */
    case 133: if (written) exchange_in_image(); break;                             /* P for I */
    case 134: if (writes_image(result, -2)) set_size(NUMBER, 0); break;            /* no size told under 2 */
    case 135: if (written) set_size(NUMBER, size_in(NUMBER) - 1); break;           /* an image one word too short */
    }
}

/* Faults in the result of a call with an image. */
static int32_t break_image(int32_t result)
{
    uint64_t number = current == ARRIVE_IMAGE ? arriving_number() : 0;
    int refused = takes_image(result, -13), repeat = takes_image(result, REPEAT), taken = takes_image(result, TAKEN);

    break_image_areas(result);
    switch (fault) {
    case 103: return writes_image(result, -2) && turn.first > MAX_NUMBER ? -9 : result;            /* 9 before 2 */
    case 104: return writes_image(result, -9) ? 0 : result;                   /* a number above the limit is no refusal */
    case 105: return writes_image(result, -2) && turn.image_space + 1 == size_in(NUMBER) ? 0 : result; /* a word too few */
    case 106: return writes_image(result, 0) && turn.image_space == size_in(NUMBER) ? -2 : result; /* just enough refused */
    case 107: return refused && is_wrong_by(WRONG_KIND) ? TAKEN : result;     /* kinds not looked at */
    case 108: return refused && is_wrong_by(WRONG_SHORT) ? TAKEN : result;    /* a count that is not met */
    case 109: return refused && is_wrong_by(WRONG_LENGTH) ? TAKEN : result;   /* any length */
    case 110: return refused && is_wrong_by(WRONG_UNUSED) ? TAKEN : result;   /* unused bits */
    case 111: return refused && is_wrong_by(WRONG_OVER) ? TAKEN : result;     /* words left over */
    case 112: return refused && is_wrong_by(WRONG_PATH) ? TAKEN : result;     /* any path */
    case 113: return refused && is_wrong_by(WRONG_COUNT) ? TAKEN : result;    /* over 256 entries */
    case 114: return refused && is_wrong_by(WRONG_SUM) ? TAKEN : result;      /* over 32,768 path bytes */
    case 115: return refused && is_wrong_by(WRONG_MARKS) ? TAKEN : result;    /* marks not checked */
    case 116: return takes_image(result, -1) && !is_wrong_by(0) ? -13 : result;                    /* 13 before 1 */
    case 117: return takes_image(result, -1) && is_above_h() && is_wrong_by(0) ? REPEAT : result;  /* n above h */
    case 118: return (repeat || taken) && number == 0 ? -13 : result;         /* number 0 is malformed */
    case 119: return repeat && is_own() && (turn.had.last & MAX_NUMBER) < number ? TAKEN : result; /* n by its low bits */
    case 120: return taken && is_own() && number - turn.had.last > 1 ? EARLY : result;             /* Early said to an image */
    case 121: return taken && is_own() && number <= turn.had.highest ? REPEAT : result;            /* h in place of n */
    case 122: return taken && image_count() == 0 ? -13 : result;              /* no image of an empty table */
    case 123: return take_at_n(result);                                       /* an image at n taken again */
    case 124: return taken && turn.after.count == MAX_ENTRIES ? -13 : result; /* 256 entries are too many */
    case 125: return taken && turn.after.sum == MAX_SUM ? -13 : result;       /* so are 32,768 bytes */
    case 126: return taken && has_longest_path() ? -13 : result;              /* and 1,024 of a path */
    case 136: return take_at_n(result);                                       /* the same */
    default: return result;
    }
}

/* ---- runs: arrivals */

/* An arrival of a record or an image that is not refused; of a run above the highest one; below it. */
static int is_met(int32_t result)
{
    return (current == ARRIVE || current == ARRIVE_IMAGE) && result >= 0;
}

static int is_met_above(int32_t result)
{
    return is_met(result) && arriving_run() > turn.had.highest_run;
}

static int is_met_below(int32_t result)
{
    return is_met(result) && arriving_run() < turn.had.highest_run;
}

/* A record, or an image, that brings the standby into a higher run. */
static int moves(int32_t result)
{
    return arrives(result, APPLIED) && is_higher();
}

static int moves_by_image(int32_t result)
{
    return takes_image(result, TAKEN) && is_higher();
}

/* A record of a lower run. */
static int is_past(int32_t result)
{
    return arrives(result, REPEAT) && !is_own();
}

/* A move on top of the old table. */
static void do_on_old_table(void)
{
    restore_memory();
    do_anyway();
}

/* Faults about runs in what an arrival leaves. */
static void break_arrival_runs(int32_t result)
{
    const struct standby had = turn.had;
    uint32_t run = arriving_run(), number = arriving_number();
    int above = is_met_above(result), lower = is_met_below(result);

    switch (fault) {
    case 141: case 205: if (moves(result)) do_on_old_table(); break;                     /* the old table kept */
    case 142: case 206: if (moves(result)) set_long(LAST, had.last); break;              /* n kept */
    case 143: case 207: if (moves(result)) set_number(OWN_RUN, had.run); break;          /* the old run kept */
    case 144: case 208: if (moves_by_image(result)) set_long(LAST, had.last); break;     /* n kept by an image */
    case 145: case 209: if (moves_by_image(result)) set_number(OWN_RUN, had.run); break; /* the old run kept by one */
    case 146: case 210: if (above && had.highest > number) set_long(HIGHEST, had.highest); break; /* h kept from the old run */
    case 147: case 211: if (above) set_number(HIGHEST_RUN, had.highest_run); break;      /* the highest run kept */
    case 148: case 212: if (lower) set_number(HIGHEST_RUN, run); break;                  /* the highest run falls */
    case 149: case 213: if (lower && had.highest < number) set_long(HIGHEST, number); break; /* h of any run */
    case 150: if (lower) set_long(HIGHEST, number); break;                               /* h falls to a lower run's */
    case 151: if (arrives(result, EARLY)) set_number(OWN_RUN, run); break;               /* an early one moves the run */
    case 152: if (arrives(result, EARLY) && is_higher()) set_long(LAST, 0); break;       /* one of a higher run clears n */
    case 153: if (is_past(result)) set_number(OWN_RUN, run); break;                      /* back to a lower run */
    case 154: if (arrives(result, -11)) set_number(HIGHEST_RUN, had.highest_run + 1); break;     /* met, though refused */
    case 155: if (takes_image(result, -13)) set_number(HIGHEST_RUN, had.highest_run + 1); break; /* so with an image */
    case 156: if (arrives(result, -1)) change(OWN_RUN, 0); break;                        /* a refusal changes the run */
    }
}

/* What arrived is done, with run and n. */
static int32_t apply_anyway(void)
{
    do_anyway();
    set_long(LAST, arriving_number());
    set_number(OWN_RUN, arriving_run());
    return APPLIED;
}

/* What the arrival did is undone, and it says this instead. */
static int32_t undo(int32_t said)
{
    put_off();
    set_long(HIGHEST, turn.had.highest);
    set_number(HIGHEST_RUN, turn.had.highest_run);
    return said;
}

static int32_t put_off_move(void)
{
    put_off();
    return EARLY;
}

/* Whether the table from before a move has no room for its change. */
static int was_full(void)
{
    static struct table table;
    struct standby standby = {0, 1, arriving_run(), arriving_run()};

    (void)model_reads(standby_slot.bytes, turn.memory_size, &table);
    return model_arrive(&table, &standby, turn.words, turn.words_size) == -8;
}

/* Of a run that is the standby's to whoever looks at its low 28 bits alone, and behind n. */
static int looks_own(void)
{
    return !is_own() && arriving_run() == (turn.had.run & MAX_RUN) && arriving_number() > turn.had.last;
}

/* Faults in the answer to a record or an image that is well formed, by its run. */
static int32_t break_answer(int32_t result)
{
    uint64_t number = arriving_number();
    int early = arrives(result, EARLY) && is_higher();

    switch (fault) {
    case 157: case 214: return early && number == 2 ? apply_anyway() : result;       /* a higher run's change 2 applied */
    case 158: case 215: return is_past(result) ? apply_anyway() : result;            /* a lower run's record applied */
    case 159: case 216: return moves(result) && was_full() ? undo(-8) : result;      /* 8 said to a higher run's change 1 */
    case 160: case 217: return moves(result) ? put_off_move() : result;              /* Early said to it */
    case 161: return moves(result) && number <= turn.had.last ? REPEAT : result;     /* Repeat said to it, by its number */
    case 162: return early && number <= turn.had.last ? REPEAT : result;             /* Repeat said to a later one */
    case 163: return is_past(result) && looks_own() ? EARLY : result;                /* the run by its low bits */
    case 164: case 218: return moves_by_image(result) && number == 0 ? undo(REPEAT) : result; /* nothing new in number 0 */
    case 165: return moves_by_image(result) && number <= turn.had.last ? REPEAT : result;       /* images by numbers alone */
    case 166: case 219: return takes_image(result, REPEAT) && !is_own() ? take_anyway() : result; /* a lower run's taken */
    default: return result;
    }
}

/* The lent words behind `before` words of run 1, or with run 1 in their first. */
static const uint32_t *with_run_1(size_t before)
{
    static uint32_t words[MOST_WORDS + 1];

    if (turn.words_size > 0)
        memcpy(words + before, turn.words, turn.words_size * sizeof words[0]);
    words[0] = UINT32_C(8) << 28 | 1;
    return words;
}

static int has_run_0(void)
{
    return turn.words_size > 0 && turn.words[0] == UINT32_C(8) << 28;
}

static int has_two_runs(void)
{
    return turn.words_size > 1 && turn.words[0] >> 28 == 8 && turn.words[1] >> 28 == 8;
}

static int is_image(const uint32_t *words, size_t size)
{
    return model_wrong_image(words, size) == 0;
}

/* Words taken that are malformed for their run word alone; to say Repeat changes nothing else. */
static int32_t break_run_word(int32_t result)
{
    const uint32_t *words = turn.words;
    size_t size = turn.words_size;
    int record = arrives(result, -11), image = takes_image(result, -13);

    switch (fault) {
    case 167: return record && has_run_0() && is_record(with_run_1(0), size) ? REPEAT : result; /* run 0 */
    case 168: return record && is_record(with_run_1(1), size + 1) ? REPEAT : result;            /* no run word */
    case 169: return record && has_two_runs() && is_record(words + 1, size - 1) ? REPEAT : result; /* two of them */
    case 170: return record && size == 1 && words[0] >> 28 == 8 ? REPEAT : result;              /* nothing else */
    case 171: return image && is_wrong_by(WRONG_RUN) ? REPEAT : result;                         /* the same of images */
    case 172: return image && is_image(with_run_1(1), size + 1) ? REPEAT : result;
    case 173: return image && has_two_runs() && is_image(words + 1, size - 1) ? REPEAT : result;
    case 174: return image && size == 1 && words[0] >> 28 == 8 ? REPEAT : result;
    default: return result;
    }
}

/* A standby's numbers that are refused for its run alone, and those with n above h as it may be. */
static int is_above_highest_run(void)
{
    return turn.had.run > turn.had.highest_run && turn.had.last <= turn.had.highest;
}

static int may_be_above_h(void)
{
    return turn.had.run < turn.had.highest_run && turn.had.last > turn.had.highest;
}

/* Faults in what a standby's numbers may be. */
static int32_t break_numbers(int32_t result)
{
    int is_none = result == -1 && is_above_highest_run();

    switch (fault) {
    case 175: case 220: return is_met(result) && may_be_above_h() ? undo(-1) : result;    /* n above h in a lower run refused */
    case 176: return current == OWED && result == 0 && may_be_above_h() ? -1 : result;    /* so for what is owed */
    case 177: return current == ARRIVE && is_none && turn.holds ? REPEAT : result;        /* a run above the highest accepted */
    case 178: return current == ARRIVE_IMAGE && is_none && turn.holds ? REPEAT : result;  /* so for an image */
    case 179: return current == OWED && is_none ? 0 : result;                             /* so for what is owed */
    default: return result;
    }
}

/* ---- runs: the main, and what is owed */

/* The beginning of a run with this one result. */
static int begins(int32_t result, int32_t one)
{
    return current == BEGIN_RUN && result == one;
}

/* What is owed to a standby in a lower run than the highest. */
static int owes_all(int32_t result)
{
    return current == OWED && result == 0 && turn.had.run < turn.had.highest_run;
}

/* Faults about runs in the lent areas of other calls. */
static void break_run_areas(int32_t result)
{
    switch (fault) {
    case 180: case 221: if (has_records()) change(RECORDS, 0); break;                      /* another run in a record */
    case 181: case 222: if (has_records()) change(RECORDS, 3); break;                      /* another kind of word */
    case 182: case 223: if (writes_image(result, 0)) change(IMAGE, 0); break;              /* another run in an image */
    case 183: if (writes_image(result, -3)) change(IMAGE, 0); break;                       /* a word written under 3 */
    case 184: case 224: if (writes_image(result, -3)) set_size(NUMBER, 0); break;          /* no size told under 3 */
    case 185: case 225: if (begins(result, 0)) set_long(MAIN_NUMBER, turn.first); break;   /* the number left */
    case 186: case 226: if (begins(result, 0)) change(MEMORY, 2); break;                   /* a switch set */
    case 187: if (begins(result, 0)) change(MEMORY, 4); break;                             /* a byte behind the fresh table */
    case 188: case 227: if (begins(result, -3)) set_long(MAIN_NUMBER, 0); break;           /* the number, though refused */
    case 189: if (begins(result, -3)) change(MEMORY, 0); break;                            /* the table, though refused */
    case 190: case 228: if (owes_all(result)) set_long(NUMBER, turn.had.highest - turn.had.last); break; /* h - n of two runs */
    case 191: case 229: if (owes_all(result)) set_long(NUMBER, 0); break;                  /* nothing owed in a higher run */
    }
}

/* A linked call, and its run is one or, with 0, is none. */
static int is_linked(int is_run)
{
    return turn.linked != NULL && model_is_run(turn.run) == is_run;
}

/* Faults in which runs a main may have. */
static int32_t break_main_run(int32_t result)
{
    int refused = result == -3 && is_linked(0), done = result >= 0 && is_linked(1), is_run = model_is_run(turn.run);

    switch (fault) {
    case 192: return refused && turn.run == MAX_RUN + 1 ? 0 : result;                      /* run 2^28 accepted */
    case 193: return refused && turn.run == 0 ? 0 : result;                                /* run 0 accepted */
    case 194: return refused && model_is_run(turn.run & MAX_RUN) ? 0 : result;             /* a run by its low bits */
    case 195: return done && turn.run == MAX_RUN ? -3 : result;                            /* run 2^28 - 1 refused */
    case 196: return done && turn.run == 1 ? -3 : result;                                  /* run 1 refused */
    case 197: return result == -2 && is_linked(0) ? -3 : result;                           /* 3 before 2 */
    case 198: return refused && areas[PATH].lent && turn.cause != 0 ? -turn.cause : result; /* 4 before 3 */
    case 199: return writes_image(result, -3) ? 0 : result;                                /* an image of any run */
    case 200: return writes_image(result, -2) && !is_run ? -3 : result;                    /* 3 before 2 of an image */
    case 201: return writes_image(result, -3) && turn.first > MAX_NUMBER ? -9 : result;    /* 9 before 3 */
    case 202: return begins(result, -1) && !is_run ? -3 : result;                          /* 3 before 1 */
    case 203: case 230: return begins(result, -3) ? 0 : result;                            /* any run begins */
    case 204: return begins(result, 0) && turn.run == MAX_RUN ? -3 : result;               /* the last run does not */
    default: return result;
    }
}

/* Faults about runs. */
static int32_t break_runs(int32_t result)
{
    break_arrival_runs(result);
    break_run_areas(result);
    return break_main_run(break_numbers(break_run_word(break_answer(result))));
}

/* ---- two paths */

/* Neither is a prefix of the other. */
static int is_apart(int32_t result)
{
    return result == LESS || result == GREATER;
}

/* How many bytes of the resolved paths are alike, from their start. */
static size_t alike(void)
{
    struct bytes a = turn.compared[0]->path, b = turn.compared[1]->path;
    size_t count = 0;

    while (count < a.size && count < b.size && a.start[count] == b.start[count])
        count++;
    return count;
}

/* The components in which the paths part begin with the same byte. */
static int begin_alike(void)
{
    return turn.compared[0]->path.start[alike() - 1] != '/';
}

static void add_shared(size_t more)
{
    set_size(NUMBER, size_in(NUMBER) + more);
}

/* Only the low half of the number is written. */
static void keep_high_half(void)
{
    set_size(NUMBER, (turn.noise & ~(size_t)UINT32_MAX) | size_in(NUMBER));
}

/* Faults in what a comparison leaves in the lent areas. */
static void break_shared(int32_t result)
{
    int related = result >= 0, apart = is_apart(result);

    switch (fault) {
    case 231: if (related) add_shared(1); break;                                       /* the root counted */
    case 232: if (apart && begin_alike()) add_shared(1); break;                        /* part of a component counted */
    case 233: case 262: if (apart) add_shared(1); break;                               /* the first difference counted */
    case 234: if (related && size_in(NUMBER) > 0) add_shared(SIZE_MAX); break;         /* one less */
    case 235: if (related) set_size(NUMBER, alike()); break;                           /* bytes counted */
    case 236: if (apart) set_size(NUMBER, 0); break;                                   /* nothing, if neither is a prefix */
    case 237: case 263: if (!related) set_size(NUMBER, turn.noise); break;             /* the number kept by a refusal */
    case 238: if (related) set_size(NUMBER, turn.noise); break;                        /* and by any other call */
    case 239: if (related) keep_high_half(); break;                                    /* half of it kept */
    case 240: if (related) set_size(NUMBER, size_in(NUMBER) & 255); break;             /* counted in one byte */
    case 241: change(PATH, 0); break;                                                  /* a byte that is only read */
    case 242: change(OTHER_PATH, 0); break;                                            /* one of the second path */
    case 243: change(DIRECTORY, 0); break;                                             /* one of the directory */
    case 264: if (result == PREFIX) add_shared(1); break;                              /* one more of a prefix */
    }
}

/* Where the name ends that goes on at a place. */
static long name_end(struct bytes path, size_t at)
{
    while (at < path.size && path.start[at] != '/')
        at++;
    return (long)at;
}

/* Paths that part, by two numbers; as they were where these are the same. */
static int32_t by_numbers(int32_t result, long first, long second)
{
    return first == second ? result : first < second ? LESS : GREATER;
}

/* The byte at a place, or -1 at the path's end; with a sign, -1000 at a component's end too. */
static long byte_at(struct bytes path, size_t at)
{
    return at < path.size ? path.start[at] : -1;
}

static long signed_at(struct bytes path, size_t at)
{
    long byte = byte_at(path, at);

    return byte < 0 || byte == '/' ? -1000 : byte > 127 ? byte - 256 : byte;
}

/* Faults in the order of paths that part. */
static int32_t break_order(int32_t result)
{
    struct bytes a = turn.compared[0]->path, b = turn.compared[1]->path;
    size_t at = alike();

    switch (fault) {
    case 244: return LESS + GREATER - result;                                          /* the other order */
    case 245: return by_numbers(result, byte_at(a, at), byte_at(b, at));               /* a slash as any other byte */
    case 246: return by_numbers(result, signed_at(a, at), signed_at(b, at));           /* bytes with a sign */
    case 247: return by_numbers(result, name_end(a, at), name_end(b, at));             /* the shorter name first */
    case 248: return result == LESS && at == a.size ? PREFIX : result;                 /* a prefix by bytes */
    case 265: return LESS;                                                             /* Less both ways round */
    default: return result;
    }
}

/* The relation of other paths, and what those share. */
static int32_t relate_others(struct bytes first, struct bytes second)
{
    size_t common;
    int32_t relation = model_common(first, second, &common);

    set_size(NUMBER, common);
    return relation;
}

/* One of the two is resolved in the root. */
static int32_t relate_in_root(int32_t result, int which)
{
    static const struct bytes root = {(const uint8_t *)"/", 1};
    struct bytes paths[2];
    struct path resolved;

    if (result < 0 || model_resolve(turn.compared[which]->given, root, &resolved) != 0)
        return result;
    paths[which].start = resolved.bytes;
    paths[which].size = resolved.size;
    paths[!which] = turn.compared[!which]->path;
    return relate_others(paths[0], paths[1]);
}

/* Absolute paths are not resolved. */
static int32_t relate_given(int32_t result)
{
    struct bytes a = turn.compared[0]->given, b = turn.compared[1]->given;

    return result >= 0 && a.start[0] == '/' && b.start[0] == '/' ? relate_others(a, b) : result;
}

/* Faults in how two paths relate. */
static int32_t break_relation(int32_t result)
{
    switch (fault) {
    case 249: return result == PREFIX ? EXTENSION : result == EXTENSION ? PREFIX : result; /* these two exchanged */
    case 250: case 266: return result == EQUAL ? PREFIX : result;                      /* Prefix said to equal paths */
    case 251: return result == PREFIX ? EQUAL : result;                                /* Equal said to a prefix */
    case 252: case 267: return result == PREFIX ? LESS : result;                       /* Less said to a prefix */
    case 253: case 268: return relate_in_root(result, 1);                              /* the second path in the root */
    case 254: return relate_in_root(result, 0);                                        /* the first path in the root */
    case 255: return relate_given(result);                                             /* not resolved */
    default: return is_apart(result) ? break_order(result) : result;
    }
}

static int is_bad_directory(void)
{
    return turn.directory.size == 0 || turn.directory.size > MAX_PATH || turn.directory.start[0] != '/';
}

static int is_longest(struct bytes first, struct bytes second)
{
    return first.size == MAX_PATH || second.size == MAX_PATH;
}

/* Faults in the refusals of a comparison. */
static int32_t break_refusals(int32_t result)
{
    const struct compared *first = turn.compared[0], *second = turn.compared[1];
    int related = result >= 0;

    switch (fault) {
    case 256: case 269: return second->cause != 0 ? -second->cause : result;           /* the second's cause first */
    case 257: case 270: return first->cause == 0 && !related ? GREATER : result;       /* the second's not looked at */
    case 258: case 271: return first->cause != 0 ? LESS : result;                      /* the first's not looked at */
    case 259: return related && is_bad_directory() ? -6 : result;                      /* 6 said to absolute paths */
    case 260: return related && is_longest(first->given, second->given) ? -5 : result; /* 1,024 bytes are too many */
    case 261: return related && is_longest(first->path, second->path) ? -7 : result;   /* and when resolved */
    default: return result;
    }
}

/* Faults about two paths. */
static int32_t break_common(int32_t result)
{
    if (current != COMMON)
        return result;
    break_shared(result);
    return break_refusals(break_relation(result));
}

/* ---- a permission without a path */

static int is_unit(void)
{
    return current == UNIT_CHECKED || current == UNIT_REQUESTED || current == UNIT_REVOKED;
}

/* A call of this function that asked. */
static int asked_unit(int function)
{
    return current == function && number_in(NUMBER) == 1;
}

/* Another state left, and answered. */
static int32_t leave(uint32_t state)
{
    memcpy(areas[STATE].start, &state, sizeof state);
    return (int32_t)state;
}

static int32_t break_unit(int32_t result)
{
    switch (fault) {
    case 75: if (is_unit() && result < 0) change(STATE, 0); return result;                /* a refusal changes the state */
    case 76: return current == UNIT_CHECKED && turn.unit.state == GRANTED && result == 0 ? leave(DENIED) : result; /* passes once */
    case 77: if (is_unit() && areas[NUMBER].lent && result < 0) change(NUMBER, 0); return result; /* asked, and refused */
    case 78: return asked_unit(UNIT_REQUESTED) && turn.unit.answer == ALLOW_ALL ? leave(GRANTED) : result; /* AllowAll a yes */
    case 79: return asked_unit(UNIT_CHECKED) && turn.unit.answer == ALLOW_ALL ? leave(DENIED) : result;    /* AllowAll a no */
    case 80: return asked_unit(UNIT_REQUESTED) && turn.unit.prompt == 0 ? leave(PROMPT) : result; /* the setting heeded */
    case 81: return current == UNIT_REVOKED && result == DENIED ? leave(PROMPT) : result; /* Denied lifted by a revoke */
    case 82: return is_unit() && areas[NUMBER].lent && result == -12 && turn.unit.answer >= ANSWERS ? -3 : result; /* 3 before 12 */
    default: return result;
    }
}

/* ---- all calls */

/* Faults in the lent areas. */
static void break_areas(int32_t result)
{
    const volatile uint8_t *behind = areas[MEMORY].end;

    switch (fault) {
    case 1: if (result < 0) change(MEMORY, 5); break;                              /* a refusal changes a byte */
    case 2: if (result < 0 && areas[TEXT].lent) change(TEXT, 0); break;            /* a refusal writes a text */
    case 3: if (has_text()) ++*areas[NUMBER_2].start; break;                       /* a text one byte too long */
    case 4: if (has_text()) change(TEXT, size_in(NUMBER_2)); break;                /* a byte behind a text */
    case 5: if (is_asking()) change(NUMBER, 0); break;                             /* asked turned round */
    case 6: if (result == 0) change(MEMORY, areas[MEMORY].size - 1); break;        /* a byte behind a table */
    case 7: if (current == QUERY) change(PATH, 0); break;                          /* a byte that is only read */
    case 8: areas[MEMORY].start[-1] ^= 1; break;                                   /* a byte before an area */
    case 9: (void)*behind; break;                                                  /* a byte behind an area */
    case 10: if (current == INSERT && result == 0) change(MEMORY, 3); break;       /* a wrong mark */
    case 11: if (current == HEAD && result < 0) change(NUMBER_3, 0); break;        /* a number not written */
    case 12: if (current == MAKE_CHILD && result < -3) change(CHILD, 2); break;    /* a refused child with a switch */
    case 13: if (current == MAKE_CHILD && result < -3) change(CHILD, TABLE_BYTES); break; /* a byte behind a child's memory */
    case 21: if (has_records()) change(RECORDS, 7); break;                         /* another kind or act in a head */
    case 22: if (has_records()) change(RECORDS, 4 * size_in(NUMBER_3) - 1); break; /* another last word */
    case 23: if (has_records()) change(RECORDS, 4 * size_in(NUMBER_3)); break;     /* a word behind the records */
    case 24: if (turn.linked != NULL && result < 0) change(RECORDS, 0); break;     /* a refusal writes a record */
    case 25: if (has_records()) ++*areas[NUMBER_3].start; break;                   /* records one word too long */
    case 26: if (has_records()) skip_number(); break;                              /* a number left out */
    case 27: if (turn.linked != NULL && result < 0) skip_number(); break;          /* a refusal takes a number */
    case 28: if (current == LINKED_CHILD && result < -3) hide_records(); break;    /* a refused child's records not told */
    case 59: if (is_asking() && result >= 0) change(NUMBER, 0); break;             /* asked turned round */
    case 60: if (is_asking() && has_text()) change(TEXT, 4); break;                /* other words */
    case 61: if (is_asking() && has_text()) change(TEXT, 16); break;               /* another name than in the question */
    case 62: if (current == INSERT && result == 0) change(MEMORY, 3); break;       /* a wrong mark */
    case 63: if (current == MAKE_CHILD && result < -3) change(CHILD, 1); break;    /* a refused child with an entry */
    case 64: if (has_records()) skip_number(); break;                              /* a number left out */
    case 65: if (has_records()) hide_records(); break;                             /* records not told */
    case 66: if (has_records()) change(RECORDS, 4); break;                         /* another number */
    }
}

/* Faults in the result. */
static int32_t broken(int32_t result)
{
    if (calls < FIRST_BROKEN_CALL)
        return result;
    break_areas(result);
    break_standby(result);
    result = break_unit(break_common(break_runs(break_image(result))));
    switch (fault) {
    case 14: return current == CHECK_PATH && result > 0 ? 0 : result;     /* a check that fails passes */
    case 15: return result == -8 ? 0 : result;                            /* a full table is no refusal */
    case 16: return result == -6 ? -7 : result;                           /* another cause */
    case 17: return current == CHECK_ASKS && result == 1 ? 0 : result;    /* a question that is not put */
    case 18: return current == USED && result > 0 ? result + 1 : result;  /* a table one byte larger */
    case 19: return current == QUERY && result == -1 ? PROMPT : result;   /* damage that is not seen */
    case 20: return current == MAKE_CHILD && result == -10 ? 0 : result;  /* a child with more than its parent passes */
    case 29: return result == -9 ? 0 : result;                            /* a number above the limit is no refusal */
    case 30: return result == -2 && turn.linked != NULL ? 0 : result;     /* nor is too small a record space */
    case 31: return result == -8 && turn.linked != NULL && turn.first >= MAX_NUMBER ? -9 : result; /* 9 before 8 */
    case 32: return current == LINKED_REVOKE && result == -9 ? PROMPT : result; /* a revoke that needs no number */
    case 48: return arrives(result, APPLIED) ? EARLY : result;            /* Early said to number n + 1 */
    case 49: return arrives(result, -11) ? APPLIED : result;              /* a malformed record taken */
    case 50: return arrives(result, EARLY) && is_full_for_record() ? -8 : result;  /* 8 said to an early one */
    case 51: return arrives(result, REPEAT) && is_full_for_record() ? -8 : result; /* 8 said to a repeat */
    case 52: return arrives(result, -8) ? APPLIED : result;               /* a full table is no refusal */
    case 53: return arrives(result, -1) && is_above_h() ? REPEAT : result; /* nor is n above h */
    case 54: return arrives(result, -1) && is_malformed() ? -11 : result; /* 11 before 1 */
    case 55: return arrives(result, -11) && arriving_number() <= turn.had.last ? REPEAT : result; /* Repeat before 11 */
    case 56: return arrives(result, REPEAT) && looks_next() ? APPLIED : result; /* n by its low bits */
    case 57: return current == OWED && result == -1 ? 0 : result;         /* owed with n above h */
    case 58: return arrives(result, REPEAT) ? EARLY : result;             /* a repeat asked for again */
    case 67: return current == CHECK_PATH && result > 0 ? 0 : result;     /* a check that fails passes */
    case 70: return arrives(result, APPLIED) ? EARLY : result;            /* Early said to number n + 1 */
    default: return result;
    }
}

static int is_without_model(void)
{
    int is_one = (fault >= FIRST_WITHOUT_MODEL && fault <= LAST_WITHOUT_MODEL)
                 || (fault >= IMAGE_WITHOUT_MODEL && fault <= LAST_IMAGE_WITHOUT_MODEL)
                 || (fault >= RUN_WITHOUT_MODEL && fault <= LAST_RUN_WITHOUT_MODEL) || fault >= COMMON_WITHOUT_MODEL;

    return is_one && calls >= FIRST_BROKEN_CALL;
}
