/* Hostile input from a seed. Sizes are around each limit, and what is random has few choices, so that things meet. */
#include "make.h"
#include "model.h"

#include <stdio.h>
#include <string.h>

/* ---- numbers */

static uint64_t state;

enum { NOISE_BYTES = 1 << 17 };
static uint8_t noise[NOISE_BYTES];

/* splitmix64 */
uint64_t any(void)
{
    uint64_t z = state += UINT64_C(0x9E3779B97F4A7C15);
    z = (z ^ (z >> 30)) * UINT64_C(0xBF58476D1CE4E5B9);
    z = (z ^ (z >> 27)) * UINT64_C(0x94D049BB133111EB);
    return z ^ (z >> 31);
}

uint32_t below(uint32_t limit)
{
    return (uint32_t)((any() >> 32) * limit >> 32);
}

int one_in(uint32_t n)
{
    return below(n) == 0;
}

void make_seed(uint64_t seed)
{
    state = seed;
    for (size_t i = 0; i < sizeof noise; i++)
        noise[i] = (uint8_t)any();
}

void make_noise(uint8_t *bytes, size_t size)
{
    if (size > 0)
        memcpy(bytes, noise + below((uint32_t)(sizeof noise - size)), size);
}

uint32_t make_number(uint32_t known)
{
    uint32_t number = below(known);

    if (!one_in(24))
        return number;
    switch (below(6)) {
    case 0: return known + below(3);
    case 1: return number + (UINT32_C(1) << (8 * (1 + below(3)))); /* known to whoever looks at its low bytes alone */
    case 2: return UINT32_MAX - below(3);
    case 3: return UINT32_C(1) << below(32);
    case 4: return UINT32_C(0x80000000) + number;
    default: return (uint32_t)any();
    }
}

uint64_t make_main_number(void)
{
    if (!one_in(4))
        return below(MAX_NUMBER);
    switch (below(5)) {
    case 0: return MAX_NUMBER - below(4);
    case 1: return MAX_NUMBER - below(2 * MAX_ITEMS); /* used up on the way through a child's items */
    case 2: return MAX_NUMBER + 1 + below(3);
    case 3: return (UINT64_C(1) << (24 + below(40))) + below(3); /* small to whoever looks at its low bits alone */
    default: return UINT64_MAX - below(3);
    }
}

uint32_t make_run(void)
{
    switch (below(4)) {
    case 0: return 1 + below(4);
    case 1: return MAX_RUN - below(4);
    default: return 1 + below(MAX_RUN);
    }
}

/* A number at which something ends. */
static uint64_t make_extreme(void)
{
    static const uint64_t extremes[] = {0, 1, MAX_NUMBER, MAX_NUMBER + 1, MAX_RUN, MAX_RUN + 1, UINT32_MAX, UINT64_MAX};
    return extremes[below(sizeof extremes / sizeof extremes[0])];
}

/* A run, to whoever looks at its low 28 bits alone. */
static uint32_t above_limit(uint32_t run)
{
    return run + (UINT32_C(1) << (28 + below(4)));
}

uint32_t make_main_run(void)
{
    if (!one_in(8))
        return make_run();
    switch (below(4)) {
    case 0: return above_limit(make_run());
    case 1: return (uint32_t)any();
    default: return (uint32_t)make_extreme();
    }
}

/* ---- paths */

static size_t put_text(uint8_t *bytes, const char *text)
{
    size_t size = strlen(text);
    memcpy(bytes, text, size);
    return size;
}

/* A component, or what looks like one; at most 300 bytes. */
static size_t make_component(uint8_t *bytes, int style)
{
    static const char *const odd[] = {"..", ".", "", "...", "..a", ".a", "<in>", "<", "<>", "a-b", "ab", "\xC3\xA4", "a b"};
    char name[8];
    size_t size;

    if (one_in(5))
        return put_text(bytes, odd[below(sizeof odd / sizeof odd[0])]);
    if (one_in(24)) {
        size = 1 + below(3);
        make_noise(bytes, size);
        return size;
    }
    if (style == MANY_NAMES) {
        snprintf(name, sizeof name, "n%u", (unsigned)below(600));
        return put_text(bytes, name);
    }
    size = style == LONG_NAMES ? 100 + below(200) : 1;
    memset(bytes, "abc\0\xFF"[below(one_in(12) ? 5 : 3)], size);
    return size;
}

/* A path of a size next to a limit, and not all of the same bytes. */
static size_t make_limit_path(uint8_t *path)
{
    static const size_t sizes[] = {0, 1, 2, 1022, 1023, 1024, 1025, LONGEST_PATH};
    size_t size = sizes[below(sizeof sizes / sizeof sizes[0])];

    memset(path, "xyz"[below(3)], size);
    for (uint32_t slashes = below(6); slashes > 0 && size > 0; slashes--)
        path[below((uint32_t)size)] = '/';
    if (size > 0 && !one_in(3))
        path[0] = '/';
    if (size > 1 && one_in(4))
        path[1] = (uint8_t)any();
    return size;
}

size_t make_path(uint8_t *path, int style)
{
    size_t size = 0;
    uint32_t depth = one_in(6) ? below(9) : 1 + below(3);

    if (one_in(16))
        return make_limit_path(path);
    if (one_in(32)) {
        size = below(9);
        make_noise(path, size);
        return size;
    }
    if (one_in(32))
        return put_text(path, one_in(2) ? "<in>" : one_in(2) ? "<" : "<a/b>");
    if (style == LONG_NAMES)
        depth = 3 + below(2);
    if (!one_in(4))
        path[size++] = '/';
    for (; depth > 0 && size < LONGEST_PATH - 301; depth--) {
        size += make_component(path + size, style);
        if (depth > 1 || one_in(12))
            path[size++] = '/';
    }
    return size;
}

size_t make_directory(uint8_t *directory)
{
    static const char *const usual[] = {"/", "/", "/a", "/a/b", "/b/../c/.//", "/../a/", "/n1"};
    static const size_t sizes[] = {1, 900, 1000, 1022, 1023, 1024, 1025, LONGEST_PATH};
    size_t size;

    if (!one_in(6))
        return put_text(directory, usual[below(sizeof usual / sizeof usual[0])]);
    switch (below(4)) {
    case 0: return 0;
    case 1: return make_path(directory, FEW_NAMES);
    case 2: return put_text(directory, one_in(2) ? "a" : "./a/");
    default:
        size = sizes[below(sizeof sizes / sizeof sizes[0])];
        memset(directory, 'd', size);
        directory[0] = one_in(8) ? 'd' : '/';
        return size;
    }
}

size_t make_deep_path(uint8_t *path)
{
    uint32_t depth = one_in(2) ? MAX_PATH / 2 + 1 - below(4) : 250 + below(12);

    for (uint32_t i = 0; i < depth; i++)
        memcpy(path + 2 * i, "/a", 2);
    return 2 * depth;
}

size_t make_wrong_path(uint8_t *path)
{
    static const size_t sizes[] = {0, MAX_PATH, MAX_PATH + 1};
    size_t size = sizes[below(sizeof sizes / sizeof sizes[0])];

    memset(path, 'w', size); /* relative, so that with the directory's slash it is too long */
    return size;
}

size_t make_related_path(uint8_t *related, const uint8_t *path, size_t size)
{
    static const char *const ends[] = {"b", "-", "/", "/b", "/..", "/.", "/b/..", "\xFF"};
    size_t kept = size < LONGEST_PATH - 301 ? size : LONGEST_PATH - 301;

    if (kept == 0)
        return put_text(related, "/");
    memcpy(related, path, kept);
    switch (below(5)) {
    case 0: break;
    case 1: kept += put_text(related + kept, ends[below(sizeof ends / sizeof ends[0])]); break;
    case 2: kept = below((uint32_t)kept); break;
    case 3: related[below((uint32_t)kept)] ^= (uint8_t)(1u << below(8)); break;
    default:
        kept = below((uint32_t)kept);
        kept += make_component(related + kept, FEW_NAMES);
    }
    return kept;
}

/* ---- tables */

static uint8_t pool[2 * MAX_SUM]; /* the paths of the table in the making */
static size_t pooled;

/* A resolved path of at most `room` bytes, kept in the pool. */
static struct bytes pooled_path(int style, size_t room)
{
    static const struct bytes root = {(const uint8_t *)"/", 1};
    uint8_t given[LONGEST_PATH];
    struct bytes path = {given, make_path(given, style)};
    struct path resolved;

    if (model_resolve(path, root, &resolved) != 0 || resolved.size > room)
        return root;
    path.start = memcpy(pool + pooled, resolved.bytes, resolved.size);
    path.size = resolved.size;
    pooled += path.size;
    return path;
}

/* A path of exactly this size. */
static struct bytes exact_path(size_t size)
{
    struct bytes path = {pool + pooled, size};

    memset(pool + pooled, "klm"[below(3)], size);
    pool[pooled] = '/';
    if (size > 2)
        pool[pooled + 1] = (uint8_t)('a' + below(26));
    pooled += size;
    return path;
}

/* A kind out of those in a set of bits; G where there is none. */
static uint32_t kind_of(uint32_t set)
{
    uint32_t kind = below(KINDS);
    return (set >> kind & 1) != 0 ? kind : KIND_G;
}

static const uint32_t marks[KINDS] = {0, 1, 2, 4};

/* An entry by the search, or wherever it falls: a table's order is no part of its form. */
static void add_entry(struct table *table, uint32_t kind, struct bytes path, int placed)
{
    if (placed) {
        (void)model_insert(table, kind, path, NULL);
    } else if (table->count < MAX_ENTRIES && table->sum + path.size <= MAX_SUM) {
        struct entry entry = {kind, path};
        table->entries[table->count++] = entry;
        table->sum += path.size;
        table->marks |= marks[kind];
    }
}

/* Entries of equal size that make the sum what is left of the limit, up to `slack` bytes. */
static void fill_sum(struct table *table, uint32_t kinds, size_t entries, size_t slack)
{
    for (size_t left = entries; left > 0; left--) {
        size_t size = (MAX_SUM - slack - table->sum) / left;
        if (size > 1 && size <= MAX_PATH)
            add_entry(table, kind_of(kinds), exact_path(size), 0);
    }
}

void make_table(uint8_t *memory, int style)
{
    static const uint32_t amounts[] = {0, 3, 12, 12, 60, 400, 2000};
    static struct table table;
    uint32_t kinds = one_in(2) ? below(16) : 1u << below(4), placed = below(2);

    table.count = table.sum = table.marks = 0;
    table.switches = !one_in(3) ? SWITCH_PROMPT | below(2) : one_in(2) ? SWITCH_PROMPT | 1u << below(4) : below(SWITCHES);
    pooled = 0;
    if (one_in(6)) {
        fill_sum(&table, kinds, one_in(2) ? 33 + below(8) : MAX_ENTRIES - below(2), one_in(2) ? below(3) : below(1100));
    } else {
        uint32_t amount = amounts[below(sizeof amounts / sizeof amounts[0])];
        for (uint32_t i = below(amount + 1); i > 0 && table.count < MAX_ENTRIES && pooled < MAX_SUM; i--)
            add_entry(&table, kind_of(kinds), pooled_path(style, MAX_SUM - table.sum), (int)placed);
    }
    model_writes(&table, memory);
}

/* ---- damage */

static void flip_bits(uint8_t *memory, uint32_t size, uint32_t flips)
{
    for (; flips > 0; flips--)
        memory[below(size)] ^= (uint8_t)(1u << below(8));
}

static void put_word(uint8_t *memory, uint32_t word)
{
    memory[0] = (uint8_t)(word / 256);
    memory[1] = (uint8_t)word;
}

/* Some entry of the table, and the end of the list if there is none. */
static size_t some_entry(const uint8_t *memory)
{
    uint32_t count = memory[0] * 256u + memory[1];
    size_t at = 4;
    for (uint32_t i = count == 0 ? 0 : below(count); i > 0; i--)
        at += 3 + memory[at + 1] * 256u + memory[at + 2];
    return at;
}

static void damage_entry(uint8_t *entry)
{
    uint32_t length = entry[1] * 256u + entry[2];

    switch (below(7)) {
    case 0: entry[0] = (uint8_t)(one_in(2) ? below(6) : any()); break;
    case 1: put_word(entry + 1, one_in(2) ? length + 1 : length - 1); break;
    case 2: put_word(entry + 1, one_in(2) ? MAX_PATH + below(2) : (uint32_t)any()); break;
    case 3: put_word(entry + 1, 0); break;
    case 4: entry[3] = 'a'; break;
    case 5: entry[3 + (length == 0 ? 0 : length - 1)] = '/'; break;
    default: memcpy(entry + 3, one_in(2) ? "/./" : "/../", length < 4 ? length : 3); break;
    }
}

/* Entries past every limit, up to the memory's last byte, where one is cut off. */
static void fill_over(uint8_t *memory, size_t size)
{
    uint32_t length = 1 + below(one_in(2) ? 200 : MAX_PATH);

    put_word(memory, one_in(2) ? MAX_ENTRIES : (uint32_t)(size / (3 + length)) + below(3));
    memory[2] = memory[3] = 0;
    memset(memory + 4, 'o', size - 4);
    for (size_t at = 4; at + 4 <= size; at += 3 + length) {
        memory[at] = KIND_G;
        put_word(memory + at + 1, length);
        memory[at + 3] = '/';
    }
}

void make_damage(uint8_t *memory, size_t size)
{
    uint32_t count = memory[0] * 256u + memory[1];

    switch (below(11)) {
    case 0: flip_bits(memory, 4, 1); break;
    case 1: flip_bits(memory, 64, 1 + below(4)); break;
    case 2: flip_bits(memory, TABLE_BYTES, 1 + below(64)); break;
    case 3: put_word(memory, one_in(2) ? count + 1 : count - 1); break;
    case 4: put_word(memory, one_in(2) ? 255 + below(3) : (uint32_t)any()); break;
    case 5: memory[2] = (uint8_t)(one_in(2) ? 30 + below(4) : any()); break;
    case 6: memory[3] = (uint8_t)(one_in(2) ? below(9) : any()); break;
    case 7: memset(memory + 4 + below(256), 0, 512); break;
    case 8: make_noise(memory, one_in(2) ? size : 4 + below(64)); break;
    case 9: fill_over(memory, size); break;
    default:
        if (count > 0)
            damage_entry(memory + some_entry(memory));
    }
}

/* ---- records */

enum { HEAD_WORD = 1, LENGTH_WORD, PATH_WORD, SWITCHES_WORD, NUMBER_WORD, TABLE_WORD, ENTRY_WORD, RUN_WORD };

static uint32_t word_of(uint32_t kind, uint32_t bits)
{
    return kind << 28 | (bits & 0xFFFFFFF);
}

uint32_t make_record_number(void)
{
    switch (below(5)) {
    case 0: return 1;
    case 1: return 1 + below(4);
    case 2: return MAX_NUMBER - below(4);
    default: return 1 + below(MAX_NUMBER);
    }
}

/* Where the number is 0, n is as for number 1. */
static uint64_t make_last(uint32_t number)
{
    number += number == 0;
    if (one_in(2))
        return number - 1;
    switch (below(9)) {
    case 0: return (uint64_t)number + below(2);
    case 1: return number > 1 ? number - 2 : 0;
    case 2: return below(number);
    case 3: return below(MAX_NUMBER + 1);
    case 4: return make_main_number();
    case 5: return number - 1 + (UINT64_C(1) << (24 + below(40))); /* the one before it in its low bits alone */
    case 6: return MAX_NUMBER - below(3);
    case 7: return make_extreme();
    default: return UINT64_MAX - below(3);
    }
}

/* The h of a standby that is in the highest run. */
static uint64_t make_highest(uint64_t last)
{
    if (one_in(2))
        return last;
    switch (below(7)) {
    case 0: return last + below(4);
    case 1: return last + below(MAX_NUMBER);
    case 2: return last - 1 - below(3);
    case 3: return last + (UINT64_C(1) << below(64));
    case 4: return make_main_number();
    case 5: return make_extreme();
    default: return UINT64_MAX - below(3);
    }
}

/* The h of another run than n's: next to the number that arrives, or to n. */
static uint64_t make_other_highest(uint64_t last, uint32_t number)
{
    switch (below(6)) {
    case 0: return (uint64_t)number + below(3);
    case 1: return number - (number > 0);
    case 2: return last - 1 - below(3);
    case 3: return make_main_number();
    case 4: return make_extreme();
    default: return make_highest(last);
    }
}

/* The run of a standby at which something of this run arrives. */
static uint32_t make_own_run(uint32_t run)
{
    if (one_in(2))
        return run;
    switch (below(8)) {
    case 0: return 0;
    case 1: return run + 1;
    case 2: return run + below(MAX_RUN);
    case 3: return above_limit(run);
    case 4: return (uint32_t)make_extreme();
    case 5: return below(run);
    default: return run - 1;
    }
}

/* The highest run that it met; what arrives may be above it, the same, or below it. */
static uint32_t make_highest_run(uint32_t own, uint32_t run)
{
    uint32_t most = own < run ? run : own;

    if (one_in(2))
        return own;
    switch (below(8)) {
    case 0: return most;
    case 1: return most + 1 + below(3);
    case 2: return most + below(MAX_RUN);
    case 3: return most - 1;
    case 4: return own + below(most - own + 1);
    case 5: return above_limit(own);
    case 6: return own - 1;
    default: return (uint32_t)make_extreme();
    }
}

void make_standby(struct standby *standby, uint32_t run, uint32_t number)
{
    standby->run = make_own_run(run);
    standby->highest_run = make_highest_run(standby->run, run);
    standby->last = make_last(number);
    if (standby->run == standby->highest_run)
        standby->highest = make_highest(standby->last);
    else
        standby->highest = make_other_highest(standby->last, number);
}

void make_lower_standby(struct standby *standby, uint32_t run)
{
    standby->run = one_in(2) ? run - 1 : below(run);
    standby->highest_run = one_in(2) ? standby->run : standby->run + below(3);
    standby->last = one_in(2) ? below(3) : make_main_number();
    if (standby->run == standby->highest_run)
        standby->highest = one_in(2) ? standby->last : UINT64_MAX;
    else
        standby->highest = make_main_number();
}

void make_behind_standby(struct standby *standby, uint32_t run, uint32_t number)
{
    if (number == 0 || one_in(2)) {
        make_lower_standby(standby, run);
        return;
    }
    standby->run = run;
    standby->highest_run = run + (one_in(2) ? 0 : below(3));
    standby->last = below(number);
    standby->highest = standby->last + (one_in(2) ? 0 : below(MAX_NUMBER));
}

/* A record as the model's main sends it. */
static size_t main_record(uint32_t *words, uint32_t run, uint32_t number, struct bytes path)
{
    static struct table table;
    static struct link link;

    table.count = table.sum = 0;
    link.run = run;
    link.number = number - 1;
    link.size = 0;
    switch (below(16)) {
    case 0: (void)model_switches(&table, one_in(3) ? below(SWITCHES) : SWITCH_PROMPT | below(2), &link); break;
    case 1: (void)model_revoke(&table, NULL, &link); break;
    case 2: (void)model_revoke(&table, &path, &link); break;
    default: (void)model_insert(&table, below(KINDS), path, &link); break;
    }
    memcpy(words, link.words, link.size * sizeof words[0]);
    return link.size;
}

/* Adds the path words; the new count. */
static size_t add_path_words(uint32_t *words, size_t count, struct bytes path)
{
    for (size_t at = 0; at < path.size; at += 3) {
        uint32_t three = 0;
        for (size_t i = at; i < at + 3; i++)
            three = three << 8 | (i < path.size ? path.start[i] : 0u);
        words[count++] = word_of(PATH_WORD, three);
    }
    return count;
}

/* A record with any path, of any size below 2^16. */
static size_t path_record(uint32_t *words, uint32_t run, uint32_t number, struct bytes path)
{
    words[0] = word_of(RUN_WORD, run);
    words[1] = word_of(HEAD_WORD, (one_in(6) ? 6 : 1 + below(4)) << 24 | number);
    words[2] = word_of(LENGTH_WORD, (uint32_t)path.size);
    return add_path_words(words, 3, path);
}

/* A resolved path of a size next to the limit, or far above it; at times what is above the limit is zero bytes. */
static struct bytes long_path(void)
{
    static const size_t sizes[] = {1022, 1023, 1024, 1025, 1026, 1027, 2048, 65535};
    static uint8_t bytes[65535];
    struct bytes path = {bytes, sizes[below(sizeof sizes / sizeof sizes[0])]};

    memset(bytes, "pqr"[below(3)], path.size);
    bytes[0] = '/';
    if (path.size > MAX_PATH && one_in(2))
        memset(bytes + MAX_PATH, 0, path.size - MAX_PATH);
    return path;
}

size_t make_record(uint32_t *words, uint32_t run, uint32_t number, const uint8_t *path, size_t path_size)
{
    static const struct bytes root = {(const uint8_t *)"/", 1};
    struct bytes given = {path, path_size};
    struct path resolved;

    if (one_in(32))
        return path_record(words, run, number, long_path());
    if (one_in(12) || model_resolve(given, root, &resolved) != 0)
        return path_record(words, run, number, given);
    given.start = resolved.bytes;
    given.size = resolved.size;
    return main_record(words, run, number, given);
}

static uint32_t other_length(uint32_t length)
{
    switch (below(7)) {
    case 0: return 0;
    case 1: return length + 1;
    case 2: return length - 1;
    case 3: return length + 3;
    case 4: return MAX_PATH + below(3);
    case 5: return length + (UINT32_C(1) << (16 + below(12))); /* the same in its low 16 bits */
    default: return below(UINT32_C(1) << 16);
    }
}

/* A bit that must be zero in a word of this kind. */
static uint32_t unused_bit(uint32_t kind)
{
    static const uint32_t used[16] = {
        [LENGTH_WORD] = 16, [PATH_WORD] = 24, [NUMBER_WORD] = 24, [TABLE_WORD] = 17, [ENTRY_WORD] = 18};
    uint32_t lowest = used[kind] > 0 ? used[kind] : 5;

    return UINT32_C(1) << (lowest + below(28 - lowest));
}

/* Words left over: of no kind, of a path or of another record, or of any bits; at times as many as fit. */
static size_t lengthen(uint32_t *words, size_t size)
{
    const uint32_t fill[] = {0, word_of(PATH_WORD, 0), words[0], words[0] + 1, words[size - 1], (uint32_t)any()};
    uint32_t word = fill[below(sizeof fill / sizeof fill[0])];
    size_t longer = size + 1 + below(one_in(16) ? (uint32_t)(MOST_WORDS - size) : 3);

    while (size < longer)
        words[size++] = word;
    return size;
}

/* Drops this word, or doubles it; the new count. */
static size_t drop_word(uint32_t *words, size_t size, size_t place)
{
    memmove(words + place, words + place + 1, (size - place - 1) * sizeof words[0]);
    return size - 1;
}

static size_t double_word(uint32_t *words, size_t size, size_t place)
{
    memmove(words + place + 1, words + place, (size - place) * sizeof words[0]);
    return size + 1;
}

/* No run word, one with run 0 or another run, two of them, one behind the next word, or nothing else. */
static size_t damage_run(uint32_t *words, size_t size)
{
    uint32_t first = words[0];

    switch (below(7)) {
    case 0: return drop_word(words, size, 0);
    case 1: return double_word(words, size, 0);
    case 2: size = double_word(words, size, 0); words[below(2)] = word_of(RUN_WORD, make_main_run()); return size;
    case 3: words[0] = words[size > 1]; words[size > 1] = first; return size;
    case 4: return 1;
    case 5: words[0] = word_of(RUN_WORD, make_main_run()); return size;
    default: words[0] = word_of(RUN_WORD, 0); return size;
    }
}

size_t make_record_damage(uint32_t *words, size_t size)
{
    size_t some = below((uint32_t)size), last = size - 1, head = size > 1, length = size > 2 ? 2 : head;
    uint32_t *word = &words[some];

    if (one_in(4))
        return damage_run(words, size);
    switch (below(12)) {
    case 0: *word ^= UINT32_C(1) << below(32); break;
    case 1: flip_bits((uint8_t *)words, (uint32_t)(size * sizeof *words), 1 + below(8)); break;
    case 2: return one_in(2) ? last : some; /* words missing */
    case 3: return lengthen(words, size);
    case 4: *word = word_of(below(16), *word); break;
    case 5: words[head] = word_of(HEAD_WORD, below(16) << 24 | (words[head] & 0xFFFFFF)); break;
    case 6: words[head] &= ~(uint32_t)0xFFFFFF; break;
    case 7: words[length] = word_of(LENGTH_WORD, other_length(words[length] & 0xFFFF)); break;
    case 8: *word |= unused_bit(*word >> 28); break;
    case 9: words[last] |= (1 + below(255)) << (8 * below(2)); break; /* bytes that are perhaps not used */
    case 10: return drop_word(words, size, some);
    default: return double_word(words, size, some);
    }
    return size;
}

/* Three bytes of a path, or of what is none. */
static uint32_t any_three(void)
{
    static const char *const threes[] = {"/aa", "/a/", "a/b", "/..", "bcc", "/a\0", "/\0\0", "b\0\0", "/./", "//a", "../"};
    const char *three = threes[below(sizeof threes / sizeof threes[0])];

    return (uint32_t)three[0] << 16 | (uint32_t)three[1] << 8 | (uint32_t)three[2];
}

/* A word that might stand at this place of a record with so many words. */
static uint32_t likely_word(size_t place, size_t size)
{
    uint32_t number = make_record_number();

    if (one_in(16))
        return word_of(below(9), number);
    if (place == 0)
        return word_of(RUN_WORD, make_main_run());
    if (place == 1)
        return word_of(HEAD_WORD, below(9) << 24 | number);
    if (place == 2)
        return one_in(5) ? word_of(SWITCHES_WORD, below(40)) : word_of(LENGTH_WORD, (uint32_t)(3 * size) - 9 - below(3));
    return word_of(PATH_WORD, any_three());
}

/* Words of any bits, or mostly such as might stand at their places; mostly fewer than `few`. */
static size_t make_likely(uint32_t *words, uint32_t few, uint32_t (*likely)(size_t place, size_t size))
{
    size_t size = one_in(32) ? below(MOST_WORDS + 1) : below(one_in(8) ? 400 : few);

    make_noise((uint8_t *)words, size * sizeof words[0]);
    if (one_in(4))
        return size;
    for (size_t i = 0; i < size; i++)
        words[i] = likely(i, size);
    return size;
}

size_t make_words(uint32_t *words)
{
    return make_likely(words, 7, likely_word);
}

/* ---- images */

uint32_t make_image_number(void)
{
    return one_in(8) ? 0 : make_record_number();
}

/* An image in the making, of whatever entries. */
struct image {
    uint32_t *words;
    size_t size;
    uint32_t count, marks;
};

/* Any path of a size below 2^16. */
static void add_image_entry(struct image *image, struct bytes path)
{
    uint32_t kind = below(KINDS);

    image->words[image->size++] = word_of(ENTRY_WORD, kind << 16 | (uint32_t)path.size);
    image->size = add_path_words(image->words, image->size, path);
    image->count++;
    image->marks |= marks[kind];
}

static void add_short_entries(struct image *image, uint32_t count)
{
    for (pooled = 0; count > 0; count--)
        add_image_entry(image, exact_path(1 + below(6)));
}

/* Entries within every limit but that of the sum, at times by one byte. */
static void add_long_entries(struct image *image)
{
    uint32_t left = one_in(2) ? 33 + below(8) : MAX_ENTRIES - below(2);
    size_t sum = MAX_SUM + 1 + below(one_in(2) ? 3 : 1000);

    for (pooled = 0; left > 0; left--) {
        size_t size = sum / left;
        add_image_entry(image, exact_path(size));
        sum -= size;
    }
}

/* An entry whose path is mostly too long or not resolved, among others. */
static void add_odd_entry(struct image *image, int style)
{
    static uint8_t given[LONGEST_PATH];
    struct bytes path = {given, 0};

    add_short_entries(image, below(4));
    if (one_in(3))
        path = long_path();
    else
        path.size = make_path(given, style);
    add_image_entry(image, path);
    add_short_entries(image, below(4));
}

/* An image that no table has, but at times for its path. */
static size_t odd_image(uint32_t *words, uint32_t run, uint32_t number, int style)
{
    struct image image = {words, 3, 0, 0};

    switch (below(4)) {
    case 0: add_short_entries(&image, MAX_ENTRIES + 1 + below(one_in(3) ? 600 : MAX_ENTRIES - 1)); break;
    case 1: add_long_entries(&image); break;
    default: add_odd_entry(&image, style); break;
    }
    words[0] = word_of(RUN_WORD, run);
    words[1] = word_of(NUMBER_WORD, number);
    words[2] = word_of(TABLE_WORD, image.count << 8 | image.marks << 5 | below(SWITCHES));
    return image.size;
}

size_t make_image(uint32_t *words, uint32_t run, uint32_t number, int style)
{
    static uint8_t memory[TABLE_BYTES];
    static struct table table;

    if (one_in(3))
        return odd_image(words, run, number, style);
    make_table(memory, style);
    (void)model_reads(memory, sizeof memory, &table);
    return model_image(&table, run, number, words);
}

/* The place of some entry's word, by what the image says, and the last word's where that is none. */
static size_t some_image_entry(const uint32_t *words, size_t size)
{
    uint32_t count = words[2] >> 8 & 511;
    size_t at = 3;

    for (uint32_t i = count == 0 ? 0 : below(count); i > 0 && at < size; i--)
        at += 1 + ((words[at] & 0xFFFF) + 2) / 3;
    return at < size ? at : size - 1;
}

static uint32_t other_count(uint32_t count)
{
    switch (below(5)) {
    case 0: return count + 1;
    case 1: return count - 1;
    case 2: return count + 256; /* the same in its low eight bits */
    case 3: return 255 + below(3);
    default: return below(512);
    }
}

static void set_count(uint32_t *words, uint32_t count)
{
    words[2] = (words[2] & ~(UINT32_C(511) << 8)) | (count & 511) << 8;
}

/* An entry more, the root, with the count or without it. */
static size_t add_root(uint32_t *words, size_t size)
{
    if (!one_in(4))
        set_count(words, (words[2] >> 8 & 511) + 1);
    words[size] = word_of(ENTRY_WORD, KIND_G << 16 | 1);
    words[size + 1] = word_of(PATH_WORD, (uint32_t)'/' << 16);
    return size + 2;
}

static size_t damage_image(uint32_t *words, size_t size)
{
    size_t some = below((uint32_t)size), last = size - 1, entry = some_image_entry(words, size);
    size_t ends = entry + ((words[entry] & 0xFFFF) + 2) / 3; /* the entry's last word */
    uint32_t *word;

    if (!one_in(2))
        some = one_in(2) ? entry : below(3);
    word = &words[some];
    if (one_in(6))
        return damage_run(words, size);
    switch (below(17)) {
    case 0: *word ^= UINT32_C(1) << below(32); break;
    case 1: flip_bits((uint8_t *)words, (uint32_t)(size * sizeof *words), 1 + below(8)); break;
    case 2: return one_in(2) ? last : some; /* words missing */
    case 3: return lengthen(words, size);
    case 4: *word = word_of(below(16), *word); break;
    case 5: set_count(words, other_count(words[2] >> 8 & 511)); break;
    case 6: words[2] ^= (1 + below(7)) << 5; break; /* other marks */
    case 7: words[2] ^= UINT32_C(1) << below(5); break; /* another switch: an image */
    case 8: words[entry] = word_of(ENTRY_WORD, (words[entry] & 0x30000) + other_length(words[entry] & 0xFFFF)); break;
    case 9: *word |= unused_bit(*word >> 28); break;
    case 10: words[ends < size ? ends : last] |= (1 + below(255)) << (8 * below(2)); break; /* bytes that are perhaps not used */
    case 11: return drop_word(words, size, some);
    case 12: return double_word(words, size, some);
    case 13: words[1] = word_of(NUMBER_WORD, make_image_number()); break;
    case 14: words[entry] ^= (1 + below(3)) << 16; break; /* another kind of entry */
    case 15: words[entry < last ? entry + 1 : last] = word_of(PATH_WORD, any_three()); break;
    default: return add_root(words, size);
    }
    return size;
}

size_t make_image_damage(uint32_t *words, size_t size)
{
    for (uint32_t hits = one_in(4) ? 1 + below(4) : 1; hits > 0 && size >= 3 && size + 4 < MOST_WORDS; hits--)
        size = damage_image(words, size);
    return size;
}

/* A word that might stand at this place of an image. */
static uint32_t likely_image_word(size_t place, size_t size)
{
    (void)size;
    if (one_in(16))
        return word_of(below(9), make_record_number());
    if (place == 0)
        return word_of(RUN_WORD, make_main_run());
    if (place == 1)
        return word_of(NUMBER_WORD, make_image_number());
    if (place == 2)
        return word_of(TABLE_WORD, below(4) << 8 | marks[below(KINDS)] << 5 | below(SWITCHES));
    if (place % 2 == 1)
        return word_of(ENTRY_WORD, below(KINDS) << 16 | (1 + below(3)));
    return word_of(PATH_WORD, any_three());
}

size_t make_image_words(uint32_t *words)
{
    return make_likely(words, 9, likely_image_word);
}
