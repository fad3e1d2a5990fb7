/* The scope in plain C: what each call answers and which table it leaves. It is written from the document and the
 * README's layout of a table, shares nothing with the library, and takes its time. */
#ifndef MODEL_H
#define MODEL_H

#include <stddef.h>
#include <stdint.h>

enum {
    TABLE_BYTES = 33540,
    TEXT_BYTES = 1041,
    MAX_ENTRIES = 256,
    MAX_PATH = 1024,
    MAX_SUM = 32768,
    MAX_ITEMS = 64,
    RECORD_WORDS = 345,  /* of the record space, for each child item */
    IMAGE_WORDS = 11352, /* of the largest image */
    MAX_NUMBER = 16777215,
    MAX_RUN = 268435455
};

enum { KIND_G, KIND_D, KIND_P, KIND_I, KINDS };
enum { MODE_DENIED, MODE_PARTIAL, MODE_GRANTED, MODES };
enum { GRANTED, GRANTED_PARTIAL, PROMPT, DENIED, DENIED_PARTIAL, IGNORED, STATES };
enum { DENY, ALLOW, ALLOW_ALL, ANSWERS };
enum { INHERIT, CHILD_GRANTED, NOT_GRANTED, LIST, CODES };
enum { SWITCH_GRANTED = 1, SWITCH_DENIED = 2, SWITCH_IGNORED = 4, SWITCH_PROMPT_DENIED = 8, SWITCH_PROMPT = 16, SWITCHES = 32 };
enum { CHECK, REQUEST, UNIT_REVOKE /* of a permission without a path */ };
enum { APPLIED, REPEAT, EARLY, TAKEN };
enum { EQUAL, PREFIX, EXTENSION, LESS, GREATER };

/* What can be wrong with the words of a record or an image; they add up. Behind one of the first three nothing is read. */
enum {
    WRONG_KIND = 1,
    WRONG_SHORT = 2,   /* a word is missing */
    WRONG_LENGTH = 4,  /* of a path: 0, or above 1,024 */
    WRONG_FORM = 7,    /* these three */
    WRONG_UNUSED = 8,  /* a bit or byte that carries nothing is set */
    WRONG_OVER = 16,   /* words are left over */
    WRONG_PATH = 32,   /* one is not in resolved form */
    WRONG_COUNT = 64,  /* above 256 entries */
    WRONG_SUM = 128,   /* above 32,768 path bytes */
    WRONG_MARKS = 256, /* not those of the kinds that are there */
    WRONG_RUN = 512,   /* run 0 */
    WRONG_ALL = 1023
};

struct bytes {
    const uint8_t *start;
    size_t size;
};

struct path {
    size_t size;
    uint8_t bytes[MAX_PATH];
};

/* An entry's path stays where it was read: what it points into must outlive the table. */
struct entry {
    uint32_t kind;
    struct bytes path;
};

struct table {
    size_t count, sum;
    uint32_t switches, marks;
    struct entry entries[MAX_ENTRIES];
};

/* What a linked call sends: the main's run, its number, which each act raises, and the words of the records. */
struct link {
    uint32_t run;
    uint64_t number;
    size_t size;
    uint32_t words[MAX_ITEMS * RECORD_WORDS];
};

/* A standby's numbers: n, the last change that its table has; h, the highest number met in the highest run met; the run of its
 * table; and that highest run. */
struct standby {
    uint64_t last, highest;
    uint32_t run, highest_run;
};

struct child_call {
    uint32_t code;
    struct bytes items;
    const uint32_t *ends;
    size_t ends_count;
    const uint32_t *answers;
    size_t answers_count;
    struct bytes directory;
};

/* Reads a table; 0 where the memory holds none. */
int model_reads(const uint8_t *memory, size_t size, struct table *table);
size_t model_used(const struct table *table);
void model_writes(const struct table *table, uint8_t *memory);

/* 0, or the cause from 4 to 7. */
int model_resolve(struct bytes given, struct bytes directory, struct path *resolved);

/* How a resolved path relates to another, and how many leading components they share. */
int model_common(struct bytes first, struct bytes second, size_t *common);

/* A resolved path, or NULL for the call with no path. The link is NULL for a plain call. Results as in permissions.h: a
 * state, 0, or minus the cause. */
int model_query(const struct table *table, uint32_t mode, const struct bytes *path);
int model_insert(struct table *table, uint32_t kind, struct bytes path, struct link *link);
int model_switches(struct table *table, uint32_t switches, struct link *link);
int model_asks(const struct table *table, int call, const struct bytes *path);
int model_ask(struct table *table, int call, const struct bytes *path, uint32_t answer, struct link *link, uint32_t *asked);
int model_revoke(struct table *table, const struct bytes *path, struct link *link);

/* The text about a path as given and as resolved, or with no path if `given` is NULL; its size. */
size_t model_text(const struct bytes *given, const struct path *resolved, uint8_t *text);

/* 0 where the arguments are in order, else -3. */
int model_child_arguments(const struct child_call *call);
/* Makes a child of arguments in order. Both tables may point into memory that lives until the next call. */
int model_child(struct table *parent, struct table *child, const struct child_call *call, struct link *link,
                uint32_t *asked);

/* Whether a run may have this number. */
int model_is_run(uint32_t run);

/* Whether a standby may have these numbers. */
int model_is_standby(const struct standby *standby);

/* How many changes of the highest run a standby has heard of and not applied. */
uint64_t model_owed(const struct standby *standby);

/* Takes the words of one record at a standby with numbers that it may have. Result: the answer, -11 or -8. The table may point
 * into memory that lives until the next call. */
int model_arrive(struct table *table, struct standby *standby, const uint32_t *words, size_t size);

/* Writes the image of a table with a run and a number; the count of its words, at most IMAGE_WORDS. */
size_t model_image(const struct table *table, uint32_t run, uint32_t number, uint32_t *words);

/* What is wrong with the words of an image: a sum of WRONG_.., 0 if nothing is. */
uint32_t model_wrong_image(const uint32_t *words, size_t size);

/* Takes the words of one image, as model_arrive those of a record. Result: TAKEN, REPEAT or -13. */
int model_arrive_image(struct table *table, struct standby *standby, const uint32_t *words, size_t size);

/* A call on a permission without a path; the answer counts for a check or request. Result: the state afterwards, -12 or -3. */
int model_unit(int call, uint32_t *state, uint32_t prompt, uint32_t answer, uint32_t *asked);

#endif
