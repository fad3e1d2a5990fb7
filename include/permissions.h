/* Read permission lists, for the controller's C program.
 *
 * A table is a list of entries with switches and marks, in memory that the
 * program lends with each call. The memory is the whole state: it may be copied
 * as bytes, and it belongs to the program before and after each call.
 *
 * Link with libpermissions.a, built for x86-64 Linux (System V calling
 * convention, 64-bit pointers and sizes).
 *
 * Lending. An area is a pointer and its size, in bytes or, for numbers, in
 * elements. It must have that many readable elements, and writable ones if the
 * pointer is not const, for the time of the call. With size 0 nothing is read
 * through the pointer, and it may be NULL. Areas that are only read may overlap;
 * an area that is written must overlap no other one of the same call. Contents
 * may be anything. A lent number (uint32_t *asked, size_t *text_size) must not be
 * NULL. Those that take a result are written by every call, by a refused one too:
 * 0 there, but for the counts of a child call and the size of an image. The numbers
 * of the link (uint64_t *number, and those of a standby) and the state of a
 * permission without a path (uint32_t *state) are kept, as a table is, and take no
 * result.
 *
 * Results. A negative result -n is refusal n (enum permissions_refusal). Each
 * refusal comes in exactly its condition, when the earlier ones that apply do not
 * hold. A refused call changes no byte of any area and no number that is kept, but
 * for what the child calls name. 0 from a check means that the path may be read, and
 * no other result does: `if (permissions_check(..) != 0) deny();` is right and
 * complete.
 *
 * Paths are bytes, not ended by a zero byte. A path that does not begin with '/'
 * is joined to the working directory; "." and empty components vanish, and ".."
 * drops the last one. For an absolute path the directory is not looked at: NULL
 * and 0 will do.
 *
 * Damage. Memory that holds no table is refused by 1. A table has no checksum: a
 * flipped bit can give another table that is well formed, and memory of zero
 * bytes is a fresh table. Whoever stores a table keeps its length
 * (permissions_used) and a checksum beside it.
 *
 * Properties. No state outside the areas, no allocation, no system call, no
 * locale, no signal: reentrant. Calls on different tables may run at once, and so
 * may calls that only read one table. A look and the check that rests on it must
 * not be parted by a call that changes the table: see "check". Areas of bytes have any alignment, numbers
 * that of their type. Each call ends after work that its arguments bound. Stack:
 * at most PERMISSIONS_STACK_BYTES. From libc: memcpy and memset.
 */
#ifndef PERMISSIONS_H
#define PERMISSIONS_H

#include <stddef.h>
#include <stdint.h>

#ifdef __cplusplus
extern "C" {
#endif

#define PERMISSIONS_VERSION_MAJOR 0
#define PERMISSIONS_VERSION_MINOR 8
#define PERMISSIONS_VERSION_PATCH 0
#define PERMISSIONS_VERSION "0.8.0"

/* The compiler warns where the result of a call is dropped, if it can. */
#if defined(__GNUC__)
#define PERMISSIONS_MUST_USE __attribute__((warn_unused_result))
#else
#define PERMISSIONS_MUST_USE
#endif

/* The size of a table's memory. More may be lent, and is left alone. */
#define PERMISSIONS_TABLE_BYTES 33540u

/* The size of the space for a text. More may be lent, and is left alone. */
#define PERMISSIONS_TEXT_BYTES 1041u

/* The words of the space for records; for a child list as many for each item. More may be lent, and is left alone. */
#define PERMISSIONS_RECORD_WORDS 345u

/* The words of the largest image. Less space will do for an image that is shorter. */
#define PERMISSIONS_IMAGE_WORDS 11352u

/* Limits. */
#define PERMISSIONS_MAX_ENTRIES 256u
#define PERMISSIONS_MAX_PATH_BYTES 1024u      /* of a path, as given or resolved, and of a working directory */
#define PERMISSIONS_MAX_PATH_SUM_BYTES 32768u /* of all paths in a table */
#define PERMISSIONS_MAX_ITEMS 64u             /* of a child list */
#define PERMISSIONS_MAX_NUMBER 16777215u      /* of a change */
#define PERMISSIONS_MAX_RUN 268435455u        /* of a run */

/* The stack that a call takes at most. */
#define PERMISSIONS_STACK_BYTES 5120u

/* Kinds of an entry. */
enum permissions_kind {
    PERMISSIONS_KIND_GRANTED = 0,
    PERMISSIONS_KIND_FLAG_DENIED = 1,
    PERMISSIONS_KIND_PROMPT_DENIED = 2,
    PERMISSIONS_KIND_FLAG_IGNORED = 3
};

/* Switches; they add up. */
enum permissions_switch {
    PERMISSIONS_SWITCH_GRANTED = 1,
    PERMISSIONS_SWITCH_FLAG_DENIED = 2,
    PERMISSIONS_SWITCH_FLAG_IGNORED = 4,
    PERMISSIONS_SWITCH_PROMPT_DENIED = 8,
    PERMISSIONS_SWITCH_PROMPT = 16 /* the operator may be asked */
};

/* Marks; they add up. One is set once an entry of its kind was inserted. */
enum permissions_mark {
    PERMISSIONS_MARK_FLAG_DENIED = 1,
    PERMISSIONS_MARK_PROMPT_DENIED = 2,
    PERMISSIONS_MARK_FLAG_IGNORED = 4
};

/* Modes of a query: what a partly denied path counts as. */
enum permissions_mode {
    PERMISSIONS_MODE_DENIED = 0,
    PERMISSIONS_MODE_PARTIAL = 1,
    PERMISSIONS_MODE_GRANTED = 2
};

/* States, the answers of a query. */
enum permissions_state {
    PERMISSIONS_STATE_GRANTED = 0,
    PERMISSIONS_STATE_GRANTED_PARTIAL = 1,
    PERMISSIONS_STATE_PROMPT = 2,
    PERMISSIONS_STATE_DENIED = 3,
    PERMISSIONS_STATE_DENIED_PARTIAL = 4,
    PERMISSIONS_STATE_IGNORED = 5
};

/* How a path relates to another, by whole components. EQUAL, PREFIX and LESS put it first in path order, or at the same place. */
enum permissions_relation {
    PERMISSIONS_RELATION_EQUAL = 0,
    PERMISSIONS_RELATION_PREFIX = 1,    /* it is a prefix of the other, and not equal */
    PERMISSIONS_RELATION_EXTENSION = 2, /* the other is a prefix of it, and not equal */
    PERMISSIONS_RELATION_LESS = 3,      /* neither, and it is before the other in path order */
    PERMISSIONS_RELATION_GREATER = 4    /* neither, and it is after the other in path order */
};

/* The operator's answer. */
enum permissions_answer {
    PERMISSIONS_ANSWER_DENY = 0,
    PERMISSIONS_ANSWER_ALLOW = 1,
    PERMISSIONS_ANSWER_ALLOW_ALL = 2 /* reading as a whole; without a path see there */
};

/* What a child is to have. */
enum permissions_child_code {
    PERMISSIONS_CHILD_INHERIT = 0,     /* its parent's table */
    PERMISSIONS_CHILD_GRANTED = 1,     /* reading as a whole, if the parent passes that */
    PERMISSIONS_CHILD_NOT_GRANTED = 2, /* no grant */
    PERMISSIONS_CHILD_LIST = 3         /* the items, if the parent passes each */
};

/* Answers of an arrival. */
enum permissions_arrival {
    PERMISSIONS_ARRIVAL_APPLIED = 0, /* the change was the next one, or change 1 of a higher run, and is done */
    PERMISSIONS_ARRIVAL_REPEAT = 1,  /* it had been done before, or is of a lower run; of an image, nothing in it is new */
    PERMISSIONS_ARRIVAL_EARLY = 2,   /* one before it is missing; nothing is done, and it must come again */
    PERMISSIONS_ARRIVAL_TAKEN = 3    /* of an image: the table is now the image's */
};

/* Refusals, as results, in the order in which they are looked for. 12 is for a permission without a path alone, 9 for
 * linked calls, 11 for records that arrive, and 13 for images that do. */
enum permissions_refusal {
    PERMISSIONS_REFUSAL_NO_TABLE = -1,          /* the memory is too small for a table, or holds none; memory about to get a
                                                   fresh or child table need only be large enough; or the numbers are not
                                                   a standby's: its run is above the highest run met, or last above
                                                   highest while the two runs are the same */
    PERMISSIONS_REFUSAL_NO_SPACE = -2,          /* the text space is under 1,041 bytes, the record space under 345 words for
                                                   each child item (at least 345), or the image space too short for the image */
    PERMISSIONS_REFUSAL_UNKNOWN_STATE = -12,    /* the state of a permission without a path is above 5 */
    PERMISSIONS_REFUSAL_UNKNOWN = -3,           /* an answer, mode, kind or child code is unknown, switches are above 31, a
                                                   child's items or answers are not in order, or a run number is not
                                                   from 1 to 268,435,455 */
    PERMISSIONS_REFUSAL_EMPTY_PATH = -4,        /* the path is empty */
    PERMISSIONS_REFUSAL_PATH_TOO_LONG = -5,     /* the path is over 1,024 bytes */
    PERMISSIONS_REFUSAL_BAD_DIRECTORY = -6,     /* a relative path, and a working directory that is empty, over 1,024 bytes
                                                   or does not begin with '/' */
    PERMISSIONS_REFUSAL_RESOLVED_TOO_LONG = -7, /* the resolved path is over 1,024 bytes */
    PERMISSIONS_REFUSAL_TABLE_FULL = -8,        /* an entry would be added, and there are 256, or the sum of path lengths
                                                   would be over 32,768 bytes */
    PERMISSIONS_REFUSAL_NUMBERS_USED_UP = -9,   /* a recorded act needs a number above 16,777,215, or an image has one */
    PERMISSIONS_REFUSAL_ESCALATION = -10,       /* a child asks for more than its parent passes */
    PERMISSIONS_REFUSAL_MALFORMED_RECORD = -11, /* a record is malformed, as one without its run word is */
    PERMISSIONS_REFUSAL_MALFORMED_IMAGE = -13   /* an image is malformed, as one without its run word is, or its content
                                                   is no table */
};

/* ---- a table ---- */

/* Writes a fresh table: no entry, switch or mark.
 *   memory, memory_size   where the table goes; only its size matters
 * Result: 0; refusal 1. */
PERMISSIONS_MUST_USE
int32_t permissions_fresh(void *memory, size_t memory_size);

/* Inserts an entry. Where the search finds an equal one, nothing is added.
 *   memory, memory_size        the table
 *   kind                       enum permissions_kind
 *   path, path_size            the path, as given
 *   directory, directory_size  the working directory; looked at only if the path is relative
 * Result: 0; refusals 1, 3 to 8. */
PERMISSIONS_MUST_USE
int32_t permissions_insert(void *memory, size_t memory_size, uint32_t kind,
                           const void *path, size_t path_size,
                           const void *directory, size_t directory_size);

/* Sets the switches, all five together.
 *   memory, memory_size   the table
 *   switches              a sum of enum permissions_switch, 0 to 31
 * Result: 0; refusals 1, 3. */
PERMISSIONS_MUST_USE
int32_t permissions_switches(void *memory, size_t memory_size, uint32_t switches);

/* ---- query: what state has a path? ---- */

/* Asks for the state of a path. The table is not changed.
 *   memory, memory_size        the table
 *   mode                       enum permissions_mode
 *   path, path_size            the path, as given
 *   directory, directory_size  the working directory; looked at only if the path is relative
 * Result: enum permissions_state; refusals 1, 3 to 7. */
PERMISSIONS_MUST_USE
int32_t permissions_query(const void *memory, size_t memory_size, uint32_t mode,
                          const void *path, size_t path_size,
                          const void *directory, size_t directory_size);

/* Asks for the state of reading as a whole, with no path. The table is not changed.
 * Result: enum permissions_state; refusals 1, 3. */
PERMISSIONS_MUST_USE
int32_t permissions_query_all(const void *memory, size_t memory_size, uint32_t mode);

/* ---- check: may it be read? ----
 *
 * Where the switch for it is set and no rule decides, the operator is asked, and
 * the answer handed in counts. So look first whether the check would ask, put the
 * question, and then check with the answer:
 *
 *     uint32_t answer = PERMISSIONS_ANSWER_DENY;
 *     int spoken = 0;
 *     lock_table();
 *     while (permissions_check_asks(table, sizeof table, path, path_size, directory, directory_size,
 *                                   text, sizeof text, &text_size) == 1 && !spoken) {
 *         unlock_table();
 *         answer = put_the_question(text, text_size);
 *         spoken = 1;
 *         lock_table();
 *     }
 *     result = permissions_check(table, sizeof table, path, path_size, directory, directory_size,
 *                                answer, text, sizeof text, &asked, &text_size);
 *     unlock_table();
 *     if (result != 0)
 *         return deny(text, text_size);
 *
 * The lock is held from the last look to the check, and so nothing changes the
 * table between the two. Without it the look can be stale: where it saw a grant, and
 * the grant is revoked before the check, the check asks, takes the Deny of the first
 * line for the operator's answer, and inserts a denial that nobody spoke. It need not
 * be held while the operator thinks, since the look is then made again. Where one
 * thread alone uses the table, and no other call is made on it while the question is
 * put, neither lock nor second look is needed.
 *
 * The text is `read access to "NAME"`, not ended by a zero byte. The name holds
 * the path's bytes as they are: escape it before it is shown, since a file's name
 * can hold control characters, quotes and anything else but '/'.
 */

/* Whether a check of a path would ask the operator, whatever the answer. The table is not changed.
 *   memory, memory_size        the table
 *   path, path_size            the path, as given
 *   directory, directory_size  the working directory; looked at only if the path is relative
 *   text, text_space           where the question's text goes, if there is one; no more of it is touched
 *   text_size                  the size of that text; 0 if there is none
 * Result: 1 the check would ask; 0 it would not; refusals 1, 2, 4 to 7. */
PERMISSIONS_MUST_USE
int32_t permissions_check_asks(const void *memory, size_t memory_size,
                               const void *path, size_t path_size,
                               const void *directory, size_t directory_size,
                               void *text, size_t text_space, size_t *text_size);

/* Checks a path. Where the operator is asked, Allow inserts the path as granted,
 * AllowAll sets switch GRANTED, and Deny inserts the path as prompt-denied.
 *   memory, memory_size        the table
 *   path, path_size            the path, as given
 *   directory, directory_size  the working directory; looked at only if the path is relative
 *   answer                     enum permissions_answer; must be known even if nobody is asked
 *   text, text_space           where the text goes if the operator is asked or the check fails; no more of it is touched
 *   asked                      1 if the operator was asked, else 0
 *   text_size                  the size of the text; 0 if there is none
 * Result: 0 the path may be read; the state (enum permissions_state, 2 to 5) that it fails with; refusals 1 to 8. */
PERMISSIONS_MUST_USE
int32_t permissions_check(void *memory, size_t memory_size,
                          const void *path, size_t path_size,
                          const void *directory, size_t directory_size,
                          uint32_t answer, void *text, size_t text_space,
                          uint32_t *asked, size_t *text_size);

/* The same for reading as a whole, with no path. A yes sets switch GRANTED, Deny
 * sets switch PROMPT_DENIED; the text is `read access`.
 * Results as above; refusals 1, 2, and for the check 3. */
PERMISSIONS_MUST_USE
int32_t permissions_check_all_asks(const void *memory, size_t memory_size,
                                   void *text, size_t text_space, size_t *text_size);

PERMISSIONS_MUST_USE
int32_t permissions_check_all(void *memory, size_t memory_size,
                              uint32_t answer, void *text, size_t text_space,
                              uint32_t *asked, size_t *text_size);

/* ---- request: what state has it, and may it be granted for later? ----
 *
 * Granted inserts the path as granted, also where it is granted by an entry for
 * what lies above it: a request for each of many files fills the table, up to
 * refusal 8. To read a file, use check, which inserts only what the operator was
 * asked about. Where no rule decides, the state is Denied, unless the operator may
 * be asked; then the answer counts as in a check. Arguments as for a check; the
 * text is written only if the operator is asked.
 * Result: enum permissions_state; refusals 1 to 8 (with no path 1 to 3). */

PERMISSIONS_MUST_USE
int32_t permissions_request_asks(const void *memory, size_t memory_size,
                                 const void *path, size_t path_size,
                                 const void *directory, size_t directory_size,
                                 void *text, size_t text_space, size_t *text_size);

PERMISSIONS_MUST_USE
int32_t permissions_request(void *memory, size_t memory_size,
                            const void *path, size_t path_size,
                            const void *directory, size_t directory_size,
                            uint32_t answer, void *text, size_t text_space,
                            uint32_t *asked, size_t *text_size);

PERMISSIONS_MUST_USE
int32_t permissions_request_all_asks(const void *memory, size_t memory_size,
                                     void *text, size_t text_space, size_t *text_size);

PERMISSIONS_MUST_USE
int32_t permissions_request_all(void *memory, size_t memory_size,
                                uint32_t answer, void *text, size_t text_space,
                                uint32_t *asked, size_t *text_size);

/* ---- revoke ---- */

/* Drops every granted entry whose path is a prefix of this one; deeper grants stay.
 *   memory, memory_size        the table
 *   path, path_size            the path, as given
 *   directory, directory_size  the working directory; looked at only if the path is relative
 * Result: the state of the path afterwards, in mode partial; refusals 1, 4 to 7. */
PERMISSIONS_MUST_USE
int32_t permissions_revoke(void *memory, size_t memory_size,
                           const void *path, size_t path_size,
                           const void *directory, size_t directory_size);

/* Drops every granted entry and clears switch GRANTED.
 * Result: the state of reading as a whole afterwards; refusal 1. */
PERMISSIONS_MUST_USE
int32_t permissions_revoke_all(void *memory, size_t memory_size);

/* ---- child ---- */

/* Makes a child's table from its parent's. The parent checks each item, and asks the operator where a check asks.
 *   parent, parent_size        the parent's table, which gets what the operator's answers insert
 *   child, child_size          where the child's table goes; only its size matters
 *   code                       enum permissions_child_code
 *   items, items_size          the bytes of the items' paths, one after the other; none without code LIST
 *   ends, ends_count           the position in items where each item ends; they do not fall, and the last is items_size
 *   answers, answers_count     an answer for each item; one for GRANTED, none for INHERIT and NOT_GRANTED
 *   directory, directory_size  the working directory; looked at only for relative items
 *   asked                      how often the operator was asked, also if the call is refused
 * Result: 0; refusals 1, 3 to 8, 10. After 1 and 3 nothing has changed. After any other refusal the child's memory holds a
 * fresh table, of four bytes; those after it that the half-made table had taken are as it left them, and no others have
 * changed. The parent keeps what the items before the refused one inserted; under 10 and the child's own 8 that item's too. */
PERMISSIONS_MUST_USE
int32_t permissions_child(void *parent, size_t parent_size,
                          void *child, size_t child_size, uint32_t code,
                          const void *items, size_t items_size,
                          const uint32_t *ends, size_t ends_count,
                          const uint32_t *answers, size_t answers_count,
                          const void *directory, size_t directory_size,
                          uint32_t *asked);

/* ---- how two paths relate ---- */

/* Compares two paths, component by component and, inside a component, byte by byte. No table is lent.
 *   first, first_size          a path, as given
 *   second, second_size        another, as given
 *   directory, directory_size  the working directory of both; looked at only if a path is relative
 *   common                     how many leading components below the root both share: 0 for "/a" and "/b", 1 for "/a/b" and
 *                              "/a/bc", at most 512; 0 if the call is refused
 * Result: how the first relates to the second (enum permissions_relation); refusals 4 to 7, of the first path and then of
 * the second.
 *
 * So entries are shown as a tree: their paths in path order (EQUAL, PREFIX or LESS: the first goes first), and of each path
 * only the components after those that it shares with the path before. A branch then stands together: what lies between
 * two paths in path order shares with each at least what these two share (proved). examples/tree.c does this. */
PERMISSIONS_MUST_USE
int32_t permissions_common(const void *first, size_t first_size,
                           const void *second, size_t second_size,
                           const void *directory, size_t directory_size,
                           size_t *common);

/* ---- a permission without a path ----
 *
 * A yes or a no, say whether scripts may use the modem: one state (enum
 * permissions_state), which the program keeps and lends with each call, and the
 * setting whether a check may ask the operator. Nothing else is lent; no text is
 * written, and the link knows nothing of it: a program that wants the state on its
 * standby sends it by its own way.
 *
 *   state            a check                         a request                   a revoke
 *   Granted          passes                          returns it                  leaves Prompt
 *   Prompt           asks, if the setting is not 0;  asks, whatever the setting  leaves it
 *                    else fails with Prompt
 *   any other        fails with it                   returns it                  leaves it
 *   asked: Allow     leaves Granted and passes       leaves Granted
 *   asked: AllowAll  leaves Granted and passes       leaves Denied
 *   asked: Deny      leaves Denied and fails         leaves Denied
 *
 * So whether the operator is to be asked is seen from the state:
 *
 *     static uint32_t modem = PERMISSIONS_STATE_PROMPT;
 *     uint32_t answer = PERMISSIONS_ANSWER_DENY, asked;
 *     if (modem == PERMISSIONS_STATE_PROMPT)
 *         answer = put_the_question();
 *     if (permissions_unit_check(&modem, 1, answer, &asked) == 0)
 *         dial();
 *
 * A request never answers Prompt, and what a check has passed it passes until a
 * revoke (proved).
 */

/* Checks.
 *   state    the state, which the call leaves as the table says; a refused call leaves it as it was
 *   prompt   whether a check may ask: 0 it may not, any other number it may
 *   answer   enum permissions_answer; must be known even if nobody is asked
 *   asked    1 if the operator was asked, else 0
 * Result: 0 yes; the state (enum permissions_state, 1 to 5) that it fails with; refusals 12 and 3, in this order. */
PERMISSIONS_MUST_USE
int32_t permissions_unit_check(uint32_t *state, uint32_t prompt, uint32_t answer, uint32_t *asked);

/* Requests. Arguments as for a check; the setting makes no difference.
 * Result: the state that it leaves, never Prompt; refusals 12 and 3, in this order. */
PERMISSIONS_MUST_USE
int32_t permissions_unit_request(uint32_t *state, uint32_t prompt, uint32_t answer, uint32_t *asked);

/* Revokes.
 * Result: the state that it leaves; refusal 12. */
PERMISSIONS_MUST_USE
int32_t permissions_unit_revoke(uint32_t *state);

/* ---- the link: the standby's half ----
 *
 * A standby keeps a table of its own and four numbers, all lent with each arrival
 * and kept together. It begins with a fresh table and all four 0:
 *
 *     static unsigned char table[PERMISSIONS_TABLE_BYTES];
 *     static struct permissions_standby standby;
 *
 * The main's changes come in runs (see the main's half): after a board swap it
 * begins a higher run, with a fresh table and its numbers counted from 1 again. A
 * record or an image that is not refused is met.
 *
 * The standby hands every record that comes over the link to
 * permissions_standby_arrive, in whatever order, as often as it comes. Records may be
 * lost, repeated and reordered: at any time the standby is in the highest run whose
 * change 1 or image has come, its table is the main's table in that run after change
 * n, and n is the greatest number for which changes 1 to n of it came in that sequence,
 * with anything between; where an image was taken, n is counted on from it (see
 * "images"). (That is proved of every list of the main's calls, run after run, and
 * every list of arrivals, as long as the link alters no record or image and invents
 * none: a checksum on the wire is the program's.)
 *
 *     result = permissions_standby_arrive(table, sizeof table, &standby, record, record_size);
 *     if (result == PERMISSIONS_ARRIVAL_EARLY && standby.run == standby.highest_run)
 *         ask_main_for_changes_from(standby.last + 1);
 *     else if (result == PERMISSIONS_ARRIVAL_EARLY)
 *         ask_main_for_an_image(); // of the highest run, which may have no change 1
 *
 *   a record's or image's run  of a record                                  of an image
 *   below the standby's        Repeat                                       Repeat
 *   the standby's              n + 1 is applied, up to n is Repeat, above   taken where n is below its number, else Repeat
 *                              n + 1 is Early
 *   above it                   change 1 clears table and n, and is applied: taken, even with the number 0: the standby is
 *                              the standby is in that run; any other is     in that run
 *                              Early
 *
 * Until the takeover nothing but arrivals may change the table. A change by a call on
 * it, even by a check that asks, makes it another table than the main's, and no
 * number shows that. Queries and looks change nothing.
 *
 * To take over, go on with this table as a main, in a new run: see "going on with a
 * table" in the main's half.
 */

/* What a standby keeps beside its table. */
struct permissions_standby {
    uint64_t last;        /* the last change that the table has, in its run: n */
    uint64_t highest;     /* the highest number met in the highest run met: h */
    uint32_t run;         /* the run that the table is of; 0 before any */
    uint32_t highest_run; /* the highest run met */
};

/* Takes one record. permissions_standby_arrive, below, lends the four numbers together.
 *   memory, memory_size                the standby's table
 *   last, highest, run, highest_run    the standby's numbers; a refused arrival leaves them
 *   record, record_size                the words of one record, all of them and no more; the size counts words
 * Result: enum permissions_arrival; refusals 1, 11, and 8 where the record is the next one of the standby's run. */
PERMISSIONS_MUST_USE
int32_t permissions_arrive(void *memory, size_t memory_size, uint64_t *last, uint64_t *highest,
                           uint32_t *run, uint32_t *highest_run,
                           const uint32_t *record, size_t record_size);

PERMISSIONS_MUST_USE
static inline int32_t permissions_standby_arrive(void *memory, size_t memory_size, struct permissions_standby *standby,
                                                 const uint32_t *record, size_t record_size)
{
    return permissions_arrive(memory, memory_size, &standby->last, &standby->highest, &standby->run, &standby->highest_run,
                              record, record_size);
}

/* How many changes the standby has heard of and not applied, counted in the highest run met: those after last up to the
 * highest number that came, or all of them where the standby is in a lower run.
 *   owed   highest - last while run is highest_run, and else highest; 0 means that every record that came of that run is
 *          done. A change that was lost is counted once a later one has come, and not before
 * Result: 0; refusal 1 where the numbers are not a standby's, and then owed is 0. */
PERMISSIONS_MUST_USE
int32_t permissions_owed(uint64_t last, uint64_t highest, uint32_t run, uint32_t highest_run, uint64_t *owed);

PERMISSIONS_MUST_USE
static inline int32_t permissions_standby_owed(const struct permissions_standby *standby, uint64_t *owed)
{
    return permissions_owed(standby->last, standby->highest, standby->run, standby->highest_run, owed);
}

/* ---- reading a table ---- */

/* How many bytes the table takes, from the memory's start: what to save. Two tables
 * are the same exactly if they take the same bytes. To load one, put its bytes at
 * the start of memory of PERMISSIONS_TABLE_BYTES and see that the size comes back.
 * Result: 4 or more; refusal 1 where the memory holds no table. */
PERMISSIONS_MUST_USE
int32_t permissions_used(const void *memory, size_t memory_size);

/* The table's count of entries, its switches and its marks.
 * Result: 0; refusal 1, and then the three are 0. */
PERMISSIONS_MUST_USE
int32_t permissions_head(const void *memory, size_t memory_size,
                         uint32_t *count, uint32_t *switches, uint32_t *marks);

/* The entry at a place of the list, from 0.
 *   kind         enum permissions_kind
 *   path_start   where its path begins: (const char *)memory + path_start
 *   path_size    how many bytes the path has
 * Result: 1; 0 where the list has no such place; refusal 1. Without an entry the three are 0. */
PERMISSIONS_MUST_USE
int32_t permissions_entry(const void *memory, size_t memory_size, uint32_t place,
                          uint32_t *kind, size_t *path_start, size_t *path_size);

/* ---- the link: the main's half ----
 *
 * A main keeps a standby ready by sending it a record of every change of its
 * table. Its changes come in runs. A run begins with a fresh table and the number 0;
 * whenever the main starts without the table and number that it had, after a board
 * swap say, it begins a new one. Run numbers are 1 to PERMISSIONS_MAX_RUN, each is used
 * once, and they rise. The next one is one above the greater of a counter, which the
 * program keeps where a swap of the board does not reach it, and the standby's
 * highest_run; the counter is raised and kept before anything of the run is sent. A
 * clock does not do: two starts may see the same time, or one that was set back.
 *
 *     static uint64_t number;
 *     result = permissions_begin_run(table, sizeof table, run, &number);
 *
 * A run number that is used again goes unnoticed: the standby takes the records up to
 * its last number for repeats, and applies those after it to the table of the old run.
 * Run, number and what is owed then agree, and the tables differ. To a lower run
 * number it answers Repeat, whatever comes.
 *
 * Going on with a table. A table that is not fresh becomes a main's in a run of its own:
 * a standby's at the takeover, a child's that is to have a standby too, and the main's
 * own once its change numbers are used up. Take a new run number, set the number to 1
 * by hand, and send an image before any record:
 *
 *     run = next_run();
 *     number = 1;
 *     if (permissions_linked_image(table, sizeof table, run, number, image, PERMISSIONS_IMAGE_WORDS, &image_size) == 0)
 *         send_to_standby(image, image_size);
 *
 * The run then has no change 1, so that nothing but an image moves a standby to it; any
 * later image of the run will do. With the number 0 a change 1 would follow, which
 * clears the table of a standby that has not got the image. And in the old run, from
 * n on, a record n + 1 of the old main that comes late would be applied in the new
 * main's place. What is proved of main and standby does not cover such a run yet,
 * since it does not begin with a fresh table; it is tested
 * (docs/INTEGRATION.md, "Going on with a table").
 *
 * The linked calls are the calls above with these records written. Beside the plain
 * call's arguments the program hands in
 *
 *   run                     the number of the run that began last
 *
 * and lends
 *
 *   number                  the main's change number, that of its last record: 0 at a run's beginning, and from then on
 *                           kept, saved and restored with the table and the run. Each record raises it by one
 *   records, records_space  where the records of this call go, from the start; no more of it is touched. The space
 *                           counts words, not bytes: sizeof records / sizeof records[0]
 *   records_size            how many words hold records. Send them before the space is lent again
 *
 *     static uint32_t records[PERMISSIONS_RECORD_WORDS];
 *     result = permissions_linked_insert(table, sizeof table, run, &number, kind, path, path_size, directory, directory_size,
 *                                        records, PERMISSIONS_RECORD_WORDS, &records_size);
 *     send_to_standby(records, records_size);
 *
 * Answer, text and table are those of the plain call. Each act makes one record: an
 * insert that is reached, even if an equal entry is found; switches set, even to
 * what they were; a revoke, even of nothing. A check or request makes one act or
 * none, a child call at most one for each item. Whoever does acts 1 to n of a run in
 * turn on a fresh table has the main's table after change n of it. A change that the main makes by
 * a plain call has no record: it is lost for the standby.
 *
 * Three refusals are added to the plain call's:
 *   2  the record space is under 345 words, in a child call under 345 for each item and at least 345; looked at right
 *      after the text space, whether or not there is anything to record
 *   3  the run number is not from 1 to PERMISSIONS_MAX_RUN
 *   9  an act needs a number above PERMISSIONS_MAX_NUMBER; comes after 8, and never without an act
 * A refused call leaves number and records as they were, and records_size is 0; the child call names its exceptions.
 *
 * A record is one act with its run and number, in 32-bit words. In memory they are
 * uint32_t as the host has them; on the wire the program chooses, and most
 * significant byte first is suggested. A word's top four bits are its kind, and
 * unused bits and bytes are zero:
 *
 *   word      kind  below the kind, from the highest bit on
 *   run       8     the run number (28 bits): 1 to 268,435,455
 *   head      1     act (4 bits), change number (24 bits): 1 to 16,777,215
 *   length    2     zero (12 bits), the path's length (16 bits): 1 to 1,024
 *   path      3     zero (4 bits), three bytes of the path (24 bits), the first highest
 *   switches  4     zero (23 bits), the complete new switches (5 bits)
 *
 *   act                      the record's words
 *   1  insert granted        run, head, length, path words
 *   2  insert flag-denied    run, head, length, path words
 *   3  insert flag-ignored   run, head, length, path words
 *   4  insert prompt-denied  run, head, length, path words
 *   5  switches              run, head, switches
 *   6  revoke a path         run, head, length, path words
 *   7  revoke all            run, head
 *
 * Acts 1 to 4 go in another sequence than enum permissions_kind. The path is the
 * resolved one; its n bytes take (n + 2) / 3 words. Change 1 of run 1, insert
 * granted "/c":
 *
 *   80000001  run 1
 *   11000001  head: act 1, change 1
 *   20000002  length: 2 bytes
 *   302F6300  path: '/', 'c', and a byte that is not used
 */

/* Begins a run: a fresh table, and the number 0.
 *   memory, memory_size   where the table goes; only its size matters
 *   run                   the run's number
 *   number                becomes 0
 * Result: 0; refusals 1 and 3, with table and number as they were. */
PERMISSIONS_MUST_USE
int32_t permissions_begin_run(void *memory, size_t memory_size, uint32_t run, uint64_t *number);

/* permissions_insert, recorded.
 * Result: 0; refusals 1 to 9. */
PERMISSIONS_MUST_USE
int32_t permissions_linked_insert(void *memory, size_t memory_size, uint32_t run, uint64_t *number, uint32_t kind,
                                  const void *path, size_t path_size,
                                  const void *directory, size_t directory_size,
                                  uint32_t *records, size_t records_space, size_t *records_size);

/* permissions_switches, recorded.
 * Result: 0; refusals 1 to 3 and 9. */
PERMISSIONS_MUST_USE
int32_t permissions_linked_switches(void *memory, size_t memory_size, uint32_t run, uint64_t *number, uint32_t switches,
                                    uint32_t *records, size_t records_space, size_t *records_size);

/* permissions_check and permissions_check_all, recorded; permissions_check_asks and
 * permissions_check_all_asks say whether they would ask.
 * Result: 0 it may be read; the state (enum permissions_state, 2 to 5) that it fails with; refusals 1 to 9, with no path
 * 1 to 3 and 9. */
PERMISSIONS_MUST_USE
int32_t permissions_linked_check(void *memory, size_t memory_size, uint32_t run, uint64_t *number,
                                 const void *path, size_t path_size,
                                 const void *directory, size_t directory_size,
                                 uint32_t answer, void *text, size_t text_space,
                                 uint32_t *records, size_t records_space,
                                 uint32_t *asked, size_t *text_size, size_t *records_size);

PERMISSIONS_MUST_USE
int32_t permissions_linked_check_all(void *memory, size_t memory_size, uint32_t run, uint64_t *number,
                                     uint32_t answer, void *text, size_t text_space,
                                     uint32_t *records, size_t records_space,
                                     uint32_t *asked, size_t *text_size, size_t *records_size);

/* permissions_request and permissions_request_all, recorded. A request that is
 * Granted inserts, or with no path sets switch GRANTED, so it makes a record.
 * Result: enum permissions_state; refusals 1 to 9, with no path 1 to 3 and 9. */
PERMISSIONS_MUST_USE
int32_t permissions_linked_request(void *memory, size_t memory_size, uint32_t run, uint64_t *number,
                                   const void *path, size_t path_size,
                                   const void *directory, size_t directory_size,
                                   uint32_t answer, void *text, size_t text_space,
                                   uint32_t *records, size_t records_space,
                                   uint32_t *asked, size_t *text_size, size_t *records_size);

PERMISSIONS_MUST_USE
int32_t permissions_linked_request_all(void *memory, size_t memory_size, uint32_t run, uint64_t *number,
                                       uint32_t answer, void *text, size_t text_space,
                                       uint32_t *records, size_t records_space,
                                       uint32_t *asked, size_t *text_size, size_t *records_size);

/* permissions_revoke and permissions_revoke_all, recorded.
 * Result: the state afterwards, in mode partial; refusals 1 to 7 and 9, with no path 1 to 3 and 9. */
PERMISSIONS_MUST_USE
int32_t permissions_linked_revoke(void *memory, size_t memory_size, uint32_t run, uint64_t *number,
                                  const void *path, size_t path_size,
                                  const void *directory, size_t directory_size,
                                  uint32_t *records, size_t records_space, size_t *records_size);

PERMISSIONS_MUST_USE
int32_t permissions_linked_revoke_all(void *memory, size_t memory_size, uint32_t run, uint64_t *number,
                                      uint32_t *records, size_t records_space, size_t *records_size);

/* permissions_child, with what the operator's answers change in the parent's table recorded.
 * Result: 0; refusals 1 to 10. After 1 to 3 nothing has changed. After any other refusal the child's table is fresh, the
 * parent keeps what permissions_child says, and so stay the numbers and records of these acts: records_size counts their
 * words, and they are to be sent. Under 9 the parent keeps what the items before the refused one inserted. */
PERMISSIONS_MUST_USE
int32_t permissions_linked_child(void *parent, size_t parent_size, uint32_t run, uint64_t *number,
                                 void *child, size_t child_size, uint32_t code,
                                 const void *items, size_t items_size,
                                 const uint32_t *ends, size_t ends_count,
                                 const uint32_t *answers, size_t answers_count,
                                 const void *directory, size_t directory_size,
                                 uint32_t *records, size_t records_space,
                                 uint32_t *asked, size_t *records_size);

/* ---- the link: images ----
 *
 * A standby that joins late, a swapped one say, has none of the old records. So the
 * main can write its whole table, with its run and number, as one image:
 *
 *     static uint32_t image[PERMISSIONS_IMAGE_WORDS];
 *     if (permissions_linked_image(table, sizeof table, run, number, image, PERMISSIONS_IMAGE_WORDS, &image_size) == 0)
 *         send_to_standby(image, image_size);
 *
 * A standby of a lower run, or of the same run with its last number below the image's,
 * takes table, run and number, whatever it had, and goes on with the next change. Any
 * other has no less than the image, and answers Repeat. The second word's top four
 * bits tell an image (5) from a record (1):
 *
 *     if (words_size > 1 && words[1] >> 28 == 5)
 *         result = permissions_standby_arrive_image(table, sizeof table, &standby, words, words_size);
 *     else
 *         result = permissions_standby_arrive(table, sizeof table, &standby, words, words_size);
 *
 * Images may be lost, repeated and reordered like records and among them: at any
 * time the table is the main's table in the standby's run after change n, and n is the
 * greatest number reached in sequence from the last image taken (proved with the claim
 * above). A change that the image has and the standby never got is a Repeat from then on.
 *
 * An image is 32-bit words, as a record is; unused bits and bytes are zero:
 *
 *   word    kind  below the kind, from the highest bit on
 *   run     8     the run number (28 bits): 1 to 268,435,455
 *   number  5     zero (4 bits), the main's number (24 bits): 0 to 16,777,215
 *   table   6     zero (11 bits), count of entries (9 bits): 0 to 256, marks (3 bits), switches (5 bits)
 *   entry   7     zero (10 bits), enum permissions_kind (2 bits), the path's length (16 bits): 1 to 1,024
 *   path    3     zero (4 bits), three bytes of the path (24 bits), the first highest
 *
 * It begins with one run word, one number word and one table word. For each entry, in list order,
 * an entry word and its path words follow, (n + 2) / 3 for n bytes, and nothing
 * after the last. Paths are resolved ones, at most 32,768 bytes together, and the
 * marks are exactly those of the entries' kinds. Anything else is malformed, and a
 * table with its run and number has one image. The list D /z, G /c of run 1 with the
 * number 2:
 *
 *   80000001  run 1
 *   50000002  number: 2
 *   60000220  table: 2 entries, mark 1, no switch
 *   70010002  entry: flag-denied, 2 bytes
 *   302F7A00  path: '/', 'z', and a byte that is not used
 *   70000002  entry: granted, 2 bytes
 *   302F6300  path: '/', 'c'
 */

/* Writes the image of the main's table. Table and number are not changed.
 *   memory, memory_size   the main's table
 *   run, number           the main's run and number, by value
 *   image, image_space    where the image goes, from the start; no more of it is touched. The space counts words, not bytes
 *   image_size            how many words the image takes, also where it is refused by 2, 3 or 9, and 0 under 1. So with a space
 *                         of 0 words the call is refused by 2, and says the size
 * Result: 0; refusals 1, 2 where the space is shorter than this image, 3 where the run number is not from 1 to
 * PERMISSIONS_MAX_RUN, and 9 where number is above PERMISSIONS_MAX_NUMBER. */
PERMISSIONS_MUST_USE
int32_t permissions_linked_image(const void *memory, size_t memory_size, uint32_t run, uint64_t number,
                                 uint32_t *image, size_t image_space, size_t *image_size);

/* Takes an image, if it has more than the standby. permissions_standby_arrive_image, below, lends the four numbers together.
 *   memory, memory_size                the standby's table
 *   last, highest, run, highest_run    the standby's numbers; a refused arrival leaves them
 *   image, image_size                  the words of one image, all of them and no more; the size counts words
 * Result: 3 (enum permissions_arrival) where the image's run is above the standby's, even if its number is 0, or the same with
 * last below its number: the table is then the image's, run and last are its run and number, and highest_run and highest
 * follow; 1 where it is not taken, and no entry is touched; refusals 1 and 13. */
PERMISSIONS_MUST_USE
int32_t permissions_arrive_image(void *memory, size_t memory_size, uint64_t *last, uint64_t *highest,
                                 uint32_t *run, uint32_t *highest_run,
                                 const uint32_t *image, size_t image_size);

PERMISSIONS_MUST_USE
static inline int32_t permissions_standby_arrive_image(void *memory, size_t memory_size, struct permissions_standby *standby,
                                                       const uint32_t *image, size_t image_size)
{
    return permissions_arrive_image(memory, memory_size, &standby->last, &standby->highest, &standby->run,
                                    &standby->highest_run, image, image_size);
}

/* ---- names ---- */

/* The name of a state, or "unknown". */
static inline const char *permissions_state_name(int32_t state)
{
    switch (state) {
    case PERMISSIONS_STATE_GRANTED: return "Granted";
    case PERMISSIONS_STATE_GRANTED_PARTIAL: return "GrantedPartial";
    case PERMISSIONS_STATE_PROMPT: return "Prompt";
    case PERMISSIONS_STATE_DENIED: return "Denied";
    case PERMISSIONS_STATE_DENIED_PARTIAL: return "DeniedPartial";
    case PERMISSIONS_STATE_IGNORED: return "Ignored";
    default: return "unknown";
    }
}

/* The name of an entry's kind, or "unknown". */
static inline const char *permissions_kind_name(uint32_t kind)
{
    switch (kind) {
    case PERMISSIONS_KIND_GRANTED: return "granted";
    case PERMISSIONS_KIND_FLAG_DENIED: return "flag-denied";
    case PERMISSIONS_KIND_PROMPT_DENIED: return "prompt-denied";
    case PERMISSIONS_KIND_FLAG_IGNORED: return "flag-ignored";
    default: return "unknown";
    }
}

/* The name of how two paths relate, or "unknown". */
static inline const char *permissions_relation_name(int32_t relation)
{
    switch (relation) {
    case PERMISSIONS_RELATION_EQUAL: return "Equal";
    case PERMISSIONS_RELATION_PREFIX: return "Prefix";
    case PERMISSIONS_RELATION_EXTENSION: return "Extension";
    case PERMISSIONS_RELATION_LESS: return "Less";
    case PERMISSIONS_RELATION_GREATER: return "Greater";
    default: return "unknown";
    }
}

/* The name of an arrival's answer, or "unknown". */
static inline const char *permissions_arrival_name(int32_t result)
{
    switch (result) {
    case PERMISSIONS_ARRIVAL_APPLIED: return "Applied";
    case PERMISSIONS_ARRIVAL_REPEAT: return "Repeat";
    case PERMISSIONS_ARRIVAL_EARLY: return "Early";
    case PERMISSIONS_ARRIVAL_TAKEN: return "Taken";
    default: return "unknown";
    }
}

/* What a negative result says, or "not refused". */
static inline const char *permissions_refusal_name(int32_t result)
{
    switch (result) {
    case PERMISSIONS_REFUSAL_NO_TABLE: return "no table";
    case PERMISSIONS_REFUSAL_NO_SPACE: return "text, record or image space too small";
    case PERMISSIONS_REFUSAL_UNKNOWN_STATE: return "unknown state";
    case PERMISSIONS_REFUSAL_UNKNOWN: return "unknown number or items out of order";
    case PERMISSIONS_REFUSAL_EMPTY_PATH: return "empty path";
    case PERMISSIONS_REFUSAL_PATH_TOO_LONG: return "path too long";
    case PERMISSIONS_REFUSAL_BAD_DIRECTORY: return "bad working directory";
    case PERMISSIONS_REFUSAL_RESOLVED_TOO_LONG: return "resolved path too long";
    case PERMISSIONS_REFUSAL_TABLE_FULL: return "table full";
    case PERMISSIONS_REFUSAL_NUMBERS_USED_UP: return "change numbers used up";
    case PERMISSIONS_REFUSAL_ESCALATION: return "child asks for more than its parent passes";
    case PERMISSIONS_REFUSAL_MALFORMED_RECORD: return "malformed record";
    case PERMISSIONS_REFUSAL_MALFORMED_IMAGE: return "malformed image";
    default: return result < 0 ? "unknown refusal" : "not refused";
    }
}

#ifdef __cplusplus
}
#endif

#endif
