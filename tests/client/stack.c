/* How much stack the calls of permissions.h take: each call runs on a stack of its own that was filled with a pattern, and
 * the lowest byte that changed tells how deep it went. Prints the deepest of some calls for each function, with what the
 * switch of stacks itself takes left out, and compares it with PERMISSIONS_STACK_BYTES. */
#define _XOPEN_SOURCE 700
#include "permissions.h"

#include <stdio.h>
#include <string.h>
#include <ucontext.h>

enum { STACK = 1 << 18, PATTERN = 0xA5 };

static unsigned char stack[STACK];
static ucontext_t outside, inside;
static unsigned char table[PERMISSIONS_TABLE_BYTES], child[PERMISSIONS_TABLE_BYTES];
static char text[PERMISSIONS_TEXT_BYTES], relative[PERMISSIONS_MAX_PATH_BYTES], directory[PERMISSIONS_MAX_PATH_BYTES];
static char climbing[PERMISSIONS_MAX_PATH_BYTES]; /* a relative path that just fits, in the whole directory */
static size_t relative_size;
static uint32_t number, more, last, modem, records[2 * PERMISSIONS_RECORD_WORDS], image[PERMISSIONS_IMAGE_WORDS];
static size_t size, start, words, image_words;
static uint64_t change, owed;
static struct permissions_standby standby;
static volatile int32_t result;

static void nothing(void) { result = 0; }
static void fresh(void) { result = permissions_fresh(child, sizeof child); }
static void insert(void) { result = permissions_insert(table, sizeof table, 1, relative, relative_size, directory, 500); }
static void switches(void) { result = permissions_switches(table, sizeof table, 16); }
static void query(void) { result = permissions_query(table, sizeof table, 1, relative, relative_size, directory, 500); }
static void query_all(void) { result = permissions_query_all(table, sizeof table, 1); }
static void check_asks(void)
{
    result = permissions_check_asks(table, sizeof table, relative, relative_size, directory, 500, text, sizeof text, &size);
}
static void check(void)
{
    result = permissions_check(table, sizeof table, relative, relative_size, directory, 500, 1, text, sizeof text, &number, &size);
}
static void check_all(void) { result = permissions_check_all(table, sizeof table, 0, text, sizeof text, &number, &size); }
static void request(void)
{
    result = permissions_request(table, sizeof table, relative, relative_size, directory, 500, 0, text, sizeof text, &number, &size);
}
static void revoke(void) { result = permissions_revoke(table, sizeof table, relative, relative_size, directory, 500); }
static void make_child(void)
{
    uint32_t ends[2], answers[2] = {1, 0};
    ends[0] = (uint32_t)relative_size / 2;
    ends[1] = (uint32_t)relative_size;
    result = permissions_child(table, sizeof table, child, sizeof child, 3, relative, relative_size, ends, 2, answers, 2,
                               directory, 500, &number);
}
static void inherit(void)
{
    result = permissions_child(table, sizeof table, child, sizeof child, 0, NULL, 0, NULL, 0, NULL, 0, NULL, 0, &number);
}
static void linked_insert(void)
{
    result = permissions_linked_insert(table, sizeof table, 1, &change, 1, relative, relative_size, directory, 500, records,
                                       PERMISSIONS_RECORD_WORDS, &words);
}
static void linked_switches(void)
{
    result = permissions_linked_switches(table, sizeof table, 1, &change, 16, records, PERMISSIONS_RECORD_WORDS, &words);
}
static void linked_check(void)
{
    result = permissions_linked_check(table, sizeof table, 1, &change, relative, relative_size, directory, 500, 1, text, sizeof text,
                                      records, PERMISSIONS_RECORD_WORDS, &number, &size, &words);
}
static void linked_check_all(void)
{
    result = permissions_linked_check_all(table, sizeof table, 1, &change, 0, text, sizeof text, records, PERMISSIONS_RECORD_WORDS,
                                          &number, &size, &words);
}
static void linked_request(void)
{
    result = permissions_linked_request(table, sizeof table, 1, &change, relative, relative_size, directory, 500, 0, text, sizeof text,
                                        records, PERMISSIONS_RECORD_WORDS, &number, &size, &words);
}
static void linked_request_all(void)
{
    result = permissions_linked_request_all(table, sizeof table, 1, &change, 1, text, sizeof text, records, PERMISSIONS_RECORD_WORDS,
                                            &number, &size, &words);
}
static void linked_revoke(void)
{
    result = permissions_linked_revoke(table, sizeof table, 1, &change, relative, relative_size, directory, 500, records,
                                       PERMISSIONS_RECORD_WORDS, &words);
}
static void linked_revoke_all(void)
{
    result = permissions_linked_revoke_all(table, sizeof table, 1, &change, records, PERMISSIONS_RECORD_WORDS, &words);
}
static void linked_child(void)
{
    uint32_t ends[2], answers[2] = {1, 0};
    ends[0] = (uint32_t)relative_size / 2;
    ends[1] = (uint32_t)relative_size;
    result = permissions_linked_child(table, sizeof table, 1, &change, child, sizeof child, 3, relative, relative_size, ends, 2,
                                      answers, 2, directory, 500, records, 2 * PERMISSIONS_RECORD_WORDS, &number, &words);
}
static void common(void)
{
    result = permissions_common(climbing, sizeof climbing, climbing, sizeof climbing, directory, sizeof directory, &size);
}
static void begin_run(void) { result = permissions_begin_run(child, sizeof child, 2, &change); }
static void arrive(void) { result = permissions_standby_arrive(child, sizeof child, &standby, records, words); }
static void arrive_higher(void)
{
    records[0] = 0x80000002;
    result = permissions_standby_arrive(child, sizeof child, &standby, records, words);
}
static void linked_image(void)
{
    result = permissions_linked_image(table, sizeof table, 1, change, image, PERMISSIONS_IMAGE_WORDS, &image_words);
}
static void arrive_image(void)
{
    result = permissions_standby_arrive_image(child, sizeof child, &standby, image, image_words);
}
static void say_owed(void) { result = permissions_standby_owed(&standby, &owed); }
static void unit_check(void) { result = permissions_unit_check(&modem, 1, 1, &number); }
static void unit_request(void) { result = permissions_unit_request(&modem, 1, 1, &number); }
static void unit_revoke(void) { result = permissions_unit_revoke(&modem); }
static void used(void) { result = permissions_used(table, sizeof table); }
static void head(void) { result = permissions_head(table, sizeof table, &number, &more, &last); }
static void entry(void) { result = permissions_entry(table, sizeof table, 3, &number, &start, &size); }

static const struct {
    const char *name;
    void (*call)(void);
} calls[] = {{"fresh", fresh}, {"insert", insert}, {"switches", switches}, {"query", query}, {"query_all", query_all},
             {"check_asks", check_asks}, {"check", check}, {"check_all", check_all}, {"request", request}, {"revoke", revoke},
             {"child, a list", make_child}, {"child, inherited", inherit}, {"common", common}, {"used", used}, {"head", head},
             {"entry", entry}, {"linked_insert", linked_insert}, {"linked_switches", linked_switches},
             {"linked_check", linked_check}, {"linked_check_all", linked_check_all}, {"linked_request", linked_request},
             {"linked_request_all", linked_request_all}, {"linked_revoke", linked_revoke},
             {"linked_revoke_all", linked_revoke_all}, {"linked_child", linked_child}, {"begin_run", begin_run},
             {"arrive", arrive}, {"arrive, a new run", arrive_higher}, {"owed", say_owed},
             {"linked_image", linked_image}, {"arrive_image", arrive_image},
             {"unit_check", unit_check}, {"unit_request", unit_request}, {"unit_revoke", unit_revoke}};

/* The bytes of a fresh stack that a call touches. */
static size_t depth(void (*call)(void))
{
    size_t untouched = 0;

    memset(stack, PATTERN, sizeof stack);
    getcontext(&inside);
    inside.uc_stack.ss_sp = stack;
    inside.uc_stack.ss_size = sizeof stack;
    inside.uc_link = &outside;
    makecontext(&inside, call, 0);
    swapcontext(&outside, &inside);
    while (untouched < sizeof stack && stack[untouched] == PATTERN)
        untouched++;
    return sizeof stack - untouched;
}

static void fill(void)
{
    char path[32];
    int i;

    result = permissions_fresh(table, sizeof table);
    result = permissions_switches(table, sizeof table, PERMISSIONS_SWITCH_PROMPT);
    for (i = 0; i < 100; i++) {
        snprintf(path, sizeof path, "/hall%d/unit%02d/hours", i % 3, i);
        result = permissions_insert(table, sizeof table, (uint32_t)(i % 4), path, strlen(path), NULL, 0);
    }
    memset(directory, 'd', sizeof directory);
    for (i = 0; i < (int)sizeof directory; i += 10)
        directory[i] = '/';
    memset(relative, 'r', sizeof relative);
    relative_size = 500;
    for (i = 7; i < (int)relative_size; i += 9)
        relative[i] = '/';
    /* up by 80 of the directory's 103 components, and 784 bytes down: 1,015 bytes when resolved */
    memset(climbing, 'c', sizeof climbing);
    for (i = 0; i < 80; i++)
        memcpy(climbing + 3 * i, "../", 3);
    for (i = 241; i < (int)sizeof climbing - 1; i += 2)
        climbing[i] = '/';
    /* change 1 of run 1, an insert of a long path, for a standby of that run with the same entries */
    memcpy(child, table, sizeof child);
    change = standby.last = standby.highest = 0;
    standby.run = standby.highest_run = 1;
    modem = PERMISSIONS_STATE_PROMPT;
    result = permissions_linked_insert(table, sizeof table, 1, &change, PERMISSIONS_KIND_FLAG_DENIED, relative, relative_size,
                                       directory, 500, records, PERMISSIONS_RECORD_WORDS, &words);
    /* the image after it, for the same standby */
    result = permissions_linked_image(table, sizeof table, 1, change, image, PERMISSIONS_IMAGE_WORDS, &image_words);
    memcpy(table, child, sizeof table);
}

int main(void)
{
    size_t itself = depth(nothing), deepest = 0, i;

    for (i = 0; i < sizeof calls / sizeof calls[0]; i++) {
        size_t one;
        fill();
        one = depth(calls[i].call) - itself;
        printf("%-18s %6zu bytes, result %d\n", calls[i].name, one, (int)result);
        if (one > deepest)
            deepest = one;
    }
    printf("deepest            %6zu bytes, limit %u\n", deepest, PERMISSIONS_STACK_BYTES);
    return deepest <= PERMISSIONS_STACK_BYTES ? 0 : 1;
}
