/* The smallest complete main: makes the changes that standard input names, and sends their records to standard output; first of all
 * the last one that it has kept, since a power cut may have come before it was sent. With `run` it first begins that run, with a fresh
 * table: a new main does, and one whose board was swapped. With `takeover` it goes on in that run with the table that it has: a standby
 * that takes over does, and a main whose change numbers are used up. With a number it sends all that it has kept from that one on, and
 * makes no change; with `image` it sends its table, run and number as an image, for a new standby. What it then writes is a FILE too,
 * the shortest one.
 *
 * usage: main FILE run RUN <CHANGES >LINK
 *        main FILE takeover RUN <CHANGES >LINK
 *        main FILE <CHANGES >LINK
 *        main FILE NUMBER >LINK
 *        main FILE image >LINK
 *
 * A run number is above all that were used before, by this controller and the other one: whoever begins a run sees to that.
 *
 * A line of CHANGES is `switches N`, `grant PATH`, `deny PATH`, `ignore PATH`, `revoke PATH`, or `check PATH ANSWER`, with the answer 0, 1
 * or 2 that the operator gives if asked. FILE is the controller's file of records. */
#include "controller.h"

#include <stdlib.h>
#include <string.h>

static uint32_t run;
static uint64_t number; /* of the last change */
static uint32_t records[PERMISSIONS_IMAGE_WORDS]; /* room for an image too */
static size_t records_size;

/* Keeps what the call has recorded, and then sends it: never the other way round. These calls make one record or none. */
static void keep_and_send(void)
{
    if (records_size == 0)
        return;
    keep(records, records_size);
    write_frame(stdout, records, records_size);
    if (fflush(stdout) != 0)
        fprintf(stderr, "change %lu is kept and not sent\n", (unsigned long)number);
}

static int32_t insert(uint32_t kind, const char *path)
{
    return permissions_linked_insert(table, sizeof table, run, &number, kind, path, strlen(path), NULL, 0, records,
                                     PERMISSIONS_RECORD_WORDS, &records_size);
}

/* Looks whether the check asks, and if so checks with the operator's answer. */
static int32_t check(const char *path, uint32_t operator_says)
{
    char text[PERMISSIONS_TEXT_BYTES];
    uint32_t asked, answer = PERMISSIONS_ANSWER_DENY;
    size_t text_size;

    if (permissions_check_asks(table, sizeof table, path, strlen(path), NULL, 0, text, sizeof text, &text_size) == 1)
        answer = operator_says;
    return permissions_linked_check(table, sizeof table, run, &number, path, strlen(path), NULL, 0, answer, text, sizeof text, records,
                                    PERMISSIONS_RECORD_WORDS, &asked, &text_size, &records_size);
}

static int32_t change(const char *what, const char *argument, uint32_t answer)
{
    records_size = 0;
    if (strcmp(what, "switches") == 0)
        return permissions_linked_switches(table, sizeof table, run, &number, (uint32_t)strtoul(argument, NULL, 10), records,
                                           PERMISSIONS_RECORD_WORDS, &records_size);
    if (strcmp(what, "grant") == 0)
        return insert(PERMISSIONS_KIND_GRANTED, argument);
    if (strcmp(what, "deny") == 0)
        return insert(PERMISSIONS_KIND_FLAG_DENIED, argument);
    if (strcmp(what, "ignore") == 0)
        return insert(PERMISSIONS_KIND_FLAG_IGNORED, argument);
    if (strcmp(what, "check") == 0)
        return check(argument, answer);
    if (strcmp(what, "revoke") == 0)
        return permissions_linked_revoke(table, sizeof table, run, &number, argument, strlen(argument), NULL, 0, records,
                                         PERMISSIONS_RECORD_WORDS, &records_size);
    return PERMISSIONS_REFUSAL_UNKNOWN;
}

/* Writes the image into the record space. */
static void make_image(void)
{
    int32_t result = permissions_linked_image(table, sizeof table, run, number, records, PERMISSIONS_IMAGE_WORDS, &records_size);

    if (result < 0)
        stop(permissions_refusal_name(result));
}

/* A new run: an image is the first that is kept of it, and the first that is sent. A fresh table has the number 0. A table that goes on
 * has the number 1, so that there is no change 1, and nothing but the image moves a standby to this run. */
static void begin(uint32_t new_run, int goes_on)
{
    if (new_run <= numbers.highest_run)
        stop("the run number is not above all that were used before");
    run = new_run;
    number = 1;
    if (!goes_on) {
        int32_t result = permissions_begin_run(table, sizeof table, run, &number);
        if (result < 0)
            stop(permissions_refusal_name(result));
    }
    make_image();
    keep(records, records_size);
}

/* Sends what was kept from this number on; and the last record, which stays in the record space. */
static uint64_t from = PERMISSIONS_MAX_NUMBER + 1;

static void send_again(const uint32_t *record, size_t size)
{
    memcpy(records, record, size * sizeof record[0]);
    records_size = size;
    if (numbers.last >= from)
        write_frame(stdout, record, size);
}

int main(int arguments, char **argument)
{
    char line[1200], what[16], path[1100];
    unsigned answer;
    int goes_on = arguments == 4 && strcmp(argument[2], "takeover") == 0;
    int begins = goes_on || (arguments == 4 && strcmp(argument[2], "run") == 0);
    int sends_image = arguments == 3 && strcmp(argument[2], "image") == 0;

    if (arguments != 2 && arguments != 3 && !begins)
        stop("usage: main FILE [run RUN | takeover RUN | NUMBER | image]");
    if (arguments == 3 && !sends_image)
        from = strtoul(argument[2], NULL, 10);
    start(argument[1], send_again);
    run = numbers.run;
    number = numbers.last;
    if (begins)
        begin((uint32_t)strtoul(argument[3], NULL, 10), goes_on);
    if (run == 0)
        stop("no run has begun: main FILE run RUN");
    if (sends_image)
        make_image();
    if (arguments != 3 || sends_image)
        write_frame(stdout, records, records_size);
    while (arguments != 3 && fgets(line, sizeof line, stdin) != NULL) {
        int32_t result;
        answer = PERMISSIONS_ANSWER_DENY;
        if (sscanf(line, "%15s %1099s %u", what, path, &answer) < 2)
            continue;
        result = change(what, path, answer);
        keep_and_send();
        if (result < 0)
            fprintf(stderr, "%s %s: refused %d, %s\n", what, path, (int)-result, permissions_refusal_name(result));
    }
    list_table(stderr, run, number);
    return fflush(stdout) != 0;
}
