/* What a main and a standby have in common. */
#define _POSIX_C_SOURCE 200809L
#include "controller.h"

#include <stdlib.h>
#include <unistd.h>

enum { MOST_WORDS = PERMISSIONS_IMAGE_WORDS, IMAGE_KIND = 5 /* the top four bits of an image's second word */ };

unsigned char table[PERMISSIONS_TABLE_BYTES];
struct permissions_standby numbers;

static FILE *kept;

void stop(const char *why)
{
    fprintf(stderr, "stopped: %s\n", why);
    exit(1);
}

/* ---- frames */

/* Takes the four bytes of a word into a CRC-32 (the one of Ethernet and zlib). */
static uint32_t checksum(uint32_t sum, uint32_t word)
{
    int byte, bit;

    for (byte = 24; byte >= 0; byte -= 8) {
        sum ^= word >> byte & 0xFF;
        for (bit = 0; bit < 8; bit++)
            sum = sum >> 1 ^ (sum & 1 ? 0xEDB88320u : 0);
    }
    return sum;
}

static void write_word(FILE *to, uint32_t word)
{
    int byte;

    for (byte = 24; byte >= 0; byte -= 8)
        putc((int)(word >> byte & 0xFF), to);
}

/* 1 if four bytes were there. */
static int read_word(FILE *from, uint32_t *word)
{
    int byte, next;

    *word = 0;
    for (byte = 0; byte < 4; byte++) {
        next = getc(from);
        if (next == EOF)
            return 0;
        *word = *word << 8 | (uint32_t)next;
    }
    return 1;
}

void write_frame(FILE *to, const uint32_t *record, size_t size)
{
    uint32_t sum = checksum(0xFFFFFFFFu, (uint32_t)size);
    size_t i;

    write_word(to, (uint32_t)size);
    for (i = 0; i < size; i++) {
        write_word(to, record[i]);
        sum = checksum(sum, record[i]);
    }
    write_word(to, ~sum);
}

int read_frame(FILE *from, uint32_t *record, size_t *size)
{
    uint32_t count, sum, found;
    int first = getc(from);
    size_t i;

    if (first == EOF)
        return 0;
    ungetc(first, from);
    if (!read_word(from, &count) || count < 1 || count > MOST_WORDS)
        return -2;
    sum = checksum(0xFFFFFFFFu, count);
    for (i = 0; i < count; i++) {
        if (!read_word(from, &record[i]))
            return -2;
        sum = checksum(sum, record[i]);
    }
    if (!read_word(from, &found))
        return -2;
    *size = count;
    return found == ~sum ? 1 : -1;
}

/* ---- arrivals */

int32_t hand_in(const uint32_t *record, size_t size)
{
    if (size > 1 && record[1] >> 28 == IMAGE_KIND)
        return permissions_standby_arrive_image(table, sizeof table, &numbers, record, size);
    return permissions_standby_arrive(table, sizeof table, &numbers, record, size);
}

/* ---- the file of records */

void keep(const uint32_t *record, size_t size)
{
    write_frame(kept, record, size);
    if (fflush(kept) != 0 || fsync(fileno(kept)) != 0)
        stop("a record cannot be kept");
}

/* Cuts off what follows the last whole frame: part of one, or zeros, as some file systems leave them. Only the frame that was
 * being written can be broken, since each was kept before the next was begun; anything else is no power cut's work. */
static void cut_off(long end)
{
    int next;

    while ((next = getc(kept)) == 0)
        ;
    if (next != EOF)
        stop("the file of records is damaged");
    if (ftruncate(fileno(kept), end) != 0 || fsync(fileno(kept)) != 0)
        stop("the file of records cannot be cut");
}

void start(const char *name, applied_record *each)
{
    static uint32_t record[MOST_WORDS];
    size_t size;
    long end = 0;
    int got;

    kept = fopen(name, "r+b");
    if (kept == NULL || permissions_fresh(table, sizeof table) != 0)
        stop("there is no file of records");
    while ((got = read_frame(kept, record, &size)) == 1) {
        int32_t result = hand_in(record, size);
        if (result < 0)
            stop(permissions_refusal_name(result));
        if ((result == PERMISSIONS_ARRIVAL_APPLIED || result == PERMISSIONS_ARRIVAL_TAKEN) && each != NULL)
            each(record, size);
        end = ftell(kept);
    }
    if (got < 0)
        cut_off(end);
    if (fseek(kept, end, SEEK_SET) != 0)
        stop("the file of records cannot be read");
}

/* ---- for people */

/* A path's bytes may be anything: what is no plain character is shown as its number. */
static void print_path(FILE *to, const unsigned char *path, size_t size)
{
    for (; size > 0; size--, path++)
        if (*path > 0x20 && *path < 0x7F && *path != '%')
            putc(*path, to);
        else
            fprintf(to, "%%%02X", *path);
    putc('\n', to);
}

void list_table(FILE *to, uint32_t run, uint64_t number)
{
    uint32_t kind, place;
    size_t from, size;

    fprintf(to, "run %lu after change %lu\n", (unsigned long)run, (unsigned long)number);
    for (place = 0; permissions_entry(table, sizeof table, place, &kind, &from, &size) == 1; place++) {
        fprintf(to, "%s ", permissions_kind_name(kind));
        print_path(to, table + from, size);
    }
}
