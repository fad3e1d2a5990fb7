/* Shows a list as a tree: a filter for the lines that `holdlist` prints, and `replay` for `list`.
 *
 * usage: tree <LINES
 *
 * LINES are a header that begins with `entries `, if there is one; for each entry its kind's letter, a space and its path,
 * escaped; and at times a last line, `stopped at word W`. The header comes out first and that line last, as they are. Between
 * them stands the tree: the root, and below it each component on a line of its own, two spaces further in than what is above
 * it. Behind a path that is an entry stands its kind's letter; where it is several entries, their letters in list order. */
#include "permissions.h"

#include <stdio.h>
#include <stdlib.h>
#include <string.h>

enum {
    MOST_ENTRIES = PERMISSIONS_MAX_ENTRIES,
    MOST_BYTES = PERMISSIONS_MAX_PATH_BYTES,
    MOST_CHARACTERS = 2 + 3 * MOST_BYTES /* of a line: letter, space, and a path with every byte escaped */
};

struct line {
    size_t size; /* MOST_CHARACTERS + 1 where it is too long, and the rest is dropped */
    char text[MOST_CHARACTERS + 1];
};

struct entry {
    char letter;
    size_t size;
    unsigned char path[MOST_BYTES];
};

static struct line header, stopped; /* of size 0 where there is none */
static struct entry entries[MOST_ENTRIES + 1]; /* the last is for one too many */
static const struct entry *sorted[MOST_ENTRIES]; /* in path order, and those with equal paths in list order */
static size_t count;

static void stop(const char *why)
{
    fprintf(stderr, "tree: %s\n", why);
    exit(1);
}

/* ---- an entry */

/* Whether a byte stands for itself; any other is escaped. */
static int is_plain(int byte)
{
    return byte >= 0x21 && byte <= 0x7E && byte != '%';
}

/* The byte of an escape, or -1 where the text does not begin with one. */
static int escaped_byte(const char *text, size_t size)
{
    static const char digits[] = "0123456789ABCDEF";
    const char *high = size < 3 ? NULL : memchr(digits, text[1], 16), *low = size < 3 ? NULL : memchr(digits, text[2], 16);
    int byte = high == NULL || low == NULL ? -1 : (int)(16 * (high - digits) + (low - digits));

    return text[0] != '%' || is_plain(byte) ? -1 : byte;
}

/* Reads the path's bytes; 0 where the text has other characters, or too many. */
static int read_path(struct entry *entry, const char *text, size_t size)
{
    size_t at = 0;

    for (entry->size = 0; at < size && entry->size < MOST_BYTES; entry->size++) {
        int plain = is_plain(text[at]), byte = plain ? text[at] : escaped_byte(text + at, size - at);
        if (byte < 0)
            return 0;
        entry->path[entry->size] = (unsigned char)byte;
        at += plain ? 1 : 3;
    }
    return at == size;
}

/* Where the component that begins at a place ends. */
static size_t component_end(const struct entry *entry, size_t at)
{
    while (at < entry->size && entry->path[at] != '/')
        at++;
    return at;
}

/* A slash before each component, none of them empty, "." or "..", and nothing else; or the root's slash alone. */
static int is_resolved(const struct entry *entry)
{
    size_t at, end;

    for (at = 0; at < entry->size && entry->size > 1; at = end) {
        const unsigned char *name = entry->path + at + 1;
        end = component_end(entry, at + 1);
        if (end == at + 1 || (end == at + 2 && name[0] == '.') || (end == at + 3 && name[0] == '.' && name[1] == '.'))
            return 0;
    }
    return entry->size > 0 && entry->path[0] == '/';
}

/* Reads an entry; 0 where the line is none. */
static int read_entry(struct entry *entry, const struct line *line)
{
    if (line->size < 2 || memchr("GDPI", line->text[0], 4) == NULL || line->text[1] != ' ')
        return 0;
    entry->letter = line->text[0];
    return read_path(entry, line->text + 2, line->size - 2) && is_resolved(entry);
}

/* ---- path order */

static int32_t relate(const struct entry *first, const struct entry *second, size_t *common)
{
    int32_t relation = permissions_common(first->path, first->size, second->path, second->size, NULL, 0, common);

    if (relation < 0) /* never, of resolved paths */
        stop(permissions_refusal_name(relation));
    return relation;
}

static int goes_behind(const struct entry *first, const struct entry *second)
{
    size_t common;
    int32_t relation = relate(first, second, &common);

    return relation == PERMISSIONS_RELATION_EXTENSION || relation == PERMISSIONS_RELATION_GREATER;
}

/* Puts an entry at its place: behind those with its path, since they came before it. */
static void sort_in(const struct entry *entry)
{
    size_t place = count++;

    for (; place > 0 && goes_behind(sorted[place - 1], entry); place--)
        sorted[place] = sorted[place - 1];
    sorted[place] = entry;
}

/* ---- reading */

/* Reads a line without its end; 0 where there is none. */
static int read_line(struct line *line)
{
    int byte;

    line->size = 0;
    while ((byte = getchar()) != EOF && byte != '\n')
        if (line->size <= MOST_CHARACTERS)
            line->text[line->size++] = (char)byte;
    if (ferror(stdin))
        stop("standard input cannot be read");
    return byte == '\n' || line->size > 0;
}

static int begins_with(const struct line *line, const char *words)
{
    return line->size >= strlen(words) && memcmp(line->text, words, strlen(words)) == 0;
}

/* Takes a line for what it is; 0 where it is nothing that may stand there. */
static int take_line(const struct line *line, unsigned long number)
{
    if (stopped.size > 0 || line->size > MOST_CHARACTERS)
        return 0;
    if (number == 1 && begins_with(line, "entries ")) {
        header = *line;
    } else if (begins_with(line, "stopped at word ")) {
        stopped = *line;
    } else {
        if (!read_entry(&entries[count], line))
            return 0;
        if (count == MOST_ENTRIES)
            stop("there are over 256 entries");
        sort_in(&entries[count]);
    }
    return 1;
}

static void read_list(void)
{
    static struct line line;
    unsigned long number;

    for (number = 1; read_line(&line); number++)
        if (!take_line(&line, number)) {
            fprintf(stderr, "tree: line %lu is no entry\n", number);
            exit(1);
        }
}

/* ---- printing */

static void print_line(const struct line *line)
{
    if (line->size > 0 && fwrite(line->text, 1, line->size, stdout) == line->size)
        putchar('\n');
}

static void print_escaped(const unsigned char *bytes, size_t size)
{
    size_t i;

    for (i = 0; i < size; i++)
        printf(is_plain(bytes[i]) ? "%c" : "%%%02X", bytes[i]);
}

/* Prints a path's components behind the first few, each on a line of its own. The last line stays open. */
static void print_behind(const struct entry *entry, size_t few)
{
    size_t at, end, depth = 1;

    for (at = 1; at < entry->size; at = end + 1, depth++) {
        end = component_end(entry, at);
        if (depth <= few)
            continue;
        printf("\n%*s", (int)(2 * depth), "");
        print_escaped(entry->path + at, end - at);
    }
}

/* An entry whose path is the one before shares all of it, and adds its letter alone. */
static void print_tree(void)
{
    static const struct entry root = {' ', 1, "/"};
    const struct entry *before = &root;
    size_t i, common;

    putchar('/');
    for (i = 0; i < count; before = sorted[i++]) {
        (void)relate(before, sorted[i], &common);
        print_behind(sorted[i], common);
        printf(" %c", sorted[i]->letter);
    }
    putchar('\n');
}

static void show_list(void)
{
    read_list();
    print_line(&header);
    print_tree();
    print_line(&stopped);
}

int main(int arguments, char **argument)
{
    int helps = arguments == 2 && strcmp(argument[1], "--help") == 0;

    if (arguments == 1)
        show_list();
    else
        fputs("usage: tree <LINES\n"
              "Shows a list as a tree. LINES are what holdlist prints, and replay for list.\n"
              "Exit status: 0; 1 a line is no entry, there are over 256, or reading or writing fails; 2 wrong usage.\n",
              helps ? stdout : stderr);
    if (fflush(stdout) != 0 || ferror(stdout))
        stop("standard output cannot be written");
    return arguments == 1 || helps ? 0 : 2;
}
