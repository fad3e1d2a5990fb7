/* The scope in plain C, from the bottom up: paths, a table in memory, records, acts, the walk, the calls, the child, the
 * standby, images. */
#include "model.h"

#include <string.h>

/* ---- paths */

static int is_dots(struct bytes component, size_t dots)
{
    return component.size == dots && memcmp(component.start, "..", dots) == 0;
}

/* The component from `at` on, up to a slash or the end. */
static struct bytes component_at(struct bytes path, size_t at)
{
    struct bytes component = {path.start + at, path.size - at};
    const uint8_t *slash = memchr(component.start, '/', component.size);

    if (slash != NULL)
        component.size = (size_t)(slash - component.start);
    return component;
}

/* Adds a component to a path, where nothing at all stands for the root; the new size. */
static size_t add_component(uint8_t *path, size_t size, struct bytes component)
{
    if (component.size == 0 || is_dots(component, 1))
        return size;
    if (is_dots(component, 2)) {
        while (size > 0 && path[size - 1] != '/')
            size--;
        return size > 0 ? size - 1 : 0;
    }
    path[size] = '/';
    memcpy(path + size + 1, component.start, component.size);
    return size + 1 + component.size;
}

static size_t add_path(uint8_t *path, size_t size, struct bytes added)
{
    for (size_t at = 0; at < added.size;) {
        struct bytes component = component_at(added, at);
        size = add_component(path, size, component);
        at += component.size + 1;
    }
    return size;
}

int model_resolve(struct bytes given, struct bytes directory, struct path *resolved)
{
    uint8_t path[2 * MAX_PATH + 2];
    size_t size = 0;

    if (given.size == 0)
        return 4;
    if (given.size > MAX_PATH)
        return 5;
    if (given.start[0] != '/') {
        if (directory.size == 0 || directory.size > MAX_PATH || directory.start[0] != '/')
            return 6;
        size = add_path(path, size, directory);
    }
    size = add_path(path, size, given);
    if (size == 0)
        path[size++] = '/';
    if (size > MAX_PATH)
        return 7;
    memcpy(resolved->bytes, path, size);
    resolved->size = size;
    return 0;
}

/* A slash before each component and nothing else, or the root's slash alone. */
static int is_resolved(struct bytes path)
{
    if (path.size == 0 || path.start[0] != '/')
        return 0;
    for (size_t at = 1; at <= path.size && path.size > 1;) {
        struct bytes component = component_at(path, at);
        if (component.size == 0 || is_dots(component, 1) || is_dots(component, 2))
            return 0;
        at += component.size + 1;
    }
    return 1;
}

static int same_path(struct bytes a, struct bytes b)
{
    return a.size == b.size && memcmp(a.start, b.start, a.size) == 0;
}

static int is_prefix(struct bytes a, struct bytes b)
{
    if (a.size == 1)
        return 1;
    return a.size <= b.size && memcmp(a.start, b.start, a.size) == 0 && (a.size == b.size || b.start[a.size] == '/');
}

/* Component by component: where one path has a slash, its component has ended, and a shorter start is less. */
static int path_order(struct bytes a, struct bytes b)
{
    size_t i = 0;
    while (i < a.size && i < b.size && a.start[i] == b.start[i])
        i++;
    if (i == a.size || i == b.size)
        return (a.size > b.size) - (a.size < b.size);
    if (a.start[i] == '/' || b.start[i] == '/')
        return a.start[i] == '/' ? -1 : 1;
    return a.start[i] < b.start[i] ? -1 : 1;
}

/* Byte by byte; where one is the other's beginning, it is less. */
static int component_order(struct bytes a, struct bytes b)
{
    int order = memcmp(a.start, b.start, a.size < b.size ? a.size : b.size);

    return order != 0 ? order : (a.size > b.size) - (a.size < b.size);
}

int model_common(struct bytes first, struct bytes second, size_t *common)
{
    size_t at = 1; /* where the next component begins, in both */

    for (*common = 0; at < first.size && at < second.size; ++*common) {
        struct bytes component = component_at(first, at);
        int order = component_order(component, component_at(second, at));
        if (order != 0)
            return order < 0 ? LESS : GREATER;
        at += component.size + 1;
    }
    if (at < first.size)
        return EXTENSION;
    return at < second.size ? PREFIX : EQUAL;
}

/* ---- a table in memory */

static uint32_t mark_of(uint32_t kind)
{
    static const uint32_t marks[KINDS] = {0, 1, 2, 4};
    return marks[kind];
}

static size_t word_at(const uint8_t *memory, size_t at)
{
    return (size_t)memory[at] * 256 + memory[at + 1];
}

/* Reads the entry at `at`; where the next one begins, or 0 if this is none. */
static size_t read_entry(const uint8_t *memory, size_t size, size_t at, struct entry *entry)
{
    if (size - at < 3 || memory[at] >= KINDS)
        return 0;
    entry->kind = memory[at];
    entry->path.size = word_at(memory, at + 1);
    entry->path.start = memory + at + 3;
    if (entry->path.size > MAX_PATH || entry->path.size > size - at - 3 || !is_resolved(entry->path))
        return 0;
    return at + 3 + entry->path.size;
}

static void clear(struct table *table)
{
    table->count = table->sum = 0;
    table->switches = table->marks = 0;
}

int model_reads(const uint8_t *memory, size_t size, struct table *table)
{
    size_t at = 4;
    uint32_t marks = 0;

    clear(table);
    if (size < TABLE_BYTES || word_at(memory, 0) > MAX_ENTRIES || memory[2] >= SWITCHES)
        return 0;
    for (size_t count = word_at(memory, 0); table->count < count;) {
        struct entry *entry = &table->entries[table->count++];
        at = read_entry(memory, size, at, entry);
        if (at == 0)
            return 0;
        table->sum += entry->path.size;
        marks |= mark_of(entry->kind);
    }
    table->switches = memory[2];
    table->marks = memory[3];
    return table->sum <= MAX_SUM && table->marks == marks;
}

size_t model_used(const struct table *table)
{
    return 4 + 3 * table->count + table->sum;
}

void model_writes(const struct table *table, uint8_t *memory)
{
    *memory++ = (uint8_t)(table->count / 256);
    *memory++ = (uint8_t)(table->count % 256);
    *memory++ = (uint8_t)table->switches;
    *memory++ = (uint8_t)table->marks;
    for (size_t i = 0; i < table->count; i++) {
        const struct entry *entry = &table->entries[i];
        *memory++ = (uint8_t)entry->kind;
        *memory++ = (uint8_t)(entry->path.size / 256);
        *memory++ = (uint8_t)(entry->path.size % 256);
        memcpy(memory, entry->path.start, entry->path.size);
        memory += entry->path.size;
    }
}

/* ---- records */

enum { HEAD = 1, LENGTH, PATH_BYTES, SWITCHES_WORD, NUMBER_WORD, TABLE_WORD, ENTRY_WORD, RUN_WORD };
enum { ACT_SWITCHES = 5, ACT_REVOKE, ACT_REVOKE_ALL };

static uint32_t act_of_insert(uint32_t kind)
{
    static const uint32_t acts[KINDS] = {1, 2, 4, 3}; /* acts go G, D, I, P */
    return acts[kind];
}

static void add_word(struct link *link, uint32_t kind, uint32_t below)
{
    link->words[link->size++] = kind << 28 | below;
}

/* Numbers an act and writes its record's run and head; -9 where its number would be too great. A plain call records nothing. */
static int add_head(struct link *link, uint32_t act)
{
    if (link == NULL)
        return 0;
    if (link->number >= MAX_NUMBER)
        return -9;
    link->number++;
    add_word(link, RUN_WORD, link->run);
    add_word(link, HEAD, act << 24 | (uint32_t)link->number);
    return 0;
}

/* Three bytes of a path, from `at` on; those behind it are 0. */
static uint32_t three_bytes(struct bytes path, size_t at)
{
    uint32_t three = 0;

    for (size_t i = at; i < at + 3; i++)
        three = three << 8 | (i < path.size ? path.start[i] : 0u);
    return three;
}

static int record_path(struct link *link, uint32_t act, struct bytes path)
{
    int refused = add_head(link, act);

    if (link == NULL || refused != 0)
        return refused;
    add_word(link, LENGTH, (uint32_t)path.size);
    for (size_t at = 0; at < path.size; at += 3)
        add_word(link, PATH_BYTES, three_bytes(path, at));
    return 0;
}

static int record_switches(struct link *link, uint32_t switches)
{
    int refused = add_head(link, ACT_SWITCHES);

    if (link != NULL && refused == 0)
        add_word(link, SWITCHES_WORD, switches);
    return refused;
}

/* ---- placing an entry */

static int strictly_extends(struct bytes a, struct bytes b)
{
    return is_prefix(b, a) && !same_path(a, b);
}

static int compare_in_group(const struct entry *old, const struct entry *new)
{
    static const int rank[KINDS] = {0, 0, 1, 2}; /* equal paths go D, P, I; two G are equal */

    if (same_path(old->path, new->path))
        return (rank[old->kind] > rank[new->kind]) - (rank[old->kind] < rank[new->kind]);
    if (is_prefix(new->path, old->path))
        return -1;
    if (is_prefix(old->path, new->path))
        return 1;
    return path_order(old->path, new->path);
}

static int compare(const struct entry *old, const struct entry *new)
{
    if ((old->kind == KIND_G) == (new->kind == KIND_G))
        return compare_in_group(old, new);
    if (old->kind == KIND_G)
        return strictly_extends(old->path, new->path) ? -1 : 1;
    return strictly_extends(new->path, old->path) ? 1 : -1;
}

/* Where a new entry goes, or MAX_ENTRIES + 1 if the search finds an equal one. */
static size_t place_of(const struct table *table, const struct entry *new)
{
    size_t base = 0, size = table->count;
    int order;

    if (size == 0)
        return 0;
    while (size > 1) {
        size_t half = size / 2;
        if (compare(&table->entries[base + half], new) != 1)
            base += half;
        size -= half;
    }
    order = compare(&table->entries[base], new);
    if (order == 0)
        return MAX_ENTRIES + 1;
    return order < 0 ? base + 1 : base;
}

int model_insert(struct table *table, uint32_t kind, struct bytes path, struct link *link)
{
    struct entry new = {kind, path};
    size_t place = place_of(table, &new);
    int adds = place <= MAX_ENTRIES;
    int refused;

    if (adds && (table->count == MAX_ENTRIES || table->sum + path.size > MAX_SUM))
        return -8;
    refused = record_path(link, act_of_insert(kind), path);
    if (refused != 0)
        return refused;
    if (adds) {
        memmove(&table->entries[place + 1], &table->entries[place], (table->count - place) * sizeof new);
        table->entries[place] = new;
        table->count++;
        table->sum += path.size;
    }
    table->marks |= mark_of(kind);
    return 0;
}

int model_switches(struct table *table, uint32_t switches, struct link *link)
{
    int refused = record_switches(link, switches);

    if (refused == 0)
        table->switches = switches;
    return refused;
}

/* ---- the walk */

static int matches(const struct entry *entry, struct bytes path)
{
    if (entry->kind == KIND_P)
        return is_prefix(path, entry->path);
    return is_prefix(entry->path, path);
}

static int is_partial(const struct table *table, const struct bytes *path)
{
    if (path == NULL)
        return (table->marks & (1 | 4)) != 0;
    for (size_t i = 0; i < table->count; i++) {
        const struct entry *entry = &table->entries[i];
        if ((entry->kind == KIND_D || entry->kind == KIND_I) && is_prefix(*path, entry->path))
            return 1;
    }
    return 0;
}

static int allowed(const struct table *table, uint32_t mode, const struct bytes *path)
{
    if (mode == MODE_GRANTED || !is_partial(table, path))
        return GRANTED;
    return mode == MODE_DENIED ? DENIED_PARTIAL : GRANTED_PARTIAL;
}

int model_query(const struct table *table, uint32_t mode, const struct bytes *path)
{
    int denied = (table->switches & SWITCH_DENIED) != 0;

    for (size_t i = 0; path != NULL && i < table->count; i++) {
        const struct entry *entry = &table->entries[i];
        if (!matches(entry, *path))
            continue;
        if (entry->kind == KIND_G)
            return allowed(table, mode, path);
        return entry->kind == KIND_I ? IGNORED : DENIED;
    }
    if (path == NULL && ((table->switches & SWITCH_PROMPT_DENIED) != 0 || (table->marks & 2) != 0))
        denied = 1;
    if ((table->switches & SWITCH_IGNORED) != 0)
        return IGNORED;
    if (mode == MODE_DENIED && is_partial(table, path))
        return DENIED_PARTIAL;
    if (denied)
        return DENIED;
    return (table->switches & SWITCH_GRANTED) != 0 ? allowed(table, mode, path) : PROMPT;
}

/* ---- check, request, revoke */

static int state_before(const struct table *table, int call, const struct bytes *path)
{
    if (call == REQUEST)
        return model_query(table, MODE_PARTIAL, path);
    return model_query(table, path == NULL ? MODE_GRANTED : MODE_DENIED, path);
}

int model_asks(const struct table *table, int call, const struct bytes *path)
{
    return state_before(table, call, path) == PROMPT && (table->switches & SWITCH_PROMPT) != 0;
}

static int grant(struct table *table, const struct bytes *path, struct link *link)
{
    if (path != NULL)
        return model_insert(table, KIND_G, *path, link);
    return model_switches(table, table->switches | SWITCH_GRANTED, link);
}

static int answered(struct table *table, const struct bytes *path, uint32_t answer, struct link *link)
{
    if (answer == ALLOW)
        return grant(table, path, link);
    if (answer == ALLOW_ALL)
        return grant(table, NULL, link);
    if (path != NULL)
        return model_insert(table, KIND_P, *path, link);
    return model_switches(table, table->switches | SWITCH_PROMPT_DENIED, link);
}

int model_ask(struct table *table, int call, const struct bytes *path, uint32_t answer, struct link *link, uint32_t *asked)
{
    int state = state_before(table, call, path);
    int refused;

    *asked = 0;
    if (model_asks(table, call, path)) {
        refused = answered(table, path, answer, link);
        if (refused != 0)
            return refused;
        *asked = 1;
        return answer == DENY ? DENIED : GRANTED;
    }
    if (call == CHECK)
        return state;
    if (state == GRANTED)
        return grant(table, path, link);
    return state == PROMPT ? DENIED : state;
}

int model_revoke(struct table *table, const struct bytes *path, struct link *link)
{
    size_t kept = 0;
    int refused = path != NULL ? record_path(link, ACT_REVOKE, *path) : add_head(link, ACT_REVOKE_ALL);

    if (refused != 0)
        return refused;
    for (size_t i = 0; i < table->count; i++) {
        struct entry entry = table->entries[i];
        if (entry.kind == KIND_G && (path == NULL || is_prefix(entry.path, *path)))
            table->sum -= entry.path.size;
        else
            table->entries[kept++] = entry;
    }
    table->count = kept;
    if (path == NULL)
        table->switches &= ~(uint32_t)SWITCH_GRANTED;
    return model_query(table, MODE_PARTIAL, path);
}

size_t model_text(const struct bytes *given, const struct path *resolved, uint8_t *text)
{
    static const char head[] = "read access to ";
    struct bytes name;
    size_t size = sizeof head - 1;
    int quoted;

    memcpy(text, head, size);
    if (given == NULL)
        return strlen("read access");
    name = *given;
    if (name.start[0] == '/') {
        name.start = resolved->bytes;
        name.size = resolved->size;
    }
    quoted = name.start[0] != '<' || name.start[name.size - 1] != '>';
    if (quoted)
        text[size++] = '"';
    memcpy(text + size, name.start, name.size);
    size += name.size;
    if (quoted)
        text[size++] = '"';
    return size;
}

/* ---- the child */

int model_child_arguments(const struct child_call *call)
{
    size_t due = call->code == LIST ? call->ends_count : call->code == CHILD_GRANTED ? 1 : 0;
    size_t from = 0;

    if (call->code >= CODES || call->ends_count > (call->code == LIST ? MAX_ITEMS : 0) || call->answers_count != due)
        return -3;
    for (size_t i = 0; i < call->ends_count; i++) {
        if (call->ends[i] < from)
            return -3;
        from = call->ends[i];
    }
    if (from != call->items.size)
        return -3;
    for (size_t i = 0; i < call->answers_count; i++)
        if (call->answers[i] >= ANSWERS)
            return -3;
    return 0;
}

/* The parent's check of an item, then 10, then the child's grant; `asked` grows by a check that came to an end. */
static int child_item(struct table *parent, struct table *child, const struct bytes *path, uint32_t answer,
                      struct link *link, uint32_t *asked)
{
    uint32_t once;
    int state = model_ask(parent, CHECK, path, answer, link, &once);

    *asked += once;
    if (state != GRANTED)
        return state < 0 ? state : -10;
    return grant(child, path, NULL);
}

static int child_list(struct table *parent, struct table *child, const struct child_call *call, struct link *link,
                      uint32_t *asked)
{
    static struct path resolved[MAX_ITEMS]; /* the tables point here */
    size_t from = 0;
    int refused = 0;

    for (size_t i = 0; i < call->ends_count && refused == 0; i++) {
        struct bytes given = {call->items.start + from, call->ends[i] - from};
        struct bytes path;
        refused = -model_resolve(given, call->directory, &resolved[i]);
        path.start = resolved[i].bytes;
        path.size = resolved[i].size;
        if (refused == 0)
            refused = child_item(parent, child, &path, call->answers[i], link, asked);
        from = call->ends[i];
    }
    return refused;
}

int model_child(struct table *parent, struct table *child, const struct child_call *call, struct link *link,
                uint32_t *asked)
{
    int refused = 0;

    *asked = 0;
    clear(child);
    if (call->code == INHERIT)
        *child = *parent;
    else if (call->code == CHILD_GRANTED)
        refused = child_item(parent, child, NULL, call->answers[0], link, asked);
    else if (call->code == LIST)
        refused = child_list(parent, child, call, link, asked);
    child->switches = (child->switches & SWITCH_GRANTED) | (parent->switches & ~(uint32_t)SWITCH_GRANTED);
    for (size_t i = 0; i < parent->count && refused == 0; i++)
        if (parent->entries[i].kind != KIND_G)
            refused = model_insert(child, parent->entries[i].kind, parent->entries[i].path, NULL);
    return refused;
}

/* ---- the standby */

/* A record as it was read: the path of acts 1 to 4 and 6, the switches of act 5. */
struct record {
    uint32_t run, act, number, switches;
    struct path path;
};

struct reader {
    const uint32_t *words;
    size_t size, at;
    uint32_t wrong;
};

/* The 28 bits below the next word's kind, or 0 where there is none. */
static uint32_t next_word(struct reader *reader, uint32_t kind)
{
    uint32_t word;

    if (reader->at == reader->size) {
        reader->wrong |= WRONG_SHORT;
        return 0;
    }
    word = reader->words[reader->at++];
    if (word >> 28 != kind)
        reader->wrong |= WRONG_KIND;
    return word & 0xFFFFFFF;
}

/* The run that comes next. */
static uint32_t next_run(struct reader *reader)
{
    uint32_t run = next_word(reader, RUN_WORD);

    if (run == 0)
        reader->wrong |= WRONG_RUN;
    return run;
}

/* Whether what comes next can still be read. */
static int has_form(const struct reader *reader)
{
    return (reader->wrong & WRONG_FORM) == 0;
}

/* Up to three bytes of the path, from `at` on; bytes behind the path and the bits above are not used, and zero. */
static void read_path_word(struct reader *reader, struct path *path, size_t at)
{
    uint32_t word = next_word(reader, PATH_BYTES);
    const uint8_t three[3] = {(uint8_t)(word >> 16), (uint8_t)(word >> 8), (uint8_t)word};

    if (word >> 24 != 0)
        reader->wrong |= WRONG_UNUSED;
    for (size_t i = 0; i < 3; i++) {
        if (at + i < path->size)
            path->bytes[at + i] = three[i];
        else if (three[i] != 0)
            reader->wrong |= WRONG_UNUSED;
    }
}

/* A path of this size. */
static void read_path(struct reader *reader, struct path *path, size_t size)
{
    struct bytes whole = {path->bytes, size};

    path->size = size;
    if (size == 0 || size > MAX_PATH)
        reader->wrong |= WRONG_LENGTH;
    for (size_t at = 0; at < size && has_form(reader); at += 3)
        read_path_word(reader, path, at);
    if (has_form(reader) && !is_resolved(whole))
        reader->wrong |= WRONG_PATH;
}

/* Reads a record that ends where the words end; 0 where it is malformed. A length with any of its unused bits is far over the
 * limit. */
static int read_record(const uint32_t *words, size_t size, struct record *record)
{
    struct reader reader = {words, size, 0, 0};
    uint32_t head;

    record->run = next_run(&reader);
    head = next_word(&reader, HEAD);
    record->act = head >> 24;
    record->number = head & 0xFFFFFF;
    if (record->act == ACT_SWITCHES) {
        record->switches = next_word(&reader, SWITCHES_WORD);
        if (record->switches >= SWITCHES)
            reader.wrong |= WRONG_UNUSED;
    } else if (record->act >= 1 && record->act <= ACT_REVOKE) {
        read_path(&reader, &record->path, next_word(&reader, LENGTH));
    } else if (record->act != ACT_REVOKE_ALL) {
        reader.wrong |= WRONG_KIND;
    }
    return reader.wrong == 0 && record->number != 0 && reader.at == size;
}

/* 0, or -8. */
static int do_act(struct table *table, const struct record *record)
{
    static const uint32_t kinds[KINDS] = {KIND_G, KIND_D, KIND_I, KIND_P}; /* of acts 1 to 4 */
    struct bytes path = {record->path.bytes, record->path.size};

    if (record->act == ACT_SWITCHES)
        return model_switches(table, record->switches, NULL);
    if (record->act < ACT_SWITCHES)
        return model_insert(table, kinds[record->act - 1], path, NULL);
    (void)model_revoke(table, record->act == ACT_REVOKE ? &path : NULL, NULL);
    return 0;
}

int model_is_run(uint32_t run)
{
    return run >= 1 && run <= MAX_RUN;
}

int model_is_standby(const struct standby *standby)
{
    if (standby->run == standby->highest_run)
        return standby->last <= standby->highest;
    return standby->run < standby->highest_run;
}

uint64_t model_owed(const struct standby *standby)
{
    return standby->run == standby->highest_run ? standby->highest - standby->last : standby->highest;
}

/* Whatever is not refused is met. */
static void meet(struct standby *standby, uint32_t run, uint32_t number)
{
    if (run > standby->highest_run) {
        standby->highest_run = run;
        standby->highest = number;
    } else if (run == standby->highest_run && number > standby->highest) {
        standby->highest = number;
    }
}

/* The answer to a record, but for 8. */
static int answer_to(const struct record *record, const struct standby *standby)
{
    if (record->run < standby->run)
        return REPEAT;
    if (record->run > standby->run)
        return record->number == 1 ? APPLIED : EARLY;
    if (record->number <= standby->last)
        return REPEAT;
    return record->number - standby->last == 1 ? APPLIED : EARLY;
}

/* Does the record's act, on a fresh table where a higher run begins with it; 0, or -8. */
static int apply(const struct record *record, struct table *table, struct standby *standby)
{
    int refused;

    if (record->run > standby->run)
        clear(table);
    refused = do_act(table, record);
    if (refused == 0) {
        standby->run = record->run;
        standby->last = record->number;
    }
    return refused;
}

int model_arrive(struct table *table, struct standby *standby, const uint32_t *words, size_t size)
{
    static struct record record; /* the table points here */
    int answer, refused;

    if (!read_record(words, size, &record))
        return -11;
    answer = answer_to(&record, standby);
    refused = answer == APPLIED ? apply(&record, table, standby) : 0;
    if (refused != 0)
        return refused;
    meet(standby, record.run, record.number);
    return answer;
}

/* ---- images */

enum { MOST_COUNT = 511 /* nine bits */ };

size_t model_image(const struct table *table, uint32_t run, uint32_t number, uint32_t *words)
{
    size_t size = 0;

    words[size++] = (uint32_t)RUN_WORD << 28 | run;
    words[size++] = (uint32_t)NUMBER_WORD << 28 | number;
    words[size++] = (uint32_t)TABLE_WORD << 28 | (uint32_t)table->count << 8 | table->marks << 5 | table->switches;
    for (size_t i = 0; i < table->count; i++) {
        const struct entry *entry = &table->entries[i];
        words[size++] = (uint32_t)ENTRY_WORD << 28 | entry->kind << 16 | (uint32_t)entry->path.size;
        for (size_t at = 0; at < entry->path.size; at += 3)
            words[size++] = (uint32_t)PATH_BYTES << 28 | three_bytes(entry->path, at);
    }
    return size;
}

/* An image as it was read. */
struct image {
    uint32_t run, number;
    struct table table;
};

/* Reads an entry, with its path; its mark is added to those found. */
static void read_image_entry(struct reader *reader, struct path *path, struct table *table, uint32_t *marks)
{
    uint32_t word = next_word(reader, ENTRY_WORD);
    struct entry entry = {word >> 16 & 3, {path->bytes, word & 0xFFFF}};

    if (word >> 18 != 0)
        reader->wrong |= WRONG_UNUSED;
    if (has_form(reader))
        read_path(reader, path, entry.path.size);
    if (table->count < MAX_ENTRIES)
        table->entries[table->count++] = entry;
    table->sum += entry.path.size;
    *marks |= mark_of(entry.kind);
}

/* Reads an image that ends where the words end; what is wrong with it. The image points into memory that lives until the next
 * one is read. */
static uint32_t read_image(const uint32_t *words, size_t size, struct image *image)
{
    static struct path paths[MOST_COUNT];
    struct reader reader = {words, size, 0, 0};
    struct table *table = &image->table;
    uint32_t run = next_run(&reader), number = next_word(&reader, NUMBER_WORD), head = next_word(&reader, TABLE_WORD);
    uint32_t count = head >> 8 & MOST_COUNT, marks = 0;

    image->run = run;
    image->number = number & MAX_NUMBER;
    table->count = table->sum = 0;
    table->switches = head & 31;
    table->marks = head >> 5 & 7;
    if (number > MAX_NUMBER || head >> 17 != 0)
        reader.wrong |= WRONG_UNUSED;
    for (uint32_t i = 0; i < count && has_form(&reader); i++)
        read_image_entry(&reader, &paths[i], table, &marks);
    if (!has_form(&reader))
        return reader.wrong & WRONG_FORM;
    if (count > MAX_ENTRIES)
        reader.wrong |= WRONG_COUNT;
    if (table->sum > MAX_SUM)
        reader.wrong |= WRONG_SUM;
    if (table->marks != marks)
        reader.wrong |= WRONG_MARKS;
    if (reader.at < size)
        reader.wrong |= WRONG_OVER;
    return reader.wrong;
}

uint32_t model_wrong_image(const uint32_t *words, size_t size)
{
    static struct image image;

    return read_image(words, size, &image);
}

int model_arrive_image(struct table *table, struct standby *standby, const uint32_t *words, size_t size)
{
    static struct image image;
    int takes;

    if (read_image(words, size, &image) != 0)
        return -13;
    takes = image.run > standby->run || (image.run == standby->run && image.number > standby->last);
    if (takes) {
        *table = image.table;
        standby->run = image.run;
        standby->last = image.number;
    }
    meet(standby, image.run, image.number);
    return takes ? TAKEN : REPEAT;
}

/* ---- a permission without a path */

int model_unit(int call, uint32_t *state, uint32_t prompt, uint32_t answer, uint32_t *asked)
{
    *asked = 0;
    if (*state >= STATES)
        return -12;
    if (call != UNIT_REVOKE && answer >= ANSWERS)
        return -3;
    if (call == UNIT_REVOKE && *state == GRANTED) {
        *state = PROMPT;
    } else if (*state == PROMPT && (call == REQUEST || (call == CHECK && prompt != 0))) {
        *asked = 1;
        *state = answer == ALLOW || (answer == ALLOW_ALL && call == CHECK) ? GRANTED : DENIED;
    }
    return (int)*state;
}
