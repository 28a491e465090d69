/* A title's link, in C: the emulator core carries a weak `mute` that does nothing, and its mixer calls it by
 * name; the sound archive has the strong one, which clears the mix buffer. Prints who holds `mute` at the end, and warns of each definition
 * that a member which was not taken would have given.
 *
 *   cc -std=c99 -I rust/hidvorn/include rust/hidvorn/examples/mute.c crates/hidvorn/out/libhidvorn.a -o mute && ./mute
 */
#include "hidvorn.h"

#include <stdio.h>
#include <stdlib.h>
#include <string.h>

enum { NAMES = 16, BYTES = 256, SYMBOLS = 16, SECTIONS = 4, ROW = 8 };
enum { STRONG = 1, WEAK = 2, FUNCTION = 2, UNDEFINED = 0, ABSOLUTE = 0xfff1 };
enum { MEMBER_SYMBOLS = 3 };

#define CELLS(a) (a), sizeof(a) / sizeof *(a)

struct link {
    uint64_t header[HIDVORN_HEADER];
    uint8_t bytes[BYTES];
    uint64_t names[NAMES * 9];
    uint64_t symbols[SYMBOLS * 8];
    uint64_t sections[SECTIONS * 9];
    const char *holder[SYMBOLS]; /* the input whose definition a row has */
};

struct symbol {
    const char *name;
    uint64_t binding, section, value, size;
};

static void must(const struct link *l, const char *call)
{
    if (l->header[HIDVORN_REFUSAL] != 0) {
        printf("%s: refused with %d at %d\n", call, (int)l->header[HIDVORN_REFUSAL], (int)l->header[HIDVORN_PLACE]);
        exit(1);
    }
}

static size_t intern(struct link *l, const char *name)
{
    hidvorn_intern(CELLS(l->header), CELLS(l->bytes), CELLS(l->names), (const uint8_t *)name, strlen(name));
    must(l, "intern");
    return l->header[HIDVORN_VALUE];
}

static const char *strength(const uint64_t *found)
{
    return found[6] == HIDVORN_UNDEFINED ? "undefined" : found[5] == HIDVORN_WEAK ? "weak" : "strong";
}

/* An object's symbols, as a list of adds. A row that has their value by then is theirs. */
static void add(struct link *l, const char *input, const struct symbol *object, size_t count)
{
    uint64_t rows[8 * ROW] = {0}, ids[8], conversion[1] = {0};
    for (size_t i = 0; i < count; i++) {
        uint64_t *row = rows + i * ROW;
        row[0] = intern(l, object[i].name);
        row[1] = object[i].binding;
        row[2] = FUNCTION;
        row[4] = object[i].section;
        row[5] = object[i].value;
        row[6] = object[i].size;
    }
    hidvorn_add_list(
        CELLS(l->header), CELLS(l->names), CELLS(l->symbols), CELLS(l->sections), conversion, 0, rows, count * ROW,
        CELLS(ids));
    must(l, "add_list");
    for (size_t i = 0; i < count; i++) {
        uint64_t found[HIDVORN_FOUND];
        hidvorn_get(CELLS(l->header), CELLS(l->symbols), ids[i], CELLS(found));
        must(l, "get");
        if (object[i].section != UNDEFINED && found[7] == object[i].value)
            l->holder[ids[i]] = input;
    }
}

/* Of a member that was not taken each definition that the link would have taken from it. Its rows: no section, a symbol table whose names are in
 * the next, a string table over the names. */
static void warn(struct link *l, const char *member, const struct symbol *object, size_t count)
{
    uint8_t names[64] = {0};
    uint64_t headers[3 * ROW] = {0}, entries[MEMBER_SYMBOLS * ROW] = {0}, told[2 * MEMBER_SYMBOLS];
    size_t end = 1;
    for (size_t i = 0; i < count; i++) {
        uint64_t *row = entries + (i + 1) * ROW;
        row[0] = end;
        row[1] = object[i].binding;
        row[2] = FUNCTION;
        row[4] = object[i].section;
        row[5] = object[i].value;
        row[6] = object[i].size;
        memcpy(names + end, object[i].name, strlen(object[i].name));
        end += strlen(object[i].name) + 1;
    }
    headers[1 * ROW] = HIDVORN_SYMBOL_TABLE;
    headers[1 * ROW + 3] = 2;
    headers[1 * ROW + 6] = count + 1;
    headers[2 * ROW] = HIDVORN_STRING_TABLE;
    headers[2 * ROW + 6] = end;
    hidvorn_would_define(
        CELLS(l->header), CELLS(l->bytes), CELLS(l->names), CELLS(l->symbols), CELLS(headers), entries,
        (count + 1) * ROW, entries, 0, names, end, CELLS(told));
    must(l, "would_define");
    uint64_t many = l->header[HIDVORN_VALUE];
    for (uint64_t i = 0; i < many; i++) {
        const struct symbol *own = object + told[2 * i] - 1;
        uint64_t found[HIDVORN_FOUND];
        hidvorn_get(CELLS(l->header), CELLS(l->symbols), told[2 * i + 1], CELLS(found));
        must(l, "get");
        printf(
            "  warning: %s: %s was not taken and has a %s one, size %d; %s holds it: %s, size %d\n", own->name, member,
            own->binding == WEAK ? "weak" : "strong", (int)own->size, l->holder[told[2 * i + 1]], strength(found),
            (int)found[9]);
    }
}

/* The System V index of the archive: how many, the members' offsets, the names. */
static const uint8_t archive[] = "\0\0\0\3" "\0\0\0\x3c" "\0\0\0\x3c" "\0\0\3\x84" "mute\0mix_clear\0blank";

static const struct symbol sound[] = {{"mute", STRONG, ABSOLUTE, 0x5000, 8}, {"mix_clear", STRONG, ABSOLUTE, 0x5040, 64}};
static const struct symbol video[] = {{"blank", STRONG, ABSOLUTE, 0x6000, 40}};

/* Its members by their offsets. */
static const struct {
    uint64_t at;
    const char *name;
    const struct symbol *symbols;
    size_t count;
} members[] = {{60, "libav.a(sound.o)", sound, 2}, {900, "libav.a(video.o)", video, 1}};

static void link_title(const struct symbol *core, size_t count)
{
    static struct link l;
    uint64_t walk[HIDVORN_WALK], rows[3 * 8], found[HIDVORN_FOUND];
    bool taken[2] = {false, false};
    memset(l.holder, 0, sizeof l.holder);
    /* One archive: its index ends where the bytes do. */
    const uint64_t ends[] = {sizeof archive};
    hidvorn_new(CELLS(l.header), 1, HIDVORN_OLD, CELLS(l.bytes), CELLS(l.names), CELLS(l.symbols), CELLS(l.sections));
    must(&l, "new");
    add(&l, "core.o", core, count);

    hidvorn_archive_start(CELLS(l.header), CELLS(walk), 1, CELLS(archive), CELLS(ends), CELLS(rows));
    must(&l, "archive_start");
    for (;;) {
        hidvorn_archive_next(
            CELLS(l.header), CELLS(walk), CELLS(archive), CELLS(ends), CELLS(rows), CELLS(l.bytes),
            CELLS(l.names), CELLS(l.symbols));
        must(&l, "archive_next");
        if (l.header[HIDVORN_VALUE] == 0)
            break;
        size_t member = l.header[HIDVORN_VALUE + 1] == members[0].at ? 0 : 1;
        printf("  %s is taken\n", members[member].name);
        taken[member] = true;
        add(&l, members[member].name, members[member].symbols, members[member].count);
    }

    /* At the end of the whole link, of every archive each member that was not taken. */
    for (size_t i = 0; i < 2; i++)
        if (!taken[i])
            warn(&l, members[i].name, members[i].symbols, members[i].count);

    hidvorn_get_global(
        CELLS(l.header), CELLS(l.names), CELLS(l.symbols), intern(&l, "mute"), CELLS(found));
    must(&l, "get_global");
    printf(
        "  mute is the %s one of %s, at 0x%x, size %d\n", strength(found), l.holder[found[0]], (int)found[7],
        (int)found[9]);
}

int main(void)
{
    const struct symbol alone[] = {{"mute", WEAK, ABSOLUTE, 0x1000, 1}, {"mixer", STRONG, ABSOLUTE, 0x1010, 20}};
    const struct symbol both[] = {
        {"mute", WEAK, ABSOLUTE, 0x1000, 1},
        {"mixer", STRONG, ABSOLUTE, 0x1010, 20},
        {"mix_clear", STRONG, UNDEFINED, 0, 0},
    };
    printf("the mixer calls mute alone\n");
    link_title(alone, 2);
    printf("the mixer calls mute and mix_clear, which the core doesn't have\n");
    link_title(both, 3);
    return 0;
}
