/* The symbol half of an ELF linker: the calls of libhidvorn.a (`rt lib` in crates/hidvorn), which are proved. x86-64.
 *
 * A slice is a pointer and a length in elements. A pointer that isn't const is written, and may overlap no
 * other slice of the call; the pointer of a slice of length 0 isn't read, but mustn't be null. Every call is
 * total: whatever the cells hold it ends, touches nothing but what it is lent, and keeps no pointer.
 *
 * The header, HIDVORN_HEADER cells, holds the link between calls and the answer of the last one. The result
 * of a call is the refusal's number in the documents' table, 0 for a result; a header of fewer cells gives 1,
 * and nothing is written. A walk, an item or an out of fewer cells than it has gives 1 at 0. The values of an
 * answer stand from HIDVORN_VALUE on; those that a call doesn't answer are 0. The lent storage belongs to the
 * link as long as it lives:
 *
 *   bytes     the names' bytes, up to 1,048,576
 *   names     9 cells for each name (a row of 8, and the head of a chain)
 *   symbols   8 cells for each symbol, up to 65,535
 *   sections  9 cells for each section (a row of 8, and its symbol)
 *   inputs    8 cells for each object or library
 *   lists     a cell for each relocation's symbol, undefined global name of a library and dependency
 *
 * Fewer cells than the header counts give 1. Past what is lent there is no room (2).
 *
 * A symbol to add (an item, 9 cells) is its variant and its fields: 0 null; 1 global unknown (name); 2 global
 * hidden (name, kind of the value and its two words); 3 section (id); 4 externally defined (name, visibility,
 * binding); 5 of an ELF file (binding, visibility, type, section, value, name, 0 or the file's name id and 1,
 * size). Names are ids. A common symbol's value is its alignment.
 *
 * A symbol found (10 cells) is its id and its fields: 1, name, type, 0 or the file's name id and 1, scope
 * (HIDVORN_LOCAL ..), kind of the value (HIDVORN_ABSOLUTE ..) and its two words (of a common one the first is
 * its alignment), size.
 *
 * An object is given by rows of 8 cells over its file's bytes:
 *
 *   headers   a row for each section: kind (HIDVORN_NULL_SECTION ..), offset of its name, flags
 *             (HIDVORN_EXCLUDE ..), link, info, where its contents lie (the first and how many), and size.
 *             Contents are entries for a symbol table, bytes of the file for a string table, and cells of
 *             contents for relocations (the symbols' numbers) and groups (the sections' numbers). Link is
 *             a symbol table's strings, a relocation table's or a group's symbol table; info the section
 *             that relocations apply to, the number of a group's signature symbol. Of an excluded section
 *             nothing is loaded
 *   entries   a row for each symbol: offset of its name, binding, type, visibility, section, value, size, 0
 *   contents  cells
 *
 * Strings, where a call takes it, is the number of the string table with the sections' names. An object that
 * has none says the number of its sections, or any number that no loaded string table has: no section has a
 * name then, and one that is to be built gives 18.
 *
 * hidvorn_count_file tells what a file needs, hidvorn_read_file writes its rows, one after the other, and
 * hidvorn_merge_file reads and merges in one call.
 *
 * After calls the rows of the lent storage are the link's: symbols state (1, or 2 for a removed one),
 * name, size, 0 or the file's name id and 1, scope and 8 times the type, kind of the value and its two words;
 * sections state (1 reserved, 2 built, 3 dropped), name, kind, retain, read, where the symbols of its
 * relocations lie in the lists, the first and how many, and size; inputs 1 for an object, or 2, name, first and how many
 * dependencies, first and how many undefined names. Names are read by hidvorn_resolve. As many rows as the
 * header counts belong to the link.
 *
 * A refusal inside a merge or a load breaks the link (HIDVORN_BROKEN), but for 1, 22, 25, 26, 27 and 2 at 0 for
 * too few work cells, ids, rows of a file or marks: what was merged before stays, and every later changing call
 * gives 22. (2 at 0 for the input's row does break it.) All other refusals leave the link as it was, a list of
 * adds with the adds before the refused one. Lookups, hidvorn_find, walks and admission answer on a broken link.
 */
#ifndef HIDVORN_H
#define HIDVORN_H

#include <stdbool.h>
#include <stddef.h>
#include <stdint.h>

#ifdef __cplusplus
extern "C" {
#endif

#define HIDVORN_HEADER 24
#define HIDVORN_WALK 7
#define HIDVORN_ITEM 9
#define HIDVORN_FOUND 10
#define HIDVORN_REPORT 14
#define HIDVORN_FIGURES 13

/* cells of the header */
#define HIDVORN_NAMES 0
#define HIDVORN_NAME_BYTES 1
#define HIDVORN_SYMBOLS 2
#define HIDVORN_SECTIONS 3
#define HIDVORN_INPUTS 4
#define HIDVORN_LISTS 5
#define HIDVORN_BROKEN 8
#define HIDVORN_REFUSAL 9
#define HIDVORN_PLACE 10
#define HIDVORN_VALUE 11

/* profiles of a link */
#define HIDVORN_OLD 0
#define HIDVORN_GABI 1

/* refusals; behind each, what its place is inside a merge or a load; 0 where it says nothing, and for a call by
   itself but where the call says so. A group added by itself has the places of a merge */
#define HIDVORN_OUT_OF_RANGE 1               /* the first bad row: section, else symbol among all; dependency; an
                                                end of archives; entry */
#define HIDVORN_NO_ROOM 2                    /* the section or symbol without room */
#define HIDVORN_UNSUPPORTED_KIND 3           /* the section; so 4 to 7, 18, 19, 24 */
#define HIDVORN_NOT_COMDAT 4
#define HIDVORN_EMPTY_GROUP 5
#define HIDVORN_SIGNATURE_SYMBOL_MISSING 6
#define HIDVORN_SIGNATURE_STRING_MISSING 7
#define HIDVORN_LOCAL_IN_REMOVED_SECTION 8   /* the symbol in its table; so 9 to 14, 16, 17, 28 */
#define HIDVORN_SYMBOL_NAME_MISSING 9
#define HIDVORN_UNSUPPORTED_VISIBILITY 10
#define HIDVORN_LOCAL_HIDDEN 11
#define HIDVORN_UNSUPPORTED_BINDING 12
#define HIDVORN_COMMON 13
#define HIDVORN_SECTION_WITHOUT_ID 14
#define HIDVORN_FILE_SYMBOL 15
#define HIDVORN_UNSUPPORTED_TYPE 16
#define HIDVORN_DUPLICATE_STRONG 17          /* who holds the name: hidvorn_get_global */
#define HIDVORN_SECTION_NAME_MISSING 18
#define HIDVORN_RELOCATION_WITHOUT_ID 19
#define HIDVORN_NO_INDEX 20                  /* the archive */
#define HIDVORN_ABSENT_ID 21                 /* the name's id, for an add too; else the id asked for; a collection's
                                                section; a walk's entry */
#define HIDVORN_BROKEN_LINK 22
#define HIDVORN_UNKNOWN_GLOBAL_NAME 23
#define HIDVORN_SECOND_SYMBOL_TABLE 24
#define HIDVORN_ARCHIVED_WITHOUT_SONAME 25
#define HIDVORN_NOT_AN_OBJECT 26
#define HIDVORN_BAD_TABLE 27                 /* the section in the file, 0 for the headers */
#define HIDVORN_COMMON_ALIGNMENT 28
#define HIDVORN_SECTION_IN_TWO_GROUPS 29     /* the later group */
#define HIDVORN_TOO_MANY_SECTIONS 30
#define HIDVORN_SUM_TOO_LARGE 31            /* how many titles the report had */

/* kinds of an object's section */
#define HIDVORN_NULL_SECTION 0
#define HIDVORN_PROGRAM 1
#define HIDVORN_UNINITIALIZED 2
#define HIDVORN_SYMBOL_TABLE 3
#define HIDVORN_STRING_TABLE 4
#define HIDVORN_REL 5
#define HIDVORN_RELA 6
#define HIDVORN_GROUP 7
#define HIDVORN_HASH 8
#define HIDVORN_GNU_HASH 9
#define HIDVORN_DYNAMIC_SYMBOLS 10
#define HIDVORN_FRAME_HEADER 11
#define HIDVORN_DYNAMIC 12
#define HIDVORN_UNKNOWN 13
#define HIDVORN_NOTE 14

/* flags of an object's section, summed; HIDVORN_COMDAT is a group's */
#define HIDVORN_EXCLUDE 1
#define HIDVORN_RETAIN 2
#define HIDVORN_READ 4
#define HIDVORN_COMDAT 8

/* scopes of a row */
#define HIDVORN_LOCAL 0
#define HIDVORN_GLOBAL 1
#define HIDVORN_GLOBAL_HIDDEN 2
#define HIDVORN_WEAK 3
#define HIDVORN_WEAK_HIDDEN 4

/* kinds of a value */
#define HIDVORN_ABSOLUTE 1
#define HIDVORN_SECTION 2
#define HIDVORN_SECTION_RELATIVE 3
#define HIDVORN_SECTION_ADDRESS 4
#define HIDVORN_NOT_LOADED 5
#define HIDVORN_EXTERNAL 6
#define HIDVORN_UNDEFINED 7
#define HIDVORN_COMMON_VALUE 8

/* A new link: the empty name and the null symbol. Key: any number, best a random one; no answer
   depends on it. Profile: HIDVORN_OLD or HIDVORN_GABI, of another number 1. Value: the id of the null symbol,
   0. Whatever the header held is gone. */
uint64_t hidvorn_new(
    uint64_t *header, size_t header_len, size_t key, uint64_t profile, uint8_t *bytes, size_t bytes_len,
    uint64_t *names, size_t names_len, uint64_t *symbols, size_t symbols_len, uint64_t *sections,
    size_t sections_len);

/* Issues a name, or finds it. Value: its id. */
uint64_t hidvorn_intern(
    uint64_t *header, size_t header_len, uint8_t *bytes, size_t bytes_len, uint64_t *names, size_t names_len,
    const uint8_t *name, size_t name_len);

/* The bytes of a name. Values: where they start in the bytes, and how many they are. 23: no such id. */
uint64_t hidvorn_resolve(
    uint64_t *header, size_t header_len, const uint8_t *bytes, size_t bytes_len, const uint64_t *names,
    size_t names_len, size_t id);

/* The id of a name, if it was issued. Values: 1 and the id, or 0. Issues nothing; a broken link answers. */
uint64_t hidvorn_find(
    uint64_t *header, size_t header_len, const uint8_t *bytes, size_t bytes_len, const uint64_t *names,
    size_t names_len, const uint8_t *name, size_t name_len);

/* Adds a symbol (an item, see above). Conversion, read for one of an ELF file: a cell for each section number
   of the file, 0 for nothing, 1 for "not loaded", else the section's id and 2; a number without a cell stands
   for nothing. Value: the symbol's id, which of a name that is known is the old one. */
uint64_t hidvorn_add(
    uint64_t *header, size_t header_len, uint64_t *names, size_t names_len, uint64_t *symbols,
    size_t symbols_len, uint64_t *sections, size_t sections_len, const uint64_t *conversion,
    size_t conversion_len, const uint64_t *item, size_t item_len);

/* Adds the symbols of a list under one conversion, up to the first that is refused. A row has 8 cells:
   the name's id, binding, type, visibility, section, value, size, and 0 or the file's name id and 1.
   The id of each accepted add is put into its cell of ids; the other cells stay. Value, of a refusal
   too: the position of the refused add, else how many there are. Fewer ids than rows: 2 at place 0. */
uint64_t hidvorn_add_list(
    uint64_t *header, size_t header_len, uint64_t *names, size_t names_len, uint64_t *symbols,
    size_t symbols_len, uint64_t *sections, size_t sections_len, const uint64_t *conversion,
    size_t conversion_len, const uint64_t *adds, size_t adds_len, uint64_t *ids, size_t ids_len);

/* Removes a symbol. 21 at the id: there is none; one that was removed is accepted. Value: its id. */
uint64_t hidvorn_remove(
    uint64_t *header, size_t header_len, uint64_t *symbols, size_t symbols_len, uint64_t *sections,
    size_t sections_len, size_t id);

/* A symbol by its id, put into out (a symbol found, see above). 21 at the id: absent or removed. */
uint64_t hidvorn_get(
    uint64_t *header, size_t header_len, const uint64_t *symbols, size_t symbols_len, size_t id,
    uint64_t *out, size_t out_len);

/* The global or weak symbol that holds a name, put into out. Name: its id. 23: nobody, or no such name;
   21 at the name's id: removed. */
uint64_t hidvorn_get_global(
    uint64_t *header, size_t header_len, const uint64_t *names, size_t names_len, const uint64_t *symbols,
    size_t symbols_len, size_t name, uint64_t *out, size_t out_len);

/* The symbol of a section, by the section's id. Values: 1 and the symbol's id, or 0. */
uint64_t hidvorn_section_symbol_id(
    uint64_t *header, size_t header_len, const uint64_t *sections, size_t sections_len, size_t section);

/* Adds one COMDAT group of an object by itself: section is the group, table the object's symbol table. Work: as
   for a merge; it holds what the object's groups say of its sections, and is all 0 before the first of them: the
   second cell of a row is 1 for a group, 2 for a section that is removed, the fourth 1 for one that a group
   lists, which gives the next such group 29, the same one added again too. Entries: those of the symbol table that
   is section `table`, whose first row the headers have at 0, with no rows in other tables. 1 at the section if it
   is no group or is excluded; 6 if its signature is in another table than `table`, or that is no symbol table or
   is excluded. */
uint64_t hidvorn_add_group(
    uint64_t *header, size_t header_len, uint8_t *bytes, size_t bytes_len, uint64_t *names, size_t names_len,
    uint64_t *work, size_t work_len, const uint64_t *headers, size_t headers_len, const uint64_t *entries,
    size_t entries_len, const uint64_t *contents, size_t contents_len, const uint8_t *file, size_t file_len,
    size_t table, size_t section);

/* Merges an object given by rows. Work: a row of 8 cells for each section (2 at 0 if there are fewer), and one up
   to the greatest section number below 65,280 that a group lists, if that is above: a repeated group's section
   without one gives 2 at the group, which breaks the link. Ids: a cell for each symbol
   of the object (2 at 0). Both are left with what each became: of a section's row the first cell (0 nothing, 1
   not loaded, else its id and 2), of a symbol of the loaded table, by its number there, its id and 1, 0 for none (as for a
   local one of a removed section in the gABI's profile). */
uint64_t hidvorn_merge_elf(
    uint64_t *header, size_t header_len, uint8_t *bytes, size_t bytes_len, uint64_t *names, size_t names_len,
    uint64_t *symbols, size_t symbols_len, uint64_t *sections, size_t sections_len, uint64_t *inputs,
    size_t inputs_len, uint64_t *lists, size_t lists_len, uint64_t *work, size_t work_len, uint64_t *ids,
    size_t ids_len, const uint64_t *headers, size_t headers_len, const uint64_t *entries, size_t entries_len,
    const uint64_t *contents, size_t contents_len, const uint8_t *file, size_t file_len, size_t strings);

/* What merging an object would do: the same merge, into a copy of the link. The link's cells are only
   read, and of its header the answer alone is written. Copy: a header, and cells of each sort, at least as
   many as the link is lent (2 at 0 else, after 22 and 1). As many as the link is lent are written with the
   copy, as the merge leaves it; those behind stay. So does all of it at 22, 1 and that 2, but for the answer,
   which is told in both headers (flags of the copy that are neither 0 nor 1 become 1 with it). The copy has the room
   of the link. It can be used as a link of its own,
   lent as many cells as the link was. Work and ids as for hidvorn_merge_elf; lists have to have room for
   the object's relocations in the link too. */
uint64_t hidvorn_preview_elf(
    uint64_t *header, size_t header_len, const uint8_t *bytes, size_t bytes_len, const uint64_t *names,
    size_t names_len, const uint64_t *symbols, size_t symbols_len, const uint64_t *sections,
    size_t sections_len, const uint64_t *inputs, size_t inputs_len, const uint64_t *lists, size_t lists_len,
    uint64_t *copy, size_t copy_len, uint8_t *copy_bytes, size_t copy_bytes_len, uint64_t *copy_names,
    size_t copy_names_len, uint64_t *copy_symbols, size_t copy_symbols_len, uint64_t *copy_sections,
    size_t copy_sections_len, uint64_t *copy_inputs, size_t copy_inputs_len, uint64_t *copy_lists,
    size_t copy_lists_len, uint64_t *work, size_t work_len, uint64_t *ids, size_t ids_len,
    const uint64_t *headers, size_t headers_len, const uint64_t *entries, size_t entries_len,
    const uint64_t *contents, size_t contents_len, const uint8_t *file, size_t file_len, size_t strings);

/* How many rows an ELF object file has, which is what has to be lent for it. Answer, 8 cells: place, sections,
   symbols, relocations, section numbers that groups list, work rows of its merge, 0, 0. Its rows take 8 cells for
   each section and symbol, and one for each relocation and listed number: so many are enough, and one fewer gives
   2. 26 and 27 as hidvorn_read_file. Where tables overlap they may need much more than the file has bytes: more
   cells than it has bytes, and than 2^24, are refused with 2 at 0. The result is the refusal's number; there is no
   link. */
uint64_t hidvorn_count_file(uint64_t *answer, size_t answer_len, const uint8_t *file, size_t file_len);

/* Reads the rows of an ELF object file. Answer, 8 cells: place, sections, symbols, cells of contents, the section
   of the section names (strings), 0, 0, 0. Rows: as hidvorn_count_file tells; any number is good, too few give 2
   at 0. The result is the refusal's number; there is no link, and a refusal leaves the rows. */
uint64_t hidvorn_read_file(
    uint64_t *answer, size_t answer_len, uint64_t *rows, size_t rows_len, const uint8_t *file, size_t file_len);

/* Merges an ELF object file. Rows: room for its rows; work, 8 cells for each work row, and ids, one for each
   symbol: as hidvorn_count_file tells. (A third of the file's length is enough for rows of tables that don't
   overlap.) Lists: with what they hold already, a cell for each relocation. What the rows, work and ids are left
   with: as for hidvorn_read_file and hidvorn_merge_elf. */
uint64_t hidvorn_merge_file(
    uint64_t *header, size_t header_len, uint8_t *bytes, size_t bytes_len, uint64_t *names, size_t names_len,
    uint64_t *symbols, size_t symbols_len, uint64_t *sections, size_t sections_len, uint64_t *inputs,
    size_t inputs_len, uint64_t *lists, size_t lists_len, uint64_t *work, size_t work_len, uint64_t *ids,
    size_t ids_len, uint64_t *rows, size_t rows_len, const uint8_t *file, size_t file_len);

/* Loads a shared object given by rows. Entries: the symbols of its dynamic symbol table, rows as an object's; file:
   the bytes of their string table; needs: where the names of what it depends on (DT_NEEDED) start there. Path: the
   name by which the library was asked for; archived: it is an archive's member, and has no such name. Sonamed:
   whether it has a name of its own (DT_SONAME), soname: where that starts in the string table, not read
   otherwise. The library is known by its soname, else by path; archived and not sonamed gives 25. Asneeded: load
   it only if it has a name that the link lacks. Marks, read under asneeded alone: a cell for each name of the
   link (2 at 0 if there are fewer). A soname without an end gives 1 at 0, a dependency's 1 at its number. Value:
   1, or 0 for "not needed", which changes nothing but the marks. */
uint64_t hidvorn_load_shared_object(
    uint64_t *header, size_t header_len, uint8_t *bytes, size_t bytes_len, uint64_t *names, size_t names_len,
    uint64_t *symbols, size_t symbols_len, uint64_t *sections, size_t sections_len, uint64_t *inputs,
    size_t inputs_len, uint64_t *lists, size_t lists_len, uint64_t *marks, size_t marks_len,
    const uint64_t *entries, size_t entries_len, const uint8_t *file, size_t file_len, const uint64_t *needs,
    size_t needs_len, const uint8_t *path, size_t path_len, bool archived, bool sonamed, size_t soname,
    bool asneeded);

/* Opens the System V indexes of up to 16 archives, which are walked as one: the bytes of their members "/" lie one
   behind the other, each begins where the one before it ends, and bytes behind the last end belong to none. One
   archive has one end, the index's length; without ends the walk is done after one pass. Key: any number, best a
   random one; no answer depends on it. Entries are counted over all indexes. Rows: 8 cells for each entry (2 at 0
   if there are fewer). Walk: 7 cells, to be handed on as they are, with the same indexes, ends and rows. 1 at 16
   for more archives; 1 at the archive whose end is below the one before it or past the indexes; 20 at the archive
   whose index is empty; 1 at an entry that is cut short, and at
   65,535 for more entries than that together. Value: the number of entries. */
uint64_t hidvorn_archive_start(
    uint64_t *header, size_t header_len, uint64_t *walk, size_t walk_len, size_t key, const uint8_t *index,
    size_t index_len, const uint64_t *ends, size_t ends_len, uint64_t *rows, size_t rows_len);

/* The next member to look at. Values: the number of its archive and 1, its offset there, its entry and the passes
   so far; or 0, 0, 0 and the passes, if the walk is done. The link's rows are only read.
   The indexes and their ends are those of the start; lent others, it gives a result or 1 at 0. 21 at an entry whose
   name's symbol was removed. */
uint64_t hidvorn_archive_next(
    uint64_t *header, size_t header_len, uint64_t *walk, size_t walk_len, const uint8_t *index,
    size_t index_len, const uint64_t *ends, size_t ends_len, uint64_t *rows, size_t rows_len,
    const uint8_t *bytes, size_t bytes_len, const uint64_t *names, size_t names_len, const uint64_t *symbols,
    size_t symbols_len);

/* What the walk passed by so far, meant for its end: the entries whose name a weak definition holds though
   their member was not offered, and those whose name is undefined although it was. Told: a cell for each
   entry (2 at 0 if there are fewer); their positions over all indexes go into the first of them. Value: how many. */
uint64_t hidvorn_shadowed(
    uint64_t *header, size_t header_len, const uint64_t *walk, size_t walk_len, const uint8_t *index,
    size_t index_len, const uint64_t *rows, size_t rows_len, const uint8_t *bytes, size_t bytes_len,
    const uint64_t *names, size_t names_len, const uint64_t *symbols, size_t symbols_len, uint64_t *told,
    size_t told_len);

/* Admission: whether an object, the member that this entry queued, is to be merged: in the old profile whether a
   symbol of binding 1, defined or not, bears a name that was required of it; in the gABI's whether a symbol of
   binding 1 or 2 that isn't undefined does. The link's profile alone is looked at. 1 at the first bad row of the
   object, or at 0 for another walk's cells or entry. Value: 1 or 0. */
uint64_t hidvorn_matches(
    uint64_t *header, size_t header_len, const uint64_t *walk, size_t walk_len, const uint8_t *index,
    size_t index_len, const uint64_t *rows, size_t rows_len, size_t entry, const uint64_t *headers,
    size_t headers_len, const uint64_t *entries, size_t entries_len, const uint64_t *contents,
    size_t contents_len, const uint8_t *file, size_t file_len);

/* What an object that wasn't merged, an archive's member that no walk took, would have defined: its global and
   weak definitions whose name's row would have been theirs. That is a row that is undefined; one that is weak,
   under a strong definition or a common; one that is common, under a strong definition that is none. Meant for the
   end of a link, of each member of the indexes that no walk took. The object as for hidvorn_matches; its symbols
   are those of the table that a merge loads, each by its own entry. Told: two cells for each symbol of that table
   (2 at 0 if there are fewer); in the first cells stand pairs, a symbol's number in its table and the id of the
   row that holds its name. Value: how many are told. */
uint64_t hidvorn_would_define(
    uint64_t *header, size_t header_len, const uint8_t *bytes, size_t bytes_len, const uint64_t *names,
    size_t names_len, const uint64_t *symbols, size_t symbols_len, const uint64_t *headers,
    size_t headers_len, const uint64_t *entries, size_t entries_len, const uint64_t *contents,
    size_t contents_len, const uint8_t *file, size_t file_len, uint64_t *told, size_t told_len);

/* Collects sections: keeps what relocations reach from the roots, drops the other built sections, and removes the
   symbols in them. Roots are sections that are retained, not readable program or uninitialized data, or named
   `.eh_frame`, and those in which marked symbols and the entry symbol lie. Marks: a byte for each symbol of the
   link, not 0 for a marked one (1 at their number if there are fewer); entered: whether there is an entry symbol,
   entry: its symbol id. Work: two cells for each section (2 at 0 if there are fewer), of which the first so many,
   one for each, are left with 2 for a section that was dropped. 21 at the lowest section that is reached but not
   built. Values: how many sections were dropped, and symbols removed. */
uint64_t hidvorn_gc_run(
    uint64_t *header, size_t header_len, const uint8_t *bytes, size_t bytes_len, const uint64_t *names,
    size_t names_len, uint64_t *symbols, size_t symbols_len, uint64_t *sections, size_t sections_len,
    const uint64_t *lists, size_t lists_len, const uint8_t *marks, size_t marks_len, bool entered,
    size_t entry, uint64_t *work, size_t work_len);

/* The same by another collector, to compare with: more than 256 built sections give 30 at 0, after 22 and 1. It leaves
   other cells in work, but those of dropped sections are 2 too. */
uint64_t hidvorn_plain_run(
    uint64_t *header, size_t header_len, const uint8_t *bytes, size_t bytes_len, const uint64_t *names,
    size_t names_len, uint64_t *symbols, size_t symbols_len, uint64_t *sections, size_t sections_len,
    const uint64_t *lists, size_t lists_len, const uint8_t *marks, size_t marks_len, bool entered,
    size_t entry, uint64_t *work, size_t work_len);

/* Adds a title to a report: the link as it stands and its walk (HIDVORN_WALK cells), or zeros for none. The
   report's cells (HIDVORN_REPORT) are how many titles were added and the sums of their figures; zeros are a
   new report. The title's figures (HIDVORN_FIGURES) are its symbols that weren't removed, by value: null,
   absolute, of a section, at a place in one, undefined, common, others; members offered and passes made by
   the walk; sections kept and dropped, and the bytes of each. 31 at how many titles there were, if a sum is
   2^64 or more; 1 at 1,000 for a title more than that; 1 at 0 for fewer cells of a walk, a report or figures.
   A refused title leaves report and figures; a broken link is reported. */
uint64_t hidvorn_report_title(
    uint64_t *header, size_t header_len, const uint64_t *walk, size_t walk_len, const uint64_t *symbols,
    size_t symbols_len, const uint64_t *sections, size_t sections_len, uint64_t *report, size_t report_len,
    uint64_t *figures, size_t figures_len);

#ifdef __cplusplus
}
#endif

#endif
