/* The proved import of one DWARF unit, or of all units, for C. Link libpezgok.a, which `interfaces/library` writes to target/staticlib.
 *
 * From a unit and an address to the calls that are running there, in this order (interfaces/frames.c is a whole program of it, the error paths too):
 *
 *     uint64_t values[PEZGOK_VALUES];
 *     size_t found[PEZGOK_FOUND], chain[PEZGOK_CHAIN];
 *     struct pezgok_frame frame;
 *     struct pezgok_path path;
 *
 *     pezgok_measure(main, main_len, ..., work, work_len, values);      how long the three buffers must be
 *     uint8_t *records = malloc(values[PEZGOK_RECORDS_LENGTH]);         and files and warnings likewise
 *     pezgok_import(main, main_len, ..., records, records_len, ...);    fills them
 *     pezgok_look_up(records, records_len, address, found, chain);      finds the places of function, row and inlined calls
 *     for (size_t k = 0; pezgok_frame_at(records, records_len, found, chain, k, &frame); k++)   innermost first
 *         if (pezgok_path_of(files, files_len, first_file, frame.file, &path))
 *             printf("%.*s at %.*s/%.*s:%u\n", ...);
 *
 * With symbols of functions that have no DWARF: pezgok_join_symbols, and look up in its result. For many addresses: pezgok_make_index once, then
 * pezgok_look_up_in. For all units of an input at once: pezgok_measure_dwarf and pezgok_import_dwarf. Records of several units, one behind the other, are
 * records too: import each with the next free file number as first_file, and put the files one behind the other likewise. */
#ifndef PEZGOK_H
#define PEZGOK_H

#include <stdbool.h>
#include <stddef.h>
#include <stdint.h>

#ifdef __cplusplus
extern "C" {
#endif

/* Where values has what, after a call that was finished. */
enum {
    PEZGOK_RECORDS_LENGTH,
    PEZGOK_FILES_LENGTH,
    PEZGOK_WARNINGS_LENGTH,
    PEZGOK_FUNCTIONS,
    PEZGOK_LINE_ROWS,
    PEZGOK_INLINE_NODES,
    PEZGOK_REJECTED_RANGES,
    PEZGOK_VALUES
};

/* The work slice that an import of so many fields, of both inputs together, and so many bytes of line program needs. It was 16,384 bytes less while
 * strings had 4,096 bytes at most: what is shorter is refused with 5. */
#define PEZGOK_WORK(fields, program_len) (64 * (size_t)(fields) + 4 * (size_t)(program_len) + 32768)

/* The same for an import of a unit that takes its rows from its line program, in place of row fields: field 1d hex, the line encoding, stands behind its
 * line header. Of all units one that has it decides. It is enough for every import. */
#define PEZGOK_WORK_ENCODED(fields, program_len) (64 * (size_t)(fields) + 64 * (size_t)(program_len) + 32768)

/* What is to be added to either where entries have their ranges in lists: for so many bytes of the list section and so many fields 1f hex in the imported
 * unit, of which 256 at most count; of all units the one that needs most decides. It multiplies the section: lend the unit's own part of it, with list
 * offsets from its start. Without a list section it is 0. */
#define PEZGOK_WORK_LISTS(lists_len, list_fields) (8 * (size_t)(lists_len) * ((size_t)(list_fields) < 256 ? (size_t)(list_fields) : 256))

/* Refusals of a line program that is run for its rows: a line range of 0 or other operations per instruction than 1; an address that falls within a
 * sequence or passes 2^64 - 1. Its operands are refused with 7 to 12. Such a unit can still be imported with row fields. */
enum { PEZGOK_LINE_ENCODING = 21, PEZGOK_LINE_ADDRESS = 22 };

/* Refusals of a range list that a named inlined entry has: it is cut, or an entry of it has an unknown kind; an index is past the address table; an address
 * does not fit its size. Its LEB128 operands are refused with 7, 10 and 11. A subprogram's list refuses nothing: what is wrong with it is a warning of kind
 * 2, whose reason is the number in decimal. */
enum { PEZGOK_CUT_LIST = 23, PEZGOK_NO_ADDRESS = 24, PEZGOK_WIDE_ADDRESS = 25 };

/* Imports the unit of an ordinal, from 0, of the main input. Returns 0, or the refusal's number, 1 to 18 or 21 to 25. An empty main input with ordinal 0
 * is a package without debug data: the import is finished, all values are 0 and the line program is not read.
 *
 * lists and addresses are the list section and the address table of version 5 (.debug_rnglists, .debug_addr), their numbers lowest byte first, from which
 * entries with field 1f hex (list offset, base address, place of the unit's addresses, 8 bytes each, and the address size, 1 byte) have their ranges.
 * Both have no byte where no entry has it.
 *
 * Any content and any length is taken. No two of the slices may overlap, but for two that are only read, nor may values overlap any; a pointer is not null,
 * also where its length is 0. After every call work holds only 0. After a refusal the three output buffers hold only 0, and so do the values; else each
 * buffer begins with what values says the length of, and keeps its old bytes behind. */
uint8_t pezgok_import(
    const uint8_t *main, size_t main_len,
    const uint8_t *supplementary, size_t supplementary_len,
    const uint8_t *program, size_t program_len,
    const uint8_t *lists, size_t lists_len,
    const uint8_t *addresses, size_t addresses_len,
    uint64_t ordinal, bool inlines, bool call_sites, uint32_t first_file,
    uint8_t *work, size_t work_len,
    uint8_t *records, size_t records_len,
    uint8_t *files, size_t files_len,
    uint8_t *warnings, size_t warnings_len,
    uint64_t values[PEZGOK_VALUES]);

/* How long the three output buffers of such an import must be, and its statistics: values then has what pezgok_import gives on buffers of those
 * lengths or more, and no shorter ones would do. Returns 0, or the import's own refusal, 1 to 15 or 21 to 25, or 16 where the records would pass 2^64 - 1
 * bytes; then all values are 0. The same is owed of slices and pointers, work has the same length, and after every call it holds only 0. It takes about as
 * long as the import. */
uint8_t pezgok_measure(
    const uint8_t *main, size_t main_len,
    const uint8_t *supplementary, size_t supplementary_len,
    const uint8_t *program, size_t program_len,
    const uint8_t *lists, size_t lists_len,
    const uint8_t *addresses, size_t addresses_len,
    uint64_t ordinal, bool inlines, bool call_sites, uint32_t first_file,
    uint8_t *work, size_t work_len,
    uint64_t values[PEZGOK_VALUES]);

/* Imports all units of the main input, in order, into one records buffer, with one table of files: a file that an earlier unit brought keeps its number
 * and is written once. Each buffer has what the imports of the units write one after another, and the statistics are added. The first unit that is
 * refused refuses all. An input without units is a package without debug data. The units' line programs stand in one program: a unit's part of it is named
 * by field 1e hex behind its line header and its field 1d, if it has one; without it that is the whole. All else is as of pezgok_import; work has the
 * length that the unit which needs most asks for. */
uint8_t pezgok_import_dwarf(
    const uint8_t *main, size_t main_len,
    const uint8_t *supplementary, size_t supplementary_len,
    const uint8_t *program, size_t program_len,
    const uint8_t *lists, size_t lists_len,
    const uint8_t *addresses, size_t addresses_len,
    bool inlines, bool call_sites, uint32_t first_file,
    uint8_t *work, size_t work_len,
    uint8_t *records, size_t records_len,
    uint8_t *files, size_t files_len,
    uint8_t *warnings, size_t warnings_len,
    uint64_t values[PEZGOK_VALUES]);

/* How long the three output buffers of such an import must be, and its statistics, as pezgok_measure says it of pezgok_import. */
uint8_t pezgok_measure_dwarf(
    const uint8_t *main, size_t main_len,
    const uint8_t *supplementary, size_t supplementary_len,
    const uint8_t *program, size_t program_len,
    const uint8_t *lists, size_t lists_len,
    const uint8_t *addresses, size_t addresses_len,
    bool inlines, bool call_sites, uint32_t first_file,
    uint8_t *work, size_t work_len,
    uint64_t values[PEZGOK_VALUES]);

/* ---- Look-ups in a records buffer that an import wrote, of as many bytes as it said, or in any other bytes. Finds are byte places of fields in the
 * buffer. Returns 0, or 19 where the bytes are no records, 16 where a list is too short, 20 where no function qualifies. The same is owed of slices
 * and pointers as above. */

/* Where found has what; the place of a row is 0 where there is none. */
enum { PEZGOK_FUNCTION, PEZGOK_HAS_ROW, PEZGOK_ROW, PEZGOK_NODES, PEZGOK_FOUND };

/* The most nodes that a chain has. */
#define PEZGOK_CHAIN 257

/* What is running at an address: the first function of the buffer that holds it, its last row at or below it, and its inlined calls that hold it,
 * outermost first, the function's own node before them. Places of chain that are not of it are 0; after a refusal all are, and found too. */
uint8_t pezgok_look_up(const uint8_t *records, size_t records_len, uint64_t address, size_t found[PEZGOK_FOUND], size_t chain[PEZGOK_CHAIN]);

/* The function that ends last at or below an address, the first of the buffer among equals; 0 after a refusal. */
uint8_t pezgok_nearest_below(const uint8_t *records, size_t records_len, uint64_t address, size_t *place);

/* Writes the fields of the functions of which no address is outside the window from start to below end, in the buffer's order, and their length; bytes
 * past it stay. After a refusal the list holds only 0, and length is 0. */
uint8_t pezgok_functions_inside(
    const uint8_t *records, size_t records_len, uint64_t start, uint64_t end, uint8_t *list, size_t list_len, size_t *length);

/* The same of the functions that share an address with the window and reach outside it. */
uint8_t pezgok_functions_crossing(
    const uint8_t *records, size_t records_len, uint64_t start, uint64_t end, uint8_t *list, size_t list_len, size_t *length);

/* ---- For many look-ups in one buffer: an index of its functions, made once. */

/* The length of an index, for each function. */
#define PEZGOK_EXTENT 24

/* Makes the index, and tells how many functions it has and whether they are in the order of their addresses, since no two overlap. Returns 0, or 19,
 * or 5 where the slice is too short; it then holds only 0, and so do both values. Bytes past the index stay. */
uint8_t pezgok_make_index(
    const uint8_t *records, size_t records_len, uint8_t *index, size_t index_len, size_t *functions, bool *rising);

/* What pezgok_look_up answers, by the buffer's own index and the two values told with it: by a binary search where rising is true, else by a pass over
 * the index. Any other bytes and values are taken too: then 5 where the index is shorter than functions says, 19 where no function stands where it says. */
uint8_t pezgok_look_up_in(
    const uint8_t *records, size_t records_len, const uint8_t *index, size_t index_len, size_t functions, bool rising, uint64_t address,
    size_t found[PEZGOK_FOUND], size_t chain[PEZGOK_CHAIN]);

/* The work slice with which a join of symbols to records of these lengths takes no walk over the records for a symbol. */
#define PEZGOK_SYMBOLS_WORK(records_len, symbols_len) (16 * ((size_t)(records_len) / 19 + (size_t)(symbols_len) / 19))

/* Joins a list of fields 50 hex (start, size, name) to the records of an import: result begins with the records, then has a bare function for each
 * symbol that has a size and a name and whose start no record already in the result holds, in list order. Returns 0, and the result's byte length in
 * *length; bytes behind it stay. records_len + symbols_len bytes are always enough. Or returns the refusal's number: 19 for misshapen records, 26 for a
 * misshapen symbol or one that ends past 2^64 - 1, 27 for a result that is too short; then result holds only 0, and *length is 0.
 *
 * Work may have any length, 0 too, and any content: it decides about time alone, and holds only 0 after every call. The same is owed of slices and
 * pointers as by pezgok_import. */
uint8_t pezgok_join_symbols(
    const uint8_t *records, size_t records_len,
    const uint8_t *symbols, size_t symbols_len,
    uint8_t *result, size_t result_len,
    uint8_t *work, size_t work_len,
    size_t *length);

/* ---- Reading what a look-up found: no call of the library. A field is a tag (1 byte), a length (2) and a payload; numbers are little-endian. */

/* A call that is running: the function, and where in it. */
struct pezgok_frame {
    const uint8_t *function; /* its name, in the records; no byte 0 ends it */
    size_t function_len;
    uint32_t file; /* a file's number, 0 where it is not known */
    uint32_t line; /* 0 where it is not known */
    uint32_t column; /* 0 where it is not known, as of every call that is not the innermost */
    bool inlined; /* whether it was inlined into the next frame's function */
};

/* A source file, in the files buffer. Directory and basename are joined by a separator. */
struct pezgok_path {
    const uint8_t *directory;
    size_t directory_len;
    const uint8_t *basename;
    size_t basename_len;
};

/* A number of so many bytes. */
static inline uint64_t pezgok_number(const uint8_t *bytes, size_t size) {
    uint64_t value = 0;
    while (size > 0)
        value = value << 8 | bytes[--size];
    return value;
}

/* The payload of the field at a place, and its length; null where there is no whole field of the tag and of the least length. */
static inline const uint8_t *pezgok_payload(const uint8_t *tray, size_t tray_len, size_t place, uint8_t tag, size_t least, size_t *length) {
    if (place >= tray_len || tray_len - place < 3 || tray[place] != tag)
        return NULL;
    *length = (size_t)pezgok_number(tray + place + 1, 2);
    return *length <= tray_len - place - 3 && *length >= least ? tray + place + 3 : NULL;
}

/* Frame k of what a look-up found, 0 the innermost; false where there is none. The innermost frame's line is that of the row in force, each other's
 * the line that calls the one before it. */
static inline bool pezgok_frame_at(
    const uint8_t *records, size_t records_len, const size_t found[PEZGOK_FOUND], const size_t chain[PEZGOK_CHAIN], size_t k,
    struct pezgok_frame *frame) {
    enum { FUNCTION_TAG = 0x41, ROW_TAG = 0x42, NODE_TAG = 0x43, FUNCTION_NAME = 16, ROW_LENGTH = 18, NODE_NAME = 10 };
    /* A function without inlined calls has no node, and is one frame. */
    size_t frames = found[PEZGOK_NODES] ? found[PEZGOK_NODES] : 1, length;
    if (k >= frames)
        return false;
    size_t depth = frames - 1 - k, name = depth ? NODE_NAME : FUNCTION_NAME;
    const uint8_t *bytes =
        pezgok_payload(records, records_len, depth ? chain[depth] : found[PEZGOK_FUNCTION], depth ? NODE_TAG : FUNCTION_TAG, name, &length);
    if (!bytes)
        return false;
    frame->function = bytes + name;
    frame->function_len = length - name;
    frame->inlined = depth > 0;
    frame->file = frame->line = frame->column = 0;
    if (k > 0 && (bytes = pezgok_payload(records, records_len, chain[depth + 1], NODE_TAG, NODE_NAME, &length))) {
        frame->file = (uint32_t)pezgok_number(bytes + 2, 4);
        frame->line = (uint32_t)pezgok_number(bytes + 6, 4);
    }
    if (k == 0 && found[PEZGOK_HAS_ROW] && (bytes = pezgok_payload(records, records_len, found[PEZGOK_ROW], ROW_TAG, ROW_LENGTH, &length))) {
        frame->file = (uint32_t)pezgok_number(bytes + 8, 4);
        frame->line = (uint32_t)pezgok_number(bytes + 12, 4);
        frame->column = (uint32_t)pezgok_number(bytes + 16, 2);
    }
    return true;
}

/* The file of a number, in a files buffer whose first file has the number first_file; false where there is none. It is a walk over the buffer: who asks
 * often keeps the places. */
static inline bool pezgok_path_of(const uint8_t *files, size_t files_len, uint32_t first_file, uint32_t number, struct pezgok_path *path) {
    enum { FILE_TAG = 0x40 };
    size_t place = 0, length;
    const uint8_t *bytes;
    for (uint32_t file = first_file; (bytes = pezgok_payload(files, files_len, place, FILE_TAG, 2, &length)); file++, place += 3 + length) {
        size_t directory = (size_t)pezgok_number(bytes, 2);
        if (file != number || number == 0)
            continue;
        if (directory > length - 2)
            return false;
        path->directory = bytes + 2;
        path->directory_len = directory;
        path->basename = bytes + 2 + directory;
        path->basename_len = length - 2 - directory;
        return true;
    }
    return false;
}

/* Writes the word for a refusal's number to name, as far as it fits, and returns its whole length; 0 if it is no refusal's. No byte 0 is added. */
size_t pezgok_refusal_name(uint8_t refusal, uint8_t *name, size_t name_len);

#ifdef __cplusplus
}
#endif

#endif
