/* Imports unit 0 of unit.main, unit.sup, unit.line, unit.lists and unit.addresses of a folder, or with --all all units, into buffers as long as it needs,
 * and says what came of it. */
#include <stdio.h>
#include <stdlib.h>
#include <string.h>

#include "pezgok.h"

#define LARGEST (1 << 20)

/* The bytes of a file; none where there is no file. A larger one than the buffer ends the program: cut off it would be another input. */
static size_t read_file(const char *folder, const char *name, uint8_t *bytes) {
    char path[4096];
    if (snprintf(path, sizeof path, "%s/%s", folder, name) >= (int)sizeof path) {
        fprintf(stderr, "import: the folder's name is too long\n");
        exit(2);
    }
    FILE *file = fopen(path, "rb");
    if (!file)
        return 0;
    size_t length = fread(bytes, 1, LARGEST, file);
    if (length == LARGEST && fgetc(file) != EOF) {
        fprintf(stderr, "import: %s is too large\n", path);
        exit(2);
    }
    fclose(file);
    return length;
}

/* How many fields of the input, of a one-byte tag and a two-byte length, have a tag: a line encoding, where a unit takes its rows from its line program, or
 * a range list. */
enum { LINE_ENCODING = 0x1d, RANGE_LIST = 0x1f };
static size_t fields_of(const uint8_t *input, size_t length, uint8_t tag) {
    enum { HEAD = 3 };
    size_t found = 0;
    for (size_t at = 0; at + HEAD <= length; at += HEAD + input[at + 1] + ((size_t)input[at + 2] << 8))
        found += input[at] == tag;
    return found;
}

/* A buffer, of one byte at least: a pointer is not null. */
static uint8_t *buffer(uint64_t length) {
    uint8_t *bytes = length < SIZE_MAX ? malloc(length ? length : 1) : NULL;
    if (!bytes) {
        fprintf(stderr, "import: there is no memory for %llu bytes\n", (unsigned long long)length);
        exit(2);
    }
    return bytes;
}

static int refused(uint8_t refusal) {
    uint8_t name[32];
    size_t length = pezgok_refusal_name(refusal, name, sizeof name);
    printf("refused %d: %.*s\n", refusal, (int)length, (char *)name);
    return 1;
}

int main(int count, char **words) {
    bool all = count == 3 && strcmp(words[2], "--all") == 0;
    if (count != 2 && !all) {
        fprintf(stderr, "import FOLDER [--all]: a folder with unit.main, and unit.sup, unit.line, unit.lists and unit.addresses if there are any\n");
        return 2;
    }
    static uint8_t input[LARGEST], supplementary[LARGEST], program[LARGEST], lists[LARGEST], addresses[LARGEST];
    size_t input_len = read_file(words[1], "unit.main", input);
    size_t supplementary_len = read_file(words[1], "unit.sup", supplementary);
    size_t program_len = read_file(words[1], "unit.line", program);
    size_t lists_len = read_file(words[1], "unit.lists", lists);
    size_t addresses_len = read_file(words[1], "unit.addresses", addresses);
    /* A field has three bytes at least. */
    size_t fields = (input_len + supplementary_len) / 3;
    bool encoded = fields_of(input, input_len, LINE_ENCODING) > 0;
    size_t work_len = (encoded ? PEZGOK_WORK_ENCODED(fields, program_len) : PEZGOK_WORK(fields, program_len)) +
                      PEZGOK_WORK_LISTS(lists_len, fields_of(input, input_len, RANGE_LIST));
    uint8_t *work = buffer(work_len);
    uint64_t values[PEZGOK_VALUES];
    uint8_t refusal;
    if (all)
        refusal = pezgok_measure_dwarf(input, input_len, supplementary, supplementary_len, program, program_len, lists, lists_len, addresses,
                                       addresses_len, true, true, 1, work, work_len, values);
    else
        refusal = pezgok_measure(input, input_len, supplementary, supplementary_len, program, program_len, lists, lists_len, addresses,
                                 addresses_len, 0, true, true, 1, work, work_len, values);
    if (refusal)
        return refused(refusal);
    size_t records_len = values[PEZGOK_RECORDS_LENGTH], files_len = values[PEZGOK_FILES_LENGTH], warnings_len = values[PEZGOK_WARNINGS_LENGTH];
    uint8_t *records = buffer(records_len), *files = buffer(files_len), *warnings = buffer(warnings_len);
    if (all)
        refusal = pezgok_import_dwarf(input, input_len, supplementary, supplementary_len, program, program_len, lists, lists_len, addresses,
                                      addresses_len, true, true, 1, work, work_len, records, records_len, files, files_len, warnings, warnings_len, values);
    else
        refusal = pezgok_import(input, input_len, supplementary, supplementary_len, program, program_len, lists, lists_len, addresses,
                                addresses_len, 0, true, true, 1, work, work_len, records, records_len, files, files_len, warnings, warnings_len, values);
    if (refusal)
        return refused(refusal);
    printf("%llu functions, %llu line rows, %llu inline nodes, %llu rejected ranges; %llu bytes of records, %llu of files, %llu of warnings\n",
           (unsigned long long)values[PEZGOK_FUNCTIONS], (unsigned long long)values[PEZGOK_LINE_ROWS], (unsigned long long)values[PEZGOK_INLINE_NODES],
           (unsigned long long)values[PEZGOK_REJECTED_RANGES], (unsigned long long)values[PEZGOK_RECORDS_LENGTH],
           (unsigned long long)values[PEZGOK_FILES_LENGTH], (unsigned long long)values[PEZGOK_WARNINGS_LENGTH]);
    free(warnings);
    free(files);
    free(records);
    free(work);
    return 0;
}
