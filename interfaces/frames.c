/* From a unit and an address to frames: imports unit 0 of unit.main, unit.sup and unit.line of a folder, asks what is running at an address in hex, and
 * prints each call, the innermost first. */
#include <inttypes.h>
#include <stdio.h>
#include <stdlib.h>

#include "pezgok.h"

#define LARGEST (1 << 20)
#define FIRST_FILE 1

/* The bytes of a file; none where there is no file. */
static size_t read_file(const char *folder, const char *name, uint8_t *bytes) {
    char path[4096];
    snprintf(path, sizeof path, "%s/%s", folder, name);
    FILE *file = fopen(path, "rb");
    if (!file)
        return 0;
    size_t length = fread(bytes, 1, LARGEST, file);
    fclose(file);
    return length;
}

/* A buffer, of one byte at least: a pointer is not null. */
static uint8_t *buffer(size_t length) {
    uint8_t *bytes = malloc(length ? length : 1);
    if (!bytes) {
        fprintf(stderr, "frames: there is no memory for %zu bytes\n", length);
        exit(2);
    }
    return bytes;
}

static int refused(uint8_t refusal) {
    uint8_t name[32];
    size_t length = pezgok_refusal_name(refusal, name, sizeof name);
    printf("refused %d: %.*s\n", refusal, (int)length, (char *)name);
    return 1;
}

int main(int count, char **words) {
    if (count != 3) {
        fprintf(stderr, "frames FOLDER ADDRESS: a folder with unit.main, and unit.sup and unit.line if there are any; an address in hex\n");
        return 2;
    }
    static uint8_t input[LARGEST], supplementary[LARGEST], program[LARGEST];
    /* No entry of the unit has its ranges in a list. */
    static const uint8_t lists[1], addresses[1];
    const size_t lists_len = 0, addresses_len = 0;
    size_t input_len = read_file(words[1], "unit.main", input);
    size_t supplementary_len = read_file(words[1], "unit.sup", supplementary);
    size_t program_len = read_file(words[1], "unit.line", program);

    /* How long the buffers must be. A field has three bytes at least. */
    size_t work_len = PEZGOK_WORK((input_len + supplementary_len) / 3, program_len);
    uint8_t *work = buffer(work_len);
    uint64_t values[PEZGOK_VALUES];
    uint8_t refusal = pezgok_measure(input, input_len, supplementary, supplementary_len, program, program_len, lists, lists_len, addresses, addresses_len, 0,
                                     true, true, FIRST_FILE, work, work_len, values);
    if (refusal)
        return refused(refusal);

    /* The import, into buffers of these lengths. */
    size_t records_len = values[PEZGOK_RECORDS_LENGTH], files_len = values[PEZGOK_FILES_LENGTH], warnings_len = values[PEZGOK_WARNINGS_LENGTH];
    uint8_t *records = buffer(records_len), *files = buffer(files_len), *warnings = buffer(warnings_len);
    refusal = pezgok_import(input, input_len, supplementary, supplementary_len, program, program_len, lists, lists_len, addresses, addresses_len, 0, true, true,
                            FIRST_FILE, work, work_len, records, records_len, files, files_len, warnings, warnings_len, values);
    if (refusal)
        return refused(refusal);

    /* The look-up, and its frames. */
    static size_t chain[PEZGOK_CHAIN];
    size_t found[PEZGOK_FOUND];
    refusal = pezgok_look_up(records, records_len, strtoull(words[2], NULL, 16), found, chain);
    if (refusal)
        return refused(refusal);
    struct pezgok_frame frame;
    struct pezgok_path path;
    for (size_t k = 0; pezgok_frame_at(records, records_len, found, chain, k, &frame); k++) {
        printf("%.*s%s\n", (int)frame.function_len, (const char *)frame.function, frame.inlined ? " (inlined)" : "");
        if (pezgok_path_of(files, files_len, FIRST_FILE, frame.file, &path))
            printf("%.*s/%.*s", (int)path.directory_len, (const char *)path.directory, (int)path.basename_len, (const char *)path.basename);
        else
            printf("??");
        printf(":%" PRIu32 ":%" PRIu32 "\n", frame.line, frame.column);
    }
    free(warnings);
    free(files);
    free(records);
    free(work);
    return 0;
}
