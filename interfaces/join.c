/* Joins a symbol table to records: dim is known from DWARF, fade_up only by its symbol. Prints the functions of the result. */
#include <inttypes.h>
#include <stdio.h>
#include <stdlib.h>
#include <string.h>

#include "pezgok.h"

enum { HEAD = 3, NUMBERS = 16 };

/* Appends a field of two numbers and a name, and returns the place behind it. */
static size_t put(uint8_t *bytes, size_t at, uint8_t tag, uint64_t first, uint64_t second, const char *name) {
    size_t length = NUMBERS + strlen(name);
    bytes[at] = tag;
    bytes[at + 1] = (uint8_t)length;
    bytes[at + 2] = (uint8_t)(length >> 8);
    for (size_t k = 0; k < 8; k++) {
        bytes[at + HEAD + k] = (uint8_t)(first >> 8 * k);
        bytes[at + HEAD + 8 + k] = (uint8_t)(second >> 8 * k);
    }
    memcpy(bytes + at + HEAD + NUMBERS, name, strlen(name));
    return at + HEAD + length;
}

static uint64_t number(const uint8_t *bytes) {
    uint64_t value = 0;
    for (size_t k = 8; k > 0; k--)
        value = value << 8 | bytes[k - 1];
    return value;
}

int main(void) {
    uint8_t records[256], symbols[256], result[512], work[PEZGOK_SYMBOLS_WORK(256, 256)];
    size_t records_len = put(records, 0, 0x41, 0x1000, 0x1010, "dim");
    size_t symbols_len = put(symbols, 0, 0x50, 0x1000, 0x10, "dim");
    symbols_len = put(symbols, symbols_len, 0x50, 0x1010, 0x20, "fade_up");
    size_t length;
    uint8_t refusal = pezgok_join_symbols(records, records_len, symbols, symbols_len, result, sizeof result, work, sizeof work, &length);
    if (refusal != 0) {
        char name[32];
        size_t named = pezgok_refusal_name(refusal, (uint8_t *)name, sizeof name);
        printf("refused %d: %.*s\n", refusal, (int)named, name);
        return EXIT_FAILURE;
    }
    for (size_t at = 0; at < length;) {
        size_t size = result[at + 1] | (size_t)result[at + 2] << 8;
        const uint8_t *payload = result + at + HEAD;
        printf("function %" PRIx64 " %" PRIx64 " %.*s\n", number(payload), number(payload + 8), (int)(size - NUMBERS), (const char *)payload + NUMBERS);
        at += HEAD + size;
    }
    return EXIT_SUCCESS;
}
