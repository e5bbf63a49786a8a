/* Looks up an address, in hex, in a file of records, and says what is running there. */
#include <inttypes.h>
#include <stdio.h>
#include <stdlib.h>

#include "pezgok.h"

#define LARGEST (1 << 20)

int main(int count, char **words) {
    static uint8_t records[LARGEST];
    static size_t chain[PEZGOK_CHAIN];
    size_t found[PEZGOK_FOUND];
    FILE *file = count == 3 ? fopen(words[1], "rb") : NULL;
    if (!file) {
        fprintf(stderr, "look RECORDS ADDRESS: a file of records, and an address in hex\n");
        return 2;
    }
    size_t length = fread(records, 1, LARGEST, file);
    fclose(file);
    uint8_t refusal = pezgok_look_up(records, length, strtoull(words[2], NULL, 16), found, chain);
    if (refusal) {
        uint8_t name[32];
        size_t letters = pezgok_refusal_name(refusal, name, sizeof name);
        printf("refused %d: %.*s\n", refusal, (int)letters, (char *)name);
        return 1;
    }
    printf("function %zu", found[PEZGOK_FUNCTION]);
    if (found[PEZGOK_HAS_ROW])
        printf(" row %zu", found[PEZGOK_ROW]);
    printf(" chain");
    for (size_t node = 0; node < found[PEZGOK_NODES]; node++)
        printf(" %zu", chain[node]);
    printf("\n");
    return 0;
}
