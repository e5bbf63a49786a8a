/* Universes of 512 slots: loops that are unrolled and vectorised, blocks with variables. */
#include "level.h"

#define SLOTS 512

struct universe {
    level slots[SLOTS];
    unsigned used, sent;
};

static inline unsigned checksum(const level *slots, int count) {
    unsigned sum = 0;
    for (int i = 0; i < count; i++) {
        unsigned rotated = sum << 5 | sum >> 27;
        sum = rotated ^ slots[i];
    }
    return sum;
}

void universe_merge(struct universe *to, const struct universe *from) {
    for (int i = 0; i < SLOTS; i++)
        if (from->slots[i] > to->slots[i])
            to->slots[i] = from->slots[i];
    to->used += from->used;
}

unsigned universe_send(struct universe *u) {
    unsigned sum = 0;
    {
        int half = SLOTS / 2;
        sum += checksum(u->slots, half);
        {
            level *rest = u->slots + half;
            sum += checksum(rest, half);
        }
    }
    u->sent++;
    return sum;
}

NOINLINE void universe_scale(struct universe *u, int first, int count) {
    for (int i = first; i < first + count && i < SLOTS; i++)
        u->slots[i] = scaled(u->slots[i]);
}

int universe_find(const struct universe *u, level value) {
    int place = -1;
    for (int i = 0; i < SLOTS; i++) {
        if (u->slots[i] != value)
            continue;
        place = i;
        break;
    }
    if (place < 0)
        goto missing;
    return place;
missing:
    fault("missing", value);
    return -1;
}

void universe_clear(struct universe *u) { *u = (struct universe){0}; }
