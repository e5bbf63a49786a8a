/* Functions that nobody calls: a linker that collects garbage leaves their debug data behind. */
#include "level.h"

static inline int spare_part(int x) { return at_least(x, 3) * rung2(x); }

int spare_lamp(int x) { return spare_part(x) + spare_part(x + 1); }

NOINLINE int spare_gel(int x) { return clamp(x) + grand_master; }

int spare_used(int x) { return spare_part(x) - 1; }

int spare_cable(int x) {
    int y = spare_gel(x);
    if (__builtin_expect(y > 300, 0)) {
        fault("cable", y);
        fault("length", x);
    }
    return y + spare_lamp(y);
}
