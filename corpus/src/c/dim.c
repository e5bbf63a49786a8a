/* Dimmer curves: shallow inlining, a table of function pointers, static data. */
#include "level.h"

static level linear(level value) { return value; }

static level square(level value) { return clamp(value * value / 255); }

static level steps(level value) {
    switch (value >> 5) {
    case 0: return 0;
    case 1: return 20;
    case 2: return 55;
    case 3: return 90;
    case 4: return 130;
    case 5: return 170;
    case 6: return 215;
    default: return 255;
    }
}

static level (*const curves[])(level) = {linear, square, steps};

level dim(level value, unsigned curve) {
    if (curve >= sizeof curves / sizeof *curves) {
        fault("curve", (int)curve);
        return 0;
    }
    return scaled(curves[curve](value));
}

void dim_all(level *levels, int count, unsigned curve) {
    for (int i = 0; i < count; i++)
        levels[i] = dim(levels[i], curve);
}

/* Every caller inlines it, and one address is taken, so it also stands alone. */
static inline int weight(level value) {
    int sum = 0;
    for (int bit = 0; bit < 8; bit++)
        sum += at_least((value >> bit & 1) * bit, 0);
    return sum;
}

int (*const weigher)(level) = weight;

NOINLINE int dim_weight(const level *levels, int count) {
    int sum = 0;
    while (count-- > 0)
        sum += weight(*levels++);
    return sum;
}
