/* Levels of dimmers, 0 to 255, and the small helpers that every file inlines. */
#ifndef LEVEL_H
#define LEVEL_H

#define NOINLINE __attribute__((noinline))
#define ALWAYS static inline __attribute__((always_inline))
#define COLD __attribute__((noinline, cold))

typedef unsigned char level;
typedef unsigned int tick;

struct channel {
    level now, wanted, floor;
    tick left;
};

extern volatile int grand_master;

static inline int at_least(int value, int floor) { return value < floor ? floor : value; }
static inline int at_most(int value, int top) { return value > top ? top : value; }
static inline level clamp(int value) { return (level)at_most(at_least(value, 0), 255); }

ALWAYS level scaled(level value) {
    int master = grand_master;
    return clamp(value * master / 255);
}

/* A ladder of helpers, so that one call makes a deep tree. */
ALWAYS int rung1(int x) { return x * 3 + grand_master; }
ALWAYS int rung2(int x) { return rung1(x + 1) ^ rung1(x + 2); }
ALWAYS int rung3(int x) { return rung2(x + 1) - rung2(x * 5); }
ALWAYS int rung4(int x) { return rung3(x + 7) + at_least(rung2(x), 9); }
ALWAYS int rung5(int x) { int y = rung4(x); return y > 100 ? rung3(y) : y; }

void fault(const char *what, int value);

#endif
