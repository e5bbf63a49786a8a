/* Fades: deep inlining, loops, a part that is split off as cold. */
#include "level.h"

static tick steps_done;

COLD static void overrun(struct channel *c, int by) {
    fault("overrun", by);
    c->left = 0;
    c->now = c->wanted;
}

ALWAYS int distance(const struct channel *c) { return c->wanted - c->now; }

ALWAYS int step_of(const struct channel *c) {
    int far = distance(c);
    return c->left ? far / (int)c->left : far;
}

ALWAYS void move(struct channel *c) {
    c->now = clamp(c->now + step_of(c));
    if (c->now < c->floor)
        c->now = scaled(c->floor);
}

int fade_step(struct channel *c, int count) {
    int moving = 0;
    for (int i = 0; i < count; i++) {
        if (__builtin_expect(c[i].left > 1000000, 0)) {
            overrun(&c[i], (int)c[i].left);
            fault("left", i);
            continue;
        }
        if (distance(&c[i]) != 0) {
            move(&c[i]);
            moving++;
        }
        if (c[i].left)
            c[i].left--;
    }
    steps_done++;
    return moving;
}

int fade_shape(int x) {
    int y = rung5(x);
    if (__builtin_expect(y == -12345, 0)) {
        fault("shape", y);
        fault("again", x);
        y = rung4(y);
    }
    return y + rung3(x);
}

NOINLINE static int settle(struct channel *c, int count) {
    int turns = 0;
    while (fade_step(c, count) != 0 && turns < 1000)
        turns++;
    return turns;
}

int fade_all(struct channel *c, int count) {
    if (count <= 0)
        return 0;
    return settle(c, count) + fade_shape(count);
}
