/* Cues: recursion, calls in tail position, calls through pointers, many call sites. */
#include "level.h"

struct cue {
    int number;
    int (*run)(struct cue *, int);
    struct cue *next, *part;
};

int fade_shape(int x);
int dim_weight(const level *levels, int count);

NOINLINE int cue_number(const struct cue *c) { return c ? c->number : -1; }

/* Sibling calls: compilers turn these into jumps. */
NOINLINE int cue_tail(struct cue *c, int depth) {
    if (!c)
        return depth;
    return cue_tail(c->next, depth + c->number);
}

NOINLINE int cue_even(struct cue *c, int n);
NOINLINE int cue_odd(struct cue *c, int n) { return n ? cue_even(c->next, n - 1) : 0; }
NOINLINE int cue_even(struct cue *c, int n) { return n ? cue_odd(c->next, n - 1) : 1; }

int cue_run(struct cue *c, int depth) {
    if (!c || depth > 64)
        return cue_tail(c, depth);
    int sum = cue_number(c);
    if (c->part)
        sum += cue_run(c->part, depth + 1);
    if (c->run)
        sum += c->run(c, depth);
    return sum + cue_run(c->next, depth + 1);
}

static inline int follow(struct cue *c) {
    int sum = 0;
    for (; c; c = c->next)
        sum += cue_number(c) * fade_shape(c->number);
    return sum;
}

int cue_follow(struct cue *c) { return follow(c) + follow(c ? c->part : 0); }

int cue_flash(struct cue *c, int depth) {
    level levels[4] = {1, 2, 3, (level)depth};
    int sum = dim_weight(levels, 4);
    return sum > 10 ? cue_number(c) : cue_odd(c, sum);
}

__attribute__((noreturn, noinline)) void cue_stop(int why) {
    fault("stop", why);
    for (;;)
        grand_master = why;
}

int cue_check(struct cue *c) {
    if (cue_number(c) == 666)
        cue_stop(cue_number(c));
    return 0;
}
