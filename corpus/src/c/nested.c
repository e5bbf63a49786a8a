/* Functions inside functions, which only gcc compiles: nested subprograms with their own calls. */
#include "level.h"

static int each(const level *levels, int count, int (*visit)(level)) {
    int sum = 0;
    for (int i = 0; i < count; i++)
        sum += visit(levels[i]);
    return sum;
}

int nested_sum(const level *levels, int count, int gain) {
    int top = 0;
    NOINLINE int visit(level value) {
        inline int inner(int x) { return at_most(x * gain, 255) + rung1(x); }
        if (value > top)
            top = value;
        return inner(value) + inner(value + 1);
    }
    return each(levels, count, visit) + top;
}

int nested_twice(int x) {
    inline int once(int y) { return y * x + grand_master; }
    return once(x) + once(x + 1);
}
