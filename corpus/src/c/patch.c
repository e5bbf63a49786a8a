/* Patching: functions from macros in an included file, #line, names of other files. */
#include "level.h"

#define PATCH(name, first) \
    level patch_##name(const level *universe) { return scaled(universe[first]); }
#include "patch_table.inc"
#undef PATCH

#define PATCH(name, first) + first
int patch_sum(void) {
    return 0
#include "patch_table.inc"
        ;
}
#undef PATCH

#line 500 "rig/stage_left.patch"
int patch_left(int x) {
    return rung2(x) + 1;
}

#line 90000 "/venue/stage right/patch.tbl"
static inline int helper(int x) {
    return x ? rung1(x) : -1;
}
int patch_right(int x) { return helper(x) - helper(x + 1); }

#line 12 "../shared/./macro.h"
NOINLINE int patch_macro(int x) {
    int y = x;
#line 13 "rig/stage_left.patch"
    y += helper(y);
#line 7 "patch.c"
    return y;
}

#line 3 "C:\\rig\\window.c"
int patch_window(int x) { return x + 2; }
#line 1 "//server/rig/net.c"
int patch_net(int x) { return x + 3; }
#line 0 "zero.c"
int patch_zero(int x) { return x - 3; }
