/* The program: uses everything once. */
#include "level.h"

struct cue;
struct universe;

volatile int grand_master = 255;
static int faults;

level dim(level value, unsigned curve);
void dim_all(level *levels, int count, unsigned curve);
int fade_all(struct channel *c, int count);
int cue_run(struct cue *c, int depth);
int cue_follow(struct cue *c);
int cue_check(struct cue *c);
int cue_flash(struct cue *c, int depth);
int patch_sum(void);
int patch_left(int x);
int patch_right(int x);
int patch_macro(int x);
int universe_find(const struct universe *u, level value);
int spare_used(int x);

void fault(const char *what, int value) {
    while (*what)
        faults += *what++;
    faults += value;
}

static level levels[512];
static struct channel channels[24];

int main(int count, char **arguments) {
    (void)arguments;
    for (int i = 0; i < 24; i++)
        channels[i] = (struct channel){(level)i, 200, 3, (tick)count};
    dim_all(levels, 512, 1);
    int sum = dim((level)count, 2) + fade_all(channels, 24);
    sum += cue_run(0, count) + cue_follow(0) + cue_check(0) + cue_flash(0, 70);
    sum += patch_sum() + patch_left(sum) + patch_right(sum) + patch_macro(sum);
    sum += universe_find((const struct universe *)levels, 7) + spare_used(sum);
    return (sum + faults) & 1;
}
