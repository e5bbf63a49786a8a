/* Functions in two parts each, and nothing inlined: their range lists can be damaged alone. */
#include "level.h"

volatile int grand_master;

COLD void fault(const char *what, int value) { grand_master = value + *what; }

int trip_lamp(int x) {
    if (x > 900) {
        fault("lamp", x);
        grand_master++;
    }
    return x + 1;
}

int trip_fuse(int x) {
    if (x < -900) {
        fault("fuse", x);
        grand_master--;
    }
    return x * 3;
}

int trip_door(int x) {
    if (x == 77) {
        fault("door", x);
        grand_master ^= 1;
    }
    return x - 1;
}

int main(int count, char **arguments) {
    (void)arguments;
    return trip_lamp(count) + trip_fuse(count) + trip_door(count) == 0;
}
