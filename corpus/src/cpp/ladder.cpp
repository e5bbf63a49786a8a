// One function into which RUNGS functions are inlined, each into the one before. A tree of inlined
// calls may be 256 deep below its function, so one more is refused.
extern volatile int step;

template <int N>
static inline __attribute__((always_inline)) int rung(int x) {
    int before = step + x;
    int below = rung<N - 1>(before ^ N);
    return below - step;
}

template <>
inline __attribute__((always_inline)) int rung<0>(int x) {
    return x * step;
}

int climb(int x) { return rung<RUNGS - 1>(x); }
volatile int step = 3;
