// Curves made by templates: many small functions, inlined into each other several levels deep.
#include "fixture.h"

namespace desk {
namespace curve {

template <int N>
struct Power {
    static inline __attribute__((always_inline)) int of(int x) {
        return Power<N - 1>::of(x) * (x + master) / 255;
    }
};

template <>
struct Power<0> {
    static int of(int x) { return x + 1; }
};

template <typename... Steps>
struct Chain;

template <>
struct Chain<> {
    int run(int x) const { return x; }
};

template <typename First, typename... Rest>
struct Chain<First, Rest...> {
    First first;
    Chain<Rest...> rest;
    int run(int x) const { return rest.run(first(x)); }
};

struct Add {
    int by;
    int operator()(int x) const { return x + by; }
};

struct Invert {
    int operator()(int x) const { return 255 - x; }
};

template <int N>
struct Raise {
    int operator()(int x) const { return Power<N>::of(x); }
};

int chain(int x) {
    Chain<Add, Raise<3>, Invert, Raise<6>, Add> all{{3}, {{}, {{}, {{}, {{-1}, {}}}}}};
    return all.run(x);
}

template <typename T>
__attribute__((noinline)) T blend(T a, T b, int share) {
    return static_cast<T>((a * (255 - share) + b * share) / 255);
}

template <>
__attribute__((noinline)) unsigned char blend(unsigned char a, unsigned char b, int share) {
    return share > 127 ? b : a;
}

int mix(int a, int b, int share) {
    long wide = blend<long>(a, b, share);
    int plain = blend(a, b, share);
    unsigned char hard = blend<unsigned char>(static_cast<unsigned char>(a), 3, share);
    return static_cast<int>(wide) + plain + hard;
}

constexpr int table[] = {0, 20, 55};

struct Local {
    int go(int x) {
        struct Inner {
            int y;
            int twice() const { return Power<2>::of(y) * 2; }
        };
        auto later = [x](int z) { return Inner{x + z}.twice(); };
        return later(1) + later(table[1]);
    }
};

int local(int x) { return Local{}.go(x); }

}  // namespace curve
}  // namespace desk
