// The program: static constructors, virtual calls, an anonymous union, a local class.
#include "fixture.h"

namespace desk {
volatile int master = 255;
static int faults;
void fault(int value) { faults += value; }
namespace curve {
int chain(int x);
int mix(int a, int b, int share);
int local(int x);
}  // namespace curve
}  // namespace desk

using namespace desk;

static Spot house(12, 90, 45);
static unsigned char universe[64];

static int play(Fixture &fixture, Span<unsigned char> span) {
    fixture.render(span);
    fixture.move(fixture.slots());
    return fixture.address();
}

int main(int count, char **) {
    Span<unsigned char> span{universe, sizeof universe};
    union {
        int number;
        unsigned char bytes[4];
    };
    number = count;
    Spot both = house + house;
    int sum = play(house, span) + play(both, span) + both.turn<0>(bytes[0]);
    sum += curve::chain(sum) + curve::mix(sum, 3, 200) + curve::local(sum);
    return (sum + Fixture::made() + faults) & 1;
}
