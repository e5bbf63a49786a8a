#include "fixture.h"

namespace desk {

namespace {

struct Guard {
    int *place;
    explicit Guard(int *p) : place(p) { ++*place; }
    ~Guard() { --*place; }
};

int busy;

inline unsigned char scaled(int value) {
    int full = value * master / 255;
    return static_cast<unsigned char>(full < 0 ? 0 : full > 255 ? 255 : full);
}

}  // namespace

int Fixture::made_ = 0;

Fixture::Fixture(int address) : address_(address) { ++made_; }
Fixture::~Fixture() { --made_; }

int Fixture::made() { return made_; }

void Fixture::move(int by) {
    Guard guard(&busy);
    address_ += by;
    if (address_ < 0)
        fault(address_);
}

void Fixture::render(Span<unsigned char> universe) const {
    for (int i = 0; i < slots(); i++)
        universe[static_cast<unsigned>(address_ + i)] = scaled(level_);
}

Dimmer::~Dimmer() { level_ = 0; }

Spot::Spot(int address, int pan, int tilt) : Dimmer(address), axes_{pan, tilt} {}

int Spot::slots() const { return 4; }

void Spot::render(Span<unsigned char> universe) const {
    Guard guard(&busy);
    Fixture::render(universe);
    auto put = [&](unsigned slot, int value) {
        universe[static_cast<unsigned>(address()) + slot] = scaled(value);
        return value & 255;
    };
    int sum = put(1, axes_[0]) + put(2, axes_[1]);
    put(3, fold(universe, static_cast<unsigned char>(sum), [](unsigned char a, unsigned char b) {
            return static_cast<unsigned char>(a ^ b);
        }));
}

Spot Spot::operator+(const Spot &other) const {
    return Spot(address(), axes_[0] + other.axes_[0], axes_[1] + other.axes_[1]);
}

template int Spot::turn<0>(int);
template int Spot::turn<1>(int);

}  // namespace desk
