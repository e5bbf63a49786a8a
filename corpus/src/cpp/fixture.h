// Fixtures: classes with members inside and outside, virtual functions, templates, namespaces.
#pragma once

namespace desk {

extern volatile int master;
void fault(int value);

template <typename T>
struct Span {
    T *first;
    unsigned count;
    T &operator[](unsigned i) const {
        if (i >= count)
            fault(static_cast<int>(i));
        return first[i];
    }
    T *begin() const { return first; }
    T *end() const { return first + count; }
};

template <typename T, typename F>
inline T fold(Span<T> span, T start, F f) {
    for (T &each : span)
        start = f(start, each);
    return start;
}

class Fixture {
public:
    explicit Fixture(int address);
    virtual ~Fixture();
    virtual int slots() const = 0;
    virtual void render(Span<unsigned char> universe) const;
    int address() const { return address_; }
    void move(int by);
    static int made();

protected:
    int level_ = 0;

private:
    int address_;
    static int made_;
};

class Dimmer : public Fixture {
public:
    using Fixture::Fixture;
    ~Dimmer() override;
    int slots() const override { return 1; }
};

class Spot : public Dimmer {
public:
    Spot(int address, int pan, int tilt);
    int slots() const override;
    void render(Span<unsigned char> universe) const override;
    Spot operator+(const Spot &other) const;
    template <int Axis>
    int turn(int by);

private:
    int axes_[2];
};

template <int Axis>
int Spot::turn(int by) {
    axes_[Axis] = (axes_[Axis] + by) % 540;
    return axes_[Axis];
}

extern template int Spot::turn<0>(int);

}  // namespace desk
