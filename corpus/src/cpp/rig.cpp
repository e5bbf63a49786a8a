// The standard library's templates, exceptions and their cold parts.
#include <algorithm>
#include <map>
#include <memory>
#include <stdexcept>
#include <string>
#include <vector>

#include "fixture.h"

namespace desk {

struct Entry {
    std::string name;
    int first;
};

static int checked(const Entry &entry) {
    if (entry.first < 0)
        throw std::out_of_range("slot of " + entry.name);
    return entry.first;
}

int rig_sum(const std::vector<Entry> &entries) {
    int sum = 0;
    try {
        for (const Entry &entry : entries)
            sum += checked(entry);
    } catch (const std::exception &error) {
        fault(error.what()[0]);
    }
    return sum;
}

void rig_sort(std::vector<Entry> &entries) {
    std::sort(entries.begin(), entries.end(),
              [](const Entry &a, const Entry &b) { return a.first < b.first; });
}

std::map<std::string, int> rig_index(const std::vector<Entry> &entries) {
    std::map<std::string, int> index;
    for (const Entry &entry : entries)
        index[entry.name] = entry.first;
    return index;
}

std::unique_ptr<Fixture> rig_make(int kind) {
    if (kind)
        return std::make_unique<Spot>(kind, 1, 2);
    return std::make_unique<Dimmer>(3);
}

}  // namespace desk
