/* Parts and rules that leave an order, to measure the placing order on. */
#include <algorithm>
#include <numeric>
#include <random>

#include "boards.h"
#include "tipshare.h"

namespace {

/* A number from 0 to most, the same on every machine. */
uint32_t up_to(std::mt19937 &random, uint32_t most) { return static_cast<uint32_t>(random() % (uint64_t{most} + 1)); }

/* The tips that the parts of an order by tips are on. */
constexpr uint32_t kTips = 8;

/*
 * Each part has a position of its own, and a window that reaches so far to both sides; a quarter of the positions is for
 * fine parts, a quarter for tall ones; every rule is kept by these positions. Each part is on any of a few tips.
 */
File file_of(uint32_t seed, uint32_t count, uint32_t rules, uint32_t reach)
{
    std::mt19937 random(seed);
    std::vector<uint32_t> position(count);
    std::iota(position.begin(), position.end(), 0u);
    for (uint32_t part = count; part > 1; part--) {
        std::swap(position[part - 1], position[up_to(random, part - 1)]);
    }
    File file{{}, 0, TIPSHARE_NO_TIP, {}, 0, {}};
    for (uint32_t part = 0; part < count; part++) {
        const uint32_t at = position[part];
        const uint32_t first = at - std::min(at, up_to(random, reach));
        const uint32_t last = std::min(count - 1, at + up_to(random, reach));
        const uint32_t fine = at < count / 4, tall = at >= count - count / 4;
        file.parts.insert(file.parts.end(), {first, last, fine, tall});
    }
    for (uint32_t part = 0; part < count; part++) {
        file.plan.push_back(static_cast<uint8_t>(up_to(random, kTips - 1)));
    }
    file.mounted = 0;
    while (file.rules.size() < TIPSHARE_RULE_PLACES * rules) {
        const uint32_t one = up_to(random, count - 1), other = up_to(random, count - 1);
        if (position[one] < position[other]) {
            file.rules.insert(file.rules.end(), {one, other});
        }
    }
    return file;
}

Boards boards_of(const char *name, const char *description, uint32_t count, uint32_t rules, uint32_t reach)
{
    Boards boards{name, description, 0, 0, false, false, {}};
    boards.parts = count;
    for (uint32_t file = 0; file < kFilesEach; file++) {
        boards.files.push_back(file_of(1000 * file + count + reach, count, rules, reach));
    }
    return boards;
}

}  // namespace

std::vector<Boards> order_boards()
{
    return {
        boards_of("parts-wide", "parts alone: 128, each at up to 128 positions, and 1,000 rules", 128, 1000, 128),
        boards_of("parts-narrow", "parts alone: 128, each at up to 17 positions, and 1,000 rules", 128, 1000, 8),
        boards_of("parts-no-rules", "parts alone: 128, each at up to 65 positions, no rule", 128, 0, 32),
        boards_of("parts-20", "parts alone: 20, each at up to 17 positions, and 10 rules", 20, 10, 8),
    };
}

Boards growth_order(size_t parts)
{
    const auto count = static_cast<uint32_t>(parts);
    return boards_of("parts", "each part anywhere, eight rules a part", count, 8 * count, count);
}
