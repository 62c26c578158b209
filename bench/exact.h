/* What the hand-written implementations share for exact sharing. */
#pragma once

#include "along.h"
#include "job.h"

namespace job {

/* What exact sharing lends, beside the mounted tip. */
struct Exact {
    uint32_t price;
    size_t plan_len;
    uint32_t *table;
    size_t table_len;
};

/* A plan of exact sharing: its pairs and its different tips. */
struct Shared {
    uint32_t pairs;
    uint32_t tips;
};

/* The gain of a tip that this many placements of a set allow: their pairs, or the price for none. */
inline uint32_t gain_of(uint32_t placements, uint32_t price) { return placements == 0 ? price : pairs_on(placements); }

/* The set of a line by the ranks of the named tips. */
inline uint32_t ranks_of(const Named &named, uint64_t set)
{
    uint32_t ranks = 0;
    for (uint64_t rest = set; rest != 0; rest &= rest - 1) {
        ranks |= uint32_t{1} << named.rank[lowest(rest)];
    }
    return ranks;
}

/*
 * Answers exact sharing on a good file: refused by the mounted tip, a short plan, too many named tips or a short table, else
 * by share(named, price).
 */
template <typename Share>
[[gnu::always_inline]] inline uint32_t answer_exact(const uint64_t *sets, const Job &job, size_t mounted,
                                                    const Exact &exact, uint64_t *answer, const Share &share)
{
    if (is_outside(mounted, job)) {
        return refused(answer, TIPSHARE_MOUNTED_OUTSIDE);
    }
    if (exact.plan_len < job.count) {
        return refused(answer, TIPSHARE_SHORT_PLAN);
    }
    const Named named(sets, job.count);
    if (named.count > TIPSHARE_EXACT_TIPS) {
        return refused(answer, TIPSHARE_TOO_MANY_NAMED);
    }
    if (exact.table_len < size_t{2} << named.count) {
        return refused(answer, TIPSHARE_SHORT_TABLE);
    }
    const Shared shared = share(named, exact.price < TIPSHARE_MOST_PRICE ? exact.price : TIPSHARE_MOST_PRICE);
    return answered(answer, TIPSHARE_ACCEPTED, 0, shared.pairs, shared.tips, 0);
}

/*
 * Takes tip after tip, by a table of the placements within each set of ranks and of its score: the mounted one of those that
 * attain the score, else the lowest. take(tip) lays the lines left on it and gives their placements.
 */
template <typename Take>
[[gnu::always_inline]] inline Shared take_tips(const Named &named, size_t mounted, uint32_t price,
                                               const uint32_t *table, const Take &take)
{
    const uint32_t sets = uint32_t{1} << named.count;
    const uint32_t *const scores = table + sets;
    const Order order{named.has(mounted) ? named.rank[mounted] : 0u};
    Shared shared{0, 0};
    for (uint32_t left = sets - 1; left != 0;) {
        const auto attains = [&](unsigned rank) {
            const uint32_t without = left & ~(uint32_t{1} << rank);
            return without != left && gain_of(table[left] - table[without], price) + scores[without] == scores[left];
        };
        unsigned place = 0;
        while (!attains(order.tip_at(place))) {
            place++;
        }
        const unsigned rank = order.tip_at(place);
        left &= ~(uint32_t{1} << rank);
        const uint32_t placements = take(named.tip[rank]);
        if (placements != 0) {
            shared.pairs += pairs_on(placements);
            shared.tips++;
        }
    }
    return shared;
}

}  // namespace job
