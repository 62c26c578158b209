/* What the hand-written implementations share for plans along the list. */
#pragma once

#include "job.h"

namespace job {

/* A plan along the list: its tip changes, and its pairs. */
struct Along {
    uint32_t changes;
    uint32_t pairs;
};

/* Answers a plan along the list on a good file: refused by the mounted tip or a short buffer, else by lay(). */
template <typename Lay>
[[gnu::always_inline]] inline uint32_t answer_along(const Job &job, size_t mounted, size_t plan_len, uint64_t *answer,
                                                    const Lay &lay)
{
    if (is_outside(mounted, job)) {
        return refused(answer, TIPSHARE_MOUNTED_OUTSIDE);
    }
    if (plan_len < job.count) {
        return refused(answer, TIPSHARE_SHORT_PLAN);
    }
    const Along along = lay();
    return answered(answer, TIPSHARE_ACCEPTED, 0, along.changes, along.pairs, 0);
}

/* The tips that suit before the first line: the mounted one, or all of them. */
inline uint64_t tips_before(size_t mounted) { return mounted == TIPSHARE_NO_TIP ? ~uint64_t{0} : uint64_t{1} << mounted; }

/* The pairs of a plan with these placements on each tip. */
inline uint32_t pairs_of(const uint32_t *placements)
{
    uint32_t pairs = 0;
    for (size_t tip = 0; tip < kMostTips; tip++) {
        pairs += pairs_on(placements[tip]);
    }
    return pairs;
}

}  // namespace job
