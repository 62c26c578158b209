/* What the hand-written implementations share for two boards on one panel. */
#pragma once

#include "job.h"

namespace job {


/* Answers a call on two files: refused where the answer is short or a file not good, the first first, else by work. */
template <typename ReadFirst, typename ReadSecond, typename Work>
[[gnu::always_inline]] inline uint32_t answer_with_both(uint64_t *answer, size_t answer_len,
                                                        const ReadFirst &read_first, const ReadSecond &read_second,
                                                        const Work &work)
{
    return answer_with(answer, answer_len, read_first, [&](const Job &first) {
        const Job second = read_second(first);
        if (second.number != TIPSHARE_ACCEPTED) {
            return refused(answer, second.number, second.line);
        }
        return work(first, second);
    });
}

/* The board of two good files, or why there is none. */
inline Job panel_of(const Job &first, const Job &second)
{
    if (first.rack != second.rack) {
        return not_read(TIPSHARE_RACKS_DIFFER);
    }
    Job panel = first;
    panel.count += second.count;
    panel.total += second.total;
    if (panel.count > kMostLines) {
        return not_read(TIPSHARE_TOO_MANY_LINES);
    }
    if (panel.total > kMostPlacements) {
        return not_read(TIPSHARE_TOO_MANY_PLACEMENTS);
    }
    panel.step = panel.single() ? kSet : kSet + 1;
    return panel;
}

/* Answers merging on two good files: refused by the panel or a short output, else write(panel) writes it. */
template <typename Write>
[[gnu::always_inline]] inline uint32_t answer_merge(const Job &first, const Job &second, size_t out_len,
                                                    uint64_t *answer, const Write &write)
{
    const Job panel = panel_of(first, second);
    if (panel.number != TIPSHARE_ACCEPTED) {
        return refused(answer, panel.number);
    }
    const size_t written = length_of(panel.count, panel.step);
    if (out_len < written) {
        return refused(answer, TIPSHARE_SHORT_OUTPUT);
    }
    write(panel);
    return answered(answer, TIPSHARE_ACCEPTED, 0, written, 0, 0);
}

}  // namespace job
