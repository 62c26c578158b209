/* What the hand-written implementations share for mending a job file. */
#pragma once

#include "job.h"

namespace job {

/* What can be told of a line, or of the file. */
enum Change : uint8_t { kTipsCleared = 1, kDroppedAsEmpty, kQuantityRaised, kDroppedForTotal, kCountChanged, kBytesBehind };

constexpr size_t kChange = 3;
constexpr size_t kWholeFile = 65535;

/* What a mending lends. */
struct Mend {
    uint8_t *out;
    size_t out_len;
    uint8_t *report;
    size_t report_len;
};

/* Goes through the lines: each is kept with its tips and quantity, or not, and what changes is told. */
template <typename Keep, typename Tell>
[[gnu::always_inline]] inline void mend_lines(const uint8_t *file, const Job &job, size_t lines, const Keep &keep,
                                              const Tell &tell)
{
    const uint64_t bad = outside(job.rack);
    const uint8_t *at = file + kHead;
    uint32_t total = 0;
    for (size_t line = 0; line < lines; line++, at += job.step) {
        const uint64_t set = __builtin_bswap64(raw_at(at));
        const uint64_t tips = set & ~bad;
        if (tips != set) {
            tell(line, kTipsCleared);
        }
        if (tips == 0) {
            tell(line, kDroppedAsEmpty);
            continue;
        }
        uint32_t quantity = quantity_at(at, job);
        if (quantity == 0) {
            tell(line, kQuantityRaised);
            quantity = 1;
        }
        total += quantity;
        if (total > kMostPlacements) {
            for (; line < lines; line++) {
                tell(line, kDroppedForTotal);
            }
            return;
        }
        keep(tips, static_cast<uint8_t>(quantity));
    }
}

/* The number of lines that are read. */
inline size_t lines_read(const Job &job, size_t file_len)
{
    const size_t whole = (file_len - kHead) / job.step;
    const size_t lines = job.count < whole ? job.count : whole;
    return lines < kMostLines ? lines : kMostLines;
}

/* Writes the mended file and its changes, for which there is room, and answers with both lengths. */
inline uint32_t write_mended(const uint8_t *file, size_t file_len, const Job &job, size_t lines, const Mend &mend,
                             uint64_t *answer)
{
    uint8_t *to = mend.out + kHead;
    uint8_t *told = mend.report;
    size_t kept = 0;
    const auto tell = [&](size_t line, Change change) {
        *told++ = static_cast<uint8_t>(line >> 8);
        *told++ = static_cast<uint8_t>(line);
        *told++ = change;
    };
    const auto keep = [&](uint64_t tips, uint8_t quantity) {
        put_raw(to, __builtin_bswap64(tips));
        if (job.step > kSet) {
            to[kSet] = quantity;
        }
        to += job.step;
        kept++;
    };
    mend_lines(file, job, lines, keep, tell);
    if (kept != job.count) {
        tell(kWholeFile, kCountChanged);
    }
    if (file_len > length_of(lines, job.step)) {
        tell(kWholeFile, kBytesBehind);
    }
    memcpy(mend.out, file, kHead - 2);
    mend.out[kHead - 2] = static_cast<uint8_t>(kept >> 8);
    mend.out[kHead - 1] = static_cast<uint8_t>(kept);
    return answered(answer, TIPSHARE_ACCEPTED, 0, static_cast<uint64_t>(to - mend.out),
                    static_cast<uint64_t>(told - mend.report), 0);
}

/* Mends a file whose head is good: the lengths are worked out first, so that nothing is written without room for all. */
inline uint32_t answer_mend(const uint8_t *file, size_t file_len, const Job &job, const Mend &mend, uint64_t *answer)
{
    const size_t lines = lines_read(job, file_len);
    size_t kept = 0;
    size_t changes = 0;
    mend_lines(file, job, lines, [&](uint64_t, uint8_t) { kept++; }, [&](size_t, Change) { changes++; });
    changes += size_t{kept != job.count} + size_t{file_len > length_of(lines, job.step)};
    if (mend.out_len < length_of(kept, job.step) || mend.report_len < kChange * changes) {
        return refused(answer, TIPSHARE_SHORT_OUTPUT);
    }
    return write_mended(file, file_len, job, lines, mend, answer);
}

}  // namespace job
