/*
 * Tip sharing by hand, tuned: how far the same job can be taken with the instructions of every x86-64 processor.
 *
 * Of small boards for small racks each set is a byte in quick sharing, and 16 lines are looked at at once. Along the list each
 * line either goes on with a segment or begins one, without a branch. What the calls that count many pairs share with the form
 * that reads them from a table is in tuned.h; here the pairs are computed, in vectors.
 */
#include "tuned.h"

#include "along.h"
#include "mend.h"
#include "order.h"
#include "panel.h"

namespace {

/* Checks a file and keeps no line. */
Job check(const uint8_t *file, size_t length)
{
    const Job head = read_head(file, length);
    if (head.number != TIPSHARE_ACCEPTED) {
        return head;
    }
    return head.step == kSet ? check_single(file, head) : read_only(file, length);
}

/* Writes each set, and only these tips of one that has all of them; two lines at once. */
void strike(const uint8_t *__restrict from, size_t count, uint64_t tips, uint8_t *__restrict to)
{
    const __m128i all = _mm_set1_epi64x(static_cast<long long>(tips));
    size_t line = 0;
    for (; line + 2 <= count; line += 2) {
        const __m128i sets = _mm_loadu_si128(reinterpret_cast<const __m128i *>(from + kSet * line));
        const __m128i halves = _mm_cmpeq_epi32(_mm_and_si128(sets, all), all);
        const __m128i has_all = _mm_and_si128(halves, _mm_shuffle_epi32(halves, 0xB1));
        // A line that has them all keeps what it shares with them, any other line everything.
        const __m128i kept = _mm_andnot_si128(_mm_andnot_si128(all, has_all), sets);
        _mm_storeu_si128(reinterpret_cast<__m128i *>(to + kSet * line), kept);
    }
    if (line < count) {
        const uint64_t set = raw_at(from + kSet * line);
        put_raw(to + kSet * line, (set & tips) == tips ? tips : set);
    }
}

/* Pairs computed: half of p * (p - 1). */
struct Formula {
    static int32_t of(int32_t placements) { return placements * (placements - 1) / 2; }

    static int32_t of_few(int16_t placements) { return int32_t{placements} * static_cast<int16_t>(placements - 1) >> 1; }

    static __m128i of_four(__m128i placements)
    {
        const __m128i others = _mm_add_epi32(placements, _mm_set1_epi32(-1));
        return _mm_srli_epi32(_mm_madd_epi16(placements, others), 1);
    }
};

/* At most 64 lines for a rack of at most 8: each set is one byte, and 16 lines are looked at at once. */
struct Eight {
    static constexpr size_t kTips = TIPSHARE_JUNIOR_TIPS;
    static constexpr size_t kLines = TIPSHARE_JUNIOR_LINES;
    static constexpr size_t kStep = 16;
    // Up to a whole step the bytes past the last line are 0, those of the quantities anything.
    alignas(16) uint8_t sets[kLines];
    alignas(16) uint8_t quantities[kLines];
    size_t end;

    static bool takes(const Job &job) { return job.rack <= kTips && job.count <= kLines; }

    Eight(const Raw &raw, const Job &job) : end(job.count)
    {
        size_t line = 0;
        for (; line + kStep <= job.count; line += kStep) {
            put(sets + line, last_bytes(raw.sets + kSet * line));
        }
        // Joined before they are written: what is read at once is to be written at once.
        uint64_t rest[2] = {0, 0};
        for (size_t behind = 0; line + behind < job.count; behind++) {
            rest[behind / 8] |= uint64_t{raw.sets[kSet * (line + behind) + kSet - 1]} << 8 * (behind % 8);
        }
        if (line < kLines) {
            put(sets + line, _mm_set_epi64x(static_cast<long long>(rest[1]), static_cast<long long>(rest[0])));
        }
        for (size_t ones = 0; ones < kLines; ones += kStep) {
            put(quantities + ones, _mm_set1_epi8(1));
        }
        if (!job.single()) {
            memcpy(quantities, raw.quantities, job.count);
        }
    }

    /* The last bytes of 16 sets of a file. */
    static __m128i last_bytes(const uint8_t *from)
    {
        __m128i two[8];
        for (size_t i = 0; i < 8; i++) {
            two[i] = _mm_srli_epi64(_mm_loadu_si128(reinterpret_cast<const __m128i *>(from + 16 * i)), 56);
        }
        __m128i four[4];
        for (size_t i = 0; i < 4; i++) {
            four[i] = _mm_packs_epi32(two[2 * i], two[2 * i + 1]);
        }
        return _mm_packus_epi16(_mm_packs_epi32(four[0], four[1]), _mm_packs_epi32(four[2], four[3]));
    }

    static __m128i at(const uint8_t *bytes) { return _mm_load_si128(reinterpret_cast<const __m128i *>(bytes)); }

    static void put(uint8_t *bytes, __m128i to) { _mm_store_si128(reinterpret_cast<__m128i *>(bytes), to); }

    /* All ones for each of 16 lines that has the tip. */
    __m128i has(size_t line, unsigned tip) const
    {
        const __m128i bit = _mm_set1_epi8(static_cast<char>(1 << tip));
        return _mm_cmpeq_epi8(_mm_and_si128(at(sets + line), bit), bit);
    }

    /* The lines of each tip as a set of lines. */
    void list_lines(uint64_t (&lines_of)[kTips]) const
    {
        std::fill(std::begin(lines_of), std::end(lines_of), uint64_t{0});
        for (size_t line = 0; line < end; line += kStep) {
            __m128i bits = at(sets + line);
#pragma GCC unroll 8
            for (size_t tip = kTips; tip-- > 0;) {
                // The bit of the tip is the sign of its byte.
                lines_of[tip] |= uint64_t{static_cast<unsigned>(_mm_movemask_epi8(bits))} << line;
                bits = _mm_add_epi8(bits, bits);
            }
        }
    }

    /* Puts the lines with the tip on it, and leaves the others where they are. */
    __m128i put_on(unsigned tip, size_t line, __m128i planned) const
    {
        const __m128i here = has(line, tip);
        return _mm_or_si128(_mm_and_si128(here, _mm_set1_epi8(static_cast<char>(tip))), _mm_andnot_si128(here, planned));
    }

    /* The placements that each tip can take, 16 bits a tip. */
    __m128i placements() const
    {
        __m128i four[2] = {_mm_setzero_si128(), _mm_setzero_si128()};
#pragma GCC unroll 8
        for (unsigned tip = 0; tip < kTips; tip++) {
            __m128i sum = _mm_setzero_si128();
            for (size_t line = 0; line < end; line += kStep) {
                const __m128i of_lines = _mm_and_si128(has(line, tip), at(quantities + line));
                sum = _mm_add_epi64(sum, _mm_sad_epu8(of_lines, _mm_setzero_si128()));
            }
            four[tip / 4] = _mm_or_si128(four[tip / 4], _mm_slli_epi64(sum, static_cast<int>(16 * (tip % 4))));
        }
        return _mm_add_epi16(_mm_unpacklo_epi64(four[0], four[1]), _mm_unpackhi_epi64(four[0], four[1]));
    }

    /* Quick sharing; gives the number of pairs. The sets are used up. */
    uint32_t quick(const Job &job, size_t mounted, uint8_t *plan)
    {
        const Order order = order_with(mounted);
        alignas(16) int16_t behind[kTips];
        for (unsigned tip = 0; tip < kTips; tip++) {
            behind[tip] = static_cast<int16_t>(kTips - 1 - order.place_of(tip));
        }
        const __m128i later = _mm_load_si128(reinterpret_cast<const __m128i *>(behind));
        alignas(16) uint8_t planned[kLines];
        uint32_t pairs = 0;
        for (uint32_t left = job.total; left != 0;) {
            // The largest number has the most placements, and on a tie the first place.
            __m128i keys = _mm_or_si128(_mm_slli_epi16(placements(), 3), later);
            keys = _mm_max_epi16(keys, _mm_shuffle_epi32(keys, 0x4E));
            keys = _mm_max_epi16(keys, _mm_shuffle_epi32(keys, 0xB1));
            keys = _mm_max_epi16(keys, _mm_shufflelo_epi16(keys, 0xB1));
            const unsigned key = static_cast<unsigned>(_mm_cvtsi128_si32(keys)) & 0xFFFF;
            const unsigned tip = order.tip_at(static_cast<unsigned>(kTips) - 1 - key % kTips);
            pairs += pairs_on(key / kTips);
            left -= key / kTips;
            for (size_t line = 0; line < end; line += kStep) {
                put(planned + line, put_on(tip, line, at(planned + line)));
                put(sets + line, _mm_andnot_si128(has(line, tip), at(sets + line)));
            }
        }
        memcpy(plan, planned, job.count);
        return pairs;
    }

    /*
     * The Junior. Where each line has u or v, those without v have u, and those without u have v: the pairs of a choice
     * follow from the placements that each tip can take.
     */
    Junior choose(const Job &job, uint8_t *plan) const
    {
        const unsigned rack = static_cast<unsigned>(job.rack);
        const uint64_t all = ~uint64_t{0} >> (64 - job.count);
        alignas(16) uint16_t of_tip[kTips];
        _mm_store_si128(reinterpret_cast<__m128i *>(of_tip), placements());
        // The pairs with all lines of a tip on it and the others on one other tip.
        uint32_t pairs[kTips];
        for (unsigned tip = 0; tip < rack; tip++) {
            pairs[tip] = pairs_on(of_tip[tip]) + pairs_on(job.total - of_tip[tip]);
            // One tip for every line has more pairs than two.
            if (of_tip[tip] == job.total) {
                memset(plan, static_cast<int>(tip), job.count);
                return {pairs[tip], tip, tip};
            }
        }
        uint64_t lines[kTips];
        list_lines(lines);
        Junior chosen{0, rack, rack};
        for (unsigned u = 0; u < rack; u++) {
            for (unsigned v = u + 1; v < rack; v++) {
                const uint32_t most = pairs[u] > pairs[v] ? pairs[u] : pairs[v];
                if ((lines[u] | lines[v]) == all && (chosen.u == rack || most > chosen.pairs)) {
                    chosen = {most, u, v};
                }
            }
        }
        if (chosen.u < rack) {
            const bool to_first = pairs[chosen.u] >= pairs[chosen.v];
            const unsigned side = to_first ? chosen.u : chosen.v;
            const unsigned other = to_first ? chosen.v : chosen.u;
            alignas(16) uint8_t planned[kLines];
            for (size_t line = 0; line < end; line += kStep) {
                put(planned + line, put_on(side, line, _mm_set1_epi8(static_cast<char>(other))));
            }
            memcpy(plan, planned, job.count);
        }
        return chosen;
    }
};

/* Quick sharing of a job, its placements counted for it. */
uint32_t quick_of(const Raw &raw, const Job &job, size_t mounted, uint8_t *plan)
{
    if (Eight::takes(job)) {
        return Eight(raw, job).quick(job, mounted, plan);
    }
    Planes planes;
    planes.count_file(raw, job);
    return with_quantities(job, raw.quantities,
                           [&](auto quantities) { return quick<Formula>(raw, quantities, job, mounted, planes, plan); });
}

/* Copies lines to where each has so many bytes: quantities of 1 are put in or left out. Gives what follows. */
uint8_t *copy_lines(const uint8_t *from, const Job &job, size_t step, uint8_t *to)
{
    if (job.step == step) {
        memcpy(to, from, step * job.count);
    } else {
        for (size_t line = 0; line < job.count; line++) {
            put_raw(to + step * line, raw_at(from + job.step * line));
            if (step > kSet) {
                to[step * line + kSet] = 1;
            }
        }
    }
    return to + step * job.count;
}

/*
 * The table of best sharing with the pairs computed: they are held eight times and placements two times, for (2 p - 1)^2 is
 * 8 * p (p - 1) / 2 + 1. All numbers stay below 2^24, where a float is exact, and the largest of two floats is one instruction.
 */
struct Stretches : Rows<Stretches, float> {
    static constexpr int kPlacement = 2;

    // Pairs held eight times, and 1 less: what they add as the left stretch.
    alignas(16) Row left[kMostTips + 1];

    using Rows::Rows;

    /* Whether the tip that stands so far from the first has the most pairs. */
    bool has_most(int a, int length, int d) const
    {
        const float *const right_of_tip = within[length - 1 - d] + a + d + 1;
        const float in_neither = within[length][a] - 1 - within[d][a] - *right_of_tip;
        return in_neither * in_neither + left[d][a] + right[length - 1 - d][a + d + 1] == right[length][a];
    }

    void put(size_t length, size_t a, int32_t pairs)
    {
        right[length][a] = static_cast<float>(8 * pairs);
        left[length][a] = static_cast<float>(8 * pairs - 1);
    }

    /* Stretches without a tip. */
    void fill_empty()
    {
        for (size_t a = 0; a < ranks + 8; a += 4) {
            _mm_store_ps(left[0] + a, _mm_set1_ps(-1));
            _mm_store_ps(right[0] + a, _mm_setzero_ps());
        }
    }

    void fill()
    {
        fill_empty();
        for (size_t length = 1; length <= ranks; length++) {
            const __m128 one = _mm_set1_ps(1);
            size_t a = 0;
            for (; a <= ranks - length; a += 4) {
                const __m128 most = largest(length, a, _mm_sub_ps(sum_within(length, a), one));
                _mm_store_ps(right[length] + a, most);
                _mm_store_ps(left[length] + a, _mm_sub_ps(most, one));
            }
            _mm_store_ps(right[length] + a, _mm_setzero_ps());
        }
    }

    /* The placements within each of four stretches of this length, from those within the shorter ones. */
    [[gnu::always_inline]] __m128 sum_within(size_t length, size_t a)
    {
        __m128 lines = _mm_load_ps(within[length] + a);
        if (length >= 2) {
            const float *const shorter = within[length - 1] + a;
            const __m128 either = _mm_add_ps(_mm_load_ps(shorter), _mm_loadu_ps(shorter + 1));
            lines = _mm_add_ps(lines, _mm_sub_ps(either, _mm_loadu_ps(within[length - 2] + a + 1)));
            _mm_store_ps(within[length] + a, lines);
        }
        return lines;
    }

    /* Whether no entry taken is below what some tip of its stretch needs. */
    bool hold()
    {
        __m128 lacks = _mm_setzero_ps();
        const __m128 one = _mm_set1_ps(1);
        for (size_t length = 1; length <= ranks; length++) {
            const size_t stretches = ranks - length + 1;
            for (size_t a = 0; a < stretches; a += 4) {
                const __m128 most = largest(length, a, _mm_sub_ps(sum_within(length, a), one));
                const __m128 lower = _mm_cmplt_ps(_mm_load_ps(right[length] + a), most);
                // Behind the last stretch nothing is looked at.
                const __m128i number = _mm_add_epi32(_mm_set1_epi32(static_cast<int>(a)), _mm_setr_epi32(0, 1, 2, 3));
                const __m128i here = _mm_cmplt_epi32(number, _mm_set1_epi32(static_cast<int>(stretches)));
                lacks = _mm_or_ps(lacks, _mm_and_ps(lower, _mm_castsi128_ps(here)));
            }
        }
        return _mm_movemask_ps(lacks) == 0;
    }

    /* The largest number over the tips of each of four stretches. */
    __m128 largest(size_t length, size_t a, __m128 lines) const
    {
        const float *const all_within = within[0];
        const float *const all_left = left[0];
        const float *const all_right = right[0];
        const auto with_tip = [=](size_t on_left, size_t on_right) {
            const __m128 not_left = _mm_sub_ps(lines, _mm_load_ps(all_within + on_left));
            const __m128 in_neither = _mm_sub_ps(not_left, _mm_loadu_ps(all_within + on_right));
            const __m128 beside = _mm_add_ps(_mm_load_ps(all_left + on_left), _mm_loadu_ps(all_right + on_right));
            return _mm_add_ps(_mm_mul_ps(in_neither, in_neither), beside);
        };
        size_t on_left = a;
        size_t on_right = kStarts * (length - 1) + a + 1;
        // Every other tip by itself: a largest waits for the one before it.
        __m128 best = _mm_setzero_ps();
        __m128 other = best;
        size_t d = 0;
#pragma GCC unroll 2
        for (; d + 2 <= length; d += 2) {
            best = _mm_max_ps(best, with_tip(on_left, on_right));
            other = _mm_max_ps(other, with_tip(on_left + kStarts, on_right - (kStarts - 1)));
            on_left += 2 * kStarts;
            on_right -= 2 * (kStarts - 1);
        }
        if (d < length) {
            best = _mm_max_ps(best, with_tip(on_left, on_right));
        }
        return _mm_max_ps(best, other);
    }

    uint32_t pairs_of(size_t a, size_t b) const { return static_cast<uint32_t>(right[b - a + 1][a]) / 8; }

    /* The pairs of all the ranks, which may be none. */
    uint32_t pairs() const { return static_cast<uint32_t>(right[ranks][0]) / 8; }
};

/* A segment of a plan along the list: the tips that its lines share, in the byte order of a file, and what is before its end. */
struct Segment {
    uint64_t shared;
    uint32_t lines;
    uint32_t placements;
};

/* Splits the lines into segments, and gives their number; each line writes the segment before it, which stays if it ends it. */
template <typename Quantities>
size_t split(const Raw &raw, Quantities quantities, size_t lines, size_t mounted, Segment *segments)
{
    uint64_t shared = __builtin_bswap64(tips_before(mounted));
    uint32_t placements = 0;
    size_t ended = 0;
    for (size_t line = 0; line < lines; line++) {
        segments[ended] = {shared, static_cast<uint32_t>(line), placements};
        const uint64_t set = raw.set(line);
        const uint64_t both = shared & set;
        ended += both == 0 ? 1 : 0;
        shared = both == 0 ? set : both;
        placements += quantities[line];
    }
    segments[ended] = {shared, static_cast<uint32_t>(lines), placements};
    return ended + 1;
}

/* Plans along the list; the plan is laid 16 lines at once, which may pass the end of a segment. */
template <typename Quantities>
Along lay_along(const Raw &raw, Quantities quantities, size_t lines, size_t mounted, uint8_t *plan)
{
    constexpr size_t kStep = 16;
    Segment segments[kMostLines + 1];
    alignas(kStep) uint8_t laid[kMostLines + kStep];
    uint32_t placements[kMostTips] = {};
    const size_t number = split(raw, quantities, lines, mounted, segments);
    size_t line = 0;
    uint32_t before = 0;
    for (size_t at = 0; at < number; at++) {
        const Segment &segment = segments[at];
        const unsigned tip = lowest(__builtin_bswap64(segment.shared));
        const __m128i tips = _mm_set1_epi8(static_cast<char>(tip));
        for (size_t from = line; from < segment.lines; from += kStep) {
            _mm_storeu_si128(reinterpret_cast<__m128i *>(laid + from), tips);
        }
        placements[tip] += segment.placements - before;
        before = segment.placements;
        line = segment.lines;
    }
    memcpy(plan, laid, lines);
    return {static_cast<uint32_t>(number - 1), pairs_of(placements)};
}

}  // namespace

extern "C" {

uint32_t tuned_read(const uint8_t *file, size_t file_len, uint64_t *answer, size_t answer_len)
{
    if (answer_len < TIPSHARE_ANSWER_PLACES) {
        return TIPSHARE_SHORT_ANSWER;
    }
    const Job job = check(file, file_len);
    return answered(answer, job.number, job.line, job.rack, job.count, 0);
}

uint32_t tuned_common(const uint8_t *file, size_t file_len, uint64_t *answer, size_t answer_len)
{
    Raw raw;
    const auto read = [&] { return read_raw(file, file_len, raw); };
    return answer_with(answer, answer_len, read, [&](const Job &job) {
        Planes planes;
        planes.count_file(raw, job);
        uint64_t tips;
        const unsigned top = planes.largest(tips);
        return answered(answer, TIPSHARE_ACCEPTED, 0, top, job.total - top, top == 0 ? 0 : __builtin_bswap64(tips));
    });
}

uint32_t tuned_keep(const uint8_t *file, size_t file_len, uint16_t k, uint8_t *out, size_t out_len,
                    uint64_t *answer, size_t answer_len)
{
    Raw raw;
    const auto read = [&] { return read_raw(file, file_len, raw); };
    return answer_with(answer, answer_len, read, [&](const Job &job) {
        Planes planes;
        planes.count_file(raw, job);
        uint64_t tips;
        const unsigned top = planes.largest(tips);
        const auto tips_with = [&](unsigned placements) { return planes.with_at_least(placements); };
        const auto strike_them = [&](const Kept &kept, uint8_t *to) {
            if (!job.single()) {
                write_lines(to, raw.quantities, job.count,
                            [&](size_t line) { return kept.of(raw.set(line), raw.quantities[line]); });
            } else if (kept.margin == 0) {
                strike(raw.sets, job.count, kept.tips, to);
            } else {
                memcpy(to, raw.sets, kSet * job.count);
            }
        };
        return answer_keep(file, file_len, {k, out, out_len}, job, top, answer, tips_with, strike_them);
    });
}

uint32_t tuned_goal(const uint8_t *file, size_t file_len, uint32_t goal, uint8_t *out, size_t out_len,
                    uint64_t *answer, size_t answer_len)
{
    return goal_by<Formula>(file, file_len, goal, out, out_len, answer, answer_len);
}

uint32_t tuned_quick(const uint8_t *file, size_t file_len, size_t mounted, uint8_t *plan, size_t plan_len,
                     uint64_t *answer, size_t answer_len)
{
    Raw raw;
    const auto read = [&] { return read_raw(file, file_len, raw); };
    return answer_with(answer, answer_len, read, [&](const Job &job) {
        if (is_outside(mounted, job)) {
            return refused(answer, TIPSHARE_MOUNTED_OUTSIDE);
        }
        if (plan_len < job.count) {
            return refused(answer, TIPSHARE_SHORT_PLAN);
        }
        return answered(answer, TIPSHARE_ACCEPTED, 0, quick_of(raw, job, mounted, plan), 0, 0);
    });
}

uint32_t tuned_best(const uint8_t *file, size_t file_len, size_t mounted, uint8_t *plan, size_t plan_len,
                    uint32_t *table, size_t table_len, uint64_t *answer, size_t answer_len)
{
    return best_by<Stretches>(file, file_len, mounted, plan, plan_len, table, table_len, answer, answer_len);
}

uint32_t tuned_along(const uint8_t *file, size_t file_len, size_t mounted, uint8_t *plan, size_t plan_len,
                     uint64_t *answer, size_t answer_len)
{
    Raw raw;
    const auto read = [&] { return read_raw(file, file_len, raw); };
    return answer_with(answer, answer_len, read, [&](const Job &job) {
        return answer_along(job, mounted, plan_len, answer, [&] {
            return with_quantities(job, raw.quantities, [&](auto quantities) {
                return lay_along(raw, quantities, job.count, mounted, plan);
            });
        });
    });
}

uint32_t tuned_exact(const uint8_t *file, size_t file_len, size_t mounted, uint32_t price, uint8_t *plan,
                     size_t plan_len, uint32_t *table, size_t table_len, uint64_t *answer, size_t answer_len)
{
    return exact_by<Formula>(file, file_len, mounted, price, plan, plan_len, table, table_len, answer, answer_len);
}

uint32_t tuned_check(const uint8_t *file, size_t file_len, const uint8_t *plan, size_t plan_len, uint32_t claim,
                     const uint32_t *table, size_t table_len, uint64_t *answer, size_t answer_len)
{
    return check_by<Stretches>(file, file_len, plan, plan_len, claim, table, table_len, answer, answer_len);
}

uint32_t tuned_junior(const uint8_t *file, size_t file_len, uint8_t *plan, size_t plan_len, uint64_t *answer,
                      size_t answer_len)
{
    Raw raw;
    const auto read = [&] { return read_raw(file, file_len, raw); };
    return answer_with(answer, answer_len, read, [&](const Job &job) {
        return answer_junior(job, plan_len, answer, [&] { return Eight(raw, job).choose(job, plan); });
    });
}

uint32_t tuned_merge(const uint8_t *first, size_t first_len, const uint8_t *second, size_t second_len, uint8_t *out,
                     size_t out_len, uint64_t *answer, size_t answer_len)
{
    const auto read_first = [&] { return check(first, first_len); };
    const auto read_second = [&](const Job &) { return check(second, second_len); };
    return answer_with_both(answer, answer_len, read_first, read_second, [&](const Job &one, const Job &two) {
        return answer_merge(one, two, out_len, answer, [&](const Job &panel) {
            memcpy(out, first, kHead);
            out[4] = panel.step == kSet ? 1 : 2;
            out[6] = static_cast<uint8_t>(panel.count >> 8);
            out[7] = static_cast<uint8_t>(panel.count);
            uint8_t *const behind = copy_lines(first + kHead, one, panel.step, out + kHead);
            copy_lines(second + kHead, two, panel.step, behind);
        });
    });
}

uint32_t tuned_alone(const uint8_t *first, size_t first_len, const uint8_t *second, size_t second_len, uint8_t *plan,
                     size_t plan_len, uint64_t *answer, size_t answer_len)
{
    Raw of_first, of_second;
    const auto read_first = [&] { return read_raw(first, first_len, of_first); };
    const auto read_second = [&](const Job &) { return read_raw(second, second_len, of_second); };
    return answer_with_both(answer, answer_len, read_first, read_second, [&](const Job &one, const Job &two) {
        if (plan_len < one.count + two.count) {
            return refused(answer, TIPSHARE_SHORT_PLAN);
        }
        const uint32_t pairs = quick_of(of_first, one, TIPSHARE_NO_TIP, plan);
        const uint32_t other_pairs = quick_of(of_second, two, TIPSHARE_NO_TIP, plan + one.count);
        return answered(answer, TIPSHARE_ACCEPTED, 0, pairs, other_pairs, 0);
    });
}

uint32_t tuned_mend(const uint8_t *file, size_t file_len, uint8_t *out, size_t out_len, uint8_t *report,
                    size_t report_len, uint64_t *answer, size_t answer_len)
{
    if (answer_len < TIPSHARE_ANSWER_PLACES) {
        return TIPSHARE_SHORT_ANSWER;
    }
    // A good file is written as it is, and nothing is told of it.
    if (out_len >= file_len && check(file, file_len).number == TIPSHARE_ACCEPTED) {
        memcpy(out, file, file_len);
        return answered(answer, TIPSHARE_ACCEPTED, 0, file_len, 0, 0);
    }
    const Job job = read_form(file, file_len);
    if (job.number != TIPSHARE_ACCEPTED) {
        return refused(answer, job.number);
    }
    const Mend mend{out, out_len, report, report_len};
    const size_t lines = lines_read(job, file_len);
    // Two changes a line: one with three comes after nine with one at most, which hold the 2,048 placements.
    if (out_len >= length_of(lines, job.step) && report_len >= kChange * (2 * lines + 2)) {
        return write_mended(file, file_len, job, lines, mend, answer);
    }
    return answer_mend(file, file_len, job, mend, answer);
}

uint32_t tuned_order(const uint32_t *parts, size_t parts_len, const uint32_t *rules, size_t rules_len,
                     uint8_t *order, size_t order_len, uint64_t *answer, size_t answer_len)
{
    return order::answer_order({parts, parts_len, rules, rules_len, answer, answer_len}, order, order_len,
                               [](const order::Given &given, uint8_t *found) {
                                   return given.count <= 64 ? order::Tuned<1>(given).least(found)
                                                            : order::Tuned<2>(given).least(found);
                               });
}

uint32_t tuned_order_by_tips(const uint32_t *parts, size_t parts_len, const uint32_t *rules, size_t rules_len,
                             const uint8_t *plan, size_t plan_len, size_t mounted, uint8_t *order, size_t order_len,
                             uint64_t *answer, size_t answer_len)
{
    const order::LentTips tips{plan, plan_len, mounted};
    return order::answer_by_tips({parts, parts_len, rules, rules_len, answer, answer_len}, tips, order, order_len,
                                 [&](const order::Given &given, uint8_t *found) {
                                     return given.count <= 64 ? order::Tuned<1>(given).by_tips(tips, found)
                                                              : order::Tuned<2>(given).by_tips(tips, found);
                                 });
}

uint32_t tuned_windows(const uint32_t *parts, size_t parts_len, const uint32_t *rules, size_t rules_len,
                       uint8_t *first, size_t first_len, uint8_t *last, size_t last_len, uint64_t *answer,
                       size_t answer_len)
{
    return order::answer_windows({parts, parts_len, rules, rules_len, answer, answer_len},
                                 {first, first_len, last, last_len},
                                 [](const order::Given &lent, order::Windows &found) {
                                     uint32_t numbers[TIPSHARE_PART_PLACES * order::kMostParts];
                                     memcpy(numbers, lent.parts, TIPSHARE_PART_PLACES * lent.count * sizeof *numbers);
                                     const order::Given given{numbers, lent.count, lent.rules, lent.rule_count};
                                     return given.count <= 64 ? order::Tuned<1>(given).windows(numbers, found)
                                                              : order::Tuned<2>(given).windows(numbers, found);
                                 });
}

size_t tuned_report(const uint8_t *file, size_t file_len, uint8_t *out, size_t out_len)
{
    return report_by<Formula, Stretches>(file, file_len, out, out_len);
}

}  // extern "C"
