/*
 * Tip sharing by hand, tuned, with the pairs among placements read from a table, as the proved library is to read them: the
 * calls that count pairs for many sets of tips. The places of four look-ups are worked out in vectors, and the look-ups are made
 * one by one, for no x86-64 processor must have an instruction that makes four.
 */
#include "tuned.h"

namespace {

constexpr size_t kMostPlacements = 2048;

/* A place for 0 to 2,048 placements. */
struct PairTable {
    int32_t of[kMostPlacements + 1];

    constexpr PairTable() : of{}
    {
        for (size_t placements = 1; placements <= kMostPlacements; placements++) {
            of[placements] = of[placements - 1] + static_cast<int32_t>(placements) - 1;
        }
    }
};

constexpr PairTable kPairs;

struct Table {
    static int32_t of(int32_t placements) { return kPairs.of[placements]; }

    static int32_t of_few(int16_t placements) { return kPairs.of[placements]; }

    static __m128i of_four(__m128i placements)
    {
        const uint64_t low = static_cast<uint64_t>(_mm_cvtsi128_si64(placements));
        const uint64_t high = static_cast<uint64_t>(_mm_cvtsi128_si64(_mm_unpackhi_epi64(placements, placements)));
        const __m128i first = _mm_cvtsi32_si128(kPairs.of[static_cast<uint32_t>(low)]);
        const __m128i second = _mm_cvtsi32_si128(kPairs.of[low >> 32]);
        const __m128i third = _mm_cvtsi32_si128(kPairs.of[static_cast<uint32_t>(high)]);
        const __m128i fourth = _mm_cvtsi32_si128(kPairs.of[high >> 32]);
        return _mm_unpacklo_epi64(_mm_unpacklo_epi32(first, second), _mm_unpacklo_epi32(third, fourth));
    }
};

/* The table of best sharing. */
struct Stretches : Rows<Stretches, int32_t> {
    static constexpr int kPlacement = 1;

    using Rows::Rows;

    static __m128i four_at(const int32_t *at) { return _mm_loadu_si128(reinterpret_cast<const __m128i *>(at)); }

    /* The pairs where the tip that stands so far from the first takes its lines. */
    int32_t with_tip(size_t a, size_t length, size_t d) const
    {
        const size_t behind = a + d + 1;
        const int32_t in_neither = within[length][a] - within[d][a] - within[length - 1 - d][behind];
        return Table::of(in_neither) + right[d][a] + right[length - 1 - d][behind];
    }

    bool has_most(int a, int length, int d) const
    {
        return with_tip(static_cast<size_t>(a), static_cast<size_t>(length), static_cast<size_t>(d)) == right[length][a];
    }

    void put(size_t length, size_t a, int32_t pairs) { right[length][a] = pairs; }

    /* Stretches without a tip. */
    void fill_empty() { memset(right[0], 0, sizeof right[0]); }

    void fill()
    {
        fill_empty();
        for (size_t length = 1; length <= ranks; length++) {
            sum_within(length);
            write_largest(length, right[length]);
        }
    }

    /* The placements within the stretches of this length, from those within the shorter ones. */
    void sum_within(size_t length)
    {
        for (size_t a = 0; length >= 2 && a <= ranks - length; a++) {
            within[length][a] += within[length - 1][a] + within[length - 1][a + 1] - within[length - 2][a + 1];
        }
    }

    /* Whether no entry taken is below what some tip of its stretch needs. */
    bool hold()
    {
        bool good = true;
        for (size_t length = 1; length <= ranks; length++) {
            sum_within(length);
            alignas(16) Row most;
            write_largest(length, most);
            for (size_t a = 0; a <= ranks - length; a++) {
                good &= most[a] <= right[length][a];
            }
        }
        return good;
    }

    /* The largest number over the tips of each stretch of this length, of four at once while there are four. */
    void write_largest(size_t length, int32_t *to) const
    {
        const size_t stretches = ranks - length + 1;
        size_t a = 0;
        for (; a + 4 <= stretches; a += 4) {
            _mm_store_si128(reinterpret_cast<__m128i *>(to + a), largest_of_four(length, a));
        }
        for (; a < stretches; a++) {
            int32_t most = 0;
            for (size_t d = 0; d < length; d++) {
                most = std::max(most, with_tip(a, length, d));
            }
            to[a] = most;
        }
    }

    __m128i largest_of_four(size_t length, size_t a) const
    {
        const __m128i lines = four_at(within[length] + a);
        __m128i most = _mm_setzero_si128();
        size_t on_left = a;
        size_t on_right = kStarts * (length - 1) + a + 1;
        for (size_t d = 0; d < length; d++) {
            const __m128i not_left = _mm_sub_epi32(lines, four_at(within[0] + on_left));
            const __m128i in_neither = _mm_sub_epi32(not_left, four_at(within[0] + on_right));
            const __m128i beside = _mm_add_epi32(four_at(right[0] + on_left), four_at(right[0] + on_right));
            const __m128i pairs = _mm_add_epi32(Table::of_four(in_neither), beside);
            const __m128i more = _mm_cmpgt_epi32(pairs, most);
            most = _mm_or_si128(_mm_and_si128(more, pairs), _mm_andnot_si128(more, most));
            on_left += kStarts;
            on_right -= kStarts - 1;
        }
        return most;
    }

    uint32_t pairs_of(size_t a, size_t b) const { return static_cast<uint32_t>(right[b - a + 1][a]); }

    /* The pairs of all the ranks, which may be none. */
    uint32_t pairs() const { return static_cast<uint32_t>(right[ranks][0]); }
};

}  // namespace

extern "C" {

uint32_t table_goal(const uint8_t *file, size_t file_len, uint32_t goal, uint8_t *out, size_t out_len,
                    uint64_t *answer, size_t answer_len)
{
    return goal_by<Table>(file, file_len, goal, out, out_len, answer, answer_len);
}

uint32_t table_best(const uint8_t *file, size_t file_len, size_t mounted, uint8_t *plan, size_t plan_len,
                    uint32_t *table, size_t table_len, uint64_t *answer, size_t answer_len)
{
    return best_by<Stretches>(file, file_len, mounted, plan, plan_len, table, table_len, answer, answer_len);
}

uint32_t table_exact(const uint8_t *file, size_t file_len, size_t mounted, uint32_t price, uint8_t *plan,
                     size_t plan_len, uint32_t *table, size_t table_len, uint64_t *answer, size_t answer_len)
{
    return exact_by<Table>(file, file_len, mounted, price, plan, plan_len, table, table_len, answer, answer_len);
}

uint32_t table_check(const uint8_t *file, size_t file_len, const uint8_t *plan, size_t plan_len, uint32_t claim,
                     const uint32_t *table, size_t table_len, uint64_t *answer, size_t answer_len)
{
    return check_by<Stretches>(file, file_len, plan, plan_len, claim, table, table_len, answer, answer_len);
}

size_t table_report(const uint8_t *file, size_t file_len, uint8_t *out, size_t out_len)
{
    return report_by<Table, Stretches>(file, file_len, out, out_len);
}

}  // extern "C"
