/*
 * What the two tuned forms share: tuned.cpp, which computes the pairs among placements, and table.cpp, which reads them from a
 * table. `Pairs` says how: of(p) among p placements, of_few(p) among a 16-bit number of them, of_four(p) in each of four lanes.
 * `Stretches` makes the table of best sharing. Where a call counts the pairs of each tip once, 64 times at most, both compute.
 *
 * Occurrences are counted for 64 tips at once: bit t of plane i is bit i of the count of tip t. Quick sharing finds
 * the lines of a tip in the transposed board. Best sharing goes by the length of the stretch, four stretches at once, and so
 * does a check, but in 64 bits where some entry of the table is huge or the table not one that best sharing could have
 * written. A goal of pairs makes its tables once for all lines. Exact sharing scores eight sets of tips at once.
 * Sets keep the byte order of the file: the bit of tip t is bit t ^ 56 of a 64-bit number. Those of version 2
 * are first packed without the quantities between them. A board whose quantities are all 1 has code of its own wherever
 * a quantity counts.
 */
#pragma once

#include "libraries.h"

#include <emmintrin.h>

#include <algorithm>
#include <iterator>

#include "exact.h"
#include "job.h"

namespace {

using namespace job;

/* Two sets side by side. */
typedef uint64_t Two __attribute__((vector_size(16)));

template <typename Word> inline Word word_at(const uint8_t *at)
{
    Word word;
    memcpy(&word, at, sizeof word);
    return word;
}

inline Two two_at(const uint8_t *at) { return word_at<Two>(at); }

/* Adds three planes: low gets the sum, and the carry is returned. */
template <typename Word> inline Word add(Word &low, Word second, Word third)
{
    const Word either = low ^ second;
    const Word carry = (low & second) | (either & third);
    low = either ^ third;
    return carry;
}

/* The lines of a file, in its byte order; in version 1 without quantities. */
struct Raw {
    // Of version 1 a part of the file.
    const uint8_t *sets;
    alignas(16) uint8_t packed[kSet * kMostLines];
    // After the last line 0 up to a whole block.
    alignas(16) uint8_t quantities[kMostLines];

    uint64_t set(size_t line) const { return raw_at(sets + kSet * line); }
};

/* How many placements of some lines have each tip. */
struct Planes {
    // 10 planes count to 512 and 12 to 2,048.
    static constexpr size_t kPlanes = 12;
    static constexpr size_t kPlanesOfSingle = 10;
    static constexpr size_t kBlock = 16;
    uint64_t plane[kPlanes];
    // The planes from here on are 0.
    size_t used;

    /* The planes that a number needs; a block has 4 at least. */
    static size_t planes_for(size_t number)
    {
        return number < kBlock / 2 ? 4 : 64 - static_cast<size_t>(__builtin_clzll(number));
    }

    /* Counts this many sets, one placement each; after them zeros must follow up to a whole block. */
    void count(const uint64_t *sets, Single, size_t number, size_t placements)
    {
        used = planes_for(placements);
        // Few sets were written just before, one by one, and are read one by one at once.
        if (number <= kBlock) {
            for (uint64_t &each : plane) {
                each = 0;
            }
            for (size_t done = 0; done < number; done += kBlock / 2) {
                add_block(plane, used, reinterpret_cast<const uint8_t *>(sets + done));
            }
            return;
        }
        Two sum[kPlanesOfSingle] = {};
        for (size_t done = 0; done < number; done += kBlock) {
            add_block(sum, used, reinterpret_cast<const uint8_t *>(sets + done));
        }
        join(sum);
    }

    /* The same with quantities, after which zeros must follow; the sets after the number are not counted. */
    void count(const uint64_t *sets, const uint8_t *quantities, size_t number, size_t placements)
    {
        count_quantities(reinterpret_cast<const uint8_t *>(sets), quantities, number, placements);
    }

    /* Counts the lines of a file. */
    void count_file(const Raw &raw, const Job &job)
    {
        if (job.single()) {
            count_single(raw.sets, job.count);
        } else {
            count_quantities(raw.sets, raw.quantities, job.count, kMostPlacements);
        }
    }

    void count_single(const uint8_t *sets, size_t lines)
    {
        used = kPlanesOfSingle;
        Two sum[kPlanesOfSingle] = {};
        const size_t whole = lines / kBlock * kBlock;
        for (size_t done = 0; done < whole; done += kBlock) {
            add_block(sum, kPlanesOfSingle, sets + kSet * done);
        }
        if (whole < lines) {
            uint8_t rest[kSet * kBlock] = {};
            memcpy(rest, sets + kSet * whole, kSet * (lines - whole));
            add_block(sum, kPlanesOfSingle, rest);
        }
        join(sum);
    }

    /* Of each block, for each bit of the quantities, the sets of the lines that have it are added from its plane on. */
    void count_quantities(const uint8_t *sets, const uint8_t *quantities, size_t lines, size_t placements)
    {
        used = planes_for(placements);
        Two sum[kPlanes] = {};
        const __m128i zero = _mm_setzero_si128();
        for (size_t done = 0; done < lines; done += kBlock) {
            const __m128i here = _mm_loadu_si128(reinterpret_cast<const __m128i *>(quantities + done));
            __m128i bits = here;
            for (size_t bit = 8; bit-- > 0;) {
                // The bit is the sign of its byte.
                const __m128i have = _mm_cmpgt_epi8(zero, bits);
                bits = _mm_add_epi8(bits, bits);
                if (_mm_movemask_epi8(have) != 0) {
                    Two with_bit[kBlock / 2];
                    choose(sets + kSet * done, have, with_bit);
                    add_block(sum + bit, used - bit, reinterpret_cast<const uint8_t *>(with_bit));
                }
            }
        }
        join(sum);
    }

    /* The sets of a block whose byte is all ones, and no tip for the others. */
    static void choose(const uint8_t *sets, __m128i bytes, Two *chosen)
    {
        for (size_t half = 0; half < 2; half++) {
            const __m128i words = half == 0 ? _mm_unpacklo_epi8(bytes, bytes) : _mm_unpackhi_epi8(bytes, bytes);
            for (size_t quarter = 0; quarter < 2; quarter++) {
                const __m128i wide = quarter == 0 ? _mm_unpacklo_epi16(words, words) : _mm_unpackhi_epi16(words, words);
                const size_t first = 4 * half + 2 * quarter;
                const Two low = reinterpret_cast<Two>(_mm_unpacklo_epi32(wide, wide));
                const Two high = reinterpret_cast<Two>(_mm_unpackhi_epi32(wide, wide));
                chosen[first] = two_at(sets + 16 * first) & low;
                chosen[first + 1] = two_at(sets + 16 * first + 16) & high;
            }
        }
    }

    /* Adds eight words: a block of two sets each, half a block of one. */
    template <typename Word>
    [[gnu::always_inline]] static void add_block(Word *sum, size_t planes, const uint8_t *sets)
    {
        const auto word = [=](size_t number) { return word_at<Word>(sets + sizeof(Word) * number); };
        const Word two1 = add(sum[0], word(0), word(1));
        const Word two2 = add(sum[0], word(2), word(3));
        const Word four1 = add(sum[1], two1, two2);
        const Word two3 = add(sum[0], word(4), word(5));
        const Word two4 = add(sum[0], word(6), word(7));
        const Word four2 = add(sum[1], two3, two4);
        Word carry = add(sum[2], four1, four2);
        for (size_t i = 3; i < planes; i++) {
            const Word next = sum[i] & carry;
            sum[i] ^= carry;
            carry = next;
        }
    }

    void join(const Two *sum)
    {
        uint64_t carry = 0;
        for (size_t i = 0; i < used; i++) {
            plane[i] = sum[i][0];
            carry = add(plane[i], uint64_t{sum[i][1]}, carry);
        }
    }

    /* Takes off counts that are not above these. */
    void take(const Planes &other)
    {
        uint64_t borrow = 0;
        for (size_t i = 0; i < used; i++) {
            const uint64_t from = plane[i];
            plane[i] = from ^ other.plane[i] ^ borrow;
            borrow = (~from & (other.plane[i] | borrow)) | (other.plane[i] & borrow);
        }
    }

    /* The largest count, and the tips that have it, in the byte order of a file. */
    unsigned largest(uint64_t &tips) const
    {
        unsigned most = 0;
        tips = ~uint64_t{0};
        for (size_t i = used; i-- > 0;) {
            const uint64_t these = tips & plane[i];
            most = 2 * most + (these != 0);
            tips = these != 0 ? these : tips;
        }
        return most;
    }

    /* The tips whose count is at least this, which is above 0, in the byte order of a file. */
    uint64_t with_at_least(unsigned placements) const
    {
        // Whether the bits seen so far are above those of the number, or the same.
        uint64_t above = 0;
        uint64_t same = ~uint64_t{0};
        for (size_t i = used; i-- > 0;) {
            const uint64_t wanted = (placements >> i & 1) != 0 ? ~uint64_t{0} : 0;
            above |= same & plane[i] & ~wanted;
            same &= ~(plane[i] ^ wanted);
        }
        return above | same;
    }
};

struct Pack {
    uint8_t *__restrict packed;
    uint8_t *__restrict quantities;

    void operator()(size_t, uint64_t) const {}

    void operator()(size_t line, uint64_t raw, uint8_t quantity) const
    {
        put_raw(packed + kSet * line, raw);
        quantities[line] = quantity;
    }
};

Job check_single(const uint8_t *file, const Job &job);

/* Checks a file and finds its lines. */
Job read_raw(const uint8_t *file, size_t length, Raw &raw)
{
    const Job head = read_head(file, length);
    if (head.number != TIPSHARE_ACCEPTED) {
        return head;
    }
    if (head.step == kSet) {
        raw.sets = file + kHead;
        return check_single(file, head);
    }
    raw.sets = raw.packed;
    const size_t whole = head.count / Planes::kBlock * Planes::kBlock;
    if (whole < head.count) {
        memset(raw.quantities + whole, 0, Planes::kBlock);
    }
    return read_lines(file, length, Pack{raw.packed, raw.quantities});
}

/* Checks the lines of a file of version 1; two lines at once. */
Job check_single(const uint8_t *file, const Job &job)
{
    const __m128i zero = _mm_setzero_si128();
    __m128i joined = zero;
    __m128i empty = zero;
    size_t line = 0;
    for (; line + 4 <= job.count; line += 4) {
        const __m128i first = _mm_loadu_si128(reinterpret_cast<const __m128i *>(file + kHead + 8 * line));
        const __m128i second = _mm_loadu_si128(reinterpret_cast<const __m128i *>(file + kHead + 8 * line + 16));
        joined = _mm_or_si128(joined, _mm_or_si128(first, second));
        // The four low halves, and the four high halves: a line is empty where both are.
        const __m128 low = _mm_shuffle_ps(_mm_castsi128_ps(first), _mm_castsi128_ps(second), 0x88);
        const __m128 high = _mm_shuffle_ps(_mm_castsi128_ps(first), _mm_castsi128_ps(second), 0xDD);
        const __m128i halves = _mm_castps_si128(_mm_or_ps(low, high));
        empty = _mm_or_si128(empty, _mm_cmpeq_epi32(halves, zero));
    }
    uint64_t all = static_cast<uint64_t>(_mm_cvtsi128_si64(_mm_or_si128(joined, _mm_unpackhi_epi64(joined, joined))));
    bool bad = _mm_movemask_epi8(empty) != 0;
    for (; line < job.count; line++) {
        const uint64_t raw = raw_at(file + kHead + kSet * line);
        all |= raw;
        bad |= raw == 0;
    }
    if (bad || (__builtin_bswap64(all) & outside(job.rack)) != 0) {
        return first_bad_line(file, job);
    }
    return job;
}

/*
 * The lines of each tip as a set of lines, 64 lines a word: the board transposed, 128 lines at once. Row t ^ 56 has
 * the lines of tip t.
 */
struct LinesOf {
    static constexpr size_t kPairs = kMostLines / 128;
    Two rows[kPairs][64];

    template <int By> static void swap(Two &first, Two &second, uint64_t mask)
    {
        const Two moved = ((first >> By) ^ second) & Two{mask, mask};
        first ^= moved << By;
        second ^= moved;
    }

    /* Three rounds of exchange among eight rows. */
    template <int By> static void turn(Two (&row)[8], uint64_t far, uint64_t middle, uint64_t near)
    {
        for (size_t i = 0; i < 4; i++) {
            swap<4 * By>(row[i], row[i + 4], far);
        }
        for (size_t i = 0; i < 2; i++) {
            swap<2 * By>(row[i], row[i + 2], middle);
            swap<2 * By>(row[i + 4], row[i + 6], middle);
        }
        for (size_t i = 0; i < 8; i += 2) {
            swap<By>(row[i], row[i + 1], near);
        }
    }

    void fill(const uint8_t *all, size_t lines)
    {
        for (size_t pair = 0; 128 * pair < lines; pair++) {
            const uint8_t *sets = all + 8 * 128 * pair;
            const size_t here = lines - 128 * pair;
            uint8_t padded[8 * 128];
            if (here < 128) {
                memcpy(padded, sets, 8 * here);
                memset(padded + 8 * here, 0, 8 * (128 - here));
                sets = padded;
            }
            fill_pair(rows[pair], sets);
        }
    }

    static void fill_pair(Two *rows, const uint8_t *sets)
    {
        for (size_t i = 0; i < 8; i++) {
            Two row[8];
            for (size_t j = 0; j < 8; j++) {
                const __m128i first = _mm_loadl_epi64(reinterpret_cast<const __m128i *>(sets + 8 * (8 * j + i)));
                const __m128i second = _mm_loadl_epi64(reinterpret_cast<const __m128i *>(sets + 8 * (64 + 8 * j + i)));
                row[j] = reinterpret_cast<Two>(_mm_unpacklo_epi64(first, second));
            }
            turn<8>(row, 0x00000000FFFFFFFF, 0x0000FFFF0000FFFF, 0x00FF00FF00FF00FF);
            for (size_t j = 0; j < 8; j++) {
                rows[8 * j + i] = row[j];
            }
        }
        for (size_t i = 0; i < 64; i += 8) {
            Two row[8];
            memcpy(row, rows + i, sizeof row);
            turn<1>(row, 0x0F0F0F0F0F0F0F0F, 0x3333333333333333, 0x5555555555555555);
            memcpy(rows + i, row, sizeof row);
        }
    }

    uint64_t word(unsigned tip, size_t word) const { return rows[word / 2][tip ^ 56][word % 2]; }
};

/* The lines of a tip among at most 64. */
uint64_t lines_by_looking(const Raw &raw, size_t count, unsigned tip)
{
    uint64_t lines = 0;
    for (size_t line = 0; line < count; line++) {
        lines |= (raw.set(line) >> (tip ^ 56) & 1) << line;
    }
    return lines;
}

/* The lines planned in a round, with room for the zeros behind them. */
struct Taken {
    alignas(16) uint64_t sets[kMostLines + Planes::kBlock];
    uint8_t of[kMostLines + Planes::kBlock];

    void put(size_t number, uint64_t set, Single, size_t) { sets[number] = set; }

    void put(size_t number, uint64_t set, const uint8_t *quantities, size_t line)
    {
        of[number] = quantities[line];
        sets[number] = set;
    }

    Single end(size_t number, Single)
    {
        for (size_t zero = 0; zero < Planes::kBlock; zero += 2) {
            _mm_storeu_si128(reinterpret_cast<__m128i *>(sets + number + zero), _mm_setzero_si128());
        }
        return {};
    }

    const uint8_t *end(size_t number, const uint8_t *)
    {
        _mm_storeu_si128(reinterpret_cast<__m128i *>(of + number), _mm_setzero_si128());
        return of;
    }
};

/* Quick sharing; gives the number of pairs. The planes are those of all lines and are used up. */
template <typename Pairs, typename Quantities>
uint32_t quick(const Raw &raw, Quantities quantities, const Job &job, size_t mounted, Planes &planes,
               uint8_t *__restrict plan)
{
    const uint64_t mounted_tip = mounted == TIPSHARE_NO_TIP ? 0 : uint64_t{1} << mounted;
    // Fewer lines than this are looked through in each round.
    constexpr size_t kManyLines = 48;
    const bool many = job.count >= kManyLines;
    LinesOf lines_of;
    if (many) {
        lines_of.fill(raw.sets, job.count);
    }
    const uint8_t *const sets = raw.sets;
    const size_t words = (job.count + 63) / 64;
    uint64_t unplanned[kMostLines / 64];
    std::fill(std::begin(unplanned), std::end(unplanned), ~uint64_t{0});
    if (job.count % 64 != 0) {
        unplanned[words - 1] = ~(~uint64_t{0} << job.count % 64);
    }
    Taken taken;
    uint32_t pairs = 0;
    for (size_t left = job.total; left != 0;) {
        uint64_t tips;
        const unsigned most = planes.largest(tips);
        // No two lines that are left have a tip in common: each is on its first.
        if (most == 1) {
            for (size_t word = 0; word < words; word++) {
                for (uint64_t lines = unplanned[word]; lines != 0; lines &= lines - 1) {
                    const size_t line = 64 * word + lowest(lines);
                    const uint64_t set = __builtin_bswap64(raw_at(sets + kSet * line));
                    plan[line] = static_cast<uint8_t>(lowest((set & mounted_tip) != 0 ? mounted_tip : set));
                }
            }
            return pairs;
        }
        const uint64_t tied = __builtin_bswap64(tips);
        const unsigned tip = lowest((tied & mounted_tip) != 0 ? mounted_tip : tied);
        pairs += static_cast<uint32_t>(Pairs::of(static_cast<int32_t>(most)));
        left -= most;
        size_t number = 0;
        for (size_t word = 0; word < words; word++) {
            uint64_t lines = many ? lines_of.word(tip, word) : lines_by_looking(raw, job.count, tip);
            lines &= unplanned[word];
            unplanned[word] ^= lines;
            // The first two of a word, which may not be there, cost no branch that is foreseen wrongly.
            for (size_t turn = 0; turn < 2; turn++) {
                // 1 where there is a line; as a comparison the compiler would branch on it.
                const uint64_t there = (lines | -lines) >> 63;
                const size_t line = 64 * word + lowest(lines | (there ^ 1));
                plan[line] = static_cast<uint8_t>(plan[line] ^ ((plan[line] ^ tip) & -there));
                taken.put(number, raw_at(sets + kSet * line), quantities, line);
                number += there;
                lines &= lines - there;
            }
            for (; lines != 0; lines &= lines - 1) {
                const size_t line = 64 * word + lowest(lines);
                plan[line] = static_cast<uint8_t>(tip);
                taken.put(number++, raw_at(sets + kSet * line), quantities, line);
            }
        }
        if (left != 0) {
            Planes gone;
            gone.count(taken.sets, taken.end(number, quantities), number, most);
            // No count of a later round is above that of this one.
            planes.used = gone.used;
            planes.take(gone);
        }
    }
    return pairs;
}

/*
 * The table of best sharing by length of the stretch and its first tip, tips being ranks among the named ones and a
 * length a number of ranks. A stretch of some length has left of its tip a stretch of d tips and right of it one of
 * length - 1 - d, and of the lines within it those that are in neither allow the tip. `Form` fills it: it holds a placement
 * kPlacement times, and pairs as its own rows have them. The tip of a stretch is looked for only where the plan needs it.
 */
template <typename Form, typename Number> struct Rows {
    static constexpr size_t kStarts = 72;
    typedef Number Row[kStarts];

    size_t ranks;
    // For each length: the placements within, and the pairs.
    alignas(16) Row within[kMostTips + 1];
    alignas(16) Row right[kMostTips + 1];

    // The rank of the mounted tip, -1 where there is none that some line has.
    int mounted;

    Rows(const Named &named, size_t mounted)
        : ranks(named.count), mounted(named.has(mounted) ? named.rank[mounted] : -1)
    {
    }

    Form &form() { return static_cast<Form &>(*this); }

    /* Of the tips with the most pairs the mounted one, else the lowest. */
    int tip_of(int a, int b) const
    {
        const Form &form = static_cast<const Form &>(*this);
        const int length = b - a + 1;
        if (a <= mounted && mounted <= b && form.has_most(a, length, mounted - a)) {
            return mounted;
        }
        int d = 0;
        while (!form.has_most(a, length, d)) {
            d++;
        }
        return a + d;
    }

    template <typename Quantities>
    void count(const uint64_t *sets, Quantities quantities, size_t count, const Named &named)
    {
        // Four stretches at a time reach past the last one.
        for (size_t length = 0; length <= ranks; length++) {
            for (size_t a = 0; a < ranks - length + 8; a += 4) {
                _mm_store_si128(reinterpret_cast<__m128i *>(within[length] + a), _mm_setzero_si128());
            }
        }
        for (size_t line = 0; line < count; line++) {
            const unsigned first = named.first(sets[line]);
            within[named.last(sets[line]) - first + 1][first] += static_cast<Number>(Form::kPlacement * quantities[line]);
        }
    }

    /*
     * Takes the entries of a table, entry(a, b) for the ranks a to b; false where some are not below 2^21, for sums of three
     * may then be too large.
     */
    template <typename Entry> bool take(const Entry &entry)
    {
        form().fill_empty();
        uint32_t joined = 0;
        for (size_t a = 0; a < ranks; a++) {
            for (size_t b = a; b < ranks; b++) {
                const uint32_t pairs = entry(a, b);
                joined |= pairs;
                form().put(b - a + 1, a, static_cast<int32_t>(pairs));
            }
        }
        return joined < uint32_t{1} << 21;
    }
};

/* Best sharing without its table; gives the number of pairs. */
template <typename Stretches>
uint32_t best(const uint64_t *sets, const uint8_t *quantities, const Job &job, const Named &named, Stretches &stretches,
              uint8_t *plan)
{
    with_quantities(job, quantities, [&](auto all) { stretches.count(sets, all, job.count, named); });
    stretches.fill();
    lay_best(sets, job.count, named, [&](int a, int b) { return stretches.tip_of(a, b); }, plan);
    return stretches.pairs();
}

/*
 * A table as best sharing writes it, by ranks: the row of a tip that is not named is the row below it, a column of one is
 * that before it, and where no tip is named the entry is 0. Then only the stretches between named tips are left to look at.
 */
struct Entries {
    const uint32_t *table;
    size_t rack;
    const Named &named;

    uint32_t at(size_t a, size_t b) const { return table[a * rack + b]; }

    bool has_rows_of_named() const
    {
        for (size_t a = 0; a < rack; a++) {
            if ((named.tips >> a & 1) != 0) {
                continue;
            }
            // From the first named tip on as the row below, and 0 before it.
            const uint64_t above = named.tips >> a >> 1;
            const size_t first = above == 0 ? rack : a + 1 + lowest(above);
            uint32_t differs = 0;
            for (size_t b = a; b < first; b++) {
                differs |= at(a, b);
            }
            if (differs != 0 || (first < rack && memcmp(table + a * rack + first, table + (a + 1) * rack + first,
                                                       (rack - first) * sizeof *table) != 0)) {
                return false;
            }
        }
        return true;
    }

    bool has_columns_of_named() const
    {
        uint32_t differs = 0;
        for (uint64_t rest = named.tips; rest != 0; rest &= rest - 1) {
            const size_t a = lowest(rest);
            for (size_t b = a + 1; b < rack; b++) {
                const uint32_t unnamed = static_cast<uint32_t>(named.tips >> b & 1) - 1;
                differs |= (at(a, b) ^ at(a, b - 1)) & unnamed;
            }
        }
        return differs == 0;
    }

    bool is_by_ranks() const { return named.count == rack || (has_rows_of_named() && has_columns_of_named()); }
};

/*
 * A goal of pairs. Stretches are counted by the ranks of the named tips, from a to before an end. The tables are those of
 * all lines, made once: the most pairs inside a stretch, and the most outside it, where the stretch is what the tips
 * chosen so far leave. In a plan a line is taken by the first chosen tip that it has. Where that is the wanted tip, and
 * the stretch has the whole line, the tables hold with the line in them, so that one look does for all lines with these
 * ends. Else another tip of the line comes first and leaves it off: from there the stretches beside that tip are followed
 * as far as they can still reach the goal, with the line's placements more on the wanted tip.
 */
template <typename Pairs> struct Reach {
    static constexpr size_t kEnds = kMostTips + 1;
    // Rows are whole vectors.
    static constexpr size_t kRow = kMostTips + 8;
    static constexpr int32_t kNever = -(1 << 30);

    const size_t ranks;
    // The placements within each stretch, by its first tip and by its end.
    alignas(16) int16_t within[kEnds][kRow];
    alignas(16) int16_t within_to[kEnds][kRow];
    alignas(16) int32_t inside[kEnds][kRow];
    alignas(16) int32_t inside_to[kEnds][kRow];
    alignas(16) int32_t outside[kEnds][kRow];
    alignas(16) int32_t outside_to[kEnds][kRow];
    // The most placements that one tip of the stretch takes.
    alignas(16) int16_t busiest[kEnds][kRow];
    // The tips that a line from a to before its end can be on where that tip is the first of its own.
    uint64_t first_on[kEnds][kEnds];
    // The stretches that can be left in a plan that reaches the goal.
    uint16_t live[kEnds * kEnds];
    size_t live_count;
    // What is followed for one line: the most pairs outside a stretch, and which ends have one.
    int32_t from[kEnds][kEnds];
    uint64_t ends_from[kEnds];

    explicit Reach(const Named &named) : ranks(named.count) {}

    template <typename Quantities>
    void count(const uint64_t *sets, Quantities quantities, size_t count, const Named &named)
    {
        memset(within, 0, (ranks + 1) * sizeof within[0]);
        for (size_t line = 0; line < count; line++) {
            int16_t &here = within[named.first(sets[line])][named.last(sets[line]) + 1];
            here = static_cast<int16_t>(here + quantities[line]);
        }
        for (size_t a = 0; a < ranks; a++) {
            for (size_t end = a + 1; end < ranks; end++) {
                within[a][end + 1] = static_cast<int16_t>(within[a][end + 1] + within[a][end]);
            }
        }
        for (size_t a = ranks; a-- > 0;) {
            for (size_t end = 0; end <= ranks; end++) {
                within[a][end] = static_cast<int16_t>(within[a][end] + within[a + 1][end]);
            }
        }
    }

    uint32_t fill_inside()
    {
        memset(inside, 0, (ranks + 1) * sizeof inside[0]);
        memset(busiest, 0, (ranks + 1) * sizeof busiest[0]);
        for (size_t a = ranks; a-- > 0;) {
            int32_t *__restrict const row = inside[a];
            int16_t *__restrict const most = busiest[a];
            const int16_t *const all = within[a];
            for (size_t c = a; c < ranks; c++) {
                const int16_t before = all[c];
                const int32_t left = row[c];
                const int16_t *const behind = within[c + 1];
                const int32_t *const right = inside[c + 1];
                for (size_t end = c + 1; end <= ranks; end++) {
                    const int16_t taken = static_cast<int16_t>(all[end] - before - behind[end]);
                    const int32_t split = Pairs::of_few(taken) + left + right[end];
                    row[end] = row[end] > split ? row[end] : split;
                    most[end] = most[end] > taken ? most[end] : taken;
                }
            }
        }
        return static_cast<uint32_t>(inside[0][ranks]);
    }

    /* The longest stretches first: each hands on what is outside of the stretches beside its tips. */
    void fill_outside()
    {
        for (size_t a = 0; a <= ranks; a++) {
            for (size_t end = 0; end <= ranks; end++) {
                within_to[end][a] = within[a][end];
                inside_to[end][a] = inside[a][end];
                outside[a][end] = kNever;
                outside_to[end][a] = kNever;
            }
        }
        outside[0][ranks] = 0;
        for (size_t a = 0; a < ranks; a++) {
            for (size_t end = ranks; end > a; end--) {
                const int32_t here =
                    outside[a][end] > outside_to[end][a] ? outside[a][end] : outside_to[end][a];
                outside[a][end] = here;
                int32_t *__restrict const before = outside[a];
                int32_t *__restrict const behind = outside_to[end];
                const int16_t all = within[a][end];
                for (size_t c = a; c < end; c++) {
                    const int16_t taken = static_cast<int16_t>(all - within[a][c] - within_to[end][c + 1]);
                    const int32_t with_tip = here + Pairs::of_few(taken);
                    const int32_t left = with_tip + inside_to[end][c + 1];
                    const int32_t right = with_tip + inside[a][c];
                    before[c] = before[c] > left ? before[c] : left;
                    behind[c + 1] = behind[c + 1] > right ? behind[c + 1] : right;
                }
            }
        }
    }

    /* Which tips a line of any ends reaches the goal on as the first of its own, in the stretches that have it whole. */
    void find_first_on(int32_t goal)
    {
        for (size_t a = 0; a < ranks; a++) {
            memset(first_on[a] + a + 1, 0, (ranks - a) * sizeof first_on[a][0]);
        }
        alignas(16) int32_t most[kRow];
        for (size_t c = 0; c < ranks; c++) {
            for (size_t end = c + 1; end <= ranks; end++) {
                most[end] = kNever;
            }
            const int16_t *const behind = within[c + 1];
            const int32_t *const right = inside[c + 1];
            for (size_t a = 0; a <= c; a++) {
                const int16_t *const all = within[a];
                const int32_t *const out = outside[a];
                const int16_t before = all[c];
                const int32_t left = inside[a][c];
                for (size_t end = c + 1; end <= ranks; end++) {
                    const int16_t taken = static_cast<int16_t>(all[end] - before - behind[end]);
                    const int32_t whole = out[end] + Pairs::of_few(taken) + left + right[end];
                    most[end] = most[end] > whole ? most[end] : whole;
                }
                // A line may end before the stretch does.
                size_t last = ranks;
                while (last > c && most[last] < goal) {
                    last--;
                }
                for (size_t end = c + 1; end <= last; end++) {
                    first_on[a][end] |= uint64_t{1} << c;
                }
            }
        }
        live_count = 0;
        for (size_t a = 0; a < ranks; a++) {
            for (size_t end = a + 1; end <= ranks; end++) {
                live[live_count] = static_cast<uint16_t>(a << 8 | end);
                live_count += outside[a][end] + inside[a][end] >= goal;
            }
        }
    }

    static uint64_t below(size_t end) { return end >= 64 ? ~uint64_t{0} : (uint64_t{1} << end) - 1; }

    /* The ranks on which a line, from first to before its end, reaches the goal with these placements. */
    uint64_t kept(size_t first, size_t end, int32_t quantity, int32_t goal)
    {
        const uint64_t own = below(end) & ~below(first);
        uint64_t open = own & ~first_on[first][end];
        if (open == 0) {
            return own;
        }
        const int32_t among = Pairs::of(quantity);
        // Follows a stretch that has one of the open tips where it can still reach the goal.
        const auto follow = [&](size_t a, size_t e, int32_t out) {
            if ((open & below(e) & ~below(a)) != 0 && out + inside[a][e] + quantity * busiest[a][e] + among >= goal) {
                if ((ends_from[a] >> (e - 1) & 1) == 0 || from[a][e] < out) {
                    from[a][e] = out;
                }
                ends_from[a] |= uint64_t{1} << (e - 1);
            }
        };
        memset(ends_from, 0, sizeof ends_from);
        for (size_t at = 0; at < live_count; at++) {
            const size_t a = live[at] >> 8;
            const size_t e = live[at] & 0xFF;
            if (a > first || e < end) {
                continue;
            }
            for (size_t c = first; c < end; c++) {
                const int32_t others = within[a][e] - within[a][c] - within[c + 1][e] - quantity;
                const int32_t with_tip = outside[a][e] + Pairs::of(others);
                follow(a, c, with_tip + inside[c + 1][e]);
                follow(c + 1, e, with_tip + inside[a][c]);
            }
        }
        for (size_t a = 0; a < ranks; a++) {
            while (ends_from[a] != 0) {
                const size_t e = highest(ends_from[a]) + 1;
                ends_from[a] ^= uint64_t{1} << (e - 1);
                const int32_t out = from[a][e];
                for (size_t c = a; c < e && open != 0; c++) {
                    const int32_t taken = within[a][e] - within[a][c] - within[c + 1][e];
                    const int32_t beside = out + inside[a][c] + inside[c + 1][e];
                    const int32_t more = taken + quantity;
                    if ((open >> c & 1) != 0 && beside + Pairs::of(more) >= goal) {
                        open ^= uint64_t{1} << c;
                    }
                    const int32_t with_tip = out + Pairs::of(taken);
                    follow(a, c, with_tip + inside[c + 1][e]);
                    follow(c + 1, e, with_tip + inside[a][c]);
                }
            }
        }
        return own & ~open;
    }

    /* The set of tips of these ranks. */
    static uint64_t tips_of(uint64_t at_ranks, const Named &named)
    {
        if (named.tips == below(named.count)) {
            return at_ranks;
        }
        uint64_t tips = 0;
        for (; at_ranks != 0; at_ranks &= at_ranks - 1) {
            tips |= uint64_t{1} << named.tip[lowest(at_ranks)];
        }
        return tips;
    }

    /* The kept set of each line; equal lines are worked out once. */
    template <typename Quantities>
    void strike(const uint64_t *sets, Quantities quantities, size_t count, const Named &named, int32_t goal,
                uint64_t *kept_sets)
    {
        // Every plan has these pairs.
        if (goal == 0) {
            memcpy(kept_sets, sets, count * sizeof *sets);
            return;
        }
        fill_outside();
        find_first_on(goal);
        constexpr size_t kPlaces = 2 * kMostLines;
        uint16_t line_at[kPlaces];
        memset(line_at, 0xFF, sizeof line_at);
        for (size_t line = 0; line < count; line++) {
            const uint64_t set = sets[line];
            const size_t first = named.first(set);
            const size_t end = named.last(set) + 1;
            size_t place = ((first * kEnds + end) * 256 + quantities[line]) * 0x9E3779B97F4A7C15u >> 54;
            while (line_at[place] < count &&
                   (sets[line_at[place]] != set || quantities[line_at[place]] != quantities[line])) {
                place = (place + 1) % kPlaces;
            }
            if (line_at[place] < count) {
                kept_sets[line] = kept_sets[line_at[place]];
                continue;
            }
            line_at[place] = static_cast<uint16_t>(line);
            kept_sets[line] = tips_of(kept(first, end, quantities[line], goal), named);
        }
    }
};

/*
 * The scores of the sets of ranks, eight sets at once: those that differ in the three lowest ranks alone. A tip above these
 * is taken from all eight; the three lowest are then taken from each.
 */
template <typename Pairs> struct Scores {
    static constexpr size_t kEight = 8;

    const uint32_t *within;
    uint32_t *score;
    uint32_t price;

    /* The gain of a tip with p placements: their pairs, or the price for none. */
    static uint32_t gain(uint32_t placements, uint32_t price)
    {
        return placements == 0 ? price : static_cast<uint32_t>(Pairs::of(static_cast<int32_t>(placements)));
    }

    static __m128i gains(__m128i placements, __m128i price)
    {
        const __m128i none = _mm_cmpeq_epi32(placements, _mm_setzero_si128());
        return _mm_or_si128(Pairs::of_four(placements), _mm_and_si128(none, price));
    }

    static __m128i larger(__m128i one, __m128i other)
    {
        const __m128i above = _mm_cmpgt_epi32(one, other);
        return _mm_or_si128(_mm_and_si128(above, one), _mm_andnot_si128(above, other));
    }

    static __m128i four_at(const uint32_t *at) { return _mm_loadu_si128(reinterpret_cast<const __m128i *>(at)); }

    /* Of the eight sets from this one on, by the tips above the three lowest. */
    void take_high(size_t first)
    {
        const __m128i prices = _mm_set1_epi32(static_cast<int>(price));
        __m128i low = _mm_setzero_si128(), high = low;
        const __m128i all_low = four_at(within + first), all_high = four_at(within + first + 4);
        for (size_t rest = first; rest != 0; rest &= rest - 1) {
            const size_t without = first ^ (rest & -rest);
            const __m128i left_low = four_at(within + without), left_high = four_at(within + without + 4);
            const __m128i gain_low = gains(_mm_sub_epi32(all_low, left_low), prices);
            const __m128i gain_high = gains(_mm_sub_epi32(all_high, left_high), prices);
            low = larger(low, _mm_add_epi32(gain_low, four_at(score + without)));
            high = larger(high, _mm_add_epi32(gain_high, four_at(score + without + 4)));
        }
        _mm_storeu_si128(reinterpret_cast<__m128i *>(score + first), low);
        _mm_storeu_si128(reinterpret_cast<__m128i *>(score + first + 4), high);
    }

    /* Of one set, by these of its tips. */
    void take(size_t set, size_t tips)
    {
        uint32_t most = score[set];
        for (size_t rest = tips; rest != 0; rest &= rest - 1) {
            const size_t without = set ^ (rest & -rest);
            most = std::max(most, gain(within[set] - within[without], price) + score[without]);
        }
        score[set] = most;
    }

    void fill(size_t sets)
    {
        if (sets < kEight) {
            score[0] = 0;
            for (size_t set = 1; set < sets; set++) {
                score[set] = 0;
                take(set, set);
            }
            return;
        }
        for (size_t first = 0; first < sets; first += kEight) {
            take_high(first);
            for (size_t low = 1; low < kEight; low++) {
                take(first + low, low);
            }
        }
    }
};

/* The placements of the lines within each set of ranks. */
template <typename Quantities>
void count_within(const uint64_t *sets, Quantities quantities, size_t count, const Named &named, uint32_t *within)
{
    const size_t all = size_t{1} << named.count;
    memset(within, 0, all * sizeof *within);
    for (size_t line = 0; line < count; line++) {
        within[ranks_of(named, sets[line])] += quantities[line];
    }
    for (size_t half = 1; half < all; half *= 2) {
        for (size_t from = 0; from < all; from += 2 * half) {
            const uint32_t *const without = within + from;
            uint32_t *const with = within + from + half;
#pragma GCC ivdep
            for (size_t at = 0; at < half; at++) {
                with[at] += without[at];
            }
        }
    }
}

/* Exact sharing: the lines that no tip has taken are gone through tip by tip. */
template <typename Pairs, typename Quantities>
Shared share_exactly(const uint64_t *sets, Quantities quantities, size_t count, const Named &named, size_t mounted,
                     uint32_t price, uint8_t *plan, uint32_t *table)
{
    const size_t all = size_t{1} << named.count;
    count_within(sets, quantities, count, named, table);
    Scores<Pairs>{table, table + all, price}.fill(all);
    uint16_t left[kMostLines];
    for (size_t line = 0; line < count; line++) {
        left[line] = static_cast<uint16_t>(line);
    }
    size_t lines = count;
    return take_tips(named, mounted, price, table, [&](unsigned tip) {
        uint32_t placements = 0;
        size_t stay = 0;
        for (size_t at = 0; at < lines; at++) {
            const size_t line = left[at];
            const bool taken = (sets[line] >> tip & 1) != 0;
            plan[line] = static_cast<uint8_t>(tip);
            placements += taken ? quantities[line] : 0;
            left[stay] = static_cast<uint16_t>(line);
            stay += !taken;
        }
        lines = stay;
        return placements;
    });
}

/* The calls that count pairs for many sets of tips, as include/tipshare.h has them. */
template <typename Pairs>
uint32_t goal_by(const uint8_t *file, size_t file_len, uint32_t goal, uint8_t *out, size_t out_len,
                 uint64_t *answer, size_t answer_len)
{
    Lines lines;
    const auto read = [&] { return read_sets(file, file_len, lines); };
    return answer_with(answer, answer_len, read, [&](const Job &job) {
        const Named of_lines(lines.sets, job.count);
        Reach<Pairs> reach(of_lines);
        const auto most = [&](const Named &named) {
            with_quantities(job, lines.quantities,
                            [&](auto quantities) { reach.count(lines.sets, quantities, job.count, named); });
            return reach.fill_inside();
        };
        const auto strike_them = [&](const Named &named, uint64_t *kept) {
            with_quantities(job, lines.quantities, [&](auto quantities) {
                reach.strike(lines.sets, quantities, job.count, named, static_cast<int32_t>(goal), kept);
            });
        };
        return answer_goal(lines, job, {goal, out, out_len}, answer, most, strike_them);
    });
}

template <typename Stretches>
uint32_t best_by(const uint8_t *file, size_t file_len, size_t mounted, uint8_t *plan, size_t plan_len,
                 uint32_t *table, size_t table_len, uint64_t *answer, size_t answer_len)
{
    Lines lines;
    const auto read = [&] { return read_sets(file, file_len, lines); };
    return answer_with(answer, answer_len, read, [&](const Job &job) {
        return answer_best(lines.sets, job, mounted, plan_len, table_len, answer, [&](const Named &named) {
            Stretches stretches(named, mounted);
            const uint32_t pairs = best(lines.sets, lines.quantities, job, named, stretches, plan);
            write_table(named, job.rack, [&](size_t a, size_t b) { return stretches.pairs_of(a, b); }, table);
            return pairs;
        });
    });
}

template <typename Pairs>
uint32_t exact_by(const uint8_t *file, size_t file_len, size_t mounted, uint32_t price, uint8_t *plan,
                  size_t plan_len, uint32_t *table, size_t table_len, uint64_t *answer, size_t answer_len)
{
    Lines lines;
    const auto read = [&] { return read_sets(file, file_len, lines); };
    return answer_with(answer, answer_len, read, [&](const Job &job) {
        const Exact exact{price, plan_len, table, table_len};
        return answer_exact(lines.sets, job, mounted, exact, answer, [&](const Named &named, uint32_t counted) {
            return with_quantities(job, lines.quantities, [&](auto quantities) {
                return share_exactly<Pairs>(lines.sets, quantities, job.count, named, mounted, counted, plan, table);
            });
        });
    });
}

template <typename Stretches>
uint32_t check_by(const uint8_t *file, size_t file_len, const uint8_t *plan, size_t plan_len, uint32_t claim,
                  const uint32_t *table, size_t table_len, uint64_t *answer, size_t answer_len)
{
    Lines lines;
    const auto read = [&] { return read_sets(file, file_len, lines); };
    return answer_with(answer, answer_len, read, [&](const Job &job) {
        return answer_check(lines, job, {plan, plan_len, claim, table, table_len}, answer, [&](const Named &named) {
            if (named.count == 0) {
                return true;
            }
            const Entries entries{table, job.rack, named};
            Stretches stretches(named, TIPSHARE_NO_TIP);
            const auto entry = [&](size_t a, size_t b) { return entries.at(named.tip[a], named.tip[b]); };
            if (entries.is_by_ranks() && stretches.take(entry)) {
                with_quantities(job, lines.quantities,
                                [&](auto all) { stretches.count(lines.sets, all, job.count, named); });
                return stretches.hold();
            }
            return no_entry_too_low(Within(lines, job), named, table);
        });
    });
}

template <typename Pairs, typename Stretches>
size_t report_by(const uint8_t *file, size_t file_len, uint8_t *out, size_t out_len)
{
    if (out_len < TIPSHARE_REPORT_SPACE) {
        return 0;
    }
    Raw raw;
    const Job job = read_raw(file, report_length(file_len), raw);
    if (job.number != TIPSHARE_ACCEPTED) {
        return write_refusal(out, job.number);
    }
    uint64_t sets[kMostLines];
    for (size_t line = 0; line < job.count; line++) {
        sets[line] = __builtin_bswap64(raw.set(line));
    }
    uint8_t quick_plan[kMostLines];
    uint8_t best_plan[kMostLines];
    Planes planes;
    planes.count_file(raw, job);
    uint64_t tips;
    const unsigned top = planes.largest(tips);
    Found found{};
    found.off = job.total - top;
    found.common = top == 0 ? 0 : __builtin_bswap64(tips);
    found.quick = with_quantities(job, raw.quantities, [&](auto quantities) {
        return quick<Pairs>(raw, quantities, job, TIPSHARE_NO_TIP, planes, quick_plan);
    });
    found.quick_plan = quick_plan;
    const Named named(sets, job.count);
    found.runs = named.first_no_run(sets, job.count) == job.count;
    if (found.runs) {
        Stretches stretches(named, TIPSHARE_NO_TIP);
        found.best = best(sets, raw.quantities, job, named, stretches, best_plan);
        found.best_plan = best_plan;
    }
    return write_report(out, job, found);
}

}  // namespace
