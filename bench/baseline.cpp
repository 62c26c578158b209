/*
 * Tip sharing by hand in plain C++, with the steps meant for the proved library: counts are made tip by tip and taken
 * down as lines are planned; best sharing runs on the ranks of the named tips, counts placements by lowest and highest
 * tip, sums the counts in two directions and has r^3/6 steps for r named tips; then the table is spread over the rack. A
 * check sums the same counts over the rack, in 64 bits. A goal of pairs fills a table of the most pairs inside each
 * stretch and one of those outside it, and for each line that no earlier one equals one of those outside by all lines but
 * this one, where the goal can be had. The contiguous inner loops of the plans and the check are written so that the
 * compiler puts them into vector instructions.
 * A board whose quantities are all 1 has code of its own wherever a quantity counts.
 */
#include "libraries.h"

#include "along.h"
#include "exact.h"
#include "job.h"
#include "mend.h"
#include "order.h"
#include "panel.h"

namespace {

using namespace job;

/*
 * The number of placements that allow each tip, held so that the largest of these numbers names the busiest tip and, on
 * a tie, the first by the order: 64 for each placement, plus 63 less the tip's place in the order. 16 bits do for 512
 * placements, which start from the least number, and 32 bits for all.
 */
template <typename Number> struct Counts {
    static constexpr int kLeast = sizeof(Number) == 2 ? -32768 : 0;
    alignas(16) Number of[kMostTips];
    Order order;

    explicit Counts(Order order) : order(order)
    {
        for (unsigned tip = 0; tip < kMostTips; tip++) {
            of[tip] = static_cast<Number>(kLeast + 63 - static_cast<int>(order.place_of(tip)));
        }
    }

    void put(size_t tip, uint8_t quantity) { of[tip] = static_cast<Number>(of[tip] + 64 * quantity); }

    void take(size_t tip, uint8_t quantity) { of[tip] = static_cast<Number>(of[tip] - 64 * quantity); }

    /* The busiest tip and its placements as one number: placements * 64 + 63 - place. */
    unsigned busiest() const
    {
        Number largest = of[0];
        for (size_t tip = 0; tip < kMostTips; tip++) {
            largest = of[tip] > largest ? of[tip] : largest;
        }
        return static_cast<unsigned>(largest - kLeast);
    }

    /* The tips with as many placements as this or more, which is above 0. */
    uint64_t tips_with(unsigned placements) const
    {
        uint64_t tips = 0;
        for (size_t tip = 0; tip < kMostTips; tip++) {
            tips |= uint64_t{static_cast<unsigned>(of[tip] - kLeast) >> 6 >= placements} << tip;
        }
        return tips;
    }
};

/* The counts that do for such quantities. */
template <typename Quantities> struct CountsOf {
    using Type = Counts<int32_t>;
};
template <> struct CountsOf<Single> {
    using Type = Counts<int16_t>;
};
template <typename Quantities> using Occurrences = typename CountsOf<Quantities>::Type;

struct Common {
    uint32_t top;
    uint64_t tips;
};

template <typename Number> Common common_tip(const Counts<Number> &occurrences)
{
    const unsigned top = occurrences.busiest() >> 6;
    return {top, top == 0 ? 0 : occurrences.tips_with(top)};
}

template <typename Quantities>
void count_all(const uint64_t *sets, Quantities quantities, size_t count, Occurrences<Quantities> &occurrences)
{
    for (size_t line = 0; line < count; line++) {
        for (uint64_t rest = sets[line]; rest != 0; rest &= rest - 1) {
            occurrences.put(lowest(rest), quantities[line]);
        }
    }
}

/* The lines of each tip as a set of lines, 64 lines a word. */
struct LinesOf {
    static constexpr size_t kWords = kMostLines / 64;
    uint64_t word[kMostTips][kWords];
};

template <typename Quantities>
void count_and_list(const uint64_t *sets, Quantities quantities, const Job &job, Occurrences<Quantities> &occurrences,
                    LinesOf &lines_of)
{
    memset(lines_of.word, 0, job.rack * sizeof lines_of.word[0]);
    for (size_t line = 0; line < job.count; line++) {
        const uint64_t bit = uint64_t{1} << line % 64;
        for (uint64_t rest = sets[line]; rest != 0; rest &= rest - 1) {
            occurrences.put(lowest(rest), quantities[line]);
            lines_of.word[lowest(rest)][line / 64] |= bit;
        }
    }
}

/* Quick sharing; gives the number of pairs. The occurrences are those of all lines and are used up. */
template <typename Quantities>
uint32_t quick(const uint64_t *sets, Quantities quantities, const Job &job, Occurrences<Quantities> &occurrences,
               const LinesOf &lines_of, uint8_t *__restrict plan)
{
    const size_t words = (job.count + 63) / 64;
    uint64_t unplanned[LinesOf::kWords];
    memset(unplanned, 0xFF, sizeof unplanned);
    uint32_t pairs = 0;
    for (size_t left = job.total; left != 0;) {
        const unsigned busiest = occurrences.busiest();
        const unsigned tip = occurrences.order.tip_at(63 - busiest % 64);
        pairs += pairs_on(busiest / 64);
        left -= busiest / 64;
        for (size_t word = 0; word < words; word++) {
            uint64_t lines = lines_of.word[tip][word] & unplanned[word];
            unplanned[word] ^= lines;
            for (; lines != 0; lines &= lines - 1) {
                const size_t line = 64 * word + lowest(lines);
                plan[line] = static_cast<uint8_t>(tip);
                // After the last round no count is needed.
                for (uint64_t rest = left != 0 ? sets[line] : 0; rest != 0; rest &= rest - 1) {
                    occurrences.take(lowest(rest), quantities[line]);
                }
            }
        }
    }
    return pairs;
}

/* Quick sharing of a job, lines and counts made for it. */
uint32_t quick_of(const Lines &lines, const Job &job, size_t mounted, uint8_t *plan)
{
    LinesOf lines_of;
    return with_quantities(job, lines.quantities, [&](auto quantities) {
        Occurrences<decltype(quantities)> occurrences(order_with(mounted));
        count_and_list(lines.sets, quantities, job, occurrences, lines_of);
        return quick(lines.sets, quantities, job, occurrences, lines_of, plan);
    });
}

/*
 * The table of best sharing by ranks, row by row from the last. A stretch and its tip are held in one number, pairs * 64
 * + 63 less the place of the tip's rank in the order, so that the largest is the first tip with the most pairs.
 */
struct Stretches {
    static constexpr size_t kStep = 8;
    static constexpr int32_t kNever = -(1 << 30);

    // The number of ranks, and the same in whole steps.
    size_t ranks;
    size_t width;
    Order order;
    // within[a][b] is four times the number of placements of the lines lying within a to b.
    alignas(16) int16_t within[kMostTips + 1][kMostTips];
    // most[a][b] is 64 times the pairs of a to b; where a is past b + 1 it is too low to be chosen.
    alignas(16) int32_t most[kMostTips + 1][kMostTips];
    alignas(16) int32_t keys[kMostTips][kMostTips];

    Stretches(const Named &named, size_t mounted)
        : ranks(named.count), width((ranks + kStep - 1) / kStep * kStep),
          order{named.has(mounted) ? named.rank[mounted] : 0u}
    {
    }

    int tip_of(int a, int b) const
    {
        return static_cast<int>(order.tip_at(63 - static_cast<unsigned>(keys[a][b]) % 64));
    }

    uint32_t pairs_of(size_t a, size_t b) const { return static_cast<uint32_t>(keys[a][b]) / 64; }

    template <typename Quantities>
    void count(const uint64_t *sets, Quantities quantities, size_t count, const Named &named)
    {
        memset(within, 0, (ranks + 1) * sizeof within[0]);
        for (size_t line = 0; line < count; line++) {
            int16_t &here = within[named.first(sets[line])][named.last(sets[line])];
            here = static_cast<int16_t>(here + 4 * quantities[line]);
        }
        // First along each row, then down from row to row.
        for (size_t a = 0; a < ranks; a++) {
            int16_t sum = 0;
            for (size_t b = a; b < ranks; b++) {
                sum = static_cast<int16_t>(sum + within[a][b]);
                within[a][b] = sum;
            }
        }
        for (size_t a = ranks; a-- > 0;) {
            for (size_t b = 0; b < width; b++) {
                within[a][b] = static_cast<int16_t>(within[a][b] + within[a + 1][b]);
            }
        }
    }

    void fill()
    {
        clear_below(ranks);
        for (size_t a = ranks; a-- > 0;) {
            int32_t *__restrict const row = keys[a];
            for (size_t b = 0; b < width; b++) {
                row[b] = kNever;
            }
            int32_t pairs_left = 0;
            int16_t on_left = 0;
            for (size_t c = a; c < ranks; c++) {
                // A line within a to b that allows c lies neither left of c nor right of it.
                const int32_t place = static_cast<int32_t>(order.place_of(static_cast<unsigned>(c)));
                const int32_t with_c = 64 * pairs_left + 63 - place;
                const int16_t *const all = within[a];
                const int16_t *const on_right = within[c + 1];
                const int32_t *const most_right = most[c + 1];
                for (size_t step = c / kStep * kStep; step < width; step += kStep) {
                    for (size_t b = step; b < step + kStep; b++) {
                        // 4 p and 8 (p - 1), which fit 16 bits: 64 times the pairs of p placements.
                        const int16_t placements = static_cast<int16_t>(all[b] - on_left - on_right[b]);
                        const int16_t others = static_cast<int16_t>(2 * placements - 8);
                        const int32_t key = int32_t{placements} * others + with_c + most_right[b];
                        row[b] = row[b] > key ? row[b] : key;
                    }
                }
                pairs_left = row[c] / 64;
                on_left = all[c];
            }
            clear_below(a);
            for (size_t b = a; b < ranks; b++) {
                most[a][b] = row[b] & ~63;
            }
        }
    }

    /* The part of row a where the stretch is empty, and that before it. */
    void clear_below(size_t a)
    {
        for (size_t b = 0; b < width; b++) {
            most[a][b] = b + 1 < a ? kNever : 0;
        }
    }
};

uint32_t best(const Lines &lines, const Job &job, const Named &named, size_t mounted, uint8_t *plan, uint32_t *table)
{
    Stretches stretches(named, mounted);
    with_quantities(job, lines.quantities,
                    [&](auto quantities) { stretches.count(lines.sets, quantities, job.count, named); });
    stretches.fill();
    write_table(named, job.rack, [&](size_t a, size_t b) { return stretches.pairs_of(a, b); }, table);
    lay_best(lines.sets, job.count, named, [&](int a, int b) { return stretches.tip_of(a, b); }, plan);
    return table[job.rack - 1];
}

/* Lays lines on the tips that they share with those before them, segment by segment. */
template <typename Quantities>
Along lay_along(const uint64_t *sets, Quantities quantities, size_t count, size_t mounted, uint8_t *plan)
{
    uint64_t shared = tips_before(mounted);
    uint32_t placements[kMostTips] = {};
    uint32_t changes = 0;
    size_t first = 0;
    uint32_t of_segment = 0;
    const auto end_segment = [&](size_t end) {
        memset(plan + first, static_cast<int>(lowest(shared)), end - first);
        placements[lowest(shared)] += of_segment;
        first = end;
        of_segment = 0;
    };
    for (size_t line = 0; line < count; line++) {
        if ((shared & sets[line]) == 0) {
            end_segment(line);
            changes++;
            shared = sets[line];
        }
        shared &= sets[line];
        of_segment += quantities[line];
    }
    end_segment(count);
    return {changes, pairs_of(placements)};
}

/*
 * The placements of the lines within each set of ranks: those of each set alone, and then tip by tip those without the tip, in
 * blocks of the sets that lack it and the same with it.
 */
template <typename Quantities>
void count_within_sets(const uint64_t *sets, Quantities quantities, size_t count, const Named &named, uint32_t *within)
{
    const size_t all = size_t{1} << named.count;
    memset(within, 0, all * sizeof *within);
    for (size_t line = 0; line < count; line++) {
        within[ranks_of(named, sets[line])] += quantities[line];
    }
    for (size_t half = 1; half < all; half *= 2) {
        for (size_t start = 0; start < all; start += 2 * half) {
            for (size_t set = start; set < start + half; set++) {
                within[set + half] += within[set];
            }
        }
    }
}

/* The score of each set of ranks, by those of the sets without one of its tips. */
void fill_scores(size_t ranks, uint32_t price, const uint32_t *within, uint32_t *scores)
{
    scores[0] = 0;
    for (size_t set = 1; set < size_t{1} << ranks; set++) {
        uint32_t most = 0;
        for (size_t rest = set; rest != 0; rest &= rest - 1) {
            const size_t without = set ^ (rest & -rest);
            const uint32_t score = gain_of(within[set] - within[without], price) + scores[without];
            most = most > score ? most : score;
        }
        scores[set] = most;
    }
}

/* Exact sharing; a line is on no tip as long as its byte is past every tip. */
template <typename Quantities>
Shared share_exactly(const uint64_t *sets, Quantities quantities, size_t count, const Named &named, size_t mounted,
                     uint32_t price, uint8_t *plan, uint32_t *table)
{
    count_within_sets(sets, quantities, count, named, table);
    fill_scores(named.count, price, table, table + (size_t{1} << named.count));
    memset(plan, kMostTips, count);
    return take_tips(named, mounted, price, table, [&](unsigned tip) {
        uint32_t placements = 0;
        for (size_t line = 0; line < count; line++) {
            if (plan[line] == kMostTips && (sets[line] >> tip & 1) != 0) {
                plan[line] = static_cast<uint8_t>(tip);
                placements += quantities[line];
            }
        }
        return placements;
    });
}

/* For a goal of pairs: the most pairs inside and outside each stretch of the rack, from its first tip to before its end. */
struct Around {
    static constexpr size_t kEnds = kMostTips + 1;
    size_t rack;
    uint64_t named;
    // The placements of the lines lying within each stretch.
    uint32_t within[kEnds][kEnds];
    uint32_t inside[kEnds][kEnds];
    uint32_t outside[kEnds][kEnds];

    /* The pairs on tip c of a stretch, with these placements more; no line has a tip that is not named. */
    uint32_t pairs_at(size_t a, size_t end, size_t c, uint32_t more) const
    {
        const uint32_t taken = (named >> c & 1) != 0 ? within[a][end] - within[a][c] - within[c + 1][end] : 0;
        return pairs_on(taken + more);
    }

    /* The shortest stretches first. */
    void fill_inside()
    {
        memset(inside, 0, sizeof inside);
        for (size_t width = 1; width <= rack; width++) {
            for (size_t a = 0; a + width <= rack; a++) {
                uint32_t most = 0;
                for (size_t c = a; c < a + width; c++) {
                    const uint32_t split = pairs_at(a, a + width, c, 0) + inside[a][c] + inside[c + 1][a + width];
                    most = most > split ? most : split;
                }
                inside[a][a + width] = most;
            }
        }
    }

    /* What is outside of a stretch is a tip beside it and what is beyond and outside of both; inside is that of all lines. */
    uint32_t most_outside(size_t a, size_t end, const Around &all) const
    {
        uint32_t most = 0;
        for (size_t after = end + 1; after <= rack; after++) {
            const uint32_t pairs = outside[a][after] + pairs_at(a, after, end, 0) + all.inside[end + 1][after];
            most = most > pairs ? most : pairs;
        }
        for (size_t before = 0; before < a; before++) {
            const uint32_t pairs = outside[before][end] + pairs_at(before, end, a - 1, 0) + all.inside[before][a - 1];
            most = most > pairs ? most : pairs;
        }
        return most;
    }

    /* The longest stretches first. */
    void fill_outside()
    {
        for (size_t width = rack; width > 0; width--) {
            for (size_t a = 0; a + width <= rack; a++) {
                outside[a][a + width] = most_outside(a, a + width, *this);
            }
        }
    }

    /*
     * The tips of the set with which a plan has the goal's pairs, where these placements more are on the tip. The longest
     * stretches first, and only those that may have a tip of the set and where the goal can be had: by the tables of all
     * lines, and each of those placements with all that lie within the stretch.
     */
    uint64_t kept_tips(const Around &all, uint64_t set, uint32_t more, uint32_t goal)
    {
        uint64_t kept = 0;
        for (size_t width = rack; width > 0; width--) {
            for (size_t a = 0; a + width <= rack; a++) {
                const size_t end = a + width;
                outside[a][end] = 0;
                if (highest(set) < a || end <= lowest(set) ||
                    all.outside[a][end] + all.inside[a][end] + more * within[a][end] + pairs_on(more) < goal) {
                    continue;
                }
                const uint32_t most = most_outside(a, end, all);
                outside[a][end] = most;
                for (size_t c = a; c < end; c++) {
                    const uint32_t pairs = most + pairs_at(a, end, c, more) + all.inside[a][c] + all.inside[c + 1][end];
                    const uint64_t stays = (set >> c & 1) != 0 && pairs >= goal;
                    kept |= stays << c;
                }
            }
        }
        return kept;
    }
};

template <typename Quantities> void count_within(const Lines &lines, Quantities quantities, size_t count, Around &around)
{
    memset(around.within, 0, sizeof around.within);
    for (size_t line = 0; line < count; line++) {
        around.within[lowest(lines.sets[line])][highest(lines.sets[line]) + 1] += quantities[line];
    }
    for (size_t a = 0; a <= around.rack; a++) {
        for (size_t end = 1; end <= around.rack; end++) {
            around.within[a][end] += around.within[a][end - 1];
        }
    }
    for (size_t a = around.rack; a-- > 0;) {
        for (size_t end = 0; end <= around.rack; end++) {
            around.within[a][end] += around.within[a + 1][end];
        }
    }
}

/* The first line with the set and the quantity of this one. */
template <typename Quantities> size_t first_same(const uint64_t *sets, Quantities quantities, size_t line)
{
    size_t same = 0;
    while (sets[same] != sets[line] || quantities[same] != quantities[line]) {
        same++;
    }
    return same;
}

template <typename Quantities>
void strike(const Lines &lines, Quantities quantities, size_t count, uint32_t goal, const Around &all, Around &rest,
            uint64_t *kept)
{
    rest.rack = all.rack;
    rest.named = all.named;
    for (size_t line = 0; line < count; line++) {
        const uint64_t set = lines.sets[line];
        const size_t same = first_same(lines.sets, quantities, line);
        if (same < line) {
            kept[line] = kept[same];
            continue;
        }
        memcpy(rest.within, all.within, sizeof rest.within);
        for (size_t a = 0; a <= lowest(set); a++) {
            for (size_t end = highest(set) + 1; end <= rest.rack; end++) {
                rest.within[a][end] -= quantities[line];
            }
        }
        kept[line] = rest.kept_tips(all, set, quantities[line], goal);
    }
}

/* A choice of tips for the Junior: the placements of the lines with the first alone, the second alone, and both. */
struct Sides {
    uint32_t first;
    uint32_t second;
    uint32_t both;

    uint32_t on_first() const { return pairs_on(first + both) + pairs_on(second); }

    uint32_t on_second() const { return pairs_on(first) + pairs_on(second + both); }
};

/* Tries each choice of tips, and gives one up at the first line that has neither. */
template <typename Quantities>
Junior choose_tips(const uint64_t *sets, Quantities quantities, const Job &job, uint8_t *plan)
{
    const unsigned rack = static_cast<unsigned>(job.rack);
    Junior chosen{0, rack, rack};
    bool to_first = true;
    for (unsigned u = 0; u < rack; u++) {
        for (unsigned v = u; v < rack; v++) {
            Sides sides{0, 0, 0};
            for (size_t line = 0; line < job.count; line++) {
                const uint64_t has_u = sets[line] >> u & 1;
                const uint64_t has_v = sets[line] >> v & 1;
                if ((has_u | has_v) == 0) {
                    goto next;
                }
                (has_u & has_v ? sides.both : has_u ? sides.first : sides.second) += quantities[line];
            }
            {
                // With one tip every line has both; with two each must get a line.
                const bool first = sides.on_first() >= sides.on_second();
                const uint32_t pairs = first ? sides.on_first() : sides.on_second();
                const uint32_t on_u = sides.first + (first ? sides.both : 0);
                const uint32_t on_v = sides.second + (first ? 0 : sides.both);
                const bool both_used = on_u != 0 && on_v != 0;
                if ((u == v || both_used) && (chosen.u == rack || pairs > chosen.pairs)) {
                    chosen = {pairs, u, v};
                    to_first = first;
                }
            }
        next:;
        }
    }
    if (chosen.u < rack) {
        const unsigned side = to_first ? chosen.u : chosen.v;
        const unsigned other = to_first ? chosen.v : chosen.u;
        for (size_t line = 0; line < job.count; line++) {
            plan[line] = static_cast<uint8_t>((sets[line] >> side & 1) != 0 ? side : other);
        }
    }
    return chosen;
}

}  // namespace

extern "C" {

uint32_t baseline_read(const uint8_t *file, size_t file_len, uint64_t *answer, size_t answer_len)
{
    if (answer_len < TIPSHARE_ANSWER_PLACES) {
        return TIPSHARE_SHORT_ANSWER;
    }
    const Job job = read_only(file, file_len);
    return answered(answer, job.number, job.line, job.rack, job.count, 0);
}

uint32_t baseline_common(const uint8_t *file, size_t file_len, uint64_t *answer, size_t answer_len)
{
    Lines lines;
    const auto read = [&] { return read_sets(file, file_len, lines); };
    return answer_with(answer, answer_len, read, [&](const Job &job) {
        const Common common = with_quantities(job, lines.quantities, [&](auto quantities) {
            Occurrences<decltype(quantities)> occurrences(order_with(TIPSHARE_NO_TIP));
            count_all(lines.sets, quantities, job.count, occurrences);
            return common_tip(occurrences);
        });
        return answered(answer, TIPSHARE_ACCEPTED, 0, common.top, job.total - common.top, common.tips);
    });
}

uint32_t baseline_keep(const uint8_t *file, size_t file_len, uint16_t k, uint8_t *out, size_t out_len,
                       uint64_t *answer, size_t answer_len)
{
    Lines lines;
    const auto read = [&] { return read_sets(file, file_len, lines); };
    return answer_with(answer, answer_len, read, [&](const Job &job) {
        return with_quantities(job, lines.quantities, [&](auto quantities) {
            Occurrences<decltype(quantities)> occurrences(order_with(TIPSHARE_NO_TIP));
            count_all(lines.sets, quantities, job.count, occurrences);
            const auto tips_with = [&](unsigned placements) { return occurrences.tips_with(placements); };
            const auto strike = [&](const Kept &kept, uint8_t *to) {
                write_lines(to, quantities, job.count, [&](size_t line) {
                    return __builtin_bswap64(kept.of(lines.sets[line], quantities[line]));
                });
            };
            const unsigned top = occurrences.busiest() >> 6;
            return answer_keep(file, file_len, {k, out, out_len}, job, top, answer, tips_with, strike);
        });
    });
}

uint32_t baseline_goal(const uint8_t *file, size_t file_len, uint32_t goal, uint8_t *out, size_t out_len,
                       uint64_t *answer, size_t answer_len)
{
    Lines lines;
    const auto read = [&] { return read_sets(file, file_len, lines); };
    return answer_with(answer, answer_len, read, [&](const Job &job) {
        Around all;
        const auto most = [&](const Named &named) {
            all.rack = job.rack;
            all.named = named.tips;
            with_quantities(job, lines.quantities,
                            [&](auto quantities) { count_within(lines, quantities, job.count, all); });
            all.fill_inside();
            return all.inside[0][job.rack];
        };
        const auto strike_all = [&](const Named &, uint64_t *kept) {
            Around rest;
            all.fill_outside();
            with_quantities(job, lines.quantities, [&](auto quantities) {
                strike(lines, quantities, job.count, goal, all, rest, kept);
            });
        };
        return answer_goal(lines, job, {goal, out, out_len}, answer, most, strike_all);
    });
}

uint32_t baseline_quick(const uint8_t *file, size_t file_len, size_t mounted, uint8_t *plan, size_t plan_len,
                        uint64_t *answer, size_t answer_len)
{
    Lines lines;
    const auto read = [&] { return read_sets(file, file_len, lines); };
    return answer_with(answer, answer_len, read, [&](const Job &job) {
        if (is_outside(mounted, job)) {
            return refused(answer, TIPSHARE_MOUNTED_OUTSIDE);
        }
        if (plan_len < job.count) {
            return refused(answer, TIPSHARE_SHORT_PLAN);
        }
        return answered(answer, TIPSHARE_ACCEPTED, 0, quick_of(lines, job, mounted, plan), 0, 0);
    });
}

uint32_t baseline_best(const uint8_t *file, size_t file_len, size_t mounted, uint8_t *plan, size_t plan_len,
                       uint32_t *table, size_t table_len, uint64_t *answer, size_t answer_len)
{
    Lines lines;
    const auto read = [&] { return read_sets(file, file_len, lines); };
    return answer_with(answer, answer_len, read, [&](const Job &job) {
        const auto pairs = [&](const Named &named) { return best(lines, job, named, mounted, plan, table); };
        return answer_best(lines.sets, job, mounted, plan_len, table_len, answer, pairs);
    });
}

uint32_t baseline_along(const uint8_t *file, size_t file_len, size_t mounted, uint8_t *plan, size_t plan_len,
                        uint64_t *answer, size_t answer_len)
{
    Lines lines;
    const auto read = [&] { return read_sets(file, file_len, lines); };
    return answer_with(answer, answer_len, read, [&](const Job &job) {
        return answer_along(job, mounted, plan_len, answer, [&] {
            return with_quantities(job, lines.quantities, [&](auto quantities) {
                return lay_along(lines.sets, quantities, job.count, mounted, plan);
            });
        });
    });
}

uint32_t baseline_exact(const uint8_t *file, size_t file_len, size_t mounted, uint32_t price, uint8_t *plan,
                        size_t plan_len, uint32_t *table, size_t table_len, uint64_t *answer, size_t answer_len)
{
    Lines lines;
    const auto read = [&] { return read_sets(file, file_len, lines); };
    return answer_with(answer, answer_len, read, [&](const Job &job) {
        const Exact exact{price, plan_len, table, table_len};
        return answer_exact(lines.sets, job, mounted, exact, answer, [&](const Named &named, uint32_t counted) {
            return with_quantities(job, lines.quantities, [&](auto quantities) {
                return share_exactly(lines.sets, quantities, job.count, named, mounted, counted, plan, table);
            });
        });
    });
}

uint32_t baseline_check(const uint8_t *file, size_t file_len, const uint8_t *plan, size_t plan_len, uint32_t claim,
                        const uint32_t *table, size_t table_len, uint64_t *answer, size_t answer_len)
{
    Lines lines;
    const auto read = [&] { return read_sets(file, file_len, lines); };
    return answer_with(answer, answer_len, read, [&](const Job &job) {
        return answer_check(lines, job, {plan, plan_len, claim, table, table_len}, answer, [&](const Named &named) {
            return no_entry_too_low(Within(lines, job), named, table);
        });
    });
}

uint32_t baseline_junior(const uint8_t *file, size_t file_len, uint8_t *plan, size_t plan_len, uint64_t *answer,
                         size_t answer_len)
{
    Lines lines;
    const auto read = [&] { return read_sets(file, file_len, lines); };
    return answer_with(answer, answer_len, read, [&](const Job &job) {
        return answer_junior(job, plan_len, answer, [&] {
            return with_quantities(job, lines.quantities, [&](auto quantities) {
                return choose_tips(lines.sets, quantities, job, plan);
            });
        });
    });
}

uint32_t baseline_merge(const uint8_t *first, size_t first_len, const uint8_t *second, size_t second_len, uint8_t *out,
                        size_t out_len, uint64_t *answer, size_t answer_len)
{
    // The lines of both, those of the second behind those of the first.
    uint64_t sets[2 * kMostLines];
    uint8_t quantities[2 * kMostLines];
    const auto lay = [&](const uint8_t *file, size_t length, size_t from) {
        const Job job = read_lines(file, length, LaySets{sets + from, quantities + from});
        if (job.number == TIPSHARE_ACCEPTED && job.step == kSet) {
            memset(quantities + from, 1, job.count);
        }
        return job;
    };
    const auto read_first = [&] { return lay(first, first_len, 0); };
    const auto read_second = [&](const Job &one) { return lay(second, second_len, one.count); };
    return answer_with_both(answer, answer_len, read_first, read_second, [&](const Job &one, const Job &two) {
        return answer_merge(one, two, out_len, answer, [&](const Job &panel) {
            with_quantities(panel, quantities,
                            [&](auto all) { return write_file(out, panel.rack, sets, all, panel.count); });
        });
    });
}

uint32_t baseline_alone(const uint8_t *first, size_t first_len, const uint8_t *second, size_t second_len, uint8_t *plan,
                        size_t plan_len, uint64_t *answer, size_t answer_len)
{
    Lines of_first, of_second;
    const auto read_first = [&] { return read_sets(first, first_len, of_first); };
    const auto read_second = [&](const Job &) { return read_sets(second, second_len, of_second); };
    return answer_with_both(answer, answer_len, read_first, read_second, [&](const Job &one, const Job &two) {
        if (plan_len < one.count + two.count) {
            return refused(answer, TIPSHARE_SHORT_PLAN);
        }
        const uint32_t pairs = quick_of(of_first, one, TIPSHARE_NO_TIP, plan);
        const uint32_t other_pairs = quick_of(of_second, two, TIPSHARE_NO_TIP, plan + one.count);
        return answered(answer, TIPSHARE_ACCEPTED, 0, pairs, other_pairs, 0);
    });
}

uint32_t baseline_mend(const uint8_t *file, size_t file_len, uint8_t *out, size_t out_len, uint8_t *report,
                       size_t report_len, uint64_t *answer, size_t answer_len)
{
    if (answer_len < TIPSHARE_ANSWER_PLACES) {
        return TIPSHARE_SHORT_ANSWER;
    }
    const Job job = read_form(file, file_len);
    if (job.number != TIPSHARE_ACCEPTED) {
        return refused(answer, job.number);
    }
    return answer_mend(file, file_len, job, {out, out_len, report, report_len}, answer);
}

uint32_t baseline_order(const uint32_t *parts, size_t parts_len, const uint32_t *rules, size_t rules_len,
                        uint8_t *order, size_t order_len, uint64_t *answer, size_t answer_len)
{
    return order::answer_order({parts, parts_len, rules, rules_len, answer, answer_len}, order, order_len,
                               [](const order::Given &given, uint8_t *found) {
                                   return order::Plain(given).least(found);
                               });
}

uint32_t baseline_order_by_tips(const uint32_t *parts, size_t parts_len, const uint32_t *rules, size_t rules_len,
                                const uint8_t *plan, size_t plan_len, size_t mounted, uint8_t *order, size_t order_len,
                                uint64_t *answer, size_t answer_len)
{
    const order::LentTips tips{plan, plan_len, mounted};
    return order::answer_by_tips({parts, parts_len, rules, rules_len, answer, answer_len}, tips, order, order_len,
                                 [&](const order::Given &given, uint8_t *found) {
                                     return order::Plain(given).best(found, [&](size_t position, size_t part) {
                                         return order::tip_before(tips, found, position) == tips.plan[part];
                                     });
                                 });
}

uint32_t baseline_windows(const uint32_t *parts, size_t parts_len, const uint32_t *rules, size_t rules_len,
                          uint8_t *first, size_t first_len, uint8_t *last, size_t last_len, uint64_t *answer,
                          size_t answer_len)
{
    return order::answer_windows({parts, parts_len, rules, rules_len, answer, answer_len},
                                 {first, first_len, last, last_len},
                                 [](const order::Given &given, order::Windows &found) {
                                     return order::Plain(given).windows(found);
                                 });
}

size_t baseline_report(const uint8_t *file, size_t file_len, uint8_t *out, size_t out_len)
{
    if (out_len < TIPSHARE_REPORT_SPACE) {
        return 0;
    }
    Lines lines;
    const Job job = read_sets(file, report_length(file_len), lines);
    if (job.number != TIPSHARE_ACCEPTED) {
        return write_refusal(out, job.number);
    }
    uint8_t quick_plan[kMostLines];
    uint8_t best_plan[kMostLines];
    uint32_t table[TIPSHARE_MOST_PLACES];
    LinesOf lines_of;
    Found found{};
    with_quantities(job, lines.quantities, [&](auto quantities) {
        Occurrences<decltype(quantities)> occurrences(order_with(TIPSHARE_NO_TIP));
        count_and_list(lines.sets, quantities, job, occurrences, lines_of);
        const Common common = common_tip(occurrences);
        found.off = job.total - common.top;
        found.common = common.tips;
        found.quick = quick(lines.sets, quantities, job, occurrences, lines_of, quick_plan);
    });
    found.quick_plan = quick_plan;
    const Named named(lines.sets, job.count);
    found.runs = named.first_no_run(lines.sets, job.count) == job.count;
    if (found.runs) {
        found.best = best(lines, job, named, TIPSHARE_NO_TIP, best_plan, table);
        found.best_plan = best_plan;
    }
    return write_report(out, job, found);
}

}  // extern "C"
