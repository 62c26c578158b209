/*
 * What the hand-written implementations share: a job file of either version read and written, answering, and the text
 * of a report. The rules are those of include/tipshare.h.
 */
#pragma once

#include <array>
#include <cstddef>
#include <cstdint>
#include <cstring>
#include <type_traits>

#include "tipshare.h"

namespace job {

constexpr size_t kHead = 8;
constexpr size_t kSet = 8;
constexpr size_t kMostTips = TIPSHARE_MOST_TIPS;
constexpr size_t kMostLines = TIPSHARE_MOST_LINES;
constexpr uint32_t kMostPlacements = 2048;
constexpr int64_t kMostQuantity = 255;
constexpr size_t kLongestFile = kHead + (kSet + 1) * kMostLines;


/* A job file that was accepted, or the number and the line of its refusal. */
struct Job {
    uint32_t number;
    uint32_t line;
    size_t rack;
    size_t count;
    /* The bytes of a line: its set, and in version 2 its quantity. */
    size_t step;
    /* The placements of all lines. */
    uint32_t total;

    /* Whether every quantity is 1. */
    bool single() const { return total == count; }
};

inline Job not_read(uint32_t number, uint32_t line = 0) { return {number, line, 0, 0, 0, 0}; }

/* The length of a file with these numbers of lines and of bytes a line. */
constexpr size_t length_of(size_t count, size_t step) { return kHead + step * count; }

inline uint64_t raw_at(const uint8_t *at)
{
    uint64_t raw;
    memcpy(&raw, at, sizeof raw);
    return raw;
}

inline void put_raw(uint8_t *at, uint64_t raw) { memcpy(at, &raw, sizeof raw); }

inline unsigned lowest(uint64_t set) { return static_cast<unsigned>(__builtin_ctzll(set)); }

inline unsigned highest(uint64_t set) { return 63 - static_cast<unsigned>(__builtin_clzll(set)); }

/* The tips that a rack of this size has not. */
inline uint64_t outside(size_t rack) { return rack == 64 ? 0 : ~uint64_t{0} << rack; }

inline uint32_t pairs_on(uint32_t placements) { return placements * (placements - 1) / 2; }

/* Checks mark, version and rack size; the number of lines is the one found. */
inline Job read_form(const uint8_t *file, size_t length)
{
    if (length < kHead) {
        return not_read(TIPSHARE_SHORT_FILE);
    }
    if (memcmp(file, "TIP", 3) != 0) {
        return not_read(TIPSHARE_WRONG_MARK);
    }
    const unsigned version = file[4];
    if (file[3] != 0 || version - 1 >= 2) {
        return not_read(TIPSHARE_WRONG_VERSION);
    }
    const size_t rack = file[5];
    if (rack - 1 >= kMostTips) {
        return not_read(TIPSHARE_RACK_SIZE);
    }
    const size_t count = size_t{file[6]} << 8 | file[7];
    return {TIPSHARE_ACCEPTED, 0, rack, count, kSet + version - 1, static_cast<uint32_t>(count)};
}

/* Checks the length and the first 8 bytes. */
inline Job read_head(const uint8_t *file, size_t length)
{
    const Job job = read_form(file, length);
    if (job.number != TIPSHARE_ACCEPTED) {
        return job;
    }
    if (job.count > kMostLines) {
        return not_read(TIPSHARE_FILE_LINES);
    }
    if (length != length_of(job.count, job.step)) {
        return not_read(TIPSHARE_FILE_LENGTH);
    }
    return job;
}

inline uint32_t quantity_at(const uint8_t *at, const Job &job) { return job.step == kSet ? 1 : at[kSet]; }

/* The refusal of a file that is known to have a bad line or too many placements. */
[[gnu::noinline, gnu::cold]] inline Job first_bad_line(const uint8_t *file, const Job &job)
{
    const uint64_t bad = outside(job.rack);
    const uint8_t *at = file + kHead;
    for (uint32_t line = 0; line < job.count; line++, at += job.step) {
        const uint64_t set = __builtin_bswap64(raw_at(at));
        if (set == 0) {
            return not_read(TIPSHARE_EMPTY_LINE, line);
        }
        if (set & bad) {
            return not_read(TIPSHARE_TIP_OUTSIDE, line);
        }
        if (quantity_at(at, job) == 0) {
            return not_read(TIPSHARE_ZERO_QUANTITY, line);
        }
    }
    uint32_t line = 0;
    at = file + kHead;
    for (uint32_t total = at[kSet]; total <= kMostPlacements; total += at[kSet]) {
        line++;
        at += job.step;
    }
    return not_read(TIPSHARE_TOO_MANY_PLACEMENTS, line);
}

/* Reads the file and hands each set, as its bytes stand, to take; in version 2 with its quantity. */
template <typename Take>
[[gnu::always_inline]] inline Job read_lines(const uint8_t *file, size_t length, const Take &take)
{
    Job job = read_head(file, length);
    if (job.number != TIPSHARE_ACCEPTED) {
        return job;
    }
    uint64_t joined = 0;
    unsigned empty = 0;
    const uint8_t *const lines = file + kHead;
    if (job.step == kSet) {
#pragma GCC unroll 4
        for (size_t line = 0; line < job.count; line++) {
            const uint64_t raw = raw_at(lines + kSet * line);
            take(line, raw);
            joined |= raw;
            empty += raw < 1;
        }
    } else {
        job.total = 0;
#pragma GCC unroll 4
        for (size_t line = 0; line < job.count; line++) {
            const uint8_t *const at = lines + (kSet + 1) * line;
            const uint64_t raw = raw_at(at);
            const uint8_t quantity = at[kSet];
            take(line, raw, quantity);
            joined |= raw;
            empty += (raw < 1) + (quantity < 1);
            job.total += quantity;
        }
    }
    if ((__builtin_bswap64(joined) & outside(job.rack)) != 0 || empty != 0 || job.total > kMostPlacements) {
        return first_bad_line(file, job);
    }
    return job;
}

/* The lines of a job; where every quantity is 1 the quantities may be missing. */
struct Lines {
    uint64_t sets[kMostLines];
    uint8_t quantities[kMostLines];
};

struct LaySets {
    uint64_t *__restrict sets;
    uint8_t *__restrict quantities;

    void operator()(size_t line, uint64_t raw) const { sets[line] = __builtin_bswap64(raw); }

    void operator()(size_t line, uint64_t raw, uint8_t quantity) const
    {
        (*this)(line, raw);
        quantities[line] = quantity;
    }
};

/* Reads the file and lays its lines; the quantities of version 1 are left out. */
inline Job read_sets(const uint8_t *file, size_t length, Lines &lines)
{
    return read_lines(file, length, LaySets{lines.sets, lines.quantities});
}

/* Reads the file and keeps no line. */
inline Job read_only(const uint8_t *file, size_t length)
{
    return read_lines(file, length, [](auto...) {});
}

/* Quantities that are all 1. */
struct Single {
    constexpr uint8_t operator[](size_t) const { return 1; }
};

/* Does the work with the quantities of a job; those that are all 1 need not be looked at. */
template <typename Work>
[[gnu::always_inline]] inline auto with_quantities(const Job &job, const uint8_t *quantities, const Work &work)
{
    return job.single() ? work(Single{}) : work(quantities);
}

/* Writes lines of these sets, as their bytes are to stand, and gives what follows; of quantities that are all 1 nothing. */
template <typename RawOf>
[[gnu::always_inline]] inline uint8_t *write_lines(uint8_t *to, Single, size_t count, const RawOf &raw_of)
{
    for (size_t line = 0; line < count; line++) {
        put_raw(to + kSet * line, raw_of(line));
    }
    return to + kSet * count;
}

template <typename RawOf>
[[gnu::always_inline]] inline uint8_t *write_lines(uint8_t *to, const uint8_t *quantities, size_t count,
                                                   const RawOf &raw_of)
{
    for (size_t line = 0; line < count; line++) {
        put_raw(to + (kSet + 1) * line, raw_of(line));
        to[(kSet + 1) * line + kSet] = quantities[line];
    }
    return to + (kSet + 1) * count;
}

/* Writes the job file of these lines, of version 1 for Single and else of version 2, and gives its length. */
template <typename Quantities>
size_t write_file(uint8_t *out, size_t rack, const uint64_t *sets, Quantities quantities, size_t count)
{
    const uint8_t version = std::is_same<Quantities, Single>::value ? 1 : 2;
    const uint8_t head[kHead] = {'T',
                                 'I',
                                 'P',
                                 0,
                                 version,
                                 static_cast<uint8_t>(rack),
                                 static_cast<uint8_t>(count >> 8),
                                 static_cast<uint8_t>(count)};
    memcpy(out, head, sizeof head);
    const auto raw_of = [=](size_t line) { return __builtin_bswap64(sets[line]); };
    return static_cast<size_t>(write_lines(out + kHead, quantities, count, raw_of) - out);
}

/* The bytes of a file that a report takes: one more than the longest good file has. */
inline size_t report_length(size_t length) { return length < kLongestFile + 1 ? length : kLongestFile + 1; }

inline uint32_t answered(uint64_t *answer, uint32_t number, uint64_t first, uint64_t second, uint64_t third,
                         uint64_t fourth)
{
    answer[0] = first;
    answer[1] = second;
    answer[2] = third;
    answer[3] = fourth;
    return number;
}

inline uint32_t refused(uint64_t *answer, uint32_t number, uint64_t line = 0)
{
    return answered(answer, number, line, 0, 0, 0);
}

/* Answers a call: refused where the answer is short or the file not good, else by work. */
template <typename Read, typename Work>
[[gnu::always_inline]] inline uint32_t answer_with(uint64_t *answer, size_t answer_len, const Read &read,
                                                   const Work &work)
{
    if (answer_len < TIPSHARE_ANSWER_PLACES) {
        return TIPSHARE_SHORT_ANSWER;
    }
    const Job job = read();
    if (job.number != TIPSHARE_ACCEPTED) {
        return refused(answer, job.number, job.line);
    }
    return work(job);
}

/* What keep lends. */
struct Keep {
    uint16_t k;
    uint8_t *out;
    size_t out_len;
};

/* Of a line that has all of these tips and more placements than the margin, only they stay. */
struct Kept {
    uint64_t tips;
    int64_t margin;

    uint64_t of(uint64_t set, uint8_t quantity) const
    {
        return margin < quantity && (set & tips) == tips ? tips : set;
    }
};

/*
 * Answers keep on a good file, where one tip takes top placements. tips_with(number) gives the tips that can take so
 * many, and strike(kept, to) writes the lines: with quantities where one of them is not 1.
 */
template <typename TipsWith, typename Strike>
[[gnu::always_inline]] inline uint32_t answer_keep(const uint8_t *file, size_t file_len, const Keep &keep,
                                                   const Job &job, unsigned top, uint64_t *answer,
                                                   const TipsWith &tips_with, const Strike &strike)
{
    const int64_t needed = int64_t{job.total} - keep.k;
    const int64_t margin = int64_t{top} - needed;
    if (margin < 0) {
        return answered(answer, TIPSHARE_NO_PLAN, 0, static_cast<uint64_t>(margin), 0, 0);
    }
    const size_t written = length_of(job.count, job.single() ? kSet : kSet + 1);
    if (keep.out_len < written) {
        return refused(answer, TIPSHARE_SHORT_OUTPUT);
    }
    // No line has more placements than a margin of this size.
    const bool same = margin >= (job.single() ? 1 : kMostQuantity);
    if (same && written == file_len) {
        memcpy(keep.out, file, file_len);
    } else {
        memcpy(keep.out, file, kHead);
        strike(Kept{tips_with(needed > 1 ? static_cast<unsigned>(needed) : 1), margin}, keep.out + kHead);
    }
    keep.out[4] = job.single() ? 1 : 2;
    return answered(answer, TIPSHARE_ACCEPTED, 0, static_cast<uint64_t>(margin), written, 0);
}

/* Whether a call names a mounted tip that the rack has not. */
inline bool is_outside(size_t mounted, const Job &job) { return mounted >= job.rack && mounted != TIPSHARE_NO_TIP; }

/* The order in which a tie between tips, or between ranks, is decided: one of them first, then by number. */
struct Order {
    // 0 where none is mounted, which is first by its number.
    unsigned first;

    unsigned place_of(unsigned tip) const { return tip == first ? 0 : tip + (tip < first); }

    unsigned tip_at(unsigned place) const { return place == 0 ? first : place - (place <= first); }
};

inline Order order_with(size_t mounted)
{
    return {mounted == TIPSHARE_NO_TIP ? 0 : static_cast<unsigned>(mounted)};
}

/* The tips that some line has, by tip and by rank: rank 0 is the lowest of them. */
struct Named {
    uint64_t tips;
    size_t count;
    // Of the named tips alone.
    uint8_t rank[kMostTips];
    uint8_t tip[kMostTips];

    Named(const uint64_t *sets, size_t lines) : tips(0), count(0)
    {
        for (size_t line = 0; line < lines; line++) {
            tips |= sets[line];
        }
        for (uint64_t rest = tips; rest != 0; rest &= rest - 1) {
            tip[count] = static_cast<uint8_t>(lowest(rest));
            rank[lowest(rest)] = static_cast<uint8_t>(count++);
        }
    }

    /* Whether some line has the mounted tip: no other is ever chosen. */
    bool has(size_t mounted) const { return mounted < kMostTips && (tips >> mounted & 1) != 0; }

    unsigned first(uint64_t set) const { return rank[lowest(set)]; }

    unsigned last(uint64_t set) const { return rank[highest(set)]; }

    /*
     * The line that is no run, or count. Where the tips that are not named are filled in, adding the lowest tip of a run
     * carries past its highest and leaves no tip behind.
     */
    size_t first_no_run(const uint64_t *sets, size_t lines) const
    {
        size_t line = 0;
        while (line < lines && (sets[line] & ((sets[line] | ~tips) + (sets[line] & -sets[line]))) == 0) {
            line++;
        }
        return line;
    }
};

/*
 * Writes the table of a rack: most(r, s) is that of the named tips with the ranks r to s. A row of a tip that is not
 * named is the row below it, and a column of one is that before it.
 */
template <typename Most>
[[gnu::always_inline]] inline void write_table(const Named &named, size_t rack, const Most &most,
                                               uint32_t *__restrict table)
{
    size_t first = named.count;
    // A small table is cleared at once.
    constexpr size_t kSmallRack = 16;
    if (rack <= kSmallRack) {
        memset(table, 0, rack * rack * sizeof *table);
    }
    for (size_t a = rack; a-- > 0;) {
        uint32_t *__restrict const row = table + a * rack;
        if ((named.tips >> a & 1) != 0) {
            first--;
            if (rack > kSmallRack) {
                memset(row, 0, a * sizeof *row);
            }
            if (named.count == rack) {
                for (size_t b = a; b < rack; b++) {
                    row[b] = most(a, b);
                }
                continue;
            }
            for (size_t last = first; last < named.count; last++) {
                const uint32_t pairs = most(first, last);
                const size_t end = last + 1 < named.count ? named.tip[last + 1] : rack;
                for (size_t b = named.tip[last]; b < end; b++) {
                    row[b] = pairs;
                }
            }
        } else if (first < named.count) {
            memcpy(row, row + rack, rack * sizeof *row);
        } else {
            memset(row, 0, rack * sizeof *row);
        }
    }
}

/*
 * Answers best sharing on a good file: refused by the mounted tip, a short buffer or a line that is no run, else by
 * pairs(named).
 */
template <typename Pairs>
[[gnu::always_inline]] inline uint32_t answer_best(const uint64_t *sets, const Job &job, size_t mounted,
                                                   size_t plan_len, size_t table_len, uint64_t *answer,
                                                   const Pairs &pairs)
{
    if (is_outside(mounted, job)) {
        return refused(answer, TIPSHARE_MOUNTED_OUTSIDE);
    }
    if (plan_len < job.count) {
        return refused(answer, TIPSHARE_SHORT_PLAN);
    }
    if (table_len < job.rack * job.rack) {
        return refused(answer, TIPSHARE_SHORT_TABLE);
    }
    const Named named(sets, job.count);
    const size_t no_run = named.first_no_run(sets, job.count);
    if (no_run < job.count) {
        return refused(answer, TIPSHARE_NO_RUN, no_run);
    }
    return answered(answer, TIPSHARE_ACCEPTED, 0, pairs(named), 0, 0);
}

/* What a goal of pairs lends. */
struct Goal {
    uint32_t pairs;
    uint8_t *out;
    size_t out_len;
};

/*
 * Answers a goal of pairs on a good file: refused by a line that is no run, by most(named), the pairs of a best plan, or
 * by a short output, else strike(named, kept) gives the set of each line that is written.
 */
template <typename Most, typename Strike>
[[gnu::always_inline]] inline uint32_t answer_goal(const Lines &lines, const Job &job, const Goal &goal,
                                                   uint64_t *answer, const Most &most, const Strike &strike)
{
    const Named named(lines.sets, job.count);
    const size_t no_run = named.first_no_run(lines.sets, job.count);
    if (no_run < job.count) {
        return refused(answer, TIPSHARE_NO_RUN, no_run);
    }
    if (most(named) < goal.pairs) {
        return refused(answer, TIPSHARE_GOAL_MISSED);
    }
    const size_t written = length_of(job.count, job.single() ? kSet : kSet + 1);
    if (goal.out_len < written) {
        return refused(answer, TIPSHARE_SHORT_OUTPUT);
    }
    uint64_t kept[kMostLines];
    strike(named, kept);
    with_quantities(job, lines.quantities,
                    [&](auto quantities) { write_file(goal.out, job.rack, kept, quantities, job.count); });
    return answered(answer, TIPSHARE_ACCEPTED, 0, written, 0, 0);
}

/* A choice of tips for the Junior, with the pairs of its plan; without a plan the first tip is past the rack. */
struct Junior {
    uint32_t pairs;
    unsigned u;
    unsigned v;
};

/* Answers a plan for the Junior on a good file: refused by its size or a short buffer, else by choose(). */
template <typename Choose>
[[gnu::always_inline]] inline uint32_t answer_junior(const Job &job, size_t plan_len, uint64_t *answer,
                                                     const Choose &choose)
{
    if (job.count > TIPSHARE_JUNIOR_LINES) {
        return refused(answer, TIPSHARE_TOO_MANY_LINES);
    }
    if (job.rack > TIPSHARE_JUNIOR_TIPS) {
        return refused(answer, TIPSHARE_RACK_SIZE);
    }
    if (plan_len < job.count) {
        return refused(answer, TIPSHARE_SHORT_PLAN);
    }
    const Junior junior = job.count == 0 ? Junior{0, 0, 0} : choose();
    if (junior.u >= job.rack) {
        return refused(answer, TIPSHARE_NO_TWO_TIPS);
    }
    return answered(answer, TIPSHARE_ACCEPTED, 0, junior.pairs, junior.u, junior.v);
}

/* What other software hands over: a plan, how many pairs it is said to have, and a table. */
struct Handed {
    const uint8_t *plan;
    size_t plan_len;
    uint32_t claim;
    const uint32_t *table;
    size_t table_len;
};

/* Whether each line is on a tip of its own; counts the placements on each tip. */
template <typename Quantities>
[[gnu::always_inline]] inline bool has_own_tips(const uint64_t *sets, Quantities quantities, size_t count,
                                                const uint8_t *plan, uint32_t *placements)
{
    uint64_t own = 1;
    for (size_t line = 0; line < count; line++) {
        const unsigned tip = plan[line];
        own &= (sets[line] >> tip % kMostTips) & (tip < kMostTips);
        placements[tip % kMostTips] += quantities[line];
    }
    return own != 0;
}

/*
 * Answers the check of a plan on a good file: refused by a short buffer, a line that is no run, a foreign tip or the
 * claim, else by table_holds(named).
 */
template <typename TableHolds>
[[gnu::always_inline]] inline uint32_t answer_check(const Lines &lines, const Job &job, const Handed &handed,
                                                    uint64_t *answer, const TableHolds &table_holds)
{
    if (handed.plan_len < job.count) {
        return refused(answer, TIPSHARE_SHORT_PLAN);
    }
    if (handed.table_len < job.rack * job.rack) {
        return refused(answer, TIPSHARE_SHORT_TABLE);
    }
    const Named named(lines.sets, job.count);
    const size_t no_run = named.first_no_run(lines.sets, job.count);
    if (no_run < job.count) {
        return refused(answer, TIPSHARE_NO_RUN, no_run);
    }
    uint32_t placements[kMostTips] = {};
    const bool own = with_quantities(job, lines.quantities, [&](auto quantities) {
        return has_own_tips(lines.sets, quantities, job.count, handed.plan, placements);
    });
    if (!own) {
        return refused(answer, TIPSHARE_FOREIGN_TIP);
    }
    uint32_t pairs = 0;
    for (uint32_t on_tip : placements) {
        pairs += pairs_on(on_tip);
    }
    if (pairs != handed.claim) {
        return refused(answer, TIPSHARE_WRONG_CLAIM);
    }
    if (handed.table[job.rack - 1] != handed.claim || !table_holds(named)) {
        return refused(answer, TIPSHARE_WRONG_TABLE);
    }
    return answered(answer, TIPSHARE_ACCEPTED, 0, 0, 0, 0);
}

/*
 * The placements of the lines lying within each stretch of a rack: of the lines within a to b those that allow a named
 * tip c are in neither of the stretches beside it.
 */
struct Within {
    size_t rack;
    // Row a + 1 has a stretch that begins past its end too, with no line in it.
    alignas(16) int16_t of[kMostTips + 1][kMostTips];

    Within(const Lines &lines, const Job &job) : rack(job.rack)
    {
        memset(of, 0, (rack + 1) * sizeof of[0]);
        with_quantities(job, lines.quantities, [&](auto quantities) {
            for (size_t line = 0; line < job.count; line++) {
                int16_t &here = of[lowest(lines.sets[line])][highest(lines.sets[line])];
                here = static_cast<int16_t>(here + quantities[line]);
            }
        });
        // First along each row, then down from row to row.
        for (size_t a = 0; a < rack; a++) {
            for (size_t b = a + 1; b < rack; b++) {
                of[a][b] = static_cast<int16_t>(of[a][b] + of[a][b - 1]);
            }
        }
        for (size_t a = rack; a-- > 0;) {
            for (size_t b = 0; b < rack; b++) {
                of[a][b] = static_cast<int16_t>(of[a][b] + of[a + 1][b]);
            }
        }
    }
};

/* Whether no entry is below what some named tip of its stretch needs: a number of pairs and two entries, in 64 bits. */
inline bool no_entry_too_low(const Within &within, const Named &named, const uint32_t *table)
{
    const size_t rack = within.rack;
    // Below zero where an entry is too low.
    int64_t lacks = 0;
    for (size_t a = 0; a < rack; a++) {
        const uint32_t *const entries = table + a * rack;
        const int16_t *const all = within.of[a];
        for (uint64_t rest = named.tips >> a << a; rest != 0; rest &= rest - 1) {
            const size_t c = lowest(rest);
            const int16_t on_left = c > a ? all[c - 1] : int16_t{0};
            const int64_t below = c > a ? int64_t{entries[c - 1]} : 0;
            const int32_t here = all[c] - on_left;
            lacks |= int64_t{entries[c]} - below - here * (here - 1) / 2;
            const int16_t *const on_right = within.of[c + 1];
            const uint32_t *const above = table + (c + 1) * rack;
            for (size_t b = c + 1; b < rack; b++) {
                const int16_t placements = static_cast<int16_t>(all[b] - on_left - on_right[b]);
                const int16_t others = static_cast<int16_t>(placements - 1);
                const int32_t pairs = int32_t{placements} * others >> 1;
                lacks |= int64_t{entries[b]} - below - int64_t{above[b]} - pairs;
            }
        }
    }
    return lacks >= 0;
}

/*
 * The tips chosen in best sharing are a tree: the tip of a stretch has those of the two stretches beside it below it.
 * A line is laid by the first of its tips from the top. Of the tips above h (and h itself) that are not higher than
 * h, a line whose highest tip is h has this one as the lowest in its set: all that is needed of the tree is that set
 * of tips for each h. chosen(a, b) gives the rank of the tip of the stretch from rank a to rank b.
 */
template <typename Chosen> struct Tree {
    const Chosen &chosen;
    const Named &named;
    uint64_t *below;

    void lay(int a, int b, uint64_t passed)
    {
        while (a <= b) {
            const int rank = chosen(a, b);
            const unsigned tip = named.tip[rank];
            below[tip] = passed | uint64_t{1} << tip;
            lay(a, rank - 1, passed);
            passed |= uint64_t{1} << tip;
            a = rank + 1;
        }
    }
};

template <typename Chosen>
inline void lay_best(const uint64_t *sets, size_t count, const Named &named, const Chosen &chosen,
                     uint8_t *__restrict plan)
{
    uint64_t below[kMostTips];
    Tree<Chosen>{chosen, named, below}.lay(0, static_cast<int>(named.count) - 1, 0);
    for (size_t line = 0; line < count; line++) {
        plan[line] = static_cast<uint8_t>(lowest(below[highest(sets[line])] & sets[line]));
    }
}

/* The digits of a number below 1000 with their count behind them. */
struct Digits {
    char text[3];
    uint8_t length;
};

constexpr std::array<Digits, kMostLines> digits_of_each()
{
    std::array<Digits, kMostLines> all{};
    for (size_t number = 0; number < kMostLines; number++) {
        Digits &digits = all[number];
        const char hundreds = static_cast<char>('0' + number / 100);
        const char tens = static_cast<char>('0' + number / 10 % 10);
        const char ones = static_cast<char>('0' + number % 10);
        if (number >= 100) {
            digits = {{hundreds, tens, ones}, 3};
        } else if (number >= 10) {
            digits = {{tens, ones, 0}, 2};
        } else {
            digits = {{ones, 0, 0}, 1};
        }
    }
    return all;
}

inline constexpr std::array<Digits, kMostLines> kDigits = digits_of_each();

/* Writes text from place to place. */
struct Text {
    uint8_t *at;

    template <size_t N> void words(const char (&text)[N])
    {
        memcpy(at, text, N - 1);
        at += N - 1;
    }

    /* May write 3 bytes more than the digits: only where more text follows than that. */
    void small(size_t number)
    {
        memcpy(at, &kDigits[number], sizeof(Digits));
        at += kDigits[number].length;
    }

    /* May write 1 byte more than the digits. */
    void tip(size_t number)
    {
        memcpy(at, &kDigits[number], 2);
        at += kDigits[number].length;
    }

    void number(uint32_t value)
    {
        uint8_t digits[10];
        size_t first = sizeof digits;
        do {
            digits[--first] = static_cast<uint8_t>('0' + value % 10);
            value /= 10;
        } while (value != 0);
        memcpy(at, digits + first, sizeof digits - first);
        at += sizeof digits - first;
    }
};

/* What a report tells; best_plan only counts with runs. */
struct Found {
    uint32_t off;
    uint64_t common;
    uint32_t quick;
    bool runs;
    uint32_t best;
    const uint8_t *quick_plan;
    const uint8_t *best_plan;
};

inline size_t write_refusal(uint8_t *out, uint32_t number)
{
    Text text{out};
    text.words("refused ");
    text.number(number);
    text.words("\n");
    return static_cast<size_t>(text.at - out);
}

inline size_t write_report(uint8_t *out, const Job &job, const Found &found)
{
    Text text{out};
    text.words("lines ");
    text.number(static_cast<uint32_t>(job.count));
    text.words(" rack ");
    text.number(static_cast<uint32_t>(job.rack));
    text.words("\noff ");
    text.number(found.off);
    text.words(" tips");
    for (uint64_t rest = found.common; rest != 0; rest &= rest - 1) {
        text.words(" ");
        text.tip(lowest(rest));
    }
    text.words("\nquick ");
    text.number(found.quick);
    if (found.runs) {
        text.words("\nbest ");
        text.number(found.best);
        text.words("\n");
        for (size_t line = 0; line < job.count; line++) {
            text.words("line ");
            text.small(line);
            text.words(" quick ");
            text.tip(found.quick_plan[line]);
            text.words(" best ");
            text.tip(found.best_plan[line]);
            text.words("\n");
        }
    } else {
        text.words("\nbest none\n");
        for (size_t line = 0; line < job.count; line++) {
            text.words("line ");
            text.small(line);
            text.words(" quick ");
            text.tip(found.quick_plan[line]);
            text.words(" best -\n");
        }
    }
    return static_cast<size_t>(text.at - out);
}

}  // namespace job
