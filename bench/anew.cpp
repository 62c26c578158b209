/*
 * A goal of pairs as the rule says it, in plain C++: a line is put on one of its tips alone, the board is solved anew by
 * best sharing's recursion, and the tip stays where that reaches the goal. Only measured, to see what the tables save.
 */
#include "libraries.h"

#include "job.h"

namespace {

using namespace job;

/* The most pairs of lines that are runs, by the ranks of the named tips; a stretch is from a to before its end. */
struct Solve {
    static constexpr size_t kEnds = kMostTips + 1;
    uint32_t within[kEnds][kEnds];
    uint32_t most[kEnds][kEnds];

    /* With one line on one tip alone, where there is such a line. */
    template <typename Quantities>
    uint32_t pairs(const Lines &lines, Quantities quantities, size_t count, const Named &named, size_t line, size_t tip)
    {
        const size_t ranks = named.count;
        memset(within, 0, sizeof within);
        memset(most, 0, sizeof most);
        for (size_t each = 0; each < count; each++) {
            const uint64_t set = each == line ? uint64_t{1} << tip : lines.sets[each];
            within[named.first(set)][named.last(set) + 1] += quantities[each];
        }
        for (size_t a = 0; a <= ranks; a++) {
            for (size_t end = 1; end <= ranks; end++) {
                within[a][end] += within[a][end - 1];
            }
        }
        for (size_t a = ranks; a-- > 0;) {
            for (size_t end = 0; end <= ranks; end++) {
                within[a][end] += within[a + 1][end];
            }
        }
        for (size_t a = ranks; a-- > 0;) {
            for (size_t c = a; c < ranks; c++) {
                for (size_t end = c + 1; end <= ranks; end++) {
                    const uint32_t taken = within[a][end] - within[a][c] - within[c + 1][end];
                    const uint32_t split = pairs_on(taken) + most[a][c] + most[c + 1][end];
                    most[a][end] = most[a][end] > split ? most[a][end] : split;
                }
            }
        }
        return most[0][ranks];
    }
};

}  // namespace

extern "C" uint32_t anew_goal(const uint8_t *file, size_t file_len, uint32_t goal, uint8_t *out, size_t out_len,
                              uint64_t *answer, size_t answer_len)
{
    Lines lines;
    Solve solve;
    const auto read = [&] { return read_sets(file, file_len, lines); };
    return answer_with(answer, answer_len, read, [&](const Job &job) {
        const auto most_with = [&](const Named &named, size_t line, size_t tip) {
            return with_quantities(job, lines.quantities, [&](auto quantities) {
                return solve.pairs(lines, quantities, job.count, named, line, tip);
            });
        };
        const auto most = [&](const Named &named) { return most_with(named, job.count, 0); };
        const auto strike = [&](const Named &named, uint64_t *kept) {
            for (size_t line = 0; line < job.count; line++) {
                kept[line] = 0;
                for (uint64_t tips = lines.sets[line]; tips != 0; tips &= tips - 1) {
                    const uint64_t stays = most_with(named, line, lowest(tips)) >= goal;
                    kept[line] |= stays << lowest(tips);
                }
            }
        };
        return answer_goal(lines, job, {goal, out, out_len}, answer, most, strike);
    });
}
