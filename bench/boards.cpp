#include "boards.h"

#include <algorithm>
#include <functional>
#include <numeric>
#include <set>
#include <utility>

#include "job.h"
#include "libraries.h"

namespace {

/* A splitmix64 generator. */
class Random {
public:
    explicit Random(uint64_t seed) : state(seed) {}

    uint64_t number()
    {
        state += 0x9E3779B97F4A7C15;
        uint64_t mixed = state;
        mixed = (mixed ^ mixed >> 30) * 0xBF58476D1CE4E5B9;
        mixed = (mixed ^ mixed >> 27) * 0x94D049BB133111EB;
        return mixed ^ mixed >> 31;
    }

    size_t from_to(size_t first, size_t last) { return first + number() % (last - first + 1); }

private:
    uint64_t state;
};

/* The set of one line. */
using Line = std::function<uint64_t(Random &random, size_t rack, size_t line)>;

uint64_t run(size_t first, size_t tips) { return ~uint64_t{0} >> (64 - tips) << first; }

/* A run of least to most tips anywhere in the rack. */
Line run_of(size_t least, size_t most)
{
    return [=](Random &random, size_t rack, size_t) {
        const size_t tips = random.from_to(least, std::min(most, rack));
        return run(random.from_to(0, rack - tips), tips);
    };
}

uint64_t few_tips(Random &random, size_t rack, size_t)
{
    uint64_t set = 0;
    for (size_t tips = random.from_to(1, 3); tips > 0; tips--) {
        set |= uint64_t{1} << random.from_to(0, rack - 1);
    }
    return set;
}

uint64_t many_tips(Random &random, size_t rack, size_t)
{
    return (random.number() & run(0, rack)) | uint64_t{1} << random.from_to(0, rack - 1);
}

/* The first tip or the last, and others. */
uint64_t first_or_last(Random &random, size_t rack, size_t)
{
    return (random.number() & run(0, rack)) | uint64_t{1} << random.from_to(0, 1) * (rack - 1);
}

/* Tip 2 or tip 5, and others. */
uint64_t one_of_two(Random &random, size_t rack, size_t)
{
    return (random.number() & run(0, rack)) | (random.from_to(0, 1) == 0 ? 1 << 2 : 1 << 5);
}

uint64_t all_tips(Random &, size_t rack, size_t) { return run(0, rack); }

uint64_t one_tip_in_turn(Random &, size_t rack, size_t line) { return uint64_t{1} << line % rack; }

/* Every tip but the last, and a single line with only that one. */
uint64_t all_but_one(Random &, size_t rack, size_t line)
{
    return line == 0 ? uint64_t{1} << (rack - 1) : run(0, rack - 1);
}

/* One line has every tip, so that each is named; the others are runs of 1 to 4 tips. */
uint64_t all_tips_and_short_runs(Random &random, size_t rack, size_t line)
{
    return line == 0 ? run(0, rack) : run_of(1, 4)(random, rack, line);
}

/* The run between two seeded tips. */
uint64_t any_run(Random &random, size_t rack, size_t)
{
    const size_t first = random.from_to(0, rack - 1);
    const size_t second = random.from_to(0, rack - 1);
    return run(std::min(first, second), std::max(first, second) - std::min(first, second) + 1);
}

/* The quantities of so many lines. */
using Quantities = std::vector<uint8_t> (*)(Random &random, size_t lines);

std::vector<uint8_t> all_1(Random &, size_t lines) { return std::vector<uint8_t>(lines, 1); }

/* 1 to 7 each; where they are too many placements together, some are lowered. */
std::vector<uint8_t> from_1_to_7(Random &random, size_t lines)
{
    std::vector<uint8_t> quantities;
    for (size_t line = 0; line < lines; line++) {
        quantities.push_back(static_cast<uint8_t>(random.from_to(1, 7)));
    }
    while (std::accumulate(quantities.begin(), quantities.end(), uint32_t{0}) > job::kMostPlacements) {
        uint8_t &any = quantities[random.from_to(0, lines - 1)];
        any = std::max<uint8_t>(1, static_cast<uint8_t>(any - 1));
    }
    return quantities;
}

uint16_t least_bound(const std::vector<uint64_t> &sets, const std::vector<uint8_t> &quantities)
{
    uint32_t top = 0;
    for (size_t tip = 0; tip < 64; tip++) {
        uint32_t placements = 0;
        for (size_t line = 0; line < sets.size(); line++) {
            placements += (sets[line] >> tip & 1) == 1 ? quantities[line] : 0;
        }
        top = std::max(top, placements);
    }
    return static_cast<uint16_t>(std::accumulate(quantities.begin(), quantities.end(), uint32_t{0}) - top);
}

/* A file of version 2 where there are quantities, which are then all 1 or not, else of version 1. */
File file_of(const std::vector<uint64_t> &sets, size_t rack, Quantities quantities_of, Random &random)
{
    std::vector<uint8_t> bytes(job::kLongestFile);
    const std::vector<uint8_t> quantities = (quantities_of ? quantities_of : all_1)(random, sets.size());
    if (quantities_of) {
        bytes.resize(job::write_file(bytes.data(), rack, sets.data(), quantities.data(), sets.size()));
    } else {
        bytes.resize(job::write_file(bytes.data(), rack, sets.data(), job::Single{}, sets.size()));
    }
    return {std::move(bytes), least_bound(sets, quantities), TIPSHARE_NO_TIP, {}, 0, {}, {}, {}, {}, {}};
}

/* Whether the Junior takes the file's board. */
bool is_planned_for_junior(const File &file)
{
    uint8_t plan[TIPSHARE_JUNIOR_LINES];
    uint64_t answer[TIPSHARE_ANSWER_PLACES];
    return baseline_junior(file.bytes.data(), file.bytes.size(), plan, sizeof plan, answer, TIPSHARE_ANSWER_PLACES) ==
           TIPSHARE_ACCEPTED;
}

/* Puts the best plan of the file's board into it, with its pairs and its table. */
void put_plan(File &file)
{
    uint64_t answer[TIPSHARE_ANSWER_PLACES];
    file.plan.resize(TIPSHARE_MOST_LINES);
    file.table.resize(TIPSHARE_MOST_PLACES);
    baseline_best(file.bytes.data(), file.bytes.size(), file.mounted, file.plan.data(), file.plan.size(),
                  file.table.data(), file.table.size(), answer, TIPSHARE_ANSWER_PLACES);
    file.claim = static_cast<uint32_t>(answer[1]);
}

/* Puts the lines of the file's board into two files of its version, one half each. */
void put_halves(File &file)
{
    const auto lines = file.bytes.begin() + job::kHead;
    const size_t step = job::kSet + file.bytes[4] - 1;
    const size_t count = (file.bytes.size() - job::kHead) / step;
    const auto middle = lines + static_cast<ptrdiff_t>(count / 2 * step);
    for (size_t half = 0; half < 2; half++) {
        const size_t here = half == 0 ? count / 2 : count - count / 2;
        std::vector<uint8_t> &to = file.halves[half];
        to.assign(file.bytes.begin(), lines);
        to.insert(to.end(), half == 0 ? lines : middle, half == 0 ? middle : file.bytes.end());
        to[6] = static_cast<uint8_t>(here >> 8);
        to[7] = static_cast<uint8_t>(here);
    }
}

/* Puts the file with every 16th line damaged and a byte behind it: in turn no tip, a tip outside the rack, quantity 0. */
void put_damaged(File &file)
{
    file.damaged = file.bytes;
    const size_t step = job::kSet + file.bytes[4] - 1;
    const size_t rack = file.bytes[5];
    size_t turn = 0;
    for (size_t at = job::kHead; at < file.damaged.size(); at += 16 * step, turn++) {
        const auto set = file.damaged.begin() + static_cast<ptrdiff_t>(at);
        if (turn % 3 == 0) {
            std::fill(set, set + job::kSet, uint8_t{0});
        } else if (turn % 3 == 1 && rack < 64) {
            set[0] |= 0x80;
        } else if (step > job::kSet) {
            set[job::kSet] = 0;
        }
    }
    file.damaged.push_back(0);
}

/* The set with each tip so many times as high. */
uint64_t spread(uint64_t set, size_t apart)
{
    uint64_t wide = 0;
    for (size_t tip = 0; tip * apart < 64; tip++) {
        wide |= (set >> tip & 1) << (tip * apart);
    }
    return wide;
}

/* Boards on so many tips, which stand apart in the rack: with 1 every tip of it may be named. */
Boards boards_of(std::string name, std::string description, size_t lines, size_t tips, const Line &line_of,
                 Quantities quantities_of = nullptr, size_t apart = 1)
{
    const size_t rack = (tips - 1) * apart + 1;
    Boards boards{std::move(name), std::move(description), lines, rack, true, true, {}};
    boards.counted = quantities_of && quantities_of != all_1;
    for (size_t file = 0; file < kFilesEach; file++) {
        Random random(1000 * file + lines + tips);
        std::vector<uint64_t> sets;
        for (size_t line = 0; line < lines; line++) {
            sets.push_back(spread(line_of(random, tips, line), apart));
        }
        for (size_t line = lines; line > 1; line--) {
            std::swap(sets[line - 1], sets[random.from_to(0, line - 1)]);
        }
        boards.runs = boards.runs && job::Named(sets.data(), lines).first_no_run(sets.data(), lines) == lines;
        boards.files.push_back(file_of(sets, rack, quantities_of, random));
        boards.junior = boards.junior && is_planned_for_junior(boards.files.back());
    }
    std::for_each(boards.files.begin(), boards.files.end(), put_halves);
    std::for_each(boards.files.begin(), boards.files.end(), put_damaged);
    if (boards.runs) {
        std::for_each(boards.files.begin(), boards.files.end(), put_plan);
    }
    return boards;
}

/* The boards with a mounted tip. */
Boards with_mounted(Boards boards, size_t tip)
{
    for (File &file : boards.files) {
        file.mounted = tip;
        put_plan(file);
    }
    return boards;
}

/* The boards, for exact sharing alone. */
Boards for_exact(Boards boards)
{
    boards.exact_tips = boards.rack;
    return boards;
}

/* The boards, for a goal alone, of so many hundredths of the best plan's pairs. */
Boards for_goal(Boards boards, uint32_t hundredths)
{
    boards.goal_alone = true;
    for (File &file : boards.files) {
        file.claim = file.claim * hundredths / 100;
    }
    return boards;
}

}  // namespace

std::vector<Boards> main_boards(const std::string &only)
{
    std::vector<Boards> all;
    const auto is_wanted = [&](const std::string &name) { return only.empty() || only == name; };
    const auto add = [&](const char *name, const char *description, size_t lines, size_t tips, const Line &line_of,
                         Quantities quantities_of = nullptr) {
        if (is_wanted(name)) {
            all.push_back(boards_of(name, description, lines, tips, line_of, quantities_of));
        }
    };
    add("few-tips", "1 to 3 tips a line, anywhere in the rack", 512, 64, few_tips);
    add("many-tips", "each tip with an even chance, about 32 a line", 512, 64, many_tips);
    add("short-runs", "runs of 1 to 4 tips", 512, 64, run_of(1, 4));
    add("long-runs", "runs of 16 to 48 tips", 512, 64, run_of(16, 48));
    add("any-runs", "runs between two seeded tips", 512, 64, any_run);
    add("all-tips", "worst for common and keep: every line has every tip; quick has one round", 512, 64, all_tips);
    add("all-but-one", "worst for quick by counts: 511 lines have every tip but one, and one line only that", 512, 64,
        all_but_one);
    add("one-tip", "worst for quick by rounds: one tip a line, 8 lines a tip, 64 rounds", 512, 64, one_tip_in_turn);
    add("small", "each tip with an even chance", 20, 8, many_tips);
    add("small-runs", "runs of 1 to 4 tips", 20, 8, run_of(1, 4));
    for (size_t apart : {1, 9}) {
        if (is_wanted(apart == 1 ? "eight-tips" : "eight-spread")) {
            all.push_back(eight_tips(apart));
        }
    }
    add("small-two", "tip 2 or tip 5 in each line, and each tip with an even chance", 20, 8, one_of_two);
    add("two-tips", "the same with 64 lines, the most for the Junior", 64, 8, one_of_two);
    add("two-counted", "two-tips with quantities 1 to 7", 64, 8, one_of_two, from_1_to_7);
    add("no-lines", "what a call costs without any line", 0, 64, any_run);
    add("few-counted", "few-tips with quantities 1 to 7, together 2,048 at most", 512, 64, few_tips, from_1_to_7);
    add("many-counted", "many-tips with quantities 1 to 7, together 2,048 at most", 512, 64, many_tips, from_1_to_7);
    add("runs-counted", "any-runs with quantities 1 to 7, together 2,048 at most", 512, 64, any_run, from_1_to_7);
    add("small-counted", "small-runs with quantities 1 to 7", 20, 8, run_of(1, 4), from_1_to_7);
    add("runs-of-1", "any-runs in a file of version 2, every quantity 1", 512, 64, any_run, all_1);
    if (is_wanted("runs-mounted")) {
        all.push_back(with_mounted(boards_of("runs-mounted", "any-runs with the last tip mounted", 512, 64, any_run), 63));
    }
    // Where the goal is a little below the best plan's pairs, more plans meet it, and more intervals are followed.
    for (const uint32_t hundredths : {80, 90, 99}) {
        for (const bool counted : {false, true}) {
            const std::string name = (counted ? "goal-counted-" : "goal-") + std::to_string(hundredths);
            if (is_wanted(name)) {
                const std::string part = std::to_string(hundredths) + " % of the best pairs";
                all.push_back(for_goal(counted ? boards_of(name, "a goal alone: runs-counted, " + part, 512, 64, any_run, from_1_to_7)
                                               : boards_of(name, "a goal alone: long-runs, " + part, 512, 64, run_of(16, 48)),
                                       hundredths));
            }
        }
    }
    for (const size_t tips : {8, 12, 16, 20}) {
        const std::string name = "exact-" + std::to_string(tips);
        if (is_wanted(name)) {
            all.push_back(for_exact(boards_of(name, "exact alone: 1 to 3 tips a line", 512, tips, few_tips)));
        }
    }
    if (is_wanted("exact-counted")) {
        all.push_back(for_exact(boards_of("exact-counted", "exact-20 with quantities 1 to 7, together 2,048 at most", 512,
                                          20, few_tips, from_1_to_7)));
    }
    for (Boards &boards : order_boards()) {
        if (is_wanted(boards.name)) {
            all.push_back(std::move(boards));
        }
    }
    return all;
}

Boards eight_tips(size_t apart)
{
    return apart == 1 ? boards_of("eight-tips", "runs of 1 to 4 tips, and one line with every tip", 20, 8,
                                  all_tips_and_short_runs)
                      : boards_of("eight-spread", "the same lines, each tip nine times as high: 8 named tips in a rack of 64",
                                  20, 8, all_tips_and_short_runs, nullptr, apart);
}

Boards growth_board(size_t lines, size_t rack)
{
    return boards_of("any-runs", "runs between two seeded tips", lines, rack, any_run);
}

Boards growth_junior(size_t lines, size_t rack)
{
    return boards_of("outermost", "the first tip or the last, and each tip with an even chance", lines, rack,
                     first_or_last);
}

namespace {

/* Lines times rounds: each round takes a tip of its own. */
size_t line_rounds(const std::vector<uint8_t> &bytes)
{
    uint8_t plan[TIPSHARE_MOST_LINES];
    uint64_t answer[TIPSHARE_ANSWER_PLACES];
    baseline_quick(bytes.data(), bytes.size(), TIPSHARE_NO_TIP, plan, sizeof plan, answer, TIPSHARE_ANSWER_PLACES);
    const size_t lines = size_t{bytes[6]} << 8 | bytes[7];
    return lines * std::set<uint8_t>(plan, plan + lines).size();
}

}  // namespace

Work work_of(const Boards &boards)
{
    Work sum{};
    for (const File &file : boards.files) {
        job::Lines lines{};
        const job::Job job = job::read_sets(file.bytes.data(), file.bytes.size(), lines);
        std::set<std::pair<uint64_t, uint8_t>> distinct;
        for (size_t line = 0; line < job.count; line++) {
            distinct.emplace(lines.sets[line], lines.quantities[line]);
        }
        sum.named += static_cast<double>(job::Named(lines.sets, job.count).count);
        sum.distinct += static_cast<double>(distinct.size());
        sum.line_rounds += static_cast<double>(line_rounds(file.bytes));
        sum.half_rounds += static_cast<double>(line_rounds(file.halves[0]) + line_rounds(file.halves[1]));
    }
    const auto files = static_cast<double>(boards.files.size());
    return {sum.named / files, sum.distinct / files, sum.line_rounds / files, sum.half_rounds / files};
}
