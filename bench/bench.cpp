/* Times the calls of the proved library beside the hand-written implementations; see README.md. */
#include <algorithm>
#include <cstdio>
#include <cstdlib>
#include <cstring>
#include <ctime>
#include <fstream>
#include <iterator>
#include <string>
#include <vector>

#include "boards.h"
#include "job.h"
#include "libraries.h"

namespace {

constexpr double kBatchSeconds = 200e-6;
constexpr size_t kDefaultRounds = 201;
constexpr size_t kMostCalls = 1 << 20;
constexpr size_t kFilesCounted = 8;
/* Where a call takes longer than a batch: the files that a batch goes through, and the nanoseconds of all rounds. */
constexpr size_t kFilesOfSlow = 3;
constexpr double kSlowRounds = 5e8;
/* The price of a tip in exact sharing. */
constexpr uint32_t kPrice = 10;

/* One implementation of include/tipshare.h; that of a table has some calls alone. */
struct Library {
    const char *name;
    const char *title;
    decltype(&tipshare_read) read;
    decltype(&tipshare_common) common;
    decltype(&tipshare_keep) keep;
    decltype(&tipshare_goal) goal;
    decltype(&tipshare_quick) quick;
    decltype(&tipshare_best) best;
    decltype(&tipshare_along) along;
    decltype(&tipshare_exact) exact;
    decltype(&tipshare_check) check;
    decltype(&tipshare_junior) junior;
    decltype(&tipshare_merge) merge;
    decltype(&tipshare_alone) alone;
    decltype(&tipshare_mend) mend;
    decltype(&tipshare_order) order;
    decltype(&tipshare_windows) windows;
    decltype(&tipshare_order_by_tips) order_by_tips;
    decltype(&tipshare_report) report;
};

const Library kLibraries[] = {
    {"tipshare", "proved", tipshare_read, tipshare_common, tipshare_keep, tipshare_goal, tipshare_quick,
     tipshare_best, tipshare_along, tipshare_exact, tipshare_check, tipshare_junior, tipshare_merge, tipshare_alone,
     tipshare_mend, tipshare_order, tipshare_windows, tipshare_order_by_tips, tipshare_report},
    {"baseline", "same steps", baseline_read, baseline_common, baseline_keep, baseline_goal, baseline_quick,
     baseline_best, baseline_along, baseline_exact, baseline_check, baseline_junior, baseline_merge, baseline_alone,
     baseline_mend, baseline_order, baseline_windows, baseline_order_by_tips, baseline_report},
    {"tuned", "tuned", tuned_read, tuned_common, tuned_keep, tuned_goal, tuned_quick, tuned_best, tuned_along,
     tuned_exact, tuned_check, tuned_junior, tuned_merge, tuned_alone, tuned_mend, tuned_order, tuned_windows,
     tuned_order_by_tips, tuned_report},
    {"table", "tuned, with a table", nullptr, nullptr, nullptr, table_goal, nullptr, table_best, nullptr, table_exact,
     table_check, nullptr, nullptr, nullptr, nullptr, nullptr, nullptr, nullptr, table_report},
};
constexpr size_t kNumber = std::size(kLibraries);
/* Their places. */
enum { kProved, kPlain, kTuned, kTable };

enum class Call {
    read,
    common,
    keep,
    goal,
    quick,
    best,
    along,
    exact,
    check,
    junior,
    merge,
    alone,
    mend,
    order,
    windows,
    order_by_tips,
    report
};

struct NamedCall {
    Call call;
    const char *name;
};

const NamedCall kCalls[] = {{Call::read, "read"}, {Call::common, "common"}, {Call::keep, "keep"},
                            {Call::goal, "goal"}, {Call::quick, "quick"}, {Call::best, "best"},
                            {Call::along, "along"}, {Call::exact, "exact"}, {Call::check, "check"},
                            {Call::junior, "junior"}, {Call::merge, "merge"}, {Call::alone, "alone"},
                            {Call::mend, "mend"}, {Call::order, "order"}, {Call::windows, "windows"},
                            {Call::order_by_tips, "order_by_tips"}, {Call::report, "report"}};

/* Whether a call counts the pairs of many sets of tips, so that there is a form of it that reads them from a table. */
bool has_table(Call call)
{
    return call == Call::goal || call == Call::best || call == Call::exact || call == Call::check || call == Call::report;
}

/* How many libraries have a call. */
size_t libraries_of(Call call) { return has_table(call) ? kNumber : size_t{kTable}; }

/* What a call can write to, lent at the lengths that always do. */
struct Buffers {
    alignas(64) uint8_t plan[TIPSHARE_MOST_LINES];
    alignas(64) uint32_t table[TIPSHARE_MOST_PLACES];
    alignas(64) uint8_t out[TIPSHARE_REPORT_SPACE];
    alignas(64) uint8_t changes[TIPSHARE_LONGEST_CHANGES];
    alignas(64) uint8_t order[TIPSHARE_MOST_PARTS];
    alignas(64) uint8_t first[TIPSHARE_MOST_PARTS];
    alignas(64) uint8_t last[TIPSHARE_MOST_PARTS];
    alignas(64) uint64_t answer[TIPSHARE_ANSWER_PLACES];

    void fill_with_junk()
    {
        auto *bytes = reinterpret_cast<uint8_t *>(this);
        uint32_t state = 1;
        for (size_t i = 0; i < sizeof *this; i++) {
            state = state * 1664525 + 1013904223;
            bytes[i] = static_cast<uint8_t>(state >> 24);
        }
    }

    bool equals(const Buffers &other) const
    {
        return memcmp(plan, other.plan, sizeof plan) == 0 && memcmp(table, other.table, sizeof table) == 0 &&
               memcmp(out, other.out, sizeof out) == 0 && memcmp(changes, other.changes, sizeof changes) == 0 &&
               memcmp(order, other.order, sizeof order) == 0 && memcmp(first, other.first, sizeof first) == 0 &&
               memcmp(last, other.last, sizeof last) == 0 && memcmp(answer, other.answer, sizeof answer) == 0;
    }
};

/* The placements within each set of tips, and its score: the table of exact sharing alone. */
alignas(64) uint32_t of_sets[TIPSHARE_EXACT_PLACES];

uint64_t make_call(const Library &library, Call call, const File &file, Buffers &lent)
{
    const uint8_t *const bytes = file.bytes.data();
    const size_t length = file.bytes.size();
    constexpr size_t places = TIPSHARE_ANSWER_PLACES;
    switch (call) {
    case Call::read: return library.read(bytes, length, lent.answer, places);
    case Call::common: return library.common(bytes, length, lent.answer, places);
    case Call::keep:
        return library.keep(bytes, length, file.k, lent.out, job::kLongestFile, lent.answer, places);
    case Call::goal:
        return library.goal(bytes, length, file.claim, lent.out, job::kLongestFile, lent.answer, places);
    case Call::quick:
        return library.quick(bytes, length, file.mounted, lent.plan, sizeof lent.plan, lent.answer, places);
    case Call::best:
        return library.best(bytes, length, file.mounted, lent.plan, sizeof lent.plan, lent.table, TIPSHARE_MOST_PLACES,
                            lent.answer, places);
    case Call::along:
        return library.along(bytes, length, file.mounted, lent.plan, sizeof lent.plan, lent.answer, places);
    case Call::exact:
        return library.exact(bytes, length, file.mounted, kPrice, lent.plan, sizeof lent.plan, of_sets, TIPSHARE_EXACT_PLACES,
                             lent.answer, places);
    case Call::check:
        return library.check(bytes, length, file.plan.data(), file.plan.size(), file.claim, file.table.data(),
                             file.table.size(), lent.answer, places);
    case Call::junior: return library.junior(bytes, length, lent.plan, sizeof lent.plan, lent.answer, places);
    case Call::merge:
        return library.merge(file.halves[0].data(), file.halves[0].size(), file.halves[1].data(), file.halves[1].size(),
                             lent.out, job::kLongestFile, lent.answer, places);
    case Call::alone:
        return library.alone(file.halves[0].data(), file.halves[0].size(), file.halves[1].data(), file.halves[1].size(),
                             lent.plan, sizeof lent.plan, lent.answer, places);
    case Call::mend:
        return library.mend(file.damaged.data(), file.damaged.size(), lent.out, job::kLongestFile, lent.changes,
                            sizeof lent.changes, lent.answer, places);
    case Call::order:
        return library.order(file.parts.data(), file.parts.size(), file.rules.data(), file.rules.size(), lent.order,
                             sizeof lent.order, lent.answer, places);
    case Call::windows:
        return library.windows(file.parts.data(), file.parts.size(), file.rules.data(), file.rules.size(), lent.first,
                               sizeof lent.first, lent.last, sizeof lent.last, lent.answer, places);
    case Call::order_by_tips:
        return library.order_by_tips(file.parts.data(), file.parts.size(), file.rules.data(), file.rules.size(),
                                     file.plan.data(), file.plan.size(), file.mounted, lent.order, sizeof lent.order,
                                     lent.answer, places);
    case Call::report: return library.report(bytes, length, lent.out, sizeof lent.out);
    }
    return 0;
}

/* Whether every library answers this call alike, buffers compared whole. */
bool all_agree(Call call, const char *call_name, const Boards &boards)
{
    static Buffers expected, other;
    static uint32_t expected_sets[TIPSHARE_EXACT_PLACES];
    const bool slow = call == Call::goal || call == Call::exact || call == Call::windows;
    const size_t files = slow ? std::min(kFilesOfSlow, boards.files.size()) : boards.files.size();
    const size_t bytes_of_sets = call == Call::exact ? sizeof of_sets : 0;
    for (size_t number = 0; number < files; number++) {
        const File &file = boards.files[number];
        expected.fill_with_junk();
        memset(of_sets, 0xA5, bytes_of_sets);
        const uint64_t returned = make_call(kLibraries[0], call, file, expected);
        memcpy(expected_sets, of_sets, bytes_of_sets);
        for (size_t i = 1; i < libraries_of(call); i++) {
            other.fill_with_junk();
            memset(of_sets, 0xA5, bytes_of_sets);
            if (make_call(kLibraries[i], call, file, other) != returned || !other.equals(expected) ||
                memcmp(of_sets, expected_sets, bytes_of_sets) != 0) {
                fprintf(stderr, "%s and %s differ: %s on file %zu of %s\n", kLibraries[0].title, kLibraries[i].title,
                        call_name, number, boards.name.c_str());
                return false;
            }
        }
    }
    return true;
}

/* Nanoseconds of a processor that this thread has had: what other work takes meanwhile is not in it. */
double nanoseconds()
{
    timespec time{};
    clock_gettime(CLOCK_THREAD_CPUTIME_ID, &time);
    return 1e9 * static_cast<double>(time.tv_sec) + static_cast<double>(time.tv_nsec);
}

/* One library making one call on file after file of a board. */
struct Runner {
    const Library &library;
    Call call;
    const Boards &boards;
    Buffers &lent;
    size_t files = boards.files.size();
    size_t next = 0;

    void make_calls(size_t calls)
    {
        for (size_t i = 0; i < calls; i++) {
            make_call(library, call, boards.files[next], lent);
            next = next + 1 < files ? next + 1 : 0;
        }
    }

    /* Nanoseconds of a batch of this many calls. */
    double batch(size_t calls)
    {
        const double start = nanoseconds();
        make_calls(calls);
        return nanoseconds() - start;
    }
};

struct Spread {
    double lower;
    double median;
    double upper;
};

Spread spread_of(std::vector<double> values)
{
    std::sort(values.begin(), values.end());
    const size_t last = values.size() - 1;
    return {values[last / 4], values[last / 2], values[last - last / 4]};
}

/* What was measured of one call on one board, for each library that has the call. */
struct Measured {
    std::vector<Spread> nanoseconds;

    double median(size_t library) const { return nanoseconds[library].median; }

    /* The proved library's time by that of another. */
    double ratio(size_t library) const { return median(kProved) / median(library); }
};

/* Nanoseconds a call for each library, in turn within each round. */
Measured measure(Call call, const Boards &boards, size_t rounds)
{
    static Buffers lent[kNumber];
    const size_t number = libraries_of(call);
    std::vector<Runner> runners;
    bool slow = false;
    for (size_t i = 0; i < number; i++) {
        lent[i].fill_with_junk();
        runners.push_back({kLibraries[i], call, boards, lent[i]});
        slow = slow || runners[i].batch(1) >= 1e9 * kBatchSeconds;
    }
    size_t calls[kNumber];
    for (size_t i = 0; i < number; i++) {
        runners[i].next = 0;
        runners[i].files = slow ? std::min(kFilesOfSlow, boards.files.size()) : boards.files.size();
        // Warms up, and finds how many calls a batch needs; of slow ones each file as often.
        double taken = 0;
        for (calls[i] = slow ? runners[i].files : 1; calls[i] < kMostCalls; calls[i] *= 2) {
            taken = runners[i].batch(calls[i]);
            if (taken >= 1e9 * kBatchSeconds) {
                break;
            }
        }
        rounds = std::min(rounds, std::max<size_t>(3, static_cast<size_t>(kSlowRounds / taken)));
    }
    std::vector<double> results[kNumber];
    for (size_t round = 0; round < rounds; round++) {
        for (size_t turn = 0; turn < number; turn++) {
            const size_t i = (round + turn) % number;
            results[i].push_back(runners[i].batch(calls[i]) / static_cast<double>(calls[i]));
        }
    }
    Measured measured;
    for (size_t i = 0; i < number; i++) {
        measured.nanoseconds.push_back(spread_of(results[i]));
    }
    return measured;
}

struct Settings {
    size_t rounds = kDefaultRounds;
    bool json = false;
    bool ratios = false;
    bool times = false;
    bool growth = false;
    std::string only_call;
    std::string only_board;
};

/* Prints a row, or a JSON object. */
class Output {
public:
    explicit Output(bool json) : json(json) {}

    /* With an axis along which a call's time grows, also what its steps depend on. */
    void result(const char *call, const Boards &boards, const Measured &measured, const char *axis = nullptr)
    {
        for (size_t i = 0; json && i < measured.nanoseconds.size(); i++) {
            const Spread &spread = measured.nanoseconds[i];
            printf("%s{\"call\":\"%s\",\"board\":\"%s\",\"lines\":%zu,\"tips\":%zu,\"parts\":%zu,\"library\":\"%s\","
                   "\"median_ns\":%.1f,\"lower_quartile_ns\":%.1f,\"upper_quartile_ns\":%.1f",
                   first ? "[" : ",\n", call, boards.name.c_str(), boards.lines, boards.rack, boards.parts,
                   kLibraries[i].name, spread.median, spread.lower, spread.upper);
            if (axis) {
                const Work work = boards.is_order() ? Work{} : work_of(boards);
                printf(",\"axis\":\"%s\",\"named\":%.1f,\"distinct\":%.1f,\"line_rounds\":%.1f,\"half_rounds\":%.1f",
                       axis, work.named, work.distinct, work.line_rounds, work.half_rounds);
            }
            printf("}");
            first = false;
        }
        for (const Spread &spread : measured.nanoseconds) {
            const double width = (spread.upper - spread.lower) / spread.median;
            widths.push_back(width);
        }
        fflush(stdout);
    }

    void end()
    {
        if (json) {
            printf("%s]\n", first ? "[" : "");
        } else if (!widths.empty()) {
            const Spread spread = spread_of(widths);
            printf("Noise of this run: half of the\nbatches of a cell lie within %.1f %% of its median (the median of all "
                   "cells; %.1f %% for a quarter of the cells or more).\n",
                   50 * spread.median, 50 * spread.upper);
        }
    }

    const bool json;

private:
    bool first = true;
    std::vector<double> widths;
};

/* Nanoseconds with a comma before the last three digits, one decimal below 100. */
std::string shown(double nanoseconds)
{
    char text[32];
    if (nanoseconds < 99.95) {
        snprintf(text, sizeof text, "%.1f", nanoseconds);
        return text;
    }
    std::string digits = std::to_string(static_cast<long long>(nanoseconds + 0.5));
    for (size_t place = digits.size(); place > 3; place -= 3) {
        digits.insert(place - 3, ",");
    }
    return digits;
}

/*
 * A goal, best sharing and the check refuse a board with a line that is no run, the Junior what it has no two tips for, and
 * exact sharing what names more than 20 tips, so there is nothing to time; parts and rules are no board. Boards for exact
 * sharing or a goal are measured with that call alone.
 */
bool is_measured(const NamedCall &named, const Boards &boards, const Settings &settings)
{
    const bool on_parts =
        named.call == Call::order || named.call == Call::windows || named.call == Call::order_by_tips;
    if (boards.is_order() != on_parts || (boards.exact_tips != 0 && named.call != Call::exact) ||
        (boards.goal_alone && named.call != Call::goal) ||
        (named.call == Call::exact && boards.exact_tips == 0 && boards.rack > TIPSHARE_EXACT_TIPS)) {
        return false;
    }
    const bool needs_runs = named.call == Call::goal || named.call == Call::best || named.call == Call::check;
    return (!needs_runs || boards.runs) && (named.call != Call::junior || boards.junior) &&
           (settings.only_call.empty() || settings.only_call == named.name);
}

bool main_table(const Settings &settings, Output &output)
{
    const std::vector<Boards> all = main_boards(settings.only_board);
    if (!output.json) {
        printf("## Nanoseconds a call\n\n| Call | Board | Proved | C++, same steps | Ratio | C++, tuned | Ratio "
               "| with a table | Ratio |\n|---|---|---:|---:|---:|---:|---:|---:|---:|\n");
    }
    for (const NamedCall &named : kCalls) {
        for (const Boards &boards : all) {
            if (!is_measured(named, boards, settings)) {
                continue;
            }
            if (!all_agree(named.call, named.name, boards)) {
                return false;
            }
            const Measured measured = measure(named.call, boards, settings.rounds);
            output.result(named.name, boards, measured);
            if (!output.json) {
                printf("| %s | %s | %s |", named.name, boards.name.c_str(), shown(measured.median(kProved)).c_str());
                for (size_t i = kPlain; i < kNumber; i++) {
                    if (i < libraries_of(named.call)) {
                        printf(" %s | %.2f |", shown(measured.median(i)).c_str(), measured.ratio(i));
                    } else {
                        printf(" | |");
                    }
                }
                printf("\n");
                fflush(stdout);
            }
        }
    }
    return true;
}

/* The times of each call that takes all of the given boards, for bench/plot.py. */
bool measure_growth(const Settings &settings, Output &output, const char *axis, const std::vector<Boards> &all)
{
    for (const NamedCall &named : kCalls) {
        const auto measured = [&](const Boards &boards) { return is_measured(named, boards, settings); };
        if (!std::all_of(all.begin(), all.end(), measured)) {
            continue;
        }
        for (const Boards &boards : all) {
            if (!all_agree(named.call, named.name, boards)) {
                return false;
            }
            output.result(named.name, boards, measure(named.call, boards, settings.rounds), axis);
        }
    }
    return true;
}

/* A goal at a best plan's pairs, solved anew for each tip of each line: beside the calls above. */
bool anew_table(const Settings &settings, const Output &output)
{
    if (output.json || !(settings.only_call.empty() || settings.only_call == "goal")) {
        return true;
    }
    static Buffers expected, lent;
    printf("\n## A goal, the board solved anew for each tip of each line\n\n| Board | Nanoseconds |\n|---|---:|\n");
    for (const Boards &boards : main_boards(settings.only_board)) {
        if (!boards.runs || boards.goal_alone) {
            continue;
        }
        const File &file = boards.files[0];
        lent.fill_with_junk();
        expected.fill_with_junk();
        const uint64_t returned = make_call(kLibraries[kTuned], Call::goal, file, expected);
        const double start = nanoseconds();
        const uint64_t anew = anew_goal(file.bytes.data(), file.bytes.size(), file.claim, lent.out, job::kLongestFile,
                                        lent.answer, TIPSHARE_ANSWER_PLACES);
        printf("| %s | %s |\n", boards.name.c_str(), shown(nanoseconds() - start).c_str());
        fflush(stdout);
        if (anew != returned || !lent.equals(expected)) {
            fprintf(stderr, "a goal solved anew differs: %s\n", boards.name.c_str());
            return false;
        }
    }
    return true;
}

bool growth(const Settings &settings, Output &output)
{
    std::vector<Boards> by_lines, by_rack, by_parts, junior_lines, junior_rack;
    for (size_t lines = 16; lines <= TIPSHARE_MOST_LINES; lines *= 2) {
        by_lines.push_back(growth_board(lines, 64));
    }
    for (size_t rack = 8; rack <= TIPSHARE_MOST_TIPS; rack *= 2) {
        by_rack.push_back(growth_board(512, rack));
    }
    for (size_t parts = 8; parts <= TIPSHARE_MOST_PARTS; parts *= 2) {
        by_parts.push_back(growth_order(parts));
    }
    for (size_t lines = 8; lines <= TIPSHARE_JUNIOR_LINES; lines *= 2) {
        junior_lines.push_back(growth_junior(lines, 8));
    }
    for (size_t rack = 2; rack <= TIPSHARE_JUNIOR_TIPS; rack *= 2) {
        junior_rack.push_back(growth_junior(64, rack));
    }
    std::vector<Boards> exact_tips;
    for (Boards &boards : main_boards()) {
        if (boards.exact_tips != 0 && !boards.counted) {
            exact_tips.push_back(std::move(boards));
        }
    }
    Settings junior = settings;
    junior.only_call = "junior";
    return measure_growth(settings, output, "lines", by_lines) && measure_growth(settings, output, "tips", by_rack) &&
           measure_growth(settings, output, "parts", by_parts) &&
           measure_growth(settings, output, "rack", {eight_tips(1), eight_tips(9)}) &&
           measure_growth(junior, output, "lines", junior_lines) && measure_growth(junior, output, "tips", junior_rack) &&
           measure_growth(settings, output, "tips", exact_tips);
}

/* Boards of one size: the largest with quantities 1 and with others, and small ones. */
enum Size { kFull, kCounted, kSmall, kSizes };

/*
 * The size of a board for a call, or kSizes: the largest are 64 lines and 8 tips for the Junior, 128 parts for an order, and 20
 * named tips for exact sharing, whose other sizes are told apart by their names.
 */
Size size_of(Call call, const Boards &boards)
{
    if (boards.exact_tips != 0) {
        return boards.exact_tips == TIPSHARE_EXACT_TIPS ? (boards.counted ? kCounted : kFull) : kSmall;
    }
    const bool junior = call == Call::junior;
    const size_t lines = junior ? TIPSHARE_JUNIOR_LINES : TIPSHARE_MOST_LINES;
    const size_t rack = junior ? TIPSHARE_JUNIOR_TIPS : TIPSHARE_MOST_TIPS;
    if (boards.is_order()) {
        return boards.parts == TIPSHARE_MOST_PARTS ? kFull : kSmall;
    }
    if (boards.lines == lines && boards.rack == rack) {
        return boards.counted ? kCounted : kFull;
    }
    return boards.lines == 20 && boards.rack == 8 ? kSmall : kSizes;
}

/* The ratio that is wanted, to the tuned C++ or to that with a table: docs/measurements/ratios.md says why. */
double wanted(Call call, Size size, size_t library)
{
    switch (call) {
    case Call::exact: return library == kTable && size != kSmall ? 2 : 2.5;
    case Call::windows: return 4;
    case Call::order:
    case Call::order_by_tips: return 1.2;
    case Call::goal:
    case Call::along: return 1.5;
    default: return library == kTable || size == kSmall ? 1.5 : 1.2;
    }
}

/* Two times in the unit of the larger. */
std::string shown_range(double least, double most)
{
    const double unit = most >= 999500 ? 1e6 : most >= 999.5 ? 1e3 : 1;
    const auto digits = [](double number) { return number < 9.995 ? 2 : number < 99.95 ? 1 : 0; };
    char text[64];
    snprintf(text, sizeof text, "%.*f to %.*f %s", digits(least / unit), least / unit, digits(most / unit), most / unit,
             unit == 1 ? "ns" : unit == 1e3 ? "µs" : "ms");
    return text;
}

/* For each size the board with the largest ratio of the proved library's time to that of another. */
struct Worst {
    Call call;
    size_t library;
    double ratio[kSizes] = {};
    std::string cell[kSizes] = {};

    void take(Size size, const Measured &measured, const std::string &board)
    {
        const double found = measured.ratio(library);
        if (found > ratio[size]) {
            ratio[size] = found;
            char text[64];
            const char *const mark = found > wanted(call, size, library) ? "**" : "";
            snprintf(text, sizeof text, "%s%.2f%s %s", mark, found, mark, board.c_str());
            cell[size] = text;
        }
    }

    bool is_empty() const { return (cell[kFull] + cell[kSmall]).empty(); }

    std::string row(const char *name) const
    {
        char text[512];
        snprintf(text, sizeof text, "| %s | %.1f | %s | %s | %.1f | %s |", name, wanted(call, kFull, library),
                 cell[kFull].c_str(), cell[kCounted].c_str(), wanted(call, kSmall, library), cell[kSmall].c_str());
        return text;
    }
};

const char kRatioHead[] = "| Call | Goal | 512 lines, 64 tips | with quantities | Goal | 20 lines, 8 tips |";
const char kRatioRule[] = "|---|---:|---|---|---:|---|";

/*
 * The worst ratios to the tuned C++ with the times of the proved library on the largest boards, and those to the tuned C++ that
 * reads the pairs from a table.
 */
bool ratio_table(const Settings &settings, Output &output)
{
    const std::vector<Boards> all = main_boards();
    std::string with_table;
    printf("%s Time, 512 lines, 64 tips |\n%s---:|\n", kRatioHead, kRatioRule);
    for (const NamedCall &named : kCalls) {
        double least_time = 1e18;
        double most_time = 0;
        Worst of_tuned{named.call, kTuned};
        Worst of_table{named.call, kTable};
        for (const Boards &boards : all) {
            const Size size = size_of(named.call, boards);
            if (size == kSizes || !is_measured(named, boards, settings)) {
                continue;
            }
            if (!all_agree(named.call, named.name, boards)) {
                return false;
            }
            const Measured measured = measure(named.call, boards, settings.rounds);
            output.result(named.name, boards, measured);
            if (size != kSmall) {
                least_time = std::min(least_time, measured.median(kProved));
                most_time = std::max(most_time, measured.median(kProved));
            }
            of_tuned.take(size, measured, boards.name);
            if (has_table(named.call)) {
                of_table.take(size, measured, boards.name);
            }
        }
        if (!of_tuned.is_empty()) {
            printf("%s %s |\n", of_tuned.row(named.name).c_str(), shown_range(least_time, most_time).c_str());
            fflush(stdout);
        }
        if (!of_table.is_empty()) {
            with_table += of_table.row(named.name) + "\n";
        }
    }
    printf("\nTo the tuned C++ that reads the pairs from a table:\n\n%s\n%s\n%s", kRatioHead, kRatioRule, with_table.c_str());
    return true;
}

/* Two significant digits. */
std::string rounded(double number)
{
    char text[32];
    snprintf(text, sizeof text, "%.*f", number < 0.0995 ? 3 : number < 0.995 ? 2 : number < 9.95 ? 1 : 0, number);
    return text;
}

/* The shortest and the longest time of some boards. */
struct Range {
    double least = 1e18;
    double most = 0;

    void take(double nanoseconds)
    {
        least = std::min(least, nanoseconds);
        most = std::max(most, nanoseconds);
    }

    /* In the unit of the larger, once where both look alike; nothing where no board was measured. */
    std::string shown() const
    {
        if (most == 0) {
            return "";
        }
        const double unit = most >= 995000 ? 1e6 : most >= 99.5 ? 1e3 : 1;
        const std::string from = rounded(least / unit), to = rounded(most / unit);
        const std::string name = unit == 1 ? "ns" : unit == 1e3 ? "µs" : "ms";
        return (from == to ? to : from + " to " + to) + " " + name;
    }
};

/*
 * The times of the proved library, on the largest boards and on small ones; of exact sharing by the tips named. The others are
 * measured in turn with it too: alone it would find the processor ready for its branches.
 */
bool times_table(const Settings &settings, Output &output)
{
    const std::vector<Boards> all = main_boards();
    printf("| Call | 512 lines, 64 tips | 20 lines, 8 tips |\n|---|---:|---:|\n");
    for (const NamedCall &named : kCalls) {
        Range large, small;
        for (const Boards &boards : all) {
            const Size size = size_of(named.call, boards);
            if (size == kSizes || !is_measured(named, boards, settings)) {
                continue;
            }
            const Measured measured = measure(named.call, boards, settings.rounds);
            output.result(named.name, boards, measured);
            if (boards.exact_tips != 0) {
                Range alone;
                alone.take(measured.median(kProved));
                printf("| %s | %s | |\n", boards.name.c_str(), alone.shown().c_str());
            } else {
                (size == kSmall ? small : large).take(measured.median(kProved));
            }
        }
        if (large.most != 0 || small.most != 0) {
            printf("| %s | %s | %s |\n", named.name, large.shown().c_str(), small.shown().c_str());
            fflush(stdout);
        }
    }
    return true;
}

std::string first_line_with(const char *path, const std::string &beginning)
{
    std::ifstream file(path);
    std::string line;
    while (std::getline(file, line)) {
        if (line.compare(0, beginning.size(), beginning) == 0) {
            return line;
        }
    }
    return "";
}

std::string machine()
{
    std::string processor = first_line_with("/proc/cpuinfo", "model name");
    processor.erase(0, std::min(processor.size(), processor.find(": ") + 2));
    // The load over 1, 5 and 15 minutes, then other numbers.
    const std::string load = first_line_with("/proc/loadavg", "");
    return processor + ", g++ " __VERSION__ ", load " + load.substr(0, load.find(' ', load.find(' ', load.find(' ') + 1) + 1));
}

void introduction(const Settings &settings)
{
    printf("# Times\n\nMade by `bench/run`; how, and the boards, is in [README.md](README.md). A cell is the median of %zu\n"
           "batches. A ratio is the proved library's time by the one before it: above 1 the proved library is slower.\n\n",
           settings.rounds);
}

/* Makes one call on the files of one board, for a tool that counts instructions. */
int run_for_counting(const std::string &call, const std::string &board, const std::string &library, size_t times)
{
    static Buffers lent;
    lent.fill_with_junk();
    const size_t calls = times * kFilesCounted;
    std::vector<Boards> all = main_boards(board);
    for (Boards &boards : all) {
        boards.files.resize(kFilesCounted);
        for (const NamedCall &named : kCalls) {
            for (const Library &candidate : kLibraries) {
                if (board == boards.name && call == named.name && library == candidate.name &&
                    (&candidate != &kLibraries[kTable] || has_table(named.call))) {
                    Runner{candidate, named.call, boards, lent}.make_calls(calls);
                    printf("%zu\n", calls);
                    return 0;
                }
            }
        }
    }
    fprintf(stderr, "There is no call %s, board %s or library %s.\n", call.c_str(), board.c_str(), library.c_str());
    return 2;
}

/* Whether the call and the board asked for are among those of the main table. */
bool is_known(const Settings &settings)
{
    const std::vector<Boards> all = main_boards(settings.only_board);
    for (const NamedCall &named : kCalls) {
        for (const Boards &boards : all) {
            if (is_measured(named, boards, settings)) {
                return true;
            }
        }
    }
    return false;
}

/* The calls and boards of the main table, a pair a line. */
int list()
{
    const std::vector<Boards> all = main_boards();
    for (const NamedCall &named : kCalls) {
        for (const Boards &boards : all) {
            if (is_measured(named, boards, Settings{})) {
                printf("%s %s\n", named.name, boards.name.c_str());
            }
        }
    }
    return 0;
}

/* The boards of the main table, described. */
int describe()
{
    printf("| Board | Lines | Tips | Description |\n|---|---:|---:|---|\n");
    for (const Boards &boards : main_boards()) {
        const std::string lines = boards.is_order() ? "" : std::to_string(boards.lines) + " ";
        const std::string rack = boards.is_order() ? "" : std::to_string(boards.rack) + " ";
        printf("| %s | %s| %s| %s |\n", boards.name.c_str(), lines.c_str(), rack.c_str(), boards.description.c_str());
    }
    return 0;
}

const char kUsage[] =
    "bench [--rounds N] [--json] [--call CALL] [--board BOARD]   time the calls and print tables\n"
    "bench --ratios [--rounds N] [--call CALL]                   the worst ratios to both tuned forms, by sizes of boards\n"
    "bench --times [--rounds N] [--call CALL]                    the proved library's times, for docs/PERFORMANCE.md\n"
    "bench --growth [--rounds N]                                 how the times grow with lines, tips and parts, as JSON\n"
    "bench --callgrind CALL BOARD LIBRARY [TIMES]                make one call only, and print how often it was made\n"
    "bench --list                                                the calls and boards, a pair a line\n"
    "bench --boards                                              the boards, described\n"
    "CALL: read, common, keep, goal, quick, best, along, exact, check, junior, merge, alone, mend, order, windows,\n"
    "order_by_tips, report.\n"
    "LIBRARY: tipshare, baseline, tuned; table for goal, best, exact, check and report.\n";

int usage()
{
    fputs(kUsage, stderr);
    return 2;
}

}  // namespace

int main(int argc, char **argv)
{
    const std::vector<std::string> arguments(argv + 1, argv + argc);
    if (!arguments.empty() && arguments[0] == "--list") {
        return list();
    }
    if (!arguments.empty() && arguments[0] == "--boards") {
        return describe();
    }
    if (!arguments.empty() && arguments[0] == "--callgrind") {
        if (arguments.size() < 4 || arguments.size() > 5) {
            return usage();
        }
        const size_t times = arguments.size() == 5 ? strtoul(arguments[4].c_str(), nullptr, 10) : 1;
        return run_for_counting(arguments[1], arguments[2], arguments[3], times);
    }
    Settings settings;
    for (size_t i = 0; i < arguments.size(); i++) {
        const bool has_value = i + 1 < arguments.size();
        if (arguments[i] == "--json") {
            settings.json = true;
        } else if (arguments[i] == "--ratios") {
            settings.ratios = true;
        } else if (arguments[i] == "--times") {
            settings.times = true;
        } else if (arguments[i] == "--growth") {
            settings.growth = true;
        } else if (arguments[i] == "--rounds" && has_value) {
            settings.rounds = std::max<size_t>(1, strtoul(arguments[++i].c_str(), nullptr, 10));
        } else if (arguments[i] == "--call" && has_value) {
            settings.only_call = arguments[++i];
        } else if (arguments[i] == "--board" && has_value) {
            settings.only_board = arguments[++i];
        } else {
            return usage();
        }
    }
    const bool whole = !settings.ratios && !settings.times && !settings.growth;
    if (!is_known(settings) || settings.ratios + settings.times + settings.growth > 1 ||
        ((settings.ratios || settings.times) && settings.json) ||
        (!whole && !settings.only_board.empty()) || (settings.growth && !settings.only_call.empty())) {
        return usage();
    }
    settings.json = settings.json || settings.growth;
    Output output(settings.json);
    if (whole && !settings.json) {
        introduction(settings);
    }
    const bool done = settings.ratios   ? ratio_table(settings, output)
                      : settings.times  ? times_table(settings, output)
                      : settings.growth ? growth(settings, output)
                                        : main_table(settings, output) && anew_table(settings, output);
    if (!done) {
        return 1;
    }
    if (!settings.json) {
        printf("\n%s. Version %s. ", machine().c_str(), TIPSHARE_VERSION);
    }
    output.end();
    return 0;
}
