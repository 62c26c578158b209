/* The boards that are measured: seeded job files, the same on every machine. */
#pragma once

#include <cstddef>
#include <cstdint>
#include <string>
#include <vector>

/*
 * A job file, with the bound that keep is called with, the least that is accepted, so that it strikes tips, the tip that
 * is mounted for the plans, the best plan with its pairs, which are the goal too, and its table, which is checked, the
 * lines in two files, the first half of them and the second, for two boards on one panel, and the file with some lines
 * damaged, to be mended. Of parts and rules the plan has the tip of each part.
 */
struct File {
    std::vector<uint8_t> bytes;
    uint16_t k;
    size_t mounted;
    std::vector<uint8_t> plan;
    uint32_t claim;
    std::vector<uint32_t> table;
    // Parts and rules to order, which have nothing to do with the job file.
    std::vector<uint32_t> parts = {};
    std::vector<uint32_t> rules = {};
    std::vector<uint8_t> halves[2] = {};
    std::vector<uint8_t> damaged = {};
};

/* Many boards of one description: of a few, the processor soon foresees every branch, which it cannot of a new one. */
struct Boards {
    std::string name;
    std::string description;
    size_t lines;
    size_t rack;
    bool runs;
    /* Whether the Junior takes each of them. */
    bool junior;
    std::vector<File> files;
    // Some quantity is not 1.
    bool counted = false;
    // Of parts and rules alone, without a job file, how many parts; else 0.
    size_t parts = 0;
    // Of a board for exact sharing alone, how many tips are named; else 0.
    size_t exact_tips = 0;
    // For a goal alone: `claim` is less than the pairs of the best plan.
    bool goal_alone = false;

    bool is_order() const { return parts != 0; }
};

constexpr size_t kFilesEach = 64;

/* The boards of the main table, or only the one of a name. */
std::vector<Boards> main_boards(const std::string &only = "");

/* Parts and rules for the placing order. */
std::vector<Boards> order_boards();

/* So many parts in wide windows, with eight rules a part, to see how time grows with them. */
Boards growth_order(size_t parts);

/* The same lines on 8 named tips, which stand so far apart in the rack: 1 for a rack of 8, and 9 for one of 64. */
Boards eight_tips(size_t apart);

/* Runs of any length, to see how time grows with the number of lines and the rack. */
Boards growth_board(size_t lines, size_t rack);

/* The same for the Junior: one of the rack's two outermost tips in each line, and others. */
Boards growth_junior(size_t lines, size_t rack);

/* What the steps of a call depend on, the mean of a board's files. */
struct Work {
    double named;
    // Lines without those that are equal to an earlier one.
    double distinct;
    // Lines times rounds of quick sharing, of the whole board and of its two halves.
    double line_rounds;
    double half_rounds;
};

Work work_of(const Boards &boards);
