/*
 * The stack that each call needs: the stack below is painted, the call is made, and the deepest byte that changed is
 * looked for. The worst over seeded boards with runs and with any sets, with quantities and without.
 *
 * `now LAZY..` is linked with -z now, and prints the table. It has each LAZY, the same program linked with -z lazy, make
 * single calls, each as the first thing in its process, so that what is looked up at its first call is looked up there:
 * memcpy and memset, or the function itself. `LAZY CALL` reads a board from standard input, and writes the bytes.
 */
#include <pthread.h>
#include <signal.h>
#include <unistd.h>

#include <cstdint>
#include <cstdio>
#include <cstdlib>
#include <cstring>
#include <string>

#include "job.h"

/* A goal and an exact plan are slow, and tried on fewer boards; so are single calls, each of which starts a process. */
enum { DEEP = 262144, BOARDS = 4000, SLOW = 50, SINGLE = 100, PAINT = 0xA5 };

/* All that a call is made with, so that it is read at once in another process. */
static struct {
    uint8_t file[job::kLongestFile];
    size_t length;
    size_t mounted;
    uint16_t k;
    uint32_t goal;
    /* What best sharing wrote. */
    uint8_t plan[2 * TIPSHARE_MOST_LINES];
    uint32_t table[TIPSHARE_MOST_PLACES];
    uint32_t claim;
    /* A board for the same rack, with half as many lines and placements as a panel may have. */
    uint8_t half[job::kLongestFile];
    size_t half_length;
    /* The file with another rack size and a byte less, so that mending changes much of it. */
    uint8_t damaged[job::kLongestFile];
    size_t damaged_length;
    /* As many parts and rules as are measured, of which many have no order. */
    uint32_t parts[TIPSHARE_PART_PLACES * TIPSHARE_MOST_PARTS];
    size_t parts_length;
    uint32_t rules[TIPSHARE_RULE_PLACES * 1000];
    size_t rules_length;
    uint8_t tips_of_parts[TIPSHARE_MOST_PARTS];
    /* A board that names 20 tips at most. */
    uint8_t narrow[job::kLongestFile];
    size_t narrow_length;
    uint32_t price;
} board;

static uint64_t answer[TIPSHARE_ANSWER_PLACES];
static uint8_t plan[2 * TIPSHARE_MOST_LINES];
static uint8_t out[job::kLongestFile];
static uint32_t table[TIPSHARE_MOST_PLACES];
static uint8_t changes[TIPSHARE_LONGEST_CHANGES];
static uint8_t order[TIPSHARE_MOST_PARTS];
static uint8_t last_positions[TIPSHARE_MOST_PARTS];
static uint32_t sets_of_tips[2u << 20];
static uint8_t text[TIPSHARE_REPORT_SPACE];

static void read_it() { tipshare_read(board.file, board.length, answer, TIPSHARE_ANSWER_PLACES); }
static void common_it() { tipshare_common(board.file, board.length, answer, TIPSHARE_ANSWER_PLACES); }
static void keep_it()
{
    tipshare_keep(board.file, board.length, board.k, out, sizeof out, answer, TIPSHARE_ANSWER_PLACES);
}
static void goal_it()
{
    tipshare_goal(board.file, board.length, board.goal, out, sizeof out, answer, TIPSHARE_ANSWER_PLACES);
}
static void quick_it()
{
    tipshare_quick(board.file, board.length, board.mounted, plan, sizeof plan, answer, TIPSHARE_ANSWER_PLACES);
}
static void best_it()
{
    tipshare_best(board.file, board.length, board.mounted, plan, sizeof plan, table, TIPSHARE_MOST_PLACES, answer,
                  TIPSHARE_ANSWER_PLACES);
}
static void exact_it()
{
    tipshare_exact(board.narrow, board.narrow_length, board.mounted, board.price, plan, sizeof plan, sets_of_tips,
                   sizeof sets_of_tips / sizeof sets_of_tips[0], answer, TIPSHARE_ANSWER_PLACES);
}
static void along_it()
{
    tipshare_along(board.file, board.length, board.mounted, plan, sizeof plan, answer, TIPSHARE_ANSWER_PLACES);
}
static void check_it()
{
    tipshare_check(board.file, board.length, board.plan, sizeof board.plan, board.claim, board.table,
                   TIPSHARE_MOST_PLACES, answer, TIPSHARE_ANSWER_PLACES);
}
static void junior_it()
{
    tipshare_junior(board.file, board.length, plan, sizeof plan, answer, TIPSHARE_ANSWER_PLACES);
}
static void merge_it()
{
    tipshare_merge(board.half, board.half_length, board.half, board.half_length, out, sizeof out, answer,
                   TIPSHARE_ANSWER_PLACES);
}
static void alone_it()
{
    tipshare_alone(board.file, board.length, board.half, board.half_length, plan, sizeof plan, answer,
                   TIPSHARE_ANSWER_PLACES);
}
static void mend_it()
{
    tipshare_mend(board.damaged, board.damaged_length, out, sizeof out, changes, sizeof changes, answer,
                  TIPSHARE_ANSWER_PLACES);
}
static void order_it()
{
    tipshare_order(board.parts, board.parts_length, board.rules, board.rules_length, order, sizeof order, answer,
                   TIPSHARE_ANSWER_PLACES);
}
static void windows_it()
{
    tipshare_windows(board.parts, board.parts_length, board.rules, board.rules_length, order, sizeof order,
                     last_positions, sizeof last_positions, answer, TIPSHARE_ANSWER_PLACES);
}
static void order_by_tips_it()
{
    tipshare_order_by_tips(board.parts, board.parts_length, board.rules, board.rules_length, board.tips_of_parts,
                           sizeof board.tips_of_parts, board.mounted, order, sizeof order, answer,
                           TIPSHARE_ANSWER_PLACES);
}
static void report_it() { tipshare_report(board.file, board.length, text, sizeof text); }

static const struct {
    const char *name;
    void (*make)();
} calls[] = {{"tipshare_read", read_it},
             {"tipshare_common", common_it},
             {"tipshare_keep", keep_it},
             {"tipshare_goal", goal_it},
             {"tipshare_quick", quick_it},
             {"tipshare_best", best_it},
             {"tipshare_exact", exact_it},
             {"tipshare_along", along_it},
             {"tipshare_check", check_it},
             {"tipshare_junior", junior_it},
             {"tipshare_merge", merge_it},
             {"tipshare_alone", alone_it},
             {"tipshare_mend", mend_it},
             {"tipshare_order", order_it},
             {"tipshare_windows", windows_it},
             {"tipshare_order_by_tips", order_by_tips_it},
             {"tipshare_report", report_it}};
enum { CALLS = sizeof calls / sizeof calls[0] };

/* How many of these bytes, counted from the last one, reach down to the deepest that changed. */
static size_t changed(const volatile uint8_t *below)
{
    size_t i = 0;
    while (i < DEEP && below[i] == PAINT) {
        i++;
    }
    return DEEP - i;
}

static __attribute__((noinline)) void paint(volatile uint8_t *below)
{
    for (size_t i = 0; i < DEEP; i++) {
        below[i] = PAINT;
    }
}

static __attribute__((noinline)) void paint_below()
{
    volatile uint8_t below[DEEP];
    paint(below);
}

static __attribute__((noinline)) size_t changed_below()
{
    volatile uint8_t below[DEEP];
    return changed(below);
}

static __attribute__((noinline)) size_t used(void (*make)())
{
    paint_below();
    make();
    return changed_below();
}

/* What a thread, and a signal handler on a stack of its own, need beside the call that they make. */
static uint8_t lent[DEEP] __attribute__((aligned(64)));

static void *thread(void *)
{
    read_it();
    return nullptr;
}

static size_t used_by_thread()
{
    pthread_attr_t attributes;
    pthread_t made;
    paint(lent);
    pthread_attr_init(&attributes);
    pthread_attr_setstack(&attributes, lent, sizeof lent);
    if (pthread_create(&made, &attributes, thread, nullptr) != 0 || pthread_join(made, nullptr) != 0) {
        perror("pthread");
        exit(1);
    }
    return changed(lent);
}

static void handler(int) { read_it(); }

static size_t used_by_handler()
{
    stack_t stack{};
    struct sigaction action {};
    paint(lent);
    stack.ss_sp = lent;
    stack.ss_size = sizeof lent;
    action.sa_handler = handler;
    action.sa_flags = SA_ONSTACK;
    if (sigaltstack(&stack, nullptr) != 0 || sigaction(SIGUSR1, &action, nullptr) != 0 || raise(SIGUSR1) != 0) {
        perror("signal");
        exit(1);
    }
    return changed(lent);
}

static uint64_t any_set(int tips)
{
    const uint64_t rack = ~0ull >> (64 - tips);
    uint64_t set = 0;
    while (set == 0) {
        set = (((uint64_t)rand() << 33) ^ ((uint64_t)rand() << 11) ^ (uint64_t)rand()) & rack;
    }
    return set;
}

static uint64_t run_between(int low, int high) { return (~0ull >> (63 - high)) & (~0ull << low); }

static void make_parts()
{
    const size_t count = rand() % 2 == 0 ? TIPSHARE_MOST_PARTS : 1 + (size_t)rand() % TIPSHARE_MOST_PARTS;
    const size_t rule_count = count == 1 ? 0 : (size_t)rand() % 1001;
    for (size_t part = 0; part < count; part++) {
        const uint32_t first = (uint32_t)(rand() % (int)(part + 1));
        const uint32_t last = (uint32_t)(part + (size_t)rand() % (count - part));
        const uint32_t given[] = {first, last, part < count / 4, part >= count - count / 4};
        memcpy(board.parts + TIPSHARE_PART_PLACES * part, given, sizeof given);
    }
    for (size_t rule = 0; rule < rule_count; rule++) {
        const uint32_t later = (uint32_t)(1 + (size_t)rand() % (count - 1));
        board.rules[TIPSHARE_RULE_PLACES * rule] = (uint32_t)rand() % later;
        board.rules[TIPSHARE_RULE_PLACES * rule + 1] = later;
    }
    for (uint8_t &tip : board.tips_of_parts) {
        tip = (uint8_t)(rand() % 64);
    }
    board.parts_length = TIPSHARE_PART_PLACES * count;
    board.rules_length = TIPSHARE_RULE_PLACES * rule_count;
}

static void make_board(int number)
{
    const int tips = 1 + rand() % 64;
    board.mounted = number % 7 < 4 ? TIPSHARE_NO_TIP : (size_t)(rand() % tips);
    board.k = (uint16_t)rand();
    const int lines = number % 3 == 0 ? TIPSHARE_MOST_LINES : rand() % (TIPSHARE_MOST_LINES + 1);
    uint64_t sets[TIPSHARE_MOST_LINES];
    uint8_t quantities[TIPSHARE_MOST_LINES];
    for (int line = 0; line < lines; line++) {
        // Every line can have 4 at most.
        quantities[line] = (uint8_t)(1 + rand() % 4);
        const int low = number % 5 == 0 ? line % tips : rand() % tips;
        const int high = number % 5 == 0 ? low : low + rand() % (tips - low);
        sets[line] = number % 2 == 0 ? any_set(tips) : run_between(low, high);
    }
    const auto written = [&](uint8_t *file, int count) {
        return number % 4 < 2 ? job::write_file(file, (size_t)tips, sets, job::Single{}, (size_t)count)
                              : job::write_file(file, (size_t)tips, sets, (const uint8_t *)quantities, (size_t)count);
    };
    board.length = written(board.file, lines);
    board.half_length = written(board.half, lines / 2);
    board.price = number % 2 == 0 ? 0 : (uint32_t)rand();
    for (int line = 0; line < lines; line++) {
        sets[line] = any_set(tips < 20 ? tips : 1 + number % 20);
    }
    board.narrow_length = written(board.narrow, lines);
    // Every other board is mended as it is.
    memcpy(board.damaged, board.file, board.length);
    board.damaged_length = board.length - (size_t)(number % 2);
    board.damaged[5] = number % 2 == 0 ? (uint8_t)tips : (uint8_t)(1 + rand() % tips);
    // The pairs of a best plan, where there is one: the most that is met.
    tipshare_best(board.file, board.length, TIPSHARE_NO_TIP, board.plan, sizeof board.plan, board.table,
                  TIPSHARE_MOST_PLACES, answer, TIPSHARE_ANSWER_PLACES);
    board.goal = (uint32_t)answer[1];
    board.claim = board.goal;
    make_parts();
}

/* What the other program needs for this board: call CALLS is a thread, and the one after it a signal handler. */
static size_t used_in(const std::string &program, int call)
{
    const std::string saved = program + ".board";
    FILE *to = fopen(saved.c_str(), "wb");
    if (to == nullptr || fwrite(&board, sizeof board, 1, to) != 1 || fclose(to) != 0) {
        perror(saved.c_str());
        exit(1);
    }
    FILE *from = popen((program + " " + std::to_string(call) + " < " + saved).c_str(), "r");
    size_t bytes = 0;
    if (from == nullptr || fscanf(from, "%zu", &bytes) != 1 || pclose(from) != 0) {
        perror(program.c_str());
        exit(1);
    }
    return bytes;
}

static size_t used_by(int call)
{
    switch (call) {
    case CALLS:
        return used_by_thread();
    case CALLS + 1:
        return used_by_handler();
    default:
        return used(calls[call].make);
    }
}

/* Makes one call, and before it none that looks memcpy or memset up. */
static int single(int call)
{
    size_t got = 0;
    ssize_t more;
    while (got < sizeof board && (more = read(0, (uint8_t *)&board + got, sizeof board - got)) > 0) {
        got += (size_t)more;
    }
    const size_t bytes = used_by(call);
    printf("%zu\n", bytes);
    return got == sizeof board ? 0 : 1;
}

static std::string with_comma(size_t bytes)
{
    char digits[32];
    snprintf(digits, sizeof digits, bytes < 1000 ? "%zu" : "%zu,%03zu", bytes < 1000 ? bytes : bytes / 1000,
             bytes % 1000);
    return digits;
}

int main(int count, char **words)
{
    if (count == 2 && words[1][0] >= '0' && words[1][0] <= '9') {
        return single(atoi(words[1]));
    }
    size_t worst[CALLS + 2] = {0};
    size_t lazy[CALLS + 2] = {0};
    srand(1);
    for (int number = 0; number < BOARDS; number++) {
        make_board(number);
        for (int call = 0; call < CALLS + 2; call++) {
            const bool slow = call < CALLS && (calls[call].make == goal_it || calls[call].make == exact_it);
            if (slow && number % SLOW > 1) {
                continue;
            }
            const size_t bytes = used_by(call);
            worst[call] = bytes > worst[call] ? bytes : worst[call];
            for (int program = 1; program < count && number % SINGLE < 2; program++) {
                const size_t first = used_in(words[program], call);
                lazy[call] = first > lazy[call] ? first : lazy[call];
            }
        }
    }
    puts("| Call | Bytes, -z now | Bytes, lazy |\n|---|---:|---:|");
    for (int call = 0; call < CALLS; call++) {
        printf("| %s | %s | %s |\n", calls[call].name, with_comma(worst[call]).c_str(), with_comma(lazy[call]).c_str());
    }
    printf("| a thread, with tipshare_read | %s | %s |\n", with_comma(worst[CALLS]).c_str(),
           with_comma(lazy[CALLS]).c_str());
    printf("| a signal handler, with tipshare_read | %s | %s |\n", with_comma(worst[CALLS + 1]).c_str(),
           with_comma(lazy[CALLS + 1]).c_str());
    printf("\nPTHREAD_STACK_MIN %ld, MINSIGSTKSZ %ld, SIGSTKSZ %ld, a page %ld\n", sysconf(_SC_THREAD_STACK_MIN),
           sysconf(_SC_MINSIGSTKSZ), sysconf(_SC_SIGSTKSZ), sysconf(_SC_PAGESIZE));
    return 0;
}
