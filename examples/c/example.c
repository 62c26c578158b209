/*
 * Calls the functions of the tip sharing library on some boards.
 *
 * From the root of the repository, make example builds the library and this
 * program, and runs it. A program of your own is built the same way:
 *   gcc -Iinclude examples/c/example.c target/lib/libtipshare.a -o target/example
 * or, with the library installed:
 *   gcc example.c $(pkg-config --cflags --libs tipshare) -o example
 */
#include <inttypes.h>
#include <stdio.h>

#include "tipshare.h"

/*
 * Writes a job file to file, and gives its length: of version 1 without quantities (NULL), 8 + 8 * lines bytes; of
 * version 2 with one for each line, 8 + 9 * lines bytes.
 */
static size_t job_file(uint8_t *file, unsigned rack, unsigned lines, const uint64_t *sets, const uint8_t *quantities)
{
    size_t length = 0;
    file[length++] = 'T';
    file[length++] = 'I';
    file[length++] = 'P';
    file[length++] = 0;
    file[length++] = quantities == NULL ? 1 : 2;
    file[length++] = (uint8_t)rack;
    file[length++] = (uint8_t)(lines >> 8);
    file[length++] = (uint8_t)lines;
    for (unsigned line = 0; line < lines; line++) {
        for (int shift = 56; shift >= 0; shift -= 8) {
            file[length++] = (uint8_t)(sets[line] >> shift);
        }
        if (quantities != NULL) {
            file[length++] = quantities[line];
        }
    }
    return length;
}

/* Where a line of a job file begins, which depends on the version. */
static const uint8_t *line_of(const uint8_t *file, size_t line)
{
    return file + 8 + (file[4] == 1 ? 8 : 9) * line;
}

/* The set of a line of a job file. */
static uint64_t set_of_line(const uint8_t *file, size_t line)
{
    uint64_t set = 0;
    for (size_t byte = 0; byte < 8; byte++) {
        set = set << 8 | line_of(file, line)[byte];
    }
    return set;
}

static void print_set(uint64_t set)
{
    const char *between = "";
    printf("{");
    for (int tip = 0; tip < TIPSHARE_MOST_TIPS; tip++) {
        if (set >> tip & 1) {
            printf("%s%d", between, tip);
            between = ",";
        }
    }
    printf("}");
}

static void print_plan(const uint8_t *plan, size_t lines)
{
    for (size_t line = 0; line < lines; line++) {
        printf(" %u", (unsigned)plan[line]);
    }
}

/* Prints a refusal; the line in place only matters for some. */
static void print_refusal(const char *call, uint32_t number, uint64_t place)
{
    printf("%s: refused %" PRIu32 ", %s", call, number, tipshare_words(number));
    switch (number) {
    case TIPSHARE_EMPTY_LINE:
    case TIPSHARE_TIP_OUTSIDE:
    case TIPSHARE_ZERO_QUANTITY:
    case TIPSHARE_NO_RUN:
    case TIPSHARE_TOO_MANY_PLACEMENTS: printf(" (line %" PRIu64 ")", place); break;
    case TIPSHARE_BAD_WINDOW: printf(" (part %" PRIu64 ")", place); break;
    case TIPSHARE_BAD_RULE: printf(" (rule %" PRIu64 ")", place);
    }
    printf("\n");
}

/* Prints the lines of a kept board. */
static void print_kept(const uint8_t *out)
{
    size_t lines = (size_t)out[6] << 8 | out[7];
    printf("lines");
    for (size_t line = 0; line < lines; line++) {
        printf(" ");
        print_set(set_of_line(out, line));
    }
    printf(" in version %u\n", (unsigned)out[4]);
}

static void print_keep(const uint8_t *file, size_t file_len, uint16_t k)
{
    uint8_t out[TIPSHARE_LONGEST_FILE];
    uint64_t answer[TIPSHARE_ANSWER_PLACES];
    uint32_t number = tipshare_keep(file, file_len, k, out, sizeof out, answer, TIPSHARE_ANSWER_PLACES);
    if (number == TIPSHARE_NO_PLAN) {
        printf("keep within %u: no plan, margin %" PRId64 "\n", (unsigned)k, (int64_t)answer[1]);
    } else if (number != TIPSHARE_ACCEPTED) {
        print_refusal("keep", number, answer[0]);
    } else {
        printf("keep within %u: margin %" PRId64 ", ", (unsigned)k, (int64_t)answer[1]);
        print_kept(out);
    }
}

/* Prints what a goal of pairs leaves of each line. */
static void print_goal(const uint8_t *file, size_t file_len, uint32_t goal)
{
    uint8_t out[TIPSHARE_LONGEST_FILE];
    uint64_t answer[TIPSHARE_ANSWER_PLACES];
    uint32_t number = tipshare_goal(file, file_len, goal, out, sizeof out, answer, TIPSHARE_ANSWER_PLACES);
    if (number != TIPSHARE_ACCEPTED) {
        print_refusal("goal", number, answer[0]);
    } else {
        printf("goal of %" PRIu32 " pairs: ", goal);
        print_kept(out);
    }
}

/* Checks a plan as if other software had handed it over with its table. */
static void print_check(const uint8_t *file, size_t file_len, const uint8_t *plan, size_t lines, uint32_t claim,
                        const uint32_t *table, size_t places)
{
    uint64_t answer[TIPSHARE_ANSWER_PLACES];
    uint32_t number =
        tipshare_check(file, file_len, plan, lines, claim, table, places, answer, TIPSHARE_ANSWER_PLACES);
    if (number != TIPSHARE_ACCEPTED) {
        print_refusal("check", number, answer[0]);
    } else {
        printf("check: accepted, no plan has more than %" PRIu32 " pairs\n", claim);
    }
}

/* Prints both plans of a file with a tip on the head, or with TIPSHARE_NO_TIP. */
static void print_plans(const uint8_t *file, size_t file_len, size_t rack, size_t lines, size_t mounted)
{
    uint8_t plan[TIPSHARE_MOST_LINES];
    static uint32_t table[TIPSHARE_MOST_PLACES];
    uint64_t answer[TIPSHARE_ANSWER_PLACES];

    uint32_t number = tipshare_quick(file, file_len, mounted, plan, sizeof plan, answer, TIPSHARE_ANSWER_PLACES);
    if (number == TIPSHARE_ACCEPTED) {
        printf("quick: %" PRIu64 " pairs, plan", answer[1]);
        print_plan(plan, lines);
        printf("\n");
    } else {
        print_refusal("quick", number, answer[0]);
    }

    number = tipshare_best(file, file_len, mounted, plan, sizeof plan, table, TIPSHARE_MOST_PLACES,
                           answer, TIPSHARE_ANSWER_PLACES);
    if (number == TIPSHARE_ACCEPTED) {
        printf("best: %" PRIu64 " pairs, plan", answer[1]);
        print_plan(plan, lines);
        printf("; most pairs within tips 0 to %zu: %" PRIu32 "\n", rack - 1, table[rack - 1]);
        uint32_t pairs = (uint32_t)answer[1];
        /* The plan with its true number of pairs, and with one more. */
        print_check(file, file_len, plan, lines, pairs, table, rack * rack);
        print_check(file, file_len, plan, lines, pairs + 1, table, rack * rack);
        /* The tips of all plans with as many pairs, and of those with more, of which there is none. */
        print_goal(file, file_len, pairs);
        print_goal(file, file_len, pairs + 1);
    } else {
        print_refusal("best", number, answer[0]);
    }
}

/* Prints a plan for the Junior, which carries two tips at once. */
static void print_junior(const uint8_t *file, size_t file_len, size_t lines)
{
    uint8_t plan[TIPSHARE_JUNIOR_LINES];
    uint64_t answer[TIPSHARE_ANSWER_PLACES];
    uint32_t number = tipshare_junior(file, file_len, plan, sizeof plan, answer, TIPSHARE_ANSWER_PLACES);
    if (number != TIPSHARE_ACCEPTED) {
        print_refusal("junior", number, answer[0]);
        return;
    }
    printf("junior: %" PRIu64 " pairs on tips %" PRIu64 " and %" PRIu64 ", plan", answer[1], answer[2], answer[3]);
    print_plan(plan, lines);
    printf("\n");
}

/* Prints two boards on one panel: merged, and each planned alone. */
static void print_panel(const uint8_t *first, size_t first_len, const uint8_t *second, size_t second_len)
{
    uint8_t panel[TIPSHARE_LONGEST_FILE];
    uint8_t plan[2 * TIPSHARE_MOST_LINES];
    uint64_t answer[TIPSHARE_ANSWER_PLACES];

    uint32_t number = tipshare_merge(first, first_len, second, second_len, panel, sizeof panel,
                                     answer, TIPSHARE_ANSWER_PLACES);
    if (number == TIPSHARE_ACCEPTED) {
        size_t length = (size_t)answer[1];
        tipshare_quick(panel, length, TIPSHARE_NO_TIP, plan, sizeof plan, answer, TIPSHARE_ANSWER_PLACES);
        size_t lines = (size_t)panel[6] << 8 | panel[7];
        printf("merge: %zu bytes in version %u; quick: %" PRIu64 " pairs, plan", length, (unsigned)panel[4], answer[1]);
        print_plan(plan, lines);
        printf("\n");
    } else {
        print_refusal("merge", number, answer[0]);
    }

    number = tipshare_alone(first, first_len, second, second_len, plan, sizeof plan, answer, TIPSHARE_ANSWER_PLACES);
    if (number == TIPSHARE_ACCEPTED) {
        size_t lines = (size_t)first[6] << 8 | first[7];
        size_t others = (size_t)second[6] << 8 | second[7];
        printf("alone: %" PRIu64 " pairs, plan", answer[1]);
        print_plan(plan, lines);
        printf("; %" PRIu64 " pairs, plan", answer[2]);
        print_plan(plan + lines, others);
        printf("\n");
    } else {
        print_refusal("alone", number, answer[0]);
    }
}

/* Prints what mending does to a file. */
static void print_mend(const uint8_t *file, size_t file_len)
{
    static const char *const words[] = {"", "tips cleared", "dropped as empty", "quantity raised", "dropped for the total",
                                        "count changed", "bytes left out behind the lines"};
    uint8_t out[TIPSHARE_LONGEST_FILE];
    uint8_t report[TIPSHARE_LONGEST_CHANGES];
    uint64_t answer[TIPSHARE_ANSWER_PLACES];
    uint32_t number = tipshare_mend(file, file_len, out, sizeof out, report, sizeof report,
                                    answer, TIPSHARE_ANSWER_PLACES);
    if (number != TIPSHARE_ACCEPTED) {
        print_refusal("mend", number, answer[0]);
        return;
    }
    printf("mend: %" PRIu64 " bytes, %" PRIu64 " changes\n", answer[1], answer[2] / TIPSHARE_CHANGE);
    for (const uint8_t *change = report; change < report + answer[2]; change += TIPSHARE_CHANGE) {
        unsigned line = (unsigned)change[0] << 8 | change[1];
        if (line == TIPSHARE_WHOLE_FILE) {
            printf("  the file: %s\n", words[change[2]]);
        } else {
            printf("  line %u: %s\n", line, words[change[2]]);
        }
    }
    number = tipshare_read(out, (size_t)answer[1], answer, TIPSHARE_ANSWER_PLACES);
    printf("read: %" PRIu32 ", lines %" PRIu64 "\n", number, answer[2]);
}

/* Prints the order of parts, 4 numbers each, by rules, 2 numbers each. */
static void print_order(const uint32_t *parts, size_t count, const uint32_t *rules, size_t rule_count)
{
    uint8_t order[TIPSHARE_MOST_PARTS];
    uint64_t answer[TIPSHARE_ANSWER_PLACES];
    uint32_t number = tipshare_order(parts, TIPSHARE_PART_PLACES * count, rules, TIPSHARE_RULE_PLACES * rule_count,
                                     order, sizeof order, answer, TIPSHARE_ANSWER_PLACES);
    if (number == TIPSHARE_ACCEPTED) {
        printf("order:");
        print_plan(order, (size_t)answer[1]);
        printf("\n");
    } else {
        print_refusal("order", number, answer[0]);
    }
}

/* Calls each function on one file. */
/* Prints the plan with the fewest tip changes along the list, and the plan of exact sharing at a price for each tip. */
static void print_changes(const uint8_t *file, size_t file_len, size_t lines, uint32_t price)
{
    uint8_t plan[TIPSHARE_MOST_LINES];
    static uint32_t table[TIPSHARE_EXACT_PLACES];
    uint64_t answer[TIPSHARE_ANSWER_PLACES];
    uint32_t number =
        tipshare_along(file, file_len, TIPSHARE_NO_TIP, plan, sizeof plan, answer, TIPSHARE_ANSWER_PLACES);
    if (number == TIPSHARE_ACCEPTED) {
        printf("along: tip changes %" PRIu64 ", pairs %" PRIu64 ", plan", answer[1], answer[2]);
        print_plan(plan, lines);
        printf("\n");
    } else {
        print_refusal("along", number, answer[0]);
    }

    number = tipshare_exact(file, file_len, TIPSHARE_NO_TIP, price, plan, sizeof plan, table, TIPSHARE_EXACT_PLACES,
                            answer, TIPSHARE_ANSWER_PLACES);
    if (number == TIPSHARE_ACCEPTED) {
        printf("exact at price %" PRIu32 ": pairs %" PRIu64 ", tips %" PRIu64 ", plan", price, answer[1], answer[2]);
        print_plan(plan, lines);
        printf("\n");
    } else {
        print_refusal("exact", number, answer[0]);
    }
}

/* Prints the first and the last position that each part can have, and the order by the tips of the parts. */
static void print_positions(const uint32_t *parts, size_t count, const uint32_t *rules, size_t rule_count,
                            const uint8_t *plan, size_t mounted)
{
    uint8_t first[TIPSHARE_MOST_PARTS], last[TIPSHARE_MOST_PARTS], order[TIPSHARE_MOST_PARTS];
    uint64_t answer[TIPSHARE_ANSWER_PLACES];
    uint32_t number = tipshare_windows(parts, TIPSHARE_PART_PLACES * count, rules, TIPSHARE_RULE_PLACES * rule_count,
                                       first, sizeof first, last, sizeof last, answer, TIPSHARE_ANSWER_PLACES);
    if (number == TIPSHARE_ACCEPTED) {
        printf("windows:");
        for (size_t part = 0; part < count; part++) {
            printf(" %u-%u", (unsigned)first[part], (unsigned)last[part]);
        }
        printf("\n");
    } else {
        print_refusal("windows", number, answer[0]);
    }

    number = tipshare_order_by_tips(parts, TIPSHARE_PART_PLACES * count, rules, TIPSHARE_RULE_PLACES * rule_count, plan,
                                    count, mounted, order, sizeof order, answer, TIPSHARE_ANSWER_PLACES);
    if (number == TIPSHARE_ACCEPTED) {
        printf("order by tips:");
        print_plan(order, count);
        printf(", tip changes %" PRIu64 "\n", answer[2]);
    } else {
        print_refusal("order by tips", number, answer[0]);
    }
}

static void print_all(const uint8_t *file, size_t file_len)
{
    static uint8_t text[TIPSHARE_REPORT_SPACE];
    uint64_t answer[TIPSHARE_ANSWER_PLACES];

    uint32_t number = tipshare_read(file, file_len, answer, TIPSHARE_ANSWER_PLACES);
    if (number != TIPSHARE_ACCEPTED) {
        print_refusal("read", number, answer[0]);
        return;
    }
    size_t rack = (size_t)answer[1];
    size_t lines = (size_t)answer[2];
    printf("read: rack %zu, lines %zu\n", rack, lines);

    number = tipshare_common(file, file_len, answer, TIPSHARE_ANSWER_PLACES);
    if (number != TIPSHARE_ACCEPTED) {
        print_refusal("common", number, answer[0]);
        return;
    }
    uint64_t least_off = answer[2];
    printf("common: %" PRIu64 " on one tip, %" PRIu64 " off, tips ", answer[1], least_off);
    print_set(answer[3]);
    printf("\n");

    /* One below the least bound, the least bound itself, and one above. */
    if (least_off > 0) {
        print_keep(file, file_len, (uint16_t)(least_off - 1));
    }
    print_keep(file, file_len, (uint16_t)least_off);
    print_keep(file, file_len, (uint16_t)(least_off + 1));

    print_plans(file, file_len, rack, lines, TIPSHARE_NO_TIP);
    print_junior(file, file_len, lines);

    size_t length = tipshare_report(file, file_len, text, sizeof text);
    printf("report:\n");
    fwrite(text, 1, length, stdout);
}

int main(void)
{
    uint8_t file[TIPSHARE_LONGEST_FILE];
    uint64_t answer[TIPSHARE_ANSWER_PLACES];

    printf("Two lines, {0} and {1,2}, on a rack of 3 tips\n");
    const uint64_t two_lines[2] = {1u << 0, 1u << 1 | 1u << 2};
    print_all(file, job_file(file, 3, 2, two_lines, NULL));

    printf("\nFour lines, {1,2,3}, {3..7}, {0..8} and {5,6}, on a rack of 9 tips\n");
    const uint64_t four_lines[4] = {0x00E, 0x0F8, 0x1FF, 0x060};
    size_t length = job_file(file, 9, 4, four_lines, NULL);
    print_all(file, length);

    printf("\nThe four lines for 1, 2, 3 and 2 placements\n");
    const uint8_t quantities[4] = {1, 2, 3, 2};
    length = job_file(file, 9, 4, four_lines, quantities);
    print_all(file, length);

    printf("\nThe same with tip 6 on the head\n");
    print_plans(file, length, 9, 4, 6);

    printf("\nTwo boards on one panel: these four lines beside themselves, then {4} and {4,5} on the same rack, then on another\n");
    print_panel(file, length, file, length);
    uint8_t other[TIPSHARE_LONGEST_FILE];
    const uint64_t other_lines[2] = {0x010, 0x030};
    print_panel(file, length, other, job_file(other, 9, 2, other_lines, NULL));
    print_panel(file, length, other, job_file(other, 6, 2, other_lines, NULL));

    printf("\nRefused calls on these\n");
    uint8_t short_plan[3];
    uint32_t number = tipshare_quick(file, length, 9, short_plan, sizeof short_plan, answer, TIPSHARE_ANSWER_PLACES);
    print_refusal("quick", number, answer[0]);
    number = tipshare_quick(file, length, 6, short_plan, sizeof short_plan, answer, TIPSHARE_ANSWER_PLACES);
    print_refusal("quick", number, answer[0]);
    number = tipshare_read(file, length - 1, answer, TIPSHARE_ANSWER_PLACES);
    print_refusal("read", number, answer[0]);
    number = tipshare_read(file, length, answer, 3);
    print_refusal("read", number, 0);
    file[8 + 9 * 3 + 8] = 0;
    number = tipshare_read(file, length, answer, TIPSHARE_ANSWER_PLACES);
    print_refusal("read", number, answer[0]);
    file[8 + 9 * 3 + 7] = 0;
    number = tipshare_read(file, length, answer, TIPSHARE_ANSWER_PLACES);
    print_refusal("read", number, answer[0]);

    printf("\nThat file mended, and cut in its first line and in its first 8 bytes\n");
    print_mend(file, length);
    print_mend(file, 12);
    print_mend(file, 7);
    printf("\nFour parts to place: a tall one, a plain one, a fine one and a plain one that goes before the other\n");
    /* First and last position, fine, tall. */
    const uint32_t parts[4 * TIPSHARE_PART_PLACES] = {0, 3, 0, 1, 0, 3, 0, 0, 0, 3, 1, 0, 0, 3, 0, 0};
    const uint32_t rules[3 * TIPSHARE_RULE_PLACES] = {3, 1, 1, 3, 2, 4};
    print_order(parts, 4, rules, 1);
    print_order(parts, 4, rules, 2);
    print_order(parts, 4, rules, 3);
    print_order(parts, 3, rules, 0);

    printf("\nThe positions of these parts by the one rule, and their order by tips 1, 2, 1 and 1 with tip 1 on the head\n");
    const uint8_t tips[4] = {1, 2, 1, 1};
    print_positions(parts, 4, rules, 1, tips, 1);

    printf("\nThe four lines above, with the fewest tip changes along the list, and exactly\n");
    print_changes(file, job_file(file, 9, 4, four_lines, NULL), 4, 0);
    return 0;
}
