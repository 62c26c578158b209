/*
 * tipshare chooses suction tips (nozzles) for the lines of a parts list.
 *
 * A job file holds the bytes "TIP", the version (16 bits), the rack size m
 * (8 bits, 1 to 64), the number of lines n (16 bits, 0 to 512) and n lines, all
 * big-endian. In version 1 a line is a set of tips (64 bits, bit t for tip t)
 * and counts as one placement: 8 + 8 * n bytes. In version 2 a byte follows
 * each set, the quantity of the line, 1 to 255: that is how many placements the
 * line counts as. All lines together have at most 2048 placements. The length is
 * 8 + 9 * n bytes. Both versions are read. Version 1 is written if every
 * quantity is 1, else version 2.
 *
 * Tips are numbered 0 to m - 1, lines 0 to n - 1. A plan puts each line on one
 * tip of its set, with all placements of the line. A pair is two different
 * placements on one tip, of two lines or of one.
 *
 * If you know only version 1: the longest good file had 4104 bytes and has
 * 4616. tipshare_keep may write another version than it read. top, off, k,
 * margin and pairs counted lines and now count placements, pairs up to 2096128.
 * 15 and 30 are new. A file of version 1 gets the same answers as before, with
 * one exception: 25 was given at the first line with a gap between its lowest
 * and its highest tip, and is now given at the first line with a gap in which
 * another line has a tip. If there is none, tipshare_best and tipshare_report
 * plan the file.
 *
 * If you know no mounted tip: tipshare_quick and tipshare_best take one more
 * argument, mounted, directly after the file, and refuse with 16. Pass
 * TIPSHARE_NO_TIP, and every answer is as before.
 *
 * The caller must ensure the following, which the library cannot check:
 * - No pointer is null, not even with length 0: pass any address that is good
 *   for the type.
 * - Each pointer is good for its length. Every length counts elements, not
 *   bytes.
 * - No two buffers of one call overlap, except two that are only read.
 *
 * A call keeps nothing after it returns, so calls on different buffers may run
 * at the same time. The rules in full are in docs/RULES.md.
 *
 * The library is for x86-64 Linux, and runs on every such processor. The same
 * proved module is compiled for ARM and RISC-V Linux, for x86-64 Windows and as
 * WebAssembly, and compared on each with the second implementation by 200,000
 * calls (docs/TARGETS.md). WebAssembly is for JavaScript: lengths have 64 bits
 * there, so the prototypes below do not fit it. The library needs nothing but
 * memset and memcpy from the C library; it has no heap and no global state.
 *
 * The stack that a call needs on Linux, in KB of 1,024 bytes, measured on three
 * processors, 1 KB or more added, rounded up (docs/PERFORMANCE.md):
 *
 *   read 5, common 10, keep 10, goal 97, quick 20, best 33, exact 14, along 10,
 *   check 27, junior 9, merge 5, alone 25, mend 5, order 14, windows 12,
 *   order_by_tips 15, report 49
 *
 * These are for a program that looks functions up at their first calls (-z lazy):
 * the call itself in the shared library, memset and memcpy in the static one. The
 * look-up saves the registers of the processor, 3.2 KB with AVX-512. A program
 * linked with -z now needs up to 3 KB less. A thread needs 5 KB more of the size
 * that pthread_attr_setstacksize sets, and room for the program's thread-local
 * variables. A signal handler on a stack of its own needs
 * sysconf(_SC_MINSIGSTKSZ) bytes more.
 *
 * All but tipshare_words and tipshare_version are proved. The two are tables in
 * C, in libtipshare.a and libtipshare.so; libtipshare_c.a, which make leaves in
 * target/staticlib, has the proved functions alone.
 *
 * All functions except tipshare_report and those two return 0 if the call is
 * accepted, else a number from the table below. They write the first 4 places
 * of answer, also on a refusal, and none past them. Only if answer_len is below
 * 4 they write nothing at all and return 100.
 *
 * A refused call writes to no buffer but answer. answer[0] is the line, part or
 * rule that the refusal is about, or 0. The other places are 0, except that 26
 * puts its margin in answer[1].
 *
 * If several refusals apply, the first in this order is given: 100, then
 * 6, 7, 8, 1, 9, 10, then 2, 3 or 15 of the first bad line, then 30 (for two
 * files all of the first, then all of the second), then those of the call in
 * the order given with it. tipshare_order and tipshare_windows take no file: there
 * it is 100, 101, 12, 13, 14, 29. Nor does tipshare_order_by_tips: 100, 101, 12,
 * 13, 14, 4, 3, 16, 29.
 *
 *   No.  What is wrong                         What to do
 *   ---  ------------------------------------  --------------------------------
 *     1  the rack size is 0 or above 64; for   put 1 to 64 in byte 5, for the
 *        tipshare_junior also above 8          Junior 1 to 8
 *     2  line answer[0] has no tip             give that line a tip
 *     3  line answer[0] has a tip outside      take it out of that line, or
 *        the rack; tipshare_order_by_tips:     name a larger rack in byte 5;
 *        the tip of part answer[0] is above    give that part a tip from 0
 *        63                                    to 63
 *     4  plan is shorter than n bytes, for     pass n bytes; 512 is always
 *        tipshare_alone than both plans        enough, for tipshare_alone 1024
 *     5  table is shorter than m * m places,   pass m * m places; 4096 is
 *        for tipshare_exact than 2 * 2^r       always enough. For
 *                                              tipshare_exact pass 2 * 2^r, r
 *                                              being the number of different
 *                                              tips of all lines
 *     6  the file is shorter than 8 bytes      pass the whole file
 *     7  the file does not begin with "TIP"    pass a job file
 *     8  the version is neither 1 nor 2        write the file as version 1 or 2
 *     9  the file names more than 512 lines    split the parts list
 *    10  the length is not 8 + 8 * n bytes     pass the whole file and no
 *        (version 1) or 8 + 9 * n (version 2)  more, or correct n
 *    11  out is shorter than the file to       pass 8 + 9 * n bytes; 4616 is
 *        write, or report is shorter than the  always enough, 3081 for the
 *        changes that tipshare_mend reports    report
 *    12  there are over 128 parts, or the      split the parts, or give part
 *        first position of part answer[0] is   answer[0] positions from 0 to
 *        after its last, or its last is not    n - 1, the first not after the
 *        below the number of parts n           last
 *    13  rule answer[0] names a part that      name two different parts, 0 to
 *        does not exist, or one part twice     n - 1, in that rule
 *    14  order, first or last is shorter than  pass n bytes; 128 is always
 *        n bytes                               enough
 *    15  line answer[0] has quantity 0         give that line 1 to 255
 *    16  mounted is no tip of the rack and     pass 0 to m - 1, or
 *        not TIPSHARE_NO_TIP                   TIPSHARE_NO_TIP for none
 *    17  the two racks to merge differ         name one rack size in byte 5 of
 *                                              both files
 *    19  a line of the plan to check is on a   plan again: the plan is for other
 *        tip that is not in its set            lines, or wrong
 *    20  claim is not the number of pairs in   count the pairs of placements in
 *        the plan to check                     the plan
 *    24  the Junior, and the file has more     split the parts list; for
 *        than 64 lines; tipshare_merge, and    tipshare_merge make two panels
 *        both have more than 512 together
 *    25  line answer[0], the first such, is    use tipshare_exact, for up to 20
 *        no run: it lacks a tip between its    different tips, or
 *        lowest and its highest that another   tipshare_quick; or number the tips
 *        line has                              in another order
 *    26  no plan has at most k placements off  raise k by at least -margin, the
 *        its most used tip; answer[1] is the   margin being (int64_t)answer[1]
 *        margin, below zero
 *    29  no placing order satisfies all        give some parts more positions,
 *        rules: flags and rules form a cycle,  or take out a rule or a flag
 *        or too many parts share too few
 *        positions
 *    30  with line answer[0], the first such,  split the parts list; for
 *        there are over 2048 placements; for   tipshare_merge make two panels
 *        tipshare_merge both boards together
 *        have over 2048, and answer[0] is 0
 *    31  the Junior, and no two tips serve     split the parts list, or use
 *        every line                            tipshare_quick for a machine with
 *                                              a rack
 *    33  the table to check does not show      fill all of its m * m places, or
 *        that the plan has the most pairs      use tipshare_best
 *    34  no plan has goal pairs or more        lower the goal to the pairs of
 *                                              tipshare_best
 *    35  tipshare_exact, and the lines have     use tipshare_quick, which takes
 *        more than 20 different tips           any lines
 *   100  answer has fewer than 4 places        pass 4 places
 *   101  parts_len is not a multiple of 4, or  pass 4 numbers a part and 2
 *        rules_len not of 2                    numbers a rule
 */
#ifndef TIPSHARE_H
#define TIPSHARE_H

#include <stddef.h>
#include <stdint.h>

#ifdef __cplusplus
extern "C" {
#endif

#define TIPSHARE_VERSION "3.0.0" /* of this header; tipshare_version() is that of the library linked */
#define TIPSHARE_VERSION_MAJOR 3
#define TIPSHARE_VERSION_MINOR 0
#define TIPSHARE_VERSION_PATCH 0

#define TIPSHARE_MOST_TIPS 64         /* the largest rack size */
#define TIPSHARE_MOST_LINES 512       /* the most lines, and a plan that is always enough; for two boards alone twice that */
#define TIPSHARE_MOST_QUANTITY 255    /* the most placements of one line */
#define TIPSHARE_MOST_PLACEMENTS 2048 /* the most placements of all lines together */
#define TIPSHARE_MOST_PAIRS 2096128   /* the most pairs: all placements on one tip */
#define TIPSHARE_MOST_PLACES 4096     /* a table that is always enough */
#define TIPSHARE_EXACT_TIPS 20        /* the most different tips of all lines for exact sharing */
#define TIPSHARE_EXACT_PLACES 2097152 /* a table that is always enough for exact sharing */
#define TIPSHARE_MOST_PRICE 2096129   /* a price from which a plan has the fewest tips */
#define TIPSHARE_JUNIOR_TIPS 8        /* the largest rack that is planned for the Junior */
#define TIPSHARE_JUNIOR_LINES 64      /* the most lines planned for the Junior, and a plan that is always enough for it */
#define TIPSHARE_LONGEST_FILE 4616    /* the longest good job file, in bytes, and an out that is always enough */
#define TIPSHARE_CHANGE 3             /* the bytes of a change in the report of a mending */
#define TIPSHARE_LONGEST_CHANGES 3081 /* the longest report of a mending, in bytes */
#define TIPSHARE_ANSWER_PLACES 4      /* the places of an answer */
#define TIPSHARE_REPORT_SPACE 16384   /* the bytes that tipshare_report needs in out */
#define TIPSHARE_NO_TIP SIZE_MAX      /* no tip is mounted */
#define TIPSHARE_MOST_PARTS 128       /* the most parts to order, and an order that is always enough */
#define TIPSHARE_PART_PLACES 4        /* the numbers of a part */
#define TIPSHARE_RULE_PLACES 2        /* the numbers of a rule */

/* The changes of a line in the report of a mending, and those of the file under line TIPSHARE_WHOLE_FILE. */
#define TIPSHARE_TIPS_CLEARED 1
#define TIPSHARE_DROPPED_AS_EMPTY 2
#define TIPSHARE_QUANTITY_RAISED 3
#define TIPSHARE_DROPPED_FOR_TOTAL 4
#define TIPSHARE_COUNT_CHANGED 5
#define TIPSHARE_BYTES_BEHIND 6
#define TIPSHARE_WHOLE_FILE 65535

#define TIPSHARE_ACCEPTED 0
#define TIPSHARE_RACK_SIZE 1
#define TIPSHARE_EMPTY_LINE 2
#define TIPSHARE_TIP_OUTSIDE 3
#define TIPSHARE_SHORT_PLAN 4
#define TIPSHARE_SHORT_TABLE 5
#define TIPSHARE_SHORT_FILE 6
#define TIPSHARE_WRONG_MARK 7
#define TIPSHARE_WRONG_VERSION 8
#define TIPSHARE_FILE_LINES 9
#define TIPSHARE_FILE_LENGTH 10
#define TIPSHARE_SHORT_OUTPUT 11
#define TIPSHARE_BAD_WINDOW 12
#define TIPSHARE_BAD_RULE 13
#define TIPSHARE_SHORT_ORDER 14
#define TIPSHARE_ZERO_QUANTITY 15
#define TIPSHARE_MOUNTED_OUTSIDE 16
#define TIPSHARE_RACKS_DIFFER 17
#define TIPSHARE_FOREIGN_TIP 19
#define TIPSHARE_WRONG_CLAIM 20
#define TIPSHARE_TOO_MANY_LINES 24
#define TIPSHARE_NO_RUN 25
#define TIPSHARE_NO_PLAN 26
#define TIPSHARE_NO_ORDER 29
#define TIPSHARE_TOO_MANY_PLACEMENTS 30
#define TIPSHARE_NO_TWO_TIPS 31
#define TIPSHARE_WRONG_TABLE 33
#define TIPSHARE_GOAL_MISSED 34
#define TIPSHARE_TOO_MANY_NAMED 35
#define TIPSHARE_SHORT_ANSWER 100
#define TIPSHARE_BROKEN_RECORD 101

/*
 * Reads a job file.
 * file: file_len bytes, any number. answer: at least 4 places.
 * Accepted: answer is 0, the rack size m, the number of lines n, 0.
 * Refused (1, 2, 3, 6 to 10, 15, 30): answer is the line, 0, 0, 0.
 */
uint32_t tipshare_read(const uint8_t *file, size_t file_len,
                       uint64_t *answer, size_t answer_len);

/*
 * Finds the tips that most placements can use.
 * file: file_len bytes, any number. answer: at least 4 places.
 * Accepted: answer is 0, the most placements that one tip can take (0 without
 * lines), the least number of placements off such a tip, and the set of all
 * such tips (bit t for tip t; empty without lines).
 * Refused (1, 2, 3, 6 to 10, 15, 30): answer is the line, 0, 0, 0.
 */
uint32_t tipshare_common(const uint8_t *file, size_t file_len,
                         uint64_t *answer, size_t answer_len);

/*
 * Strikes from each line the tips that it has in no plan with at most k
 * placements off the most used tip, and writes what is left as a job file. The
 * quantities stay. The file is of version 1 if they are all 1, whichever version
 * was read, else of version 2, so it is never longer than the file read.
 * file: file_len bytes, any number. k: 0 to 65535. out: at least as many bytes
 * as are written, 8 + 8 * n in version 1 and 8 + 9 * n in version 2. answer: at
 * least 4 places.
 * Accepted: the first bytes of out are the job file, the rest of out is
 * untouched; answer is 0, the margin (the most placements that one tip can
 * take, minus all placements, plus k), the number of bytes written, 0. A line
 * whose quantity is at most the margin loses no tip. If every quantity is 1,
 * nothing is struck above margin 0.
 * Refused (1, 2, 3, 6 to 10, 15, 30, then 26, then 11): out is untouched;
 * answer is the line, 0, 0, 0, except for 26: there it is 0, the margin as a
 * 64-bit two's complement number, 0, 0.
 */
uint32_t tipshare_keep(const uint8_t *file, size_t file_len, uint16_t k,
                       uint8_t *out, size_t out_len,
                       uint64_t *answer, size_t answer_len);

/*
 * Strikes from each line the tips that it has in no plan with at least goal
 * pairs, and writes what is left as a job file, with the same quantities and in
 * the version that tipshare_keep would write. Every line must be a run, as for
 * tipshare_best. The lines left may have gaps, so tipshare_best may refuse them
 * with 25. With goal 0 nothing is struck; with the pairs of tipshare_best only
 * the tips of plans with the most pairs are left.
 * file: file_len bytes, any number. goal: any number. out: at least as many
 * bytes as are written, 8 + 8 * n in version 1 and 8 + 9 * n in version 2.
 * answer: at least 4 places.
 * Accepted: the first bytes of out are the job file, the rest of out is
 * untouched; answer is 0, the number of bytes written, 0, 0.
 * Refused (1, 2, 3, 6 to 10, 15, 30, then 25, 34, 11): out is untouched; answer
 * is the line, 0, 0, 0.
 */
uint32_t tipshare_goal(const uint8_t *file, size_t file_len, uint32_t goal,
                       uint8_t *out, size_t out_len,
                       uint64_t *answer, size_t answer_len);

/*
 * Plans by rounds: each round takes the tip that most unplanned placements
 * allow, and plans all of their lines on it. On a tie it takes the mounted tip
 * if that is among the tied, else the lowest number. The plan has at least half
 * as many pairs as any other, whichever tip is mounted. Another mounted tip may
 * give another number of pairs.
 * file: file_len bytes, any number. mounted: the tip on the head, 0 to m - 1,
 * or TIPSHARE_NO_TIP. plan: at least n bytes. answer: at least 4 places.
 * Accepted: plan[i] is the tip of line i, for i below n, the rest of plan is
 * untouched; answer is 0, the number of pairs in the plan (2096128 at most), 0,
 * 0.
 * Refused (1, 2, 3, 6 to 10, 15, 30, then 16, 4): plan is untouched; answer is
 * the line, 0, 0, 0.
 */
uint32_t tipshare_quick(const uint8_t *file, size_t file_len, size_t mounted,
                        uint8_t *plan, size_t plan_len,
                        uint64_t *answer, size_t answer_len);

/*
 * Plans with the most pairs. Every line must be a run: it has every tip between
 * its lowest and its highest that some line has. Tips that no line has are
 * ignored: none is in the plan, but the table has their rows and columns. If
 * several tips of an interval reach the most pairs, the mounted tip is taken if
 * it is among them, else the lowest. The pairs and the table are the same for
 * every mounted tip.
 * file: file_len bytes, any number. mounted: the tip on the head, 0 to m - 1,
 * or TIPSHARE_NO_TIP. plan: at least n bytes. table: at least m * m places.
 * answer: at least 4 places.
 * Accepted: plan[i] is the tip of line i, for i below n; table[a * m + b] is
 * the most pairs among the placements of the lines all of whose tips are from a
 * to b, and 0 for a above b; the rest of plan and table is untouched; answer is
 * 0, the number of pairs in the plan (2096128 at most), 0, 0.
 * Refused (1, 2, 3, 6 to 10, 15, 30, then 16, 4, 5, 25): plan and table are
 * untouched; answer is the line, 0, 0, 0.
 */
uint32_t tipshare_best(const uint8_t *file, size_t file_len, size_t mounted,
                       uint8_t *plan, size_t plan_len,
                       uint32_t *table, size_t table_len,
                       uint64_t *answer, size_t answer_len);

/*
 * Checks a plan from other software, with a claimed number of pairs and a table
 * that shows that no plan has more. Every line must be a run, as for
 * tipshare_best. The plan is accepted exactly if
 * - each line is on a tip of its set,
 * - claim is the number of pairs in the plan,
 * - table[m - 1], the entry for the whole rack, is the claim,
 * - and for every a, b and every tip c from a to b that some line has,
 *   table[a * m + b] is at least p * (p - 1) / 2 plus the entries for a to c - 1
 *   and for c + 1 to b (0 for an interval without a tip), where p is the number
 *   of placements of the lines that have c and no tip outside a to b. The sums
 *   do not wrap.
 *
 * Then no plan has more pairs. What tipshare_best leaves in plan and table is
 * accepted, with its pairs as the claim.
 * file: file_len bytes, any number. plan: at least n bytes, plan[i] the tip of
 * line i; a byte of 64 or more is no tip. claim: any number. table: at least
 * m * m places, of which those for a above b are not read. answer: at least 4
 * places. Nothing but answer is written.
 * Accepted: answer is 0, 0, 0, 0.
 * Refused (1, 2, 3, 6 to 10, 15, 30, then 4, 5, 25, 19, 20, 33): answer is the
 * line, 0, 0, 0; with 19, 20 and 33 it is 0, 0, 0, 0.
 */
uint32_t tipshare_check(const uint8_t *file, size_t file_len,
                        const uint8_t *plan, size_t plan_len, uint32_t claim,
                        const uint32_t *table, size_t table_len,
                        uint64_t *answer, size_t answer_len);

/*
 * Plans for the Junior, the small model, which carries two tips at once: with
 * one tip u for all lines, or with two, u below v, each with a line. No plan on
 * one tip or two has more pairs. If several choices of tips reach them, the
 * lowest u is taken, then the lowest v. Lines that have both tips are all on the
 * one that gives more pairs, on u if both give as many.
 * file: file_len bytes, any number. plan: at least n bytes. answer: at least 4
 * places.
 * Accepted: plan[i] is the tip of line i, for i below n, the rest of plan is
 * untouched; answer is 0, the number of pairs in the plan (2096128 at most), u,
 * v; u is v if one tip serves every line, and all are 0 without lines.
 * Refused (1, 2, 3, 6 to 10, 15, 30, then 24 with more than 64 lines, 1 with a
 * rack above 8, 4, 31): plan is untouched; answer is the line, 0, 0, 0, and with
 * 24, this 1, 4 and 31 it is 0, 0, 0, 0.
 */
uint32_t tipshare_junior(const uint8_t *file, size_t file_len,
                         uint8_t *plan, size_t plan_len,
                         uint64_t *answer, size_t answer_len);

/*
 * Plans any lines that have at most 20 different tips, at a price for each tip
 * that the plan uses: no other plan has more pairs when the price is taken off
 * for each of its tips. Price 0 gives the most pairs. A price of 2096129 gives
 * the fewest tips, and of the plans with as few the most pairs; a higher price
 * counts as 2096129. Lines with equal sets are on equal tips. With r different
 * tips it takes about r * 2^r steps.
 * file: file_len bytes, any number. mounted: the tip on the head, 0 to m - 1,
 * or TIPSHARE_NO_TIP. price: any number. plan: at least n bytes. table: at least
 * 2 * 2^r places, r being the number of different tips of all lines;
 * TIPSHARE_EXACT_PLACES is always enough. answer: at least 4 places.
 * Accepted: plan[i] is the tip of line i, for i below n; for each set U of the
 * different tips, bit i standing for the i-th of them, the lowest first,
 * table[U] is the number of placements of the lines that have no tip outside U,
 * and table[2^r + U] the most that a plan of those lines reaches: its pairs and
 * the price for each tip of U that it does not use; the rest of plan and table
 * is untouched; answer is 0, the number of pairs in the plan (2096128 at most),
 * the number of tips that it uses, 0.
 * Refused (1, 2, 3, 6 to 10, 15, 30, then 16, 4, 35, 5): plan and table are
 * untouched; answer is the line, 0, 0, 0.
 */
uint32_t tipshare_exact(const uint8_t *file, size_t file_len, size_t mounted,
                        uint32_t price,
                        uint8_t *plan, size_t plan_len,
                        uint32_t *table, size_t table_len,
                        uint64_t *answer, size_t answer_len);

/*
 * Plans for a machine that places the lines in the order of the list, with the
 * fewest tip changes. A change is counted wherever two neighbouring lines are on
 * different tips, and before the first line if a tip is mounted and that line is
 * on another. No other plan has fewer changes. The lines are split into segments:
 * a segment goes on as long as its lines have some tip in common, and all of its
 * lines are on the lowest of these. If a tip is mounted, only it is common before
 * the first line.
 * file: file_len bytes, any number. mounted: the tip on the head, 0 to m - 1,
 * or TIPSHARE_NO_TIP. plan: at least n bytes. answer: at least 4 places.
 * Accepted: plan[i] is the tip of line i, for i below n, the rest of plan is
 * untouched; answer is 0, the number of changes, the number of pairs in the plan
 * (2096128 at most), 0.
 * Refused (1, 2, 3, 6 to 10, 15, 30, then 16, 4): plan is untouched; answer is
 * the line, 0, 0, 0.
 */
uint32_t tipshare_along(const uint8_t *file, size_t file_len, size_t mounted,
                        uint8_t *plan, size_t plan_len,
                        uint64_t *answer, size_t answer_len);

/*
 * Merges two boards of one rack into one, for two boards on one panel, and
 * writes it as a job file: the lines of the first, then those of the second. The
 * file is of version 1 if all quantities are 1, else of version 2, whichever
 * versions were read. Each tip can take as many placements as in both boards
 * together. The least number of placements off is at least the sum of the two,
 * and so are the most pairs if every line of all three is a run.
 * first: first_len bytes, second: second_len bytes, any number; you can pass the
 * same file for both. out: at least as many bytes as are written, 8 + 8 * n or
 * 8 + 9 * n, n being the lines of both. answer: at least 4 places.
 * Accepted: the first bytes of out are the job file, the rest of out is
 * untouched; answer is 0, the number of bytes written, 0, 0.
 * Refused (1, 2, 3, 6 to 10, 15, 30 of the first file, then the same of the
 * second, then 17, 24, 30, 11): out is untouched; answer is the line, 0, 0, 0,
 * without saying of which file; with 17, 24, 11 and the 30 of both it is 0, 0,
 * 0, 0.
 */
uint32_t tipshare_merge(const uint8_t *first, size_t first_len,
                        const uint8_t *second, size_t second_len,
                        uint8_t *out, size_t out_len,
                        uint64_t *answer, size_t answer_len);

/*
 * Plans each of two boards by itself, whatever its rack, as tipshare_quick does
 * without a mounted tip.
 * first: first_len bytes, second: second_len bytes, any number; you can pass the
 * same file for both. plan: at least as many bytes as both boards have lines.
 * answer: at least 4 places.
 * Accepted: plan[i] is the tip of line i of the first board, for i below its n;
 * plan[n + i] is the tip of line i of the second; the rest of plan is
 * untouched; answer is 0, the number of pairs in the first plan, that in the
 * second, 0.
 * Refused (1, 2, 3, 6 to 10, 15, 30 of the first file, then the same of the
 * second, then 4): plan is untouched; answer is the line, 0, 0, 0, without
 * saying of which file.
 */
uint32_t tipshare_alone(const uint8_t *first, size_t first_len,
                        const uint8_t *second, size_t second_len,
                        uint8_t *plan, size_t plan_len,
                        uint64_t *answer, size_t answer_len);

/*
 * Mends a job file that came back damaged, and reports each change. The first 8
 * bytes must be good, except that the number of lines in them, the count, may be
 * any. The rest may be anything. It reads min(count, whole lines in the file,
 * 512) lines. Of each line, it clears the tips outside the rack. It drops a line
 * left without a tip. On any other line, a quantity of 0 becomes 1. It drops the
 * first line with which there would be over 2048 placements, and all after it.
 * It writes what is left as a file of the same version, which every function
 * takes. A good file comes back the same, without a change, and mending a mended
 * file changes nothing.
 * The report has 3 bytes a change: the number of the line in the file read, 16
 * bits, big-endian, and 1 (tips cleared), 2 (dropped as empty), 3 (quantity
 * raised) or 4 (dropped for the total), by rising line and then rising number.
 * Lines after the first 4 get only 4. At the end, under line 65535, come 5 if
 * the number of lines written is not the count, and 6 if bytes followed the last
 * line read, or the first 8 bytes if none was read.
 * file: file_len bytes, any number. out: at least as many bytes as the mended
 * file has, never more than file_len. report: at least 3 bytes a change.
 * answer: at least 4 places.
 * Accepted: the first bytes of out are the mended file, those of report the
 * changes, the rest of both is untouched; answer is 0, the bytes of the file,
 * the bytes of the report, 0.
 * Refused (6, 7, 8, 1, then 11): out and report are untouched; answer is 0, 0,
 * 0, 0.
 */
uint32_t tipshare_mend(const uint8_t *file, size_t file_len,
                       uint8_t *out, size_t out_len,
                       uint8_t *report, size_t report_len,
                       uint64_t *answer, size_t answer_len);

/*
 * Finds the order in which parts are placed. Each part is at a position of its
 * own, from its first to its last; a fine part comes before each part that is
 * not fine, a part that is not tall before each tall one, and the first part of
 * a rule before the second. Height decides: a tall part counts as not fine,
 * whatever its flag says. Of all orders that satisfy this, it is the one with
 * the lowest part number at position 0, then at position 1, and so on.
 * It reads no job file.
 * parts: 4 numbers a part, n parts in parts_len = 4 * n numbers: its first and
 * its last position, 0 to n - 1, then whether it is fine and whether it is tall
 * (0 is no, every other number is yes). Parts are numbered 0 to n - 1.
 * rules: 2 numbers a rule, the part to be placed earlier and the one to be
 * placed later, in rules_len = 2 * r numbers; any number of rules, repeated ones
 * too. order: at least n bytes. answer: at least 4 places.
 * Accepted: order[p] is the part at position p, for p below n, the rest of
 * order is untouched; answer is 0, the number of parts n, 0, 0. Without parts
 * the call is accepted, and nothing is written to order.
 * Refused (101, then 12, 13, 14, 29): order is untouched; answer is the first
 * part with bad positions for 12 (0 if there are over 128 parts), the first bad
 * rule for 13, else 0, then 0, 0, 0.
 */
uint32_t tipshare_order(const uint32_t *parts, size_t parts_len,
                        const uint32_t *rules, size_t rules_len,
                        uint8_t *order, size_t order_len,
                        uint64_t *answer, size_t answer_len);

/*
 * Finds the first and the last position that each part has in any placing order
 * that obeys, as tipshare_order describes it. Both are exact: some order has the
 * part there, and none has it earlier or later. Between them there may be
 * positions that the part has in no order. It reads no job file.
 * parts, rules: as for tipshare_order. first, last: at least n bytes each.
 * answer: at least 4 places.
 * Accepted: part i has position first[i] in some order, last[i] in some order,
 * and no earlier or later one, for i below n; the rest of both is untouched;
 * answer is 0, the number of parts n, 0, 0. Without parts the call is accepted,
 * and nothing is written to first and last.
 * Refused (101, then 12, 13, 14, 29): first and last are untouched; answer is
 * the first part with bad positions for 12 (0 if there are over 128 parts),
 * the first bad rule for 13, else 0, then 0, 0, 0.
 */
uint32_t tipshare_windows(const uint32_t *parts, size_t parts_len,
                          const uint32_t *rules, size_t rules_len,
                          uint8_t *first, size_t first_len,
                          uint8_t *last, size_t last_len,
                          uint64_t *answer, size_t answer_len);

/*
 * Finds an order that obeys, as tipshare_order does, with few tip changes: at
 * each position a part on the tip of the part before it comes before any other,
 * at position 0 a part on the mounted tip, and among those alike the lowest part
 * number. So a tip is changed only where every order that obeys and begins alike
 * changes it; an order that begins otherwise may have fewer changes. If all parts
 * are on one tip, the order is that of tipshare_order.
 * A change is counted wherever two neighbouring parts are on different tips, and
 * before the first part if a tip is mounted and that part is on another.
 * parts, rules, order: as for tipshare_order. plan: at least n bytes, plan[i] is
 * the tip of part i, 0 to 63. mounted: the tip on the head, 0 to 63, or
 * TIPSHARE_NO_TIP. answer: at least 4 places.
 * Accepted: order[p] is the part at position p, for p below n, the rest of
 * order is untouched; answer is 0, the number of parts n, the number of changes,
 * 0. Without parts the call is accepted, and nothing is written to order.
 * Refused (101, then 12, 13, 14, 4, 3, 16, 29): order is untouched; answer is
 * the part for 12 and 3 (0 if there are over 128 parts), the rule for 13,
 * else 0, then 0, 0, 0.
 */
uint32_t tipshare_order_by_tips(const uint32_t *parts, size_t parts_len,
                                const uint32_t *rules, size_t rules_len,
                                const uint8_t *plan, size_t plan_len,
                                size_t mounted,
                                uint8_t *order, size_t order_len,
                                uint64_t *answer, size_t answer_len);

/*
 * Writes the text that the program tipshare prints for the file: both plans,
 * without a mounted tip.
 * file: file_len bytes, any number; only the first 4617 count, as the program
 * takes no more. out: at least 16384 bytes.
 * Writes the text to the beginning of out, with no zero byte after it, and
 * returns its length, never 0. The rest of out is untouched. A refused file
 * gives the line "refused" with its number.
 * If out_len is below 16384, it writes nothing and returns 0.
 */
size_t tipshare_report(const uint8_t *file, size_t file_len,
                       uint8_t *out, size_t out_len);

/*
 * A refusal in words, as "a line has no tip", for any number that a function
 * above returns; "accepted" for 0, "unknown number" for any that none returns.
 * The text ends in a zero byte. Do not write to it or free it. Not proved.
 */
const char *tipshare_words(uint32_t number);

/*
 * The version of the library, as "3.0.0". A program built with this header takes
 * any library of the same first number that is not older. Not proved.
 */
const char *tipshare_version(void);

#ifdef __cplusplus
}
#endif

#endif
