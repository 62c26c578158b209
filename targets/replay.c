/*
 * Makes recorded calls again, in the library that it is linked with, and compares every byte (compare/src/record.rs has the
 * form of the file).
 * replay FILE: exit status 0, no difference; 1, a call gave something else, or the file is not whole; 2, wrong arguments.
 */
#include "tipshare.h"

#include <stdio.h>
#include <stdlib.h>
#include <string.h>

#define MOST_BUFFERS 5
#define FUNCTIONS 17
#define END 255

static const char *const names[FUNCTIONS] = {"read",  "common", "keep",   "goal",  "quick", "best", "along",  "exact",  "check",
                                             "junior", "merge",  "alone", "mend", "report", "order", "windows", "order_by_tips"};
/* The buffers of each function. */
static const int buffers_of[FUNCTIONS] = {2, 2, 3, 3, 3, 4, 3, 4, 4, 3, 4, 4, 4, 2, 4, 5, 5};

/* A lent part of some cells, and all bytes of the cells: those lent to the call, and those that are expected afterwards. */
struct buffer {
    uint8_t *bytes, *expected;
    uint32_t size, start, length;
    uint8_t width;
};

static FILE *record;

static void fail(const char *what)
{
    fprintf(stderr, "replay: %s\n", what);
    exit(1);
}

static void take(void *to, size_t size)
{
    if (fread(to, 1, size, record) != size) {
        fail("the record is not whole");
    }
}

/* A number of the record, of so many bytes. */
static uint64_t number(int bytes)
{
    uint8_t byte;
    uint64_t value = 0;
    for (int place = 0; place < bytes; place++) {
        take(&byte, 1);
        value |= (uint64_t)byte << 8 * place;
    }
    return value;
}

/* The cells are numbers of this machine, which must keep them as the record does. */
static struct buffer take_buffer(void)
{
    struct buffer it;
    it.width = (uint8_t)number(1);
    uint32_t cells = (uint32_t)number(4);
    it.start = (uint32_t)number(4);
    it.length = (uint32_t)number(4);
    it.size = cells * it.width;
    if (cells > 1 << 24 || it.width > 8 || it.start > cells || it.length > cells - it.start) {
        fail("the record has a buffer that cannot be");
    }
    it.bytes = malloc(it.size);
    it.expected = malloc(it.size);
    if (it.bytes == NULL || it.expected == NULL) {
        fail("no memory");
    }
    take(it.bytes, it.size);
    memcpy(it.expected, it.bytes, it.size);
    for (uint32_t left = (uint32_t)number(4); left > 0; left--) {
        uint32_t first = (uint32_t)number(4), size = (uint32_t)number(4);
        if (first > it.size || size > it.size - first) {
            fail("the record has a change outside its buffer");
        }
        take(it.expected + first, size);
    }
    return it;
}

static uint64_t call(int function, uint64_t argument, uint64_t price, struct buffer *lent)
{
    void *at[MOST_BUFFERS];
    size_t len[MOST_BUFFERS];
    for (int i = 0; i < buffers_of[function]; i++) {
        at[i] = lent[i].bytes + (size_t)lent[i].start * lent[i].width;
        len[i] = lent[i].length;
    }
    switch (function) {
    case 0: return tipshare_read(at[0], len[0], at[1], len[1]);
    case 1: return tipshare_common(at[0], len[0], at[1], len[1]);
    case 2: return tipshare_keep(at[0], len[0], (uint16_t)argument, at[1], len[1], at[2], len[2]);
    case 3: return tipshare_goal(at[0], len[0], (uint32_t)argument, at[1], len[1], at[2], len[2]);
    case 4: return tipshare_quick(at[0], len[0], (size_t)argument, at[1], len[1], at[2], len[2]);
    case 5: return tipshare_best(at[0], len[0], (size_t)argument, at[1], len[1], at[2], len[2], at[3], len[3]);
    case 6: return tipshare_along(at[0], len[0], (size_t)argument, at[1], len[1], at[2], len[2]);
    case 7:
        return tipshare_exact(at[0], len[0], (size_t)argument, (uint32_t)price, at[1], len[1], at[2], len[2], at[3], len[3]);
    case 8: return tipshare_check(at[0], len[0], at[1], len[1], (uint32_t)argument, at[2], len[2], at[3], len[3]);
    case 9: return tipshare_junior(at[0], len[0], at[1], len[1], at[2], len[2]);
    case 10: return tipshare_merge(at[0], len[0], at[1], len[1], at[2], len[2], at[3], len[3]);
    case 11: return tipshare_alone(at[0], len[0], at[1], len[1], at[2], len[2], at[3], len[3]);
    case 12: return tipshare_mend(at[0], len[0], at[1], len[1], at[2], len[2], at[3], len[3]);
    case 13: return tipshare_report(at[0], len[0], at[1], len[1]);
    case 14: return tipshare_order(at[0], len[0], at[1], len[1], at[2], len[2], at[3], len[3]);
    case 15: return tipshare_windows(at[0], len[0], at[1], len[1], at[2], len[2], at[3], len[3], at[4], len[4]);
    default:
        return tipshare_order_by_tips(at[0], len[0], at[1], len[1], at[2], len[2], (size_t)argument, at[3], len[3], at[4],
                                      len[4]);
    }
}

/* Makes one call again: whether all is as expected. */
static int is_met(int function, uint64_t which)
{
    struct buffer lent[MOST_BUFFERS];
    uint64_t argument = number(8), price = number(8), expected = number(8);
    for (int i = 0; i < buffers_of[function]; i++) {
        lent[i] = take_buffer();
    }
    uint64_t returned = call(function, argument, price, lent);
    int met = returned == expected;
    if (!met) {
        printf("DIFFERENCE: call %llu, %s: returned %llu, expected %llu\n", (unsigned long long)which, names[function],
               (unsigned long long)returned, (unsigned long long)expected);
    }
    for (int i = 0; i < buffers_of[function]; i++) {
        uint32_t byte = 0;
        while (byte < lent[i].size && lent[i].bytes[byte] == lent[i].expected[byte]) {
            byte++;
        }
        if (byte < lent[i].size) {
            met = 0;
            printf("DIFFERENCE: call %llu, %s: buffer %d, byte %lu is %d, expected %d\n", (unsigned long long)which,
                   names[function], i, (unsigned long)byte, lent[i].bytes[byte], lent[i].expected[byte]);
        }
        free(lent[i].bytes);
        free(lent[i].expected);
    }
    return met;
}

int main(int argc, char **argv)
{
    const uint32_t one = 1;
    uint64_t calls = 0, of[FUNCTIONS] = {0};
    char mark[8];
    if (argc != 2 || *(const uint8_t *)&one != 1) {
        fprintf(stderr, "usage: replay FILE, on a little-endian machine\n");
        return 2;
    }
    record = fopen(argv[1], "rb");
    if (record == NULL) {
        perror(argv[1]);
        return 2;
    }
    take(mark, sizeof mark);
    if (memcmp(mark, "TIPCALLS", sizeof mark) != 0) {
        fail("the file is no record");
    }
    for (int function; (function = (int)number(1)) != END; calls++) {
        if (function >= FUNCTIONS) {
            fail("the record has a function that is not known");
        }
        if (!is_met(function, calls)) {
            return 1;
        }
        of[function]++;
    }
    if (number(8) != calls || fgetc(record) != EOF || calls == 0) {
        fail("the record is not whole");
    }
    for (int function = 0; function < FUNCTIONS; function++) {
        printf("%s %llu%s", names[function], (unsigned long long)of[function], function < FUNCTIONS - 1 ? ", " : "\n");
    }
    printf("%llu calls made again, no difference\n", (unsigned long long)calls);
    return 0;
}
