/*
 * Whether a debugger sees through a call of the library: the call reads a page that may not be read, and the handler of that
 * fault looks for main among the callers, by the library's unwind tables. Exit status 0 where it is there.
 */
#define _GNU_SOURCE
#include "tipshare.h"

#include <execinfo.h>
#include <signal.h>
#include <stdio.h>
#include <stdlib.h>
#include <sys/mman.h>
#include <unistd.h>

enum { MOST = 64 };

static void *caller;

static void on_fault(int signal)
{
    void *frames[MOST];
    int count = backtrace(frames, MOST), found = 0;
    (void)signal;
    for (int i = 0; i < count; i++) {
        found |= frames[i] == caller;
    }
    printf("%d frames, the caller is %s\n", count, found ? "among them" : "not among them");
    fflush(stdout);
    _exit(found ? 0 : 1);
}

static __attribute__((noinline)) uint32_t call(const uint8_t *file)
{
    uint64_t answer[TIPSHARE_ANSWER_PLACES];
    caller = __builtin_return_address(0);
    uint32_t number = tipshare_quick(file, 24, TIPSHARE_NO_TIP, (uint8_t *)answer, sizeof answer, answer, TIPSHARE_ANSWER_PLACES);
    return number + (uint32_t)answer[0];
}

int main(void)
{
    void *frames[1];
    /* The first call loads what it needs. */
    backtrace(frames, 1);
    signal(SIGSEGV, on_fault);
    const uint8_t *page = mmap(NULL, 4096, PROT_NONE, MAP_PRIVATE | MAP_ANONYMOUS, -1, 0);
    return page == MAP_FAILED ? 2 : 3 + (int)call(page);
}
