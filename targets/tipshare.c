/*
 * The program tipshare for systems that program/ is not for: the same texts and exit statuses over C's own input and output.
 * targets/check holds it to the program of program/.
 */
#include "tipshare.h"

#include <errno.h>
#include <signal.h>
#include <stdbool.h>
#include <stdio.h>
#include <string.h>
#ifdef _WIN32
#include <fcntl.h>
#include <io.h>
#endif

/* One byte more than the longest good file, so that a longer one is refused for its length. */
#define TAKEN (TIPSHARE_LONGEST_FILE + 1)

static const char usage[] = "usage: tipshare < JOB-FILE, or tipshare --help, or tipshare --version\n";
static const char version[] = "tipshare " TIPSHARE_VERSION "\n";
static const char help[] =
    "tipshare < JOB-FILE     plan which tip of the rack picks each line of a job file\n"
    "tipshare --help         print this page\n"
    "tipshare --version      print the version\n"
    "\n"
    "The job file is read from standard input; the program parts makes one from a list (parts make LIST).\n"
    "It has up to 512 lines, each for one placement (version 1) or with its quantity (version 2), up to 2048 in all.\n"
    "What is printed:\n"
    "  lines N rack M        how many lines the file has, and how many tips the rack\n"
    "  off K tips T..        the least number of placements off the tip used most, and the tips that reach it\n"
    "  quick P, best P       the pairs of placements that share a tip, in each plan; best none where a line is no run\n"
    "  line I quick T best T the tip of each line in each plan, which all its placements have\n"
    "  refused N             alone, where the file is refused; docs/what-to-do.md lists the numbers\n"
    "\n"
    "Exit status: 0 the text was written whole, refused N too; 1 reading or writing failed; 2 wrong arguments.\n";

/* Says what failed and why, and what to do; 1 is then the exit status. */
static int failed(const char *what, const char *to_do)
{
    fprintf(stderr, "tipshare: cannot %s: %s; %s\n", what, strerror(errno), to_do);
    return 1;
}

/*
 * Prints the text: the exit status. Some file systems only say at the end that a write failed. The text goes out in one piece, so
 * that nothing is left to write when a reader takes its first lines and leaves.
 */
static int print(const void *text, size_t length)
{
    static char piece[2 * TIPSHARE_REPORT_SPACE];
    bool is_whole = setvbuf(stdout, piece, _IOFBF, sizeof piece) == 0 && fwrite(text, 1, length, stdout) == length;
    /* Closing alone does not say on Windows that the write failed. */
    if (!is_whole || fflush(stdout) != 0 || fclose(stdout) != 0) {
        return failed("write to standard output", "let it lead to a file or a pipe that takes the whole text");
    }
    return 0;
}

int main(int argc, char **argv)
{
#ifdef SIGPIPE
    /* A pipe that nobody reads is a write that failed, and is told like any other. */
    signal(SIGPIPE, SIG_IGN);
#endif
#ifdef _WIN32
    /* A job file is no text, and the report has the same line ends everywhere. */
    _setmode(_fileno(stdin), _O_BINARY);
    _setmode(_fileno(stdout), _O_BINARY);
#endif
    if (argc == 2 && strcmp(argv[1], "--help") == 0) {
        return print(help, sizeof help - 1);
    }
    if (argc == 2 && strcmp(argv[1], "--version") == 0) {
        return print(version, sizeof version - 1);
    }
    if (argc > 1) {
        fputs(usage, stderr);
        return 2;
    }
    static uint8_t file[TAKEN];
    static uint8_t text[TIPSHARE_REPORT_SPACE];
    size_t taken = fread(file, 1, sizeof file, stdin);
    if (ferror(stdin)) {
        return failed("read standard input", "hand over a job file, as in tipshare < board.job");
    }
    return print(text, tipshare_report(file, taken, text, sizeof text));
}
