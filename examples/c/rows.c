/* Prints the counts of a report's conditions, the count of rows that a full outer join adds, and its rows through the
   numbers of rumbethola_report, or, with --print, its whole print:

       rows [--print] FILE

   To build it, at the top of the repository:

       tests/capi/build-library
       gcc -O2 -Iinclude examples/c/rows.c target/staticlib/libcapi.a -o rows

   All are written as in the print: U and, behind a tab each, a condition and how often it is true, false and unknown,
   first for the C and K lines and then for the derived conditions; where the last J line is a full outer join, F and,
   behind a tab, how many rows it adds; R and, for each table, a row number or - behind a tab.

   Exit status 0: an answer was printed. 1: the text was refused, and E with the number was printed. 2: the arguments
   are wrong, the file could not be read, or the print could not be written; one line on standard error says which. */

#define _POSIX_C_SOURCE 200112L
#include "rumbethola.h"

#include <inttypes.h>
#include <signal.h>
#include <stdio.h>
#include <string.h>

enum { ANSWERED = 0, REFUSED = 1, FAILED = 2 };

/* One byte more than a text may have, so that a longer text is refused as such. */
static uint8_t text[RUMBETHOLA_TEXT + 1];
static int32_t cells[RUMBETHOLA_CELLS];
static uint16_t work[RUMBETHOLA_WORK];
static uint16_t result[RUMBETHOLA_RESULT];
static uint64_t answer[RUMBETHOLA_ANSWER];
static uint8_t out[RUMBETHOLA_OUT];

static void print_tallies(void)
{
    for (size_t condition = 0; condition < answer[RUMBETHOLA_AT_CONDITIONS]; condition++) {
        const uint64_t *tally = answer + RUMBETHOLA_AT_TALLIES + condition * RUMBETHOLA_TALLY_NUMBERS;
        printf("U\t%zu\t%" PRIu64 "\t%" PRIu64 "\t%" PRIu64 "\n", condition, tally[RUMBETHOLA_TALLY_TRUE],
               tally[RUMBETHOLA_TALLY_FALSE], tally[RUMBETHOLA_TALLY_UNKNOWN]);
    }
}

static int print_rows(size_t text_count)
{
    uint8_t status = rumbethola_report(text, text_count, cells, RUMBETHOLA_CELLS, work, RUMBETHOLA_WORK, result,
                                       RUMBETHOLA_RESULT, answer, RUMBETHOLA_ANSWER);
    if (status != 0) {
        printf("E\t%d\n", status);
        return REFUSED;
    }
    print_tallies();
    if (answer[RUMBETHOLA_AT_FULL_OUTER] == 1)
        printf("F\t%" PRIu64 "\n", answer[RUMBETHOLA_AT_ADDED]);
    size_t tables = answer[RUMBETHOLA_AT_TABLES];
    for (size_t row = 0; row < answer[RUMBETHOLA_AT_ROWS]; row++) {
        printf("R");
        for (size_t table = 0; table < tables; table++) {
            uint16_t number = result[row * tables + table];
            if (number == RUMBETHOLA_BLANK)
                printf("\t-");
            else
                printf("\t%d", number);
        }
        printf("\n");
    }
    return ANSWERED;
}

static int print_whole(size_t text_count)
{
    uint32_t bytes = rumbethola_print_report(text, text_count, cells, RUMBETHOLA_CELLS, work, RUMBETHOLA_WORK, result,
                                             RUMBETHOLA_RESULT, out, RUMBETHOLA_OUT);
    fwrite(out, 1, bytes, stdout);
    return out[0] == 'E' ? REFUSED : ANSWERED;
}

int main(int argc, char **argv)
{
    int whole = argc > 1 && strcmp(argv[1], "--print") == 0;
    if (argc != 2 + whole) {
        fprintf(stderr, "usage: rows [--print] FILE\n");
        return FAILED;
    }
    const char *path = argv[argc - 1];
    FILE *file = fopen(path, "rb");
    size_t text_count = file == NULL ? 0 : fread(text, 1, sizeof text, file);
    if (file == NULL || ferror(file)) {
        perror(path);
        return FAILED;
    }
    fclose(file);

    /* A write into a closed pipe fails then, in place of ending the program. */
    signal(SIGPIPE, SIG_IGN);
    int status = whole ? print_whole(text_count) : print_rows(text_count);
    if (fflush(stdout) != 0 || ferror(stdout)) {
        perror("standard output");
        return FAILED;
    }
    return status;
}
