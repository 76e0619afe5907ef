/* Rumbethola: an engine that joins the tables of a report by inner and outer joins in any joining order.

   The routines of target/staticlib/libcapi.a, which `tests/capi/build-library` builds, on x86-64 Linux. The product's
   specification is docs/SPECIFICATION.md, from the document "Joining strain reports in any order", document 01, and
   the requests that came later, document 02; docs/FORMAT.md has the report text, the print and the refusals.

   Proved (crates/capi_c, with the crates under it): every routine ends, touches no memory outside the lengths that it
   is given, and for any contents and lengths returns and leaves in all lent memory what a definition says. The
   definitions are report_entry, direct_entry, print_report_entry and print_direct_entry in crates/capi/specs/Entries.antt;
   the comments below say the same in words.

   Not proved: this header, wrappers/rust, and the compiler's steps from the proved program to machine code.

   What a caller owes beyond the contract:
   - every pointer is valid for as many numbers as its count says, not null (also where the count is 0), and aligned
     for its type; a count is the count of numbers, not of bytes;
   - no two of the buffers of one call overlap, and none overlaps the text;
   - nothing else reads or writes the buffers, or writes the text, during the call;
   - the thread has RUMBETHOLA_STACK bytes of stack left, 128 KiB. Each routine takes less than 88 KiB of them. This
     is measured (tests/capi/check), not proved. A thread that is made with less needs pthread_attr_setstacksize.
   A slice of the proved routine is two arguments here, the pointer and the count of its numbers, in this order.
   The routines keep nothing between calls, use no heap and no file, and call only memcpy and memset, so that calls
   with buffers of their own may run at the same time. */

#ifndef RUMBETHOLA_H
#define RUMBETHOLA_H

#include <stddef.h>
#include <stdint.h>

#ifdef __cplusplus
extern "C" {
#endif

/* The least counts of numbers of the cell buffer `cells`, the work buffer `work` and the result buffer `result`
   (question 1). */
#define RUMBETHOLA_CELLS 4096
#define RUMBETHOLA_WORK 16384
#define RUMBETHOLA_RESULT 2048

/* The most bytes of a text (question 2). */
#define RUMBETHOLA_TEXT 16384

/* The least counts of the buffer that is handed over in: numbers of `answer` for rumbethola_report and
   rumbethola_direct, bytes of `out` for the prints; and what a call with less returns. They are this library's own. */
#define RUMBETHOLA_ANSWER 287
#define RUMBETHOLA_DIRECT_ANSWER 2
#define RUMBETHOLA_OUT 32768
#define RUMBETHOLA_NO_ROOM 255
#define RUMBETHOLA_NO_PRINT 4294967295u

/* The bytes of stack that a call needs. */
#define RUMBETHOLA_STACK 131072

/* What a call returns and leaves in the buffers. The first case that fits is the call's, whatever the text and the
   contents of the buffers are.

   A. `answer` or `out` is shorter than its least count.
      rumbethola_report and rumbethola_direct return RUMBETHOLA_NO_ROOM, the prints RUMBETHOLA_NO_PRINT.
      No buffer is changed.
   B. `cells`, `work` or `result` is shorter than its least count: refusal 1.
      `cells`, `work` and `result` are as before. `answer` or `out` is written, as below.
   C. A question from 2 to 13 turns the text down: the refusal has its number. Numbers 8 and 10 are not used. Number 13:
      there are more than RUMBETHOLA_CONDITIONS conditions in all, written and derived.
      `cells` and `work` are filled with 0, to their ends. `result` is as before. `answer` or `out` is written.
   D. There is an answer, of r rows and t tables.
      `cells` and `work` are filled with 0, to their ends. The first r x t numbers of `result` are the rows, one after
      the other in the order of the print: for each table a row number, or RUMBETHOLA_BLANK. The rest of `result` is as
      before. `answer` or `out` is written.

   In B, C and D:
   - rumbethola_report writes the first RUMBETHOLA_ANSWER numbers of `answer`. In D they are what the places below
     say. In B and C they are 0, but for the status, which is the number of the refusal.
   - rumbethola_direct writes the first RUMBETHOLA_DIRECT_ANSWER numbers of `answer`: r and t in D, 0 and 0 in B and C.
   - Both return 0 in D and the number of the refusal in B and C.
   - The prints write the bytes of the print to the front of `out` and return how many they are. In B and C the print
     is one line: E, a tab, the number of the refusal and a line feed, 4 or 5 bytes. In D no print begins with E; the
     print of a direct reading without rows has 0 bytes.
   - The rest of `answer` and of `out` is as before.

   The text is never changed. rumbethola_report and rumbethola_print_report put all questions. rumbethola_direct and
   rumbethola_print_direct do not put 9. */

/* A table that is blank in a row of the result. */
#define RUMBETHOLA_BLANK 65535

/* The places of an answer of rumbethola_report. The direct reading has the first two. */
#define RUMBETHOLA_AT_ROWS 0           /* count of rows */
#define RUMBETHOLA_AT_TABLES 1         /* count of tables: how many numbers a row of the result has */
#define RUMBETHOLA_AT_COUNT 2          /* count of steps of the plan */
#define RUMBETHOLA_AT_STATUS 3         /* the number that the call returns */
#define RUMBETHOLA_AT_SETS 4           /* eight blanking sets, table by table: bit k is condition k; those behind the
                                          tables are 0 */
#define RUMBETHOLA_AT_STEPS 12         /* sixteen steps of five numbers; those behind the plan are 0 */
#define RUMBETHOLA_AT_CONDITIONS 92    /* count of conditions: of the C and K lines of the text, and of the derived
                                          ones */
#define RUMBETHOLA_AT_TALLIES 93       /* sixty-four conditions of three numbers, by rising number; those behind the
                                          conditions are 0 */
#define RUMBETHOLA_AT_FULL_OUTER 285   /* 1 where the last J line is a full outer join, kind F; otherwise 0 */
#define RUMBETHOLA_AT_ADDED 286        /* count of rows that a full outer join adds behind the plan: those of its right
                                          side that are in no row of the plan; otherwise 0. The adding is no step */
#define RUMBETHOLA_TABLES 8
#define RUMBETHOLA_STEPS 16
#define RUMBETHOLA_CONDITIONS 64

/* The numbers of conditions. With w C and K lines in the text, at most RUMBETHOLA_WRITTEN, condition k below w is the
   k-th of these lines, counted from 0. Conditions w, w + 1, .. are derived: each says that two columns of different
   tables are equal, follows from a chain of `=` C lines in the blanking set of a table, and is stated by no line of the
   text, from either side. They are numbered by the lower table, then its column, then the higher table, then its
   column, once for the report. A line that states what follows from a set joins that set, the lowest-numbered one where
   several state it. */
#define RUMBETHOLA_WRITTEN 32

/* The five numbers of a step. Those that a kind lacks are 0. */
#define RUMBETHOLA_STEP_NUMBERS 5
#define RUMBETHOLA_STEP_KIND 0
#define RUMBETHOLA_STEP_FIRST 1         /* a node, of an outer join the preserved side; of a blanking step its table */
#define RUMBETHOLA_STEP_SECOND 2        /* a node */
#define RUMBETHOLA_STEP_ROWS 3          /* count of rows of a pair's result */
#define RUMBETHOLA_STEP_CONDITIONS 4    /* bit k is condition k */

/* The three numbers of a condition: how often it is true, false and unknown, over all pairs of a row of its one table
   and a row of its other table; of a K line, over the rows of its table. It is unknown where a cell is blank. The three
   add up to the number of pairs, of a K line to the number of rows, and none is more than 65536. */
#define RUMBETHOLA_TALLY_NUMBERS 3
#define RUMBETHOLA_TALLY_TRUE 0
#define RUMBETHOLA_TALLY_FALSE 1
#define RUMBETHOLA_TALLY_UNKNOWN 2

/* The kinds of a step. */
#define RUMBETHOLA_INNER 1
#define RUMBETHOLA_OUTER 2
#define RUMBETHOLA_PRODUCT 3
#define RUMBETHOLA_BLANKING 4
#define RUMBETHOLA_BEST_MATCH 5

/* The report: plans the text's join tree in its joining order and runs the plan. */
uint8_t rumbethola_report(const uint8_t *text, size_t text_count, int32_t *cells, size_t cell_count, uint16_t *work,
                          size_t work_count, uint16_t *result, size_t result_count, uint64_t *answer,
                          size_t answer_count);

/* The direct reading: the rows of the join tree, read without plan and joining order. */
uint8_t rumbethola_direct(const uint8_t *text, size_t text_count, int32_t *cells, size_t cell_count, uint16_t *work,
                          size_t work_count, uint16_t *result, size_t result_count, uint64_t *answer,
                          size_t answer_count);

/* The whole print of the report. In C and D it is what the program `report` writes for the text. */
uint32_t rumbethola_print_report(const uint8_t *text, size_t text_count, int32_t *cells, size_t cell_count,
                                 uint16_t *work, size_t work_count, uint16_t *result, size_t result_count,
                                 uint8_t *out, size_t out_count);

/* The print of the direct reading. In C and D it is what the program `direct` writes for the text. */
uint32_t rumbethola_print_direct(const uint8_t *text, size_t text_count, int32_t *cells, size_t cell_count,
                                 uint16_t *work, size_t work_count, uint16_t *result, size_t result_count,
                                 uint8_t *out, size_t out_count);

#ifdef __cplusplus
}
#endif

#endif
