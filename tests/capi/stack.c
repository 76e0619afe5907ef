/* Measures how much stack the routines take: stack FILE..

   Each text is put to each routine in a thread whose stack is filled with a mark. Counted are the bytes from a variable
   of the caller down to the last place that was written. Exit status 1: a routine took as much as include/rumbethola.h
   says that it takes less than, or there was no text. Exit status 2: a text could not be read. */

#define _XOPEN_SOURCE 600
#include "rumbethola.h"

#include <pthread.h>
#include <stdio.h>
#include <string.h>

enum { STACK = 1 << 20, KIB = 1024, MOST = 88 * KIB, MARK = 0xa5, ROUTINES = 4 };

static _Alignas(4096) unsigned char stack[STACK];
static size_t from;
static uint8_t text[RUMBETHOLA_TEXT + 1];
static size_t text_count;
static int32_t cells[RUMBETHOLA_CELLS];
static uint16_t work[RUMBETHOLA_WORK];
static uint16_t result[RUMBETHOLA_RESULT];
static uint64_t answer[RUMBETHOLA_ANSWER];
static uint8_t out[RUMBETHOLA_OUT];

#define LENT text, text_count, cells, RUMBETHOLA_CELLS, work, RUMBETHOLA_WORK, result, RUMBETHOLA_RESULT

/* Where a variable of the running thread stands in its stack. */
static size_t place(const volatile unsigned char *variable)
{
    return (size_t)((uintptr_t)variable - (uintptr_t)stack);
}

static void *report(void *given)
{
    volatile unsigned char here = MARK;
    from = place(&here);
    rumbethola_report(LENT, answer, RUMBETHOLA_ANSWER);
    return given;
}

static void *direct(void *given)
{
    volatile unsigned char here = MARK;
    from = place(&here);
    rumbethola_direct(LENT, answer, RUMBETHOLA_ANSWER);
    return given;
}

static void *print_report(void *given)
{
    volatile unsigned char here = MARK;
    from = place(&here);
    rumbethola_print_report(LENT, out, RUMBETHOLA_OUT);
    return given;
}

static void *print_direct(void *given)
{
    volatile unsigned char here = MARK;
    from = place(&here);
    rumbethola_print_direct(LENT, out, RUMBETHOLA_OUT);
    return given;
}

static const struct {
    const char *name;
    void *(*call)(void *);
} routines[ROUTINES] = {
    {"report", report},
    {"direct", direct},
    {"print_report", print_report},
    {"print_direct", print_direct},
};

/* The bytes of stack that a call takes. */
static size_t taken(void *(*call)(void *))
{
    pthread_attr_t attributes;
    pthread_t thread;
    size_t untouched = 0;
    memset(stack, MARK, STACK);
    pthread_attr_init(&attributes);
    pthread_attr_setstack(&attributes, stack, STACK);
    if (pthread_create(&thread, &attributes, call, NULL) != 0)
        return STACK;
    pthread_join(thread, NULL);
    pthread_attr_destroy(&attributes);
    while (untouched < from && stack[untouched] == MARK)
        untouched++;
    return from - untouched;
}

int main(int argc, char **argv)
{
    size_t most[ROUTINES] = {0};
    int wrong = argc < 2;
    for (int i = 1; i < argc; i++) {
        FILE *file = fopen(argv[i], "rb");
        if (file == NULL) {
            perror(argv[i]);
            return 2;
        }
        text_count = fread(text, 1, sizeof text, file);
        if (ferror(file)) {
            perror(argv[i]);
            return 2;
        }
        fclose(file);
        for (int k = 0; k < ROUTINES; k++) {
            size_t bytes = taken(routines[k].call);
            if (bytes > most[k])
                most[k] = bytes;
        }
    }
    printf("stack, %d texts:", argc - 1);
    for (int k = 0; k < ROUTINES; k++) {
        printf(" %s %zu", routines[k].name, most[k]);
        wrong |= most[k] >= MOST;
    }
    printf(" bytes\n");
    return wrong;
}
