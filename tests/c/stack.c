/* How much stack the functions for C take: each is run in a thread whose stack is painted before, and what is no longer painted after it is counted, less
 * what a thread takes that does nothing. A measurement on one machine, and no proof. The text that is read is A assignments inside one another and, in the
 * innermost, B sequences joined to the right: 255 and 1,920 are the deepest that a routine can hold, and ill typed, so the check, the run and the text refuse it;
 * 0 and 2,047 are a row that runs.
 *
 *     sh tools/build.sh exports_c exported_text_c exported_reading_c
 *     cc -O2 -I crates/exports -o target/stack tests/c/stack.c target/staticlib/libexports.a target/staticlib/libexported_text.a target/staticlib/libexported_reading.a -lpthread
 *     target/stack 255 1920 && target/stack 0 2047
 */
#define _GNU_SOURCE
#include "rigvanesh.h"
#include <pthread.h>
#include <stdio.h>
#include <stdlib.h>
#include <string.h>

enum { STACK = 4 << 20, PAINT = 0xa5 };

static const char *const names[] = {"nothing", "read", "write", "check", "run", "text"};
static uint8_t text[65536], row[32774], buf[65536];
static size_t text_bytes, row_bytes;
static int32_t store[1];
static uint64_t out[4], number;
static int what;

static void *call(void *unused)
{
    struct rigvanesh_answer answer = {0, 0};
    switch (what) {
    case 1:
        answer = rigvanesh_read(text, text_bytes, 1, row, sizeof row, out);
        row_bytes = out[0];
        break;
    case 2:
        answer = rigvanesh_write(row, row_bytes, buf, sizeof buf, out);
        break;
    case 3:
        answer = rigvanesh_check(row, row_bytes, out);
        break;
    case 4:
        answer = rigvanesh_run(row, row_bytes, store, 1, 1000000, out);
        break;
    case 5:
        answer = rigvanesh_text(row, row_bytes, store, 1, 0, buf, sizeof buf, out);
        break;
    }
    number = answer.number;
    return unused;
}

static size_t used(int function)
{
    unsigned char *stack = aligned_alloc(4096, STACK);
    pthread_attr_t attributes;
    pthread_t thread;
    size_t i = 0;
    if (stack == NULL)
        exit(1);
    memset(stack, PAINT, STACK);
    what = function;
    pthread_attr_init(&attributes);
    pthread_attr_setstack(&attributes, stack, STACK);
    if (pthread_create(&thread, &attributes, call, NULL) != 0)
        exit(1);
    pthread_join(thread, NULL);
    while (i < STACK && stack[i] == PAINT)
        i++;
    free(stack);
    return STACK - i;
}

int main(int argc, char **argv)
{
    int assignments = argc > 1 ? atoi(argv[1]) : 255, sequences = argc > 2 ? atoi(argv[2]) : 1920;
    char *at = (char *)text;
    size_t idle;
    int f, i;
    if (assignments < 0 || sequences < 0 || assignments > 255 || sequences > 2047)
        return 1;
    for (i = 0; i < assignments; i++)
        at += sprintf(at, "(l0 := ");
    for (i = 0; i < sequences; i++)
        at += sprintf(at, "(skip ; ");
    at += sprintf(at, "skip");
    for (i = 0; i < assignments + sequences; i++)
        at += sprintf(at, ")");
    text_bytes = (size_t)(at - (char *)text);
    used(1); /* what is done once, at the first call of a thread's function, is not counted */
    idle = used(0);
    for (f = 1; f <= 5; f++) {
        size_t bytes = used(f) - idle;
        printf("%s: number %d, %zu bytes\n", names[f], (int)number, bytes);
    }
    return 0;
}
