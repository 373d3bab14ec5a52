/* Calls the exported functions over a rows file on standard input and prints the lines that the reference prints for it: of a record that asks for the
 * check (c), the run (r), the text (x), that a text is stored (s) or that a row is written (w); one that asks for the trace (t) or that a long text is stored (n) is passed
 * over. What is lent is filled before each call, and ` changed` ends the line of a call that changed what it may not: after a refusal anything at all, else a byte behind
 * the text or the row, or the store of a text.
 *
 * A record is 1 byte of question, 2 bytes R, 4 bytes of fuel (or k, or the room that is lent), 2 bytes E, E entries of 4 bytes and the R bytes of the row (or the text, and
 * E is m), all big-endian.
 */
#include "rigvanesh.h"
#include <stdbool.h>
#include <stdio.h>
#include <stdlib.h>
#include <string.h>

enum { MOST = 65536, FILLED = 0x5A };

struct record {
    int question;
    size_t bytes, entries;
    uint32_t fuel;
    uint8_t row[MOST];
    int32_t store[MOST];
};

static struct record record;
static int32_t store[MOST];
static uint8_t buffer[MOST];
static uint64_t out[4];

/* The number in the next bytes of standard input, which has them. */
static uint32_t number(int bytes)
{
    uint32_t n = 0;
    while (bytes-- > 0) {
        int byte = getchar();
        if (byte == EOF) {
            fputs("the rows file ends inside a record\n", stderr);
            exit(1);
        }
        n = n << 8 | (uint32_t)byte;
    }
    return n;
}

/* Reads a record; false at the end of the input. */
static bool next_record(void)
{
    record.question = getchar();
    if (record.question == EOF)
        return false;
    record.bytes = number(2);
    record.fuel = number(4);
    record.entries = number(2);
    for (size_t i = 0; i < record.entries; i++)
        record.store[i] = (int32_t)number(4);
    for (size_t i = 0; i < record.bytes; i++)
        record.row[i] = (uint8_t)number(1);
    return true;
}

static void fill(void)
{
    memcpy(store, record.store, record.entries * sizeof *store);
    memset(buffer, FILLED, sizeof buffer);
    memset(out, FILLED, sizeof out);
}

/* Whether all the bytes are as `fill` left them: the first is, and each is as the one before it. */
static bool is_filled(const void *bytes, size_t count)
{
    const uint8_t *byte = bytes;
    return count == 0 || (byte[0] == FILLED && memcmp(byte, byte + 1, count - 1) == 0);
}

static bool store_is_filled(void)
{
    return memcmp(store, record.store, record.entries * sizeof *store) == 0;
}

/* What is lent: null where that is nothing. */
static void *lent(void *array, size_t length)
{
    return length == 0 ? NULL : array;
}

static const uint8_t *row(void)
{
    return lent(record.row, record.bytes);
}

static void print_refusal(struct rigvanesh_answer answer)
{
    printf("refused %llu", (unsigned long long)answer.number);
    switch (answer.number) {
    case RIGVANESH_LAYOUT:
    case RIGVANESH_UNDECLARED:
    case RIGVANESH_FIRST:
    case RIGVANESH_SECOND:
    case RIGVANESH_BRANCHES:
    case RIGVANESH_FORM:
    case RIGVANESH_INTEGER:
    case RIGVANESH_LOCATION:
        printf(" at %llu", (unsigned long long)answer.also);
        break;
    case RIGVANESH_BUFFER:
    case RIGVANESH_ROOM:
        printf(" needs %llu", (unsigned long long)answer.also);
        break;
    default:
        if (answer.also != 0)
            printf(" also %llu", (unsigned long long)answer.also);
    }
    if (!is_filled(out, sizeof out) || !is_filled(buffer, sizeof buffer) || !store_is_filled())
        fputs(" changed", stdout);
}

/* What an accepted answer may not have: something that is also returned, or a word outside what the header says. */
static void print_odd(int is_odd)
{
    if (is_odd)
        fputs(" odd", stdout);
}

static void print_check(void)
{
    static const char *const types[] = {[RIGVANESH_INT] = "int", [RIGVANESH_BOOL] = "bool", [RIGVANESH_UNIT] = "unit"};
    fill();
    struct rigvanesh_answer answer = rigvanesh_check(row(), record.bytes, out);
    if (answer.number != RIGVANESH_ACCEPTED)
        print_refusal(answer);
    else
        printf("%s %llu %llu %llu", types[out[0]], (unsigned long long)out[1], (unsigned long long)out[2], (unsigned long long)out[3]);
    print_odd(answer.number == RIGVANESH_ACCEPTED && answer.also != 0);
    putchar('\n');
}

static void print_ending(void)
{
    print_odd(out[1] > (out[0] == RIGVANESH_VALUE_INT ? UINT32_MAX : out[0] == RIGVANESH_VALUE_BOOL ? 1 : out[0] == RIGVANESH_OVERFLOW ? 4095 : 0));
    switch (out[0]) {
    case RIGVANESH_VALUE_INT: printf("value %ld", (long)(int32_t)(uint32_t)out[1]); break;
    case RIGVANESH_VALUE_BOOL: printf("value %s", out[1] ? "true" : "false"); break;
    case RIGVANESH_VALUE_SKIP: fputs("value skip", stdout); break;
    case RIGVANESH_OVERFLOW: printf("overflow at %llu", (unsigned long long)out[1]); break;
    case RIGVANESH_FUEL: fputs("fuel", stdout); break;
    }
}

static void print_run(void)
{
    fill();
    struct rigvanesh_answer answer = rigvanesh_run(row(), record.bytes, lent(store, record.entries), record.entries, record.fuel, out);
    if (answer.number != RIGVANESH_ACCEPTED) {
        print_refusal(answer);
    } else {
        print_ending();
        printf(" steps %llu loops %llu |", (unsigned long long)out[2], (unsigned long long)out[3]);
        for (size_t i = 0; i < record.entries; i++)
            printf(" %ld", (long)store[i]);
        print_odd(answer.also != 0);
    }
    putchar('\n');
}

/* The line of the text in a buffer of so many bytes; its length, 0 after a refusal. */
static size_t print_text(size_t room)
{
    fill();
    struct rigvanesh_answer answer = rigvanesh_text(row(), record.bytes, lent(store, record.entries), record.entries, record.fuel,
                                                    lent(buffer, room), room, out);
    size_t length = 0;
    if (answer.number != RIGVANESH_ACCEPTED) {
        print_refusal(answer);
    } else {
        length = out[0];
        printf("%llu %llu ", (unsigned long long)length, (unsigned long long)out[1]);
        fwrite(buffer, 1, length, stdout);
        if (!is_filled(buffer + length, sizeof buffer - length) || !is_filled(out + 2, 2 * sizeof *out) || !store_is_filled())
            fputs(" changed", stdout);
        print_odd(answer.also != 0);
    }
    putchar('\n');
    return length;
}

/* In a large buffer, and where a text was written, in one that is a byte too short for it and in one that just holds it. */
static void print_texts(void)
{
    size_t length = print_text(MOST);
    if (length > 0) {
        print_text(length - 1);
        print_text(length);
    }
}

/* The room that the record lends. */
static size_t lent_room(void)
{
    return record.fuel < MOST ? record.fuel : MOST;
}

/* The line of an answer whose out[0] is how many bytes stand at the start of the buffer: these bytes as text, or in hexadecimal digits. */
static void print_written(struct rigvanesh_answer answer, bool in_digits)
{
    if (answer.number != RIGVANESH_ACCEPTED) {
        print_refusal(answer);
    } else {
        size_t length = out[0] <= sizeof buffer ? out[0] : 0;
        printf("%llu ", (unsigned long long)out[0]);
        if (in_digits)
            for (size_t i = 0; i < length; i++)
                printf("%02x", buffer[i]);
        else
            fwrite(buffer, 1, length, stdout);
        if (!is_filled(buffer + length, sizeof buffer - length) || !is_filled(out + 1, 3 * sizeof *out))
            fputs(" changed", stdout);
        print_odd(answer.also != 0);
    }
    putchar('\n');
}

/* m has 64 bits here and 16 in a record: one that is over 64 only by its upper half is refused by 4, and changes nothing. */
static bool is_wide_m_refused(void)
{
    fill();
    struct rigvanesh_answer answer = rigvanesh_read(row(), record.bytes, (uint64_t)1 << 32 | record.entries, lent(buffer, lent_room()), lent_room(), out);
    return answer.number == RIGVANESH_LOCATIONS && answer.also == 0 && is_filled(out, sizeof out) && is_filled(buffer, sizeof buffer);
}

static void print_read(void)
{
    print_odd(!is_wide_m_refused());
    fill();
    print_written(rigvanesh_read(row(), record.bytes, record.entries, lent(buffer, lent_room()), lent_room(), out), true);
}

static void print_write(void)
{
    fill();
    print_written(rigvanesh_write(row(), record.bytes, lent(buffer, lent_room()), lent_room(), out), false);
}

int main(void)
{
    while (next_record()) {
        switch (record.question) {
        case 'c': print_check(); break;
        case 'r': print_run(); break;
        case 'x': print_texts(); break;
        case 's': print_read(); break;
        case 'w': print_write(); break;
        }
    }
    return 0;
}
