/* Rigvanesh for C, on x86-64 Linux: the check, the run and the text of a stored L1 routine, and its text form read and written. docs/C.md has an
 * example and says how to link.
 *
 * Each function returns the number of a refusal with what that also returns, or 0 and 0. After 0 the words of out tell the answer, all of them. A
 * refusal changes nothing of what is lent: not out, not the store, not the buffer, not the room. This is proved, for any bytes, any store, any fuel, any
 * buffer and any room, with the answers themselves (crates/exports/specs/Says.antt, crates/exported_reading/specs/Says.antt).
 *
 * What the caller owes: a pointer and the length behind it are a lent array of so many bytes or entries; the pointer may be null where the length is 0. out
 * is not null. What is lent to a call does not overlap, and until the call returns nobody else writes it, or reads what the call may write.
 *
 * The functions keep no state and take no memory but stack: any number of threads may call them, each with lent memory of its own. The check and the run
 * need at most 32 KB of stack (KB: 1,024 bytes), the text and rigvanesh_write 416 KB and rigvanesh_read 496 KB (measured, on the archives that
 * an older kit compiled, at the deepest tree that a routine can hold, for the text at 2,048 levels and counted from there; today's need less; it is not proved). A run makes as many steps as its fuel allows and can't be interrupted.
 */
#ifndef RIGVANESH_H
#define RIGVANESH_H

#include <stddef.h>
#include <stdint.h>

#ifdef __cplusplus
extern "C" {
#endif

struct rigvanesh_answer {
    uint64_t number; /* enum rigvanesh_number */
    uint64_t also;   /* the node, for 7 and 20 to 23; the bytes needed, for 32 and 53; the offset in the text, for 50 to 52; else 0 */
};

/* The lowest number that applies is given; of 20 to 23 that of the lowest node whose own rule fails. Nodes are counted from 0. Of a text that is read the
 * first that applies is given of 4, 50, 51, 52, 5, 9, 53. Offsets in a text are counted from 0. */
enum rigvanesh_number {
    RIGVANESH_ACCEPTED = 0,
    RIGVANESH_SHORT = 1,       /* fewer than 6 bytes */
    RIGVANESH_COUNT = 2,       /* bytes 0-1 are not the count of bytes after them */
    RIGVANESH_VERSION = 3,     /* the version is not 1 */
    RIGVANESH_LOCATIONS = 4,   /* m, the number of declared locations, is over 64 */
    RIGVANESH_NODES = 5,       /* n, the number of nodes, is 0 or over 4,096 */
    RIGVANESH_LENGTH = 6,      /* bytes 0-1 are not 4 + 8n */
    RIGVANESH_LAYOUT = 7,      /* a node breaks the layout; also: the lowest such node */
    RIGVANESH_FOREST = 8,      /* the root's subtree has fewer than n nodes */
    RIGVANESH_PLACES = 9,      /* the root's count of places is over 256 (docs/ROWS.md) */
    RIGVANESH_UNDECLARED = 20, /* an undeclared location; also: the node */
    RIGVANESH_FIRST = 21,      /* the first child has a type that its rule doesn't allow; also: the node */
    RIGVANESH_SECOND = 22,     /* the second child likewise (+, >=, while); also: the node */
    RIGVANESH_BRANCHES = 23,   /* the branches of an if differ in type; also: the node */
    RIGVANESH_STORE = 30,      /* run, text: the lent store has fewer than m entries */
    RIGVANESH_BUFFER = 32,     /* text, write: it is longer than the lent buffer; also: the length needed, in bytes */
    RIGVANESH_INPUT = 40,      /* the input of the program trace is not 4 + 4m bytes behind the routine; no function here gives it */
    RIGVANESH_FORM = 50,       /* read: the text is not of the form; also: where it leaves it, or its length if it only stops too soon */
    RIGVANESH_INTEGER = 51,    /* read: an integer is out of range; also: where the first such begins, its minus included */
    RIGVANESH_LOCATION = 52,   /* read: a location is over 255; also: where the first such number begins */
    RIGVANESH_ROOM = 53        /* read: the lent room is too short; also: the bytes needed */
};

/* out[0] of the check */
enum rigvanesh_type {
    RIGVANESH_INT = 0,
    RIGVANESH_BOOL = 1,
    RIGVANESH_UNIT = 2
};

/* out[0] of the run */
enum rigvanesh_ending {
    RIGVANESH_VALUE_INT = 0,  /* out[1]: the integer's two's complement in 32 bits, 0 to 4294967295; (int32_t)(uint32_t)out[1] is the integer */
    RIGVANESH_VALUE_BOOL = 1, /* out[1]: 1 for true, 0 for false */
    RIGVANESH_VALUE_SKIP = 2, /* out[1]: 0 */
    RIGVANESH_OVERFLOW = 3,   /* out[1]: the node of the sum that is out of range */
    RIGVANESH_FUEL = 4        /* out[1]: 0 */
};

/* The check. out: the type; W, the number of nodes that work; the read set and the write set, bit i for location i. */
struct rigvanesh_answer rigvanesh_check(const uint8_t *row, size_t row_bytes, uint64_t out[4]);

/* The run from the store as it is lent, whose entry i is location i. out: the kind of ending; its value or node; T, the steps made; K, those of them by
 * the rule while. The store then holds what it holds after T steps; entries from m on stay. */
struct rigvanesh_answer rigvanesh_run(const uint8_t *row, size_t row_bytes, int32_t *store, size_t entries, uint32_t fuel, uint64_t out[4]);

/* The text after k steps from the store, which is only read, or at the run's end if that comes sooner. out: its length in bytes; T. The text stands at
 * the buffer's start, with no 0 behind it; the bytes after it stay. */
struct rigvanesh_answer rigvanesh_text(const uint8_t *row, size_t row_bytes, const int32_t *store, size_t entries, uint32_t k, uint8_t *buffer,
                                       size_t room, uint64_t out[2]);

/* Reads a text, with m given, into a stored routine at the start of the room. out: the routine's length in bytes. The bytes after it stay. It gives 4,
 * 50, 51, 52, 5, 9 and 53 alone, in this order. A room of 32,774 bytes is always enough. */
struct rigvanesh_answer rigvanesh_read(const uint8_t *text, size_t text_bytes, size_t m, uint8_t *room, size_t room_bytes, uint64_t out[1]);

/* Writes the text of a routine, well typed or not, at the buffer's start, with no 0 behind it. out: its length in bytes. The bytes after it stay. It gives
 * 1 to 9 and 32 alone. A buffer of 57,344 bytes is always enough. */
struct rigvanesh_answer rigvanesh_write(const uint8_t *row, size_t row_bytes, uint8_t *buffer, size_t room, uint64_t out[1]);

#ifdef __cplusplus
}
#endif

#endif
