/* Buulset: tree files, tables, searches and certificates of analysis trees, from C and C++.
 *
 *     cc program.c $(pkg-config --cflags --libs buulset)
 *
 * The library needs memcpy and memset and nothing else: no heap, no file, no thread, no state of its own, so any number
 * of threads may call it at once. It is compiled for x86-64, System V. The Rattle source of each call, with its proved
 * contract, is crates/buulset/src/lib.rt. No proof covers this header; bindings/declarations.py compares it with the
 * source.
 *
 * WHAT A CALL DOES. It takes any bytes and any lengths, ends, and gives a result or one refusal: there is nothing to
 * test before a call. After a refusal every lent buffer is as it was. After a result, what lies past the part that the
 * call writes keeps its contents.
 *
 * WHAT A CALLER MUST DO is what C demands of every function over buffers: `x` points to `x_len` entries (with length 0
 * it may be null), and a buffer that is written overlaps no other argument.
 *
 * STACK, in thousands of bytes, the most over small, deep and large trees (bindings/c/stack.c measures it). Give a
 * thread 256: no call uses the heap instead, and none checks whether its stack suffices.
 *
 *     report       112    mtdf         53    capitals       25    shorter       17
 *     line          83    least_value  54    convert        25    least_leaves   3
 *     sss           67    alphabeta    50    read           25    fill           2
 *     plain         50    mtd          50    verify         17    every other call under 1
 */
#ifndef BUULSET_H
#define BUULSET_H

#include <stddef.h>
#include <stdint.h>

#ifdef __cplusplus
extern "C" {
#define BUULSET_RESTRICT
#else
#define BUULSET_RESTRICT restrict
#endif

/* The version of this header: 10,000 times the major, 100 times the minor, and the patch number. The major number is
 * raised by every change that would break a program compiled against an older header; compare it with that of the
 * linked library: buulset_version() / 10000 == BUULSET_VERSION / 10000. */
#define BUULSET_VERSION 20000

/* SIZES */

#define BUULSET_MAX_NODES 4096  /* nodes of a tree */
#define BUULSET_MAX_CHILDREN 40 /* children of a node */
#define BUULSET_MAX_DEPTH 18    /* moves from the root to a leaf */
#define BUULSET_FRAME_SIZE 6    /* bytes of a node in a table */
#define BUULSET_LINE_SIZE 13    /* bytes of a node in a file, with the line feed */
#define BUULSET_MAX_TABLE (BUULSET_FRAME_SIZE * BUULSET_MAX_NODES)
#define BUULSET_MAX_FILE (BUULSET_LINE_SIZE * BUULSET_MAX_NODES)
#define BUULSET_TEXT_SIZE 256              /* bytes of a text */
#define BUULSET_NO_LIMIT BUULSET_MAX_NODES /* an allowance that never stops a run */

#define BUULSET_MAX_VALUE 32000   /* a leaf holds -32,000 to 32,000 */
#define BUULSET_WIN 31000         /* from here up a value is a win, and from -31,000 down a loss */
#define BUULSET_NOTHING_YET 32001 /* the value of a spent run that has no bound yet */

/* THE QUESTIONS: what `refused` says; buulset_meaning gives a text for it. docs/SPEC.md, section 4, has each with its
 * place. */
enum {
    BUULSET_EMPTY = 1,             /* there is no byte */
    BUULSET_TOO_LONG = 2,          /* more bytes than a file or a table may have */
    BUULSET_NOT_WHOLE = 3,         /* a line is not twelve digits; bytes are left over after the last frame */
    BUULSET_WRONG_BYTE_3 = 4,      /* byte 3 is neither 0, nor 1 on an inner node other than the root */
    BUULSET_TOO_MANY_CHILDREN = 5, /* more than 40 */
    BUULSET_WRONG_FIRST_CHILD = 6, /* an inner node's is not 1 plus the child counts of all nodes before it, or is not
                                    * greater than its own number; a leaf's is not 0 */
    BUULSET_WRONG_VALUE = 7,       /* not -32,000 to 32,000 on a leaf, not 0 on an inner node */
    BUULSET_WRONG_TOTAL = 8,       /* 1 plus all child counts is not the number of nodes */
    BUULSET_TOO_DEEP = 9,          /* a node below depth 18 */
    BUULSET_SHORT_BUFFER = 10,     /* a lent buffer has too few entries */
    BUULSET_WRONG_FLAG = 11,       /* a flag of a certificate is not 0 to 3 */
    BUULSET_NO_MAX_TREE = 12,      /* the max flags form no solution tree */
    BUULSET_NO_MIN_TREE = 13,      /* the min flags form no solution tree */
    BUULSET_UNEQUAL_VALUES = 14,   /* the two solution trees have different values */
    /* 15 was struck and is not used again */
    BUULSET_SMALL_LETTER = 16, /* a letter a to f in a file; asked between 3 and 4 */
    BUULSET_NO_MAX_LEAF = 17,  /* graft: the node is no leaf where Max would move */
    BUULSET_TOO_LARGE = 18,    /* graft: the result has too many nodes or is too deep */
    BUULSET_NO_LEAF = 19,      /* least_value: the node is no leaf */
    BUULSET_OUT_OF_RANGE = 20, /* least_value: the wanted value is not -32,000 to 32,000 */
    BUULSET_NO_VALUE = 21,     /* least_value: no value of the leaf gives the root the wanted one */
    BUULSET_WRONG_WIDTH = 22,  /* least_leaves: the width is not 1 to 40 */
    BUULSET_WRONG_DEPTH = 23   /* least_leaves: the depth is more than 18 */
};

/* Flags of a certificate, one byte a node: in the max solution tree, in the min one, in both. */
enum { BUULSET_IN_MAX = 1, BUULSET_IN_MIN = 2, BUULSET_IN_BOTH = 3 };

/* ANSWERS, by value. `refused` is 0 for a result; otherwise it is the number of the first question that got a "no", and
 * `place` is its place (a node, a line, a number of frames, or 0). A member that a call does not give is 0; a refused
 * call gives no other, but for buulset_capitals. */
typedef struct buulset_answer {
    uint8_t refused;
    uint8_t spent; /* sss: 1 if the allowance stopped the run */
    int32_t value; /* the root's value (a win counts less the deeper it lies: README.md, "What it prints"); if the
                      allowance is spent, the root's value is at most this, and 32,001 says nothing yet */
    size_t place;
    size_t count;     /* what the call counts: nodes, bytes of a file, evaluated leaves, or nodes of the best line */
    size_t root_move; /* number of a child of the root; 0 where the root is a leaf */
    size_t steps;     /* passes of mtd, tests of mtdf, replacements of sss */
} buulset_answer;

/* Which of two certificates is chosen, and how many of its flags count, from its front. */
typedef struct buulset_choice {
    uint8_t refused;
    uint8_t chosen; /* 1 the first, 2 the second */
    size_t place;
    size_t count; /* its flags: one a node */
} buulset_choice;

/* The children of a node: the number of the first, and how many there are; zeros where there are none. */
typedef struct buulset_children_of {
    size_t first;
    size_t count;
} buulset_children_of;

/* A line of a file: `read` is 1, `bytes` is its frame and `at` the position past it; or 0, zeros, and the position as
 * it was. */
typedef struct buulset_file_line {
    uint8_t bytes[BUULSET_FRAME_SIZE];
    uint8_t read;
    size_t at;
} buulset_file_line;

/* A text: `length` bytes, then zeros, so it is a C string too. */
typedef struct buulset_text {
    uint8_t bytes[BUULSET_TEXT_SIZE];
    size_t length;
} buulset_text;

/* The version of the library that is linked. */
uint32_t buulset_version(void);

/* FILES AND TABLES */

/* Reads a file into a table of at least six bytes a line. Gives count: the nodes. */
buulset_answer buulset_read(const uint8_t *file, size_t file_len, uint8_t *BUULSET_RESTRICT table, size_t table_len);

/* Reads the line that starts at a position of a file, in either letter case; it refuses nothing. */
buulset_file_line buulset_read_line(const uint8_t *file, size_t file_len, size_t at);

/* The number of a hexadecimal digit in either letter case; 16 for any other byte. */
uint8_t buulset_digit(uint8_t byte);

/* Writes a table as its file, 13 bytes a node, in capitals, every line closed. Gives count: the bytes of the file. */
buulset_answer buulset_write(const uint8_t *table, size_t table_len, uint8_t *BUULSET_RESTRICT file, size_t file_len);

/* Reads a file after turning its letters a to f into capitals, and writes it as buulset_write does. Gives count: the
 * bytes of the converted file. */
buulset_answer buulset_convert(const uint8_t *file, size_t file_len, uint8_t *BUULSET_RESTRICT converted,
                               size_t converted_len);

/* What the program `capitals` prints for a file: the converted file, or the line of the refusal, which is 10 where the
 * converted file has no room. Gives count: its bytes. Where it is a line, `refused` and `place` are that refusal's;
 * where not even the line has room, `refused` is 10 and count 0. */
buulset_answer buulset_capitals(const uint8_t *file, size_t file_len, uint8_t *BUULSET_RESTRICT printed,
                                size_t printed_len);

/* Checks a table. Gives count: the nodes. The table of an accepted tree is exactly six bytes a node. */
buulset_answer buulset_check(const uint8_t *table, size_t table_len);

/* The children of a node whose frames stand in the table, which need not be checked: none for a leaf, for a number past
 * the last frame, and where they would reach past the table. It refuses nothing. */
buulset_children_of buulset_children(const uint8_t *table, size_t table_len, size_t node);

/* SEARCHES: an entry for each node is written to `evaluated` (1 on an evaluated leaf, else 0) and to `certificate` (its
 * flags). The numbers of the evaluated leaves are written to the front of `order`, which has room for all nodes, in the
 * order in which they were evaluated: as many as `count` says. */

/* Alpha-beta. Gives value, root_move, count. */
buulset_answer buulset_alphabeta(const uint8_t *table, size_t table_len, uint8_t *BUULSET_RESTRICT evaluated,
                                 size_t evaluated_len, uint8_t *BUULSET_RESTRICT certificate, size_t certificate_len,
                                 uint16_t *BUULSET_RESTRICT order, size_t order_len);

/* Minimax without cuts: every leaf is marked. Gives value, root_move. */
buulset_answer buulset_plain(const uint8_t *table, size_t table_len, uint8_t *BUULSET_RESTRICT evaluated,
                             size_t evaluated_len, uint8_t *BUULSET_RESTRICT certificate, size_t certificate_len);

/* MTD. Gives value, root_move, count, steps (passes). */
buulset_answer buulset_mtd(const uint8_t *table, size_t table_len, uint8_t *BUULSET_RESTRICT evaluated,
                           size_t evaluated_len, uint8_t *BUULSET_RESTRICT certificate, size_t certificate_len,
                           uint16_t *BUULSET_RESTRICT order, size_t order_len);

/* MTD(f) from the value `start`, any number: a guess of the value, such as the one that the tree had before a leaf was
 * changed. It never changes the value or the move, only how many leaves it takes. Gives value, root_move, count, steps
 * (tests put to the root). */
buulset_answer buulset_mtdf(const uint8_t *table, size_t table_len, int32_t start, uint8_t *BUULSET_RESTRICT evaluated,
                            size_t evaluated_len, uint8_t *BUULSET_RESTRICT certificate, size_t certificate_len,
                            uint16_t *BUULSET_RESTRICT order, size_t order_len);

/* SSS* that evaluates at most `allowance` leaves. Gives value, root_move, count, steps (replacements); or spent, value,
 * count, steps: then the marks and the list so far are written, and the certificate keeps its contents. */
buulset_answer buulset_sss(const uint8_t *table, size_t table_len, uint8_t *BUULSET_RESTRICT evaluated,
                           size_t evaluated_len, uint8_t *BUULSET_RESTRICT certificate, size_t certificate_len,
                           uint16_t *BUULSET_RESTRICT order, size_t order_len, size_t allowance);

/* THE BEST LINE */

/* What both sides play if each plays its best: the numbers of its nodes are written to the front of `line`, the root
 * first, a leaf last. `line` has room for all nodes of the tree (BUULSET_MAX_NODES is always enough), though no line has
 * more than BUULSET_MAX_DEPTH + 1. Every node of it has the root's value, and its second is the root move. Gives value,
 * root_move, count: the nodes of the line. */
buulset_answer buulset_line(const uint8_t *table, size_t table_len, uint16_t *BUULSET_RESTRICT line, size_t line_len);

/* CERTIFICATES */

/* Checks a certificate. Gives value: what it certifies, which is the root's value. */
buulset_answer buulset_verify(const uint8_t *table, size_t table_len, const uint8_t *certificate,
                              size_t certificate_len);

/* Of two certificates the one that is accepted; if both are, the one with fewer flagged leaves, the first on a tie.
 * Refused where the table is; if neither certificate is accepted, the refusal is the first one's. */
buulset_choice buulset_shorter(const uint8_t *table, size_t table_len, const uint8_t *first, size_t first_len,
                               const uint8_t *second, size_t second_len);

/* TREES */

/* Puts the second tree in place of a leaf of the first where Max would move, and writes the result's table. Gives
 * count: its nodes. */
buulset_answer buulset_graft(const uint8_t *first, size_t first_len, size_t node, const uint8_t *second,
                             size_t second_len, uint8_t *BUULSET_RESTRICT result, size_t result_len);

/* Gives value: the smallest value of the leaf `node` that gives the root exactly the value `wanted`. */
buulset_answer buulset_least_value(const uint8_t *table, size_t table_len, size_t node, int32_t wanted);

/* Writes the worst case for alpha-beta into the leaves of the table itself. Gives count: how many there are. */
buulset_answer buulset_fill(uint8_t *table, size_t table_len);

/* The fewest leaves that decide a tree of this width and depth in which the sides alternate. Gives count; 65,535 is
 * that or more. */
buulset_answer buulset_least_leaves(size_t width, size_t depth);

/* TEXTS */

/* What the program `analyse` prints for a file; it refuses nothing. */
buulset_text buulset_report(const uint8_t *file, size_t file_len);

/* The line that it prints for a refusal. */
buulset_text buulset_refused(uint8_t number, size_t place);

/* What a refusal means, in a few words. The text is part of this header, and not of the library. */
static inline const char *buulset_meaning(uint8_t refused) {
    switch (refused) {
    case 0: return "no refusal";
    case 1: return "no bytes";
    case 2: return "too many bytes";
    case 3: return "not whole lines or frames";
    case 4: return "a wrong byte 3";
    case 5: return "too many children";
    case 6: return "a wrong first child";
    case 7: return "a wrong value";
    case 8: return "a wrong number of nodes";
    case 9: return "too deep";
    case 10: return "a lent buffer is too short";
    case 11: return "a wrong flag";
    case 12: return "the max flags form no solution tree";
    case 13: return "the min flags form no solution tree";
    case 14: return "the two solution trees have different values";
    case 16: return "a small letter";
    case 17: return "the node is no leaf where Max would move";
    case 18: return "the grafted tree is too large or too deep";
    case 19: return "the node is no leaf";
    case 20: return "the wanted value is out of range";
    case 21: return "no value of the leaf gives the root the wanted one";
    case 22: return "the width is not 1 to 40";
    case 23: return "the depth is more than 18";
    default: return "no question has this number";
    }
}

/* READING A TABLE THAT WAS CHECKED: `node` is less than the number of nodes. */

/* Does the same side move here as at the node's parent? */
static inline int buulset_second_capture(const uint8_t *table, size_t node) {
    return table[BUULSET_FRAME_SIZE * node + 3] == 1;
}

/* What a leaf holds. */
static inline int buulset_stored_value(const uint8_t *table, size_t node) {
    const uint8_t *frame = table + BUULSET_FRAME_SIZE * node;
    int value = (int)frame[4] << 8 | frame[5];
    return value < 32768 ? value : value - 65536;
}

/* The layout that the library is compiled for. */
#if defined(__cplusplus) && __cplusplus >= 201103L
#define BUULSET_ASSERT(x) static_assert(x, "not the layout of x86-64 System V")
#elif defined(__STDC_VERSION__) && __STDC_VERSION__ >= 201112L
#define BUULSET_ASSERT(x) _Static_assert(x, "not the layout of x86-64 System V")
#endif
#ifdef BUULSET_ASSERT
BUULSET_ASSERT(sizeof(size_t) == 8 && sizeof(buulset_answer) == 40 && sizeof(buulset_text) == 264);
BUULSET_ASSERT(sizeof(buulset_file_line) == 16 && offsetof(buulset_file_line, at) == 8);
BUULSET_ASSERT(sizeof(buulset_choice) == 24 && sizeof(buulset_children_of) == 16);
BUULSET_ASSERT(offsetof(buulset_answer, value) == 4 && offsetof(buulset_answer, place) == 8);
BUULSET_ASSERT(offsetof(buulset_answer, count) == 16 && offsetof(buulset_answer, steps) == 32);
#undef BUULSET_ASSERT
#endif

#undef BUULSET_RESTRICT
#ifdef __cplusplus
}
#endif
#endif
