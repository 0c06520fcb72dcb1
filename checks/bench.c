/* Measures the calls of the library (buulset_..), in lean C (c_..) and in lean Rust (rust_..) on one tree file; bench.py
   runs it.

   bench FILE count [CALL..]    under callgrind: a dump, titled SIDE CALL, of the instructions of each call
   bench FILE time [CALL..]     prints SIDE CALL and the least time of many runs, in nanoseconds
   bench FILE stack [CALL..]    prints SIDE CALL and the bytes of stack that it takes

   All sides must give one answer and leave one content in the lent buffers; if they do not, the exit status is 1. */
#include "lean.h"
#include <pthread.h>
#include <stdio.h>
#include <stdlib.h>
#include <string.h>
#include <time.h>
#include <valgrind/callgrind.h>

enum { NODES = BUULSET_MAX_NODES, FRAME = BUULSET_FRAME_SIZE };

enum call { READ, WRITE, CONVERT, CHECK, ALPHABETA, PLAIN, MTD, MTDF, SSS, BEST_LINE, VERIFY, SHORTER, GRAFT,
            LEAST_VALUE, FILL, LEAST_LEAVES, REPORT, CALLS };

static const char *const call_names[] = {
    "read", "write", "convert", "check", "alphabeta", "plain", "mtd", "mtdf", "sss", "line", "verify", "shorter", "graft",
    "least_value", "fill", "least_leaves", "report"
};

#define CALL(call) __typeof__(buulset_##call) *call
#define SIDE(name, prefix)                                                                                             \
    { name, prefix##read, prefix##write, prefix##convert, prefix##check, prefix##alphabeta, prefix##plain, prefix##mtd, \
      prefix##mtdf, prefix##sss, prefix##line, prefix##verify, prefix##shorter, prefix##graft, prefix##least_value,     \
      prefix##fill, prefix##least_leaves, prefix##report }

static const struct side {
    const char *name;
    CALL(read);
    CALL(write);
    CALL(convert);
    CALL(check);
    CALL(alphabeta);
    CALL(plain);
    CALL(mtd);
    CALL(mtdf);
    CALL(sss);
    CALL(line);
    CALL(verify);
    CALL(shorter);
    CALL(graft);
    CALL(least_value);
    CALL(fill);
    CALL(least_leaves);
    CALL(report);
} sides[] = { SIDE("rattle", buulset_), SIDE("c", c_), SIDE("rust", rust_) };

/* What buffers are filled with; for how many runs and nanoseconds a call is timed, and for how long between two looks
   at the clock. */
enum { SIDES = sizeof sides / sizeof *sides, FILLED = 170, LEAST_RUNS = 10, LONG_ENOUGH = 40000000, BETWEEN = 30000 };

/* What a call is given, and what it may write; the tree is grafted at a lone leaf, 0 is wanted of its last leaf, a copy
   of the table is filled, and the certificates are those of alpha-beta and SSS*. */
static const uint8_t lone_leaf[FRAME] = { 0 };
static uint8_t file[BUULSET_MAX_FILE], table[BUULSET_MAX_TABLE], flags[NODES], other_flags[NODES];
static size_t file_len, nodes;
static struct lent {
    uint8_t table[BUULSET_MAX_TABLE], file[BUULSET_MAX_FILE], evaluated[NODES], certificate[NODES];
    uint16_t order[NODES];
    buulset_text text; /* not lent: what comes back */
} lent[SIDES];

static buulset_answer as_answer(buulset_choice of) {
    return (buulset_answer){ .refused = of.refused, .value = of.chosen, .place = of.place, .count = of.count };
}

static buulset_answer perform(const struct side *s, enum call call, struct lent *l) {
    size_t table_len = FRAME * nodes;
    switch (call) {
    case READ: return s->read(file, file_len, l->table, sizeof l->table);
    case WRITE: return s->write(table, table_len, l->file, sizeof l->file);
    case CONVERT: return s->convert(file, file_len, l->file, sizeof l->file);
    case CHECK: return s->check(table, table_len);
    case ALPHABETA: return s->alphabeta(table, table_len, l->evaluated, NODES, l->certificate, NODES, l->order, NODES);
    case PLAIN: return s->plain(table, table_len, l->evaluated, NODES, l->certificate, NODES);
    case MTD: return s->mtd(table, table_len, l->evaluated, NODES, l->certificate, NODES, l->order, NODES);
    case MTDF: /* from the value 0 */
        return s->mtdf(table, table_len, 0, l->evaluated, NODES, l->certificate, NODES, l->order, NODES);
    case SSS: return s->sss(table, table_len, l->evaluated, NODES, l->certificate, NODES, l->order, NODES, NODES);
    case BEST_LINE: return s->line(table, table_len, l->order, NODES);
    case VERIFY: return s->verify(table, table_len, flags, nodes);
    case SHORTER: return as_answer(s->shorter(table, table_len, flags, nodes, other_flags, nodes));
    case GRAFT: return s->graft(lone_leaf, FRAME, 0, table, table_len, l->table, sizeof l->table);
    case LEAST_VALUE: return s->least_value(table, table_len, nodes - 1, 0);
    case FILL: return s->fill(memcpy(l->table, table, table_len), table_len);
    case LEAST_LEAVES: return s->least_leaves(BUULSET_MAX_CHILDREN, BUULSET_MAX_DEPTH);
    default: l->text = s->report(file, file_len); return (buulset_answer){ 0 };
    }
}

static int same(buulset_answer a, buulset_answer b) {
    return a.refused == b.refused && a.spent == b.spent && a.value == b.value && a.place == b.place
        && a.count == b.count && a.root_move == b.root_move && a.steps == b.steps;
}

/* The processor time of this process, which other processes do not add to. */
static double now(void) {
    struct timespec t;
    clock_gettime(CLOCK_PROCESS_CPUTIME_ID, &t);
    return t.tv_sec * 1e9 + t.tv_nsec;
}

/* One call, counted. */
static buulset_answer counted(const struct side *s, enum call call, struct lent *l) {
    char title[64];
    snprintf(title, sizeof title, "%s %s", s->name, call_names[call]);
    memset(l, FILLED, sizeof *l);
    CALLGRIND_ZERO_STATS;
    buulset_answer answer = perform(s, call, l);
    CALLGRIND_DUMP_STATS_AT(title);
    return answer;
}

/* The time of one call, over so many that reading the clock does not matter. */
static double timed(const struct side *s, enum call call, struct lent *l, int calls) {
    double start = now();
    for (int i = 0; i < calls; i++) perform(s, call, l);
    return (now() - start) / calls;
}

/* A call on every side, which must agree. The second run of each is counted: the first binds what it calls. */
static void compare(enum call call) {
    buulset_answer answers[SIDES];
    for (int i = 0; i < SIDES; i++) {
        perform(&sides[i], call, &lent[i]);
        answers[i] = counted(&sides[i], call, &lent[i]);
        if (!same(answers[0], answers[i]) || memcmp(&lent[0], &lent[i], sizeof *lent)) {
            fprintf(stderr, "bench: %s and %s differ in %s\n", sides[0].name, sides[i].name, call_names[call]);
            exit(1);
        }
    }
}

/* The least times of a call, on all sides in turn for a while; where the clock went back, none. */
static void print_times(enum call call) {
    double least[SIDES], start = now();
    for (int i = 0; i < SIDES; i++)
        do least[i] = timed(&sides[i], call, lent, 1);
        while (least[i] <= 0);
    for (int run = 0; run < LEAST_RUNS || now() - start < LONG_ENOUGH; run++)
        for (int i = 0; i < SIDES; i++) {
            double took = timed(&sides[i], call, lent, 1 + BETWEEN / least[i]);
            if (took > 0 && took < least[i]) least[i] = took;
        }
    for (int i = 0; i < SIDES; i++) printf("%s %s %.1f\n", sides[i].name, call_names[call], least[i]);
}

struct task {
    const struct side *side; /* none: the thread does nothing */
    enum call call;
};

static void *do_task(void *given) {
    const struct task *task = given;
    if (task->side) perform(task->side, task->call, lent);
    return NULL;
}

/* How much of a painted stack a thread changes. */
static size_t stack_of(struct task task) {
    static uint8_t stack[1 << 20] __attribute__((aligned(4096)));
    size_t untouched = 0;
    pthread_attr_t attributes;
    pthread_t thread;
    memset(stack, FILLED, sizeof stack);
    pthread_attr_init(&attributes);
    pthread_attr_setstack(&attributes, stack, sizeof stack);
    if (pthread_create(&thread, &attributes, do_task, &task) || pthread_join(thread, NULL)) exit(2);
    while (stack[untouched] == FILLED) untouched++;
    return sizeof stack - untouched;
}

static void print_stacks(enum call call) {
    size_t idle = stack_of((struct task){ NULL, call });
    for (int i = 0; i < SIDES; i++)
        printf("%s %s %zu\n", sides[i].name, call_names[call], stack_of((struct task){ &sides[i], call }) - idle);
}

static int is_wanted(enum call call, int argc, char **argv) {
    for (int i = 3; i < argc; i++)
        if (!strcmp(argv[i], call_names[call])) return 1;
    return argc == 3;
}

int main(int argc, char **argv) {
    FILE *f = argc >= 3 ? fopen(argv[1], "rb") : NULL;
    if (!f) {
        fprintf(stderr, "usage: bench FILE count|time|stack [CALL..]\n");
        return 2;
    }
    file_len = fread(file, 1, sizeof file, f);
    nodes = c_read(file, file_len, table, sizeof table).count;
    struct lent *l = &lent[0];
    c_alphabeta(table, FRAME * nodes, l->evaluated, NODES, flags, NODES, l->order, NODES);
    c_sss(table, FRAME * nodes, l->evaluated, NODES, other_flags, NODES, l->order, NODES, NODES);
    for (enum call call = 0; call < CALLS; call++) {
        if (!is_wanted(call, argc, argv)) continue;
        compare(call);
        if (!strcmp(argv[2], "time")) print_times(call);
        if (!strcmp(argv[2], "stack")) print_stacks(call);
    }
    return 0;
}
