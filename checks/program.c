/* The program of document 01 in lean C.

   lean < FILE        prints what 01 says
   lean -d < FILE     the same by the calls over lent memory, then leaves in order, marks, flags, passes and replacements,
                      as oracle.py --detail

   With -DREPORT=rust_report the report is lean.rs's. */
#include "lean.h"
#include <stdio.h>
#include <string.h>
#include <unistd.h>

#ifndef REPORT
#define REPORT c_report
#endif

enum { NODES = BUULSET_MAX_NODES };

static uint8_t file[BUULSET_MAX_FILE + 1], table[BUULSET_MAX_TABLE];
static size_t nodes;

/* What a search gives and leaves. */
struct run {
    buulset_answer answer;
    uint8_t evaluated[NODES], certificate[NODES];
    uint16_t order[NODES];
};

static void show(const char *name, const char *what, const uint8_t *bytes) {
    printf("%s %s", name, what);
    for (size_t k = 0; k < nodes; k++) printf(" %d", bytes[k]);
    printf("\n");
}

static void detail(const char *name, const struct run *run, const char *steps) {
    printf("%s order", name);
    for (size_t i = 0; i < run->answer.count; i++) printf(" %d", run->order[i]);
    printf("\n");
    show(name, "marks", run->evaluated);
    show(name, "flags", run->certificate);
    if (steps) printf("%s %s %zu\n", name, steps, run->answer.steps);
}

static void print_result(const char *name, buulset_answer found) {
    printf("%s %d %zu %zu\n", name, found.value, found.root_move, found.count);
}

static void print_details(void) {
    static struct run a, m, s;
    size_t length = BUULSET_FRAME_SIZE * nodes;
    a.answer = c_alphabeta(table, length, a.evaluated, NODES, a.certificate, NODES, a.order, NODES);
    m.answer = c_mtd(table, length, m.evaluated, NODES, m.certificate, NODES, m.order, NODES);
    s.answer = c_sss(table, length, s.evaluated, NODES, s.certificate, NODES, s.order, NODES, NODES);
    printf("method value move leaves\n");
    print_result("ab", a.answer);
    print_result("mtd", m.answer);
    print_result("sss", s.answer);
    detail("ab", &a, NULL);
    detail("mtd", &m, "passes");
    detail("sss", &s, "replacements");
}

int main(int argc, char **argv) {
    size_t length = 0;
    for (ssize_t got; length < sizeof file && (got = read(0, file + length, sizeof file - length)) > 0;) length += got;
    if (argc > 1 && !strcmp(argv[1], "-d")) nodes = c_read(file, length, table, sizeof table).count;
    if (nodes) {
        print_details();
        return 0;
    }
    buulset_text text = REPORT(file, length);
    fwrite(text.bytes, 1, text.length, stdout);
    return 0;
}
