/* How many bytes of stack each call takes, on the tables of files: stack FILE..
 * A thread runs the call on a stack that was painted, and the paint that is gone is counted; what the thread alone
 * takes is subtracted.
 * Link with -Wl,-z,now or -static: otherwise the dynamic linker's own stack is counted at the first memcpy. */
#define _GNU_SOURCE
#include "buulset.h"
#include <pthread.h>
#include <stdio.h>
#include <stdlib.h>
#include <string.h>

enum { STACK = 1 << 20, PAINT = 0xA5 };

static uint8_t file[BUULSET_MAX_FILE + 1], table[BUULSET_MAX_TABLE], text[BUULSET_MAX_FILE], result[BUULSET_MAX_TABLE];
static uint8_t marks[BUULSET_MAX_NODES], flags[BUULSET_MAX_NODES];
static uint16_t order[BUULSET_MAX_NODES];
static const uint8_t leaf[6];
static size_t length, size, nodes;

static const char *const names[] = {
    "",    "read",   "read_line", "write", "convert",     "check", "children",     "alphabeta", "plain",   "mtd",
    "sss", "verify", "shorter",   "graft", "least_value", "fill",  "least_leaves", "report",    "refused", "capitals",
    "mtdf", "line"};
enum { CALLS = sizeof names / sizeof *names };

static void *run(void *which) {
    switch ((int)(size_t)which) {
    case 1: buulset_read(file, length, result, sizeof result); break;
    case 2: buulset_read_line(file, length, 0); break;
    case 3: buulset_write(table, size, text, sizeof text); break;
    case 4: buulset_convert(file, length, text, sizeof text); break;
    case 5: buulset_check(table, size); break;
    case 6: buulset_children(table, size, 0); break;
    case 7: buulset_alphabeta(table, size, marks, sizeof marks, flags, sizeof flags, order, BUULSET_MAX_NODES); break;
    case 8: buulset_plain(table, size, marks, sizeof marks, flags, sizeof flags); break;
    case 9: buulset_mtd(table, size, marks, sizeof marks, flags, sizeof flags, order, BUULSET_MAX_NODES); break;
    case 10:
        buulset_sss(table, size, marks, sizeof marks, flags, sizeof flags, order, BUULSET_MAX_NODES, BUULSET_NO_LIMIT);
        break;
    case 11: buulset_verify(table, size, flags, nodes); break;
    case 12: buulset_shorter(table, size, flags, nodes, flags, nodes); break;
    case 13: buulset_graft(leaf, 6, 0, table, size, result, sizeof result); break;
    case 14: buulset_least_value(table, size, nodes - 1, 0); break;
    case 15:
        memcpy(result, table, size);
        buulset_fill(result, size);
        break;
    case 16: buulset_least_leaves(3, 9); break;
    case 17: buulset_report(file, length); break;
    case 18: buulset_refused(3, 15); break;
    case 19: buulset_capitals(file, length, text, sizeof text); break;
    case 20: buulset_mtdf(table, size, 0, marks, sizeof marks, flags, sizeof flags, order, BUULSET_MAX_NODES); break;
    case 21: buulset_line(table, size, order, BUULSET_MAX_NODES); break;
    }
    return NULL;
}

static size_t used(size_t which) {
    unsigned char *stack = aligned_alloc(4096, STACK);
    pthread_attr_t attr;
    pthread_t thread;
    memset(stack, PAINT, STACK);
    pthread_attr_init(&attr);
    if (pthread_attr_setstack(&attr, stack, STACK) || pthread_create(&thread, &attr, run, (void *)which)) exit(2);
    pthread_join(thread, NULL);
    size_t left = 0;
    while (left < STACK && stack[left] == PAINT) left++;
    free(stack);
    return STACK - left;
}

int main(int argc, char **argv) {
    size_t most[CALLS] = {0};
    for (int i = 1; i < argc; i++) {
        FILE *in = fopen(argv[i], "rb");
        if (!in) return 2;
        length = fread(file, 1, sizeof file, in);
        fclose(in);
        buulset_answer r = buulset_read(file, length, table, sizeof table);
        if (r.refused) continue;
        nodes = r.count, size = 6 * nodes;
        buulset_alphabeta(table, size, marks, sizeof marks, flags, sizeof flags, order, BUULSET_MAX_NODES);
        size_t alone = used(0);
        for (size_t k = 1; k < CALLS; k++) {
            size_t bytes = used(k);
            bytes = bytes > alone ? bytes - alone : 0;
            if (bytes > most[k]) most[k] = bytes;
        }
    }
    for (size_t k = 1; k < CALLS; k++) printf("%-12s %7zu\n", names[k], most[k]);
    return 0;
}
