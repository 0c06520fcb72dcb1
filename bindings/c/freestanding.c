/* The library without a C library: the two functions that it needs, and an entry that leaves by a system call of Linux.
 *   gcc -O2 -ffreestanding -fno-builtin -nostdlib -static freestanding.c libbuulset.a
 * Exit status 0: the seven-node tree of the README is read, searched and verified. */
#include "buulset.h"

void *memcpy(void *restrict to, const void *restrict from, size_t n) {
    unsigned char *t = to;
    const unsigned char *f = from;
    while (n--) *t++ = *f++;
    return to;
}

void *memset(void *to, int byte, size_t n) {
    unsigned char *t = to;
    while (n--) *t++ = (unsigned char)byte;
    return to;
}

static int run(void) {
    static const char file[] = "000102000000\n000302000000\n000502000000\n"
                               "000000000001\n000000000002\n000000000003\n000000000004\n";
    static uint8_t table[42], evaluated[7], certificate[7];
    static uint16_t order[7];
    buulset_answer r = buulset_read((const uint8_t *)file, sizeof file - 1, table, sizeof table);
    if (r.refused || r.count != 7) return 1;
    r = buulset_sss(table, sizeof table, evaluated, 7, certificate, 7, order, 7, BUULSET_NO_LIMIT);
    if (r.refused || r.value != 3 || r.root_move != 2 || r.count != 3 || r.steps != 9) return 2;
    if (order[0] != 3 || order[1] != 5 || order[2] != 6 || order[3] != 0) return 4;
    r = buulset_verify(table, sizeof table, certificate, sizeof certificate);
    return r.refused || r.value != 3 ? 3 : 0;
}

__attribute__((noreturn, force_align_arg_pointer)) void _start(void) {
    int status = run();
    __asm__ volatile("syscall" : : "a"(60L), "D"((long)status) : "rcx", "r11", "memory");
    __builtin_unreachable();
}
