/* What the program `analyse` prints, through the library, each certificate checked: analyse FILE
 * Exit status: 0 a report, 1 a refused file, 2 a file that cannot be read, 3 a certificate that is refused. */
#include "buulset.h"
#include <stdio.h>

enum { NODES = BUULSET_MAX_NODES };
static uint8_t file[BUULSET_MAX_FILE + 1], table[BUULSET_MAX_TABLE], evaluated[NODES], certificate[NODES];
static uint16_t order[NODES];

static int report(const char *name, size_t size, buulset_answer found) {
    buulset_answer proved = buulset_verify(table, size, certificate, NODES);
    printf("%s %d %zu %zu\n", name, found.value, found.root_move, found.count);
    return proved.refused == 0 && proved.value == found.value;
}

int main(int argc, char **argv) {
    FILE *in = argc > 1 ? fopen(argv[1], "rb") : stdin;
    if (!in) {
        perror(argv[1]);
        return 2;
    }
    size_t length = fread(file, 1, sizeof file, in);
    buulset_answer read = buulset_read(file, length, table, sizeof table);
    if (read.refused) {
        printf("refused %d %zu\n", read.refused, read.place);
        return 1;
    }
    size_t size = BUULSET_FRAME_SIZE * read.count;
    int good = 1;
    puts("method value move leaves");
    good &= report("ab", size, buulset_alphabeta(table, size, evaluated, NODES, certificate, NODES, order, NODES));
    good &= report("mtd", size, buulset_mtd(table, size, evaluated, NODES, certificate, NODES, order, NODES));
    good &= report("sss", size,
                   buulset_sss(table, size, evaluated, NODES, certificate, NODES, order, NODES, BUULSET_NO_LIMIT));
    return good ? 0 : 3;
}
