/* The linked library by results: every sample, every call, refusals, exact buffers from malloc (so that valgrind or a
 * sanitizer sees a byte too far), null with length 0.
 *   selftest SAMPLES   compares SAMPLES/NAME.tree with SAMPLES/NAME.expected and NAME.capitals */
#include "buulset.h"
#include <dirent.h>
#include <stdio.h>
#include <stdlib.h>
#include <string.h>

static int tests, failed;

static void expect(int good, int line, const char *what) {
    tests++;
    if (!good) {
        failed++;
        printf("line %d: %s\n", line, what);
    }
}
#define EXPECT(x) expect(!!(x), __LINE__, #x)

/* A file in exactly as much memory as it has bytes; its length, or SIZE_MAX where it cannot be read. */
static size_t slurp(const char *path, uint8_t **bytes) {
    FILE *f = fopen(path, "rb");
    *bytes = NULL;
    if (!f) return SIZE_MAX;
    fseek(f, 0, SEEK_END);
    size_t n = (size_t)ftell(f);
    rewind(f);
    *bytes = malloc(n ? n : 1);
    if (fread(*bytes, 1, n, f) != n) exit(2);
    fclose(f);
    return n;
}

static uint8_t *filled(size_t n, uint8_t with) {
    uint8_t *p = malloc(n ? n : 1);
    memset(p, with, n ? n : 1);
    return p;
}

static int all(const uint8_t *p, size_t n, uint8_t with) {
    for (size_t i = 0; i < n; i++)
        if (p[i] != with) return 0;
    return 1;
}

/* The searches with one list of parameters. */
static buulset_answer full_sss(const uint8_t *t, size_t n, uint8_t *e, size_t el, uint8_t *c, size_t cl, uint16_t *o,
                               size_t ol) {
    return buulset_sss(t, n, e, el, c, cl, o, ol, BUULSET_NO_LIMIT);
}

static buulset_answer from_zero(const uint8_t *t, size_t n, uint8_t *e, size_t el, uint8_t *c, size_t cl, uint16_t *o,
                                size_t ol) {
    return buulset_mtdf(t, n, 0, e, el, c, cl, o, ol);
}

static buulset_answer plain(const uint8_t *t, size_t n, uint8_t *e, size_t el, uint8_t *c, size_t cl, uint16_t *o,
                            size_t ol) {
    (void)o, (void)ol;
    return buulset_plain(t, n, e, el, c, cl);
}

typedef buulset_answer (*search)(const uint8_t *, size_t, uint8_t *, size_t, uint8_t *, size_t, uint16_t *, size_t);
static const search searches[] = {plain, buulset_alphabeta, buulset_mtd, from_zero, full_sss};

/* An accepted table of n nodes, with what is lent to the calls on it. */
typedef struct lent {
    const uint8_t *table;
    size_t n, size, leaves;
    uint8_t *marks, *flags;
    uint16_t *order;
} lent;

static buulset_answer searched(const lent *t, int which, size_t marks, size_t order) {
    return searches[which](t->table, t->size, t->marks, marks, t->flags, t->n, t->order, order);
}

static buulset_answer verified(const lent *t) {
    return buulset_verify(t->table, t->size, t->flags, t->n);
}

/* One search: its marks, list and certificate, and short buffers, after which nothing is written. Gives its value. */
static int32_t one_search(const lent *t, int which) {
    size_t n = t->n, marked = 0;
    memset(t->order, 0xFF, n * sizeof *t->order);
    buulset_answer r = searched(t, which, n, n);
    EXPECT(!r.refused && !r.spent);
    for (size_t k = 0; k < n; k++) marked += t->marks[k];
    EXPECT(marked == (which == 0 ? t->leaves : r.count));
    for (size_t k = 0; k < n; k++)
        EXPECT(k < r.count ? t->order[k] < n && t->marks[t->order[k]] : t->order[k] == 0xFFFF);
    EXPECT(verified(t).value == r.value && !verified(t).refused);
    memset(t->marks, 7, n);
    memset(t->flags, 7, n);
    buulset_answer no = searched(t, which, n - 1, n);
    EXPECT(no.refused == BUULSET_SHORT_BUFFER && no.place == 0 && all(t->marks, n, 7) && all(t->flags, n, 7));
    EXPECT(!strcmp(buulset_meaning(no.refused), "a lent buffer is too short"));
    if (which > 0) {
        no = searched(t, which, n, n - 1);
        EXPECT(no.refused == BUULSET_SHORT_BUFFER && all(t->marks, n, 7) && all(t->flags, n, 7));
    }
    searched(t, which, n, n);
    return r.value;
}

/* The best line: a path of nodes in both trees of the certificate that SSS* left, and a short list, after which nothing
 * is written. */
static void best_line(const lent *t, int32_t value) {
    size_t n = t->n, move = searched(t, 4, n, n).root_move, k;
    memset(t->order, 0xFF, n * sizeof *t->order);
    buulset_answer r = buulset_line(t->table, t->size, t->order, n - 1);
    EXPECT(r.refused == BUULSET_SHORT_BUFFER && r.place == 0 && r.count == 0);
    for (k = 0; k < n; k++) EXPECT(t->order[k] == 0xFFFF);
    r = buulset_line(t->table, t->size, t->order, n);
    EXPECT(!r.refused && !r.spent && r.value == value && r.root_move == move && r.steps == 0);
    EXPECT(r.count > 0 && r.count <= BUULSET_MAX_DEPTH + 1 && t->order[0] == 0 && (r.count == 1 || t->order[1] == move));
    for (k = 0; k < n; k++) {
        if (k >= r.count) {
            EXPECT(t->order[k] == 0xFFFF);
            continue;
        }
        EXPECT(t->flags[t->order[k]] == BUULSET_IN_BOTH);
        buulset_children_of children = buulset_children(t->table, t->size, t->order[k]);
        if (k + 1 < r.count) EXPECT(t->order[k + 1] - children.first < children.count);
        else EXPECT(children.count == 0);
    }
}

/* A certificate that is accepted, as the last search left it, beside one that is not: what a spent run leaves. */
static void certificates(const lent *t) {
    size_t n = t->n;
    uint8_t *good = filled(n, 7);
    memcpy(good, t->flags, n);
    buulset_choice choice = buulset_shorter(t->table, t->size, good, n, t->flags, n);
    EXPECT(!choice.refused && choice.chosen == 1 && choice.count == n);
    memset(t->flags, 7, n);
    buulset_answer r = buulset_sss(t->table, t->size, t->marks, n, t->flags, n, t->order, n, 0);
    EXPECT(!r.refused && r.spent == 1 && r.value == BUULSET_NOTHING_YET && r.count == 0);
    EXPECT(all(t->marks, n, 0) && all(t->flags, n, 7));
    EXPECT(verified(t).refused == BUULSET_WRONG_FLAG);
    choice = buulset_shorter(t->table, t->size, t->flags, n, good, n);
    EXPECT(!choice.refused && choice.chosen == 2 && choice.count == n);
    choice = buulset_shorter(t->table, t->size, t->flags, n, t->flags, n);
    EXPECT(choice.refused == BUULSET_WRONG_FLAG && !choice.chosen && !choice.count);
    free(good);
}

/* The table written, which gives the file that it was read from, and read back; then filled. */
static void written_and_filled(const lent *t, const uint8_t *file, size_t length) {
    size_t n = t->n, size = t->size;
    uint8_t *written = filled(BUULSET_LINE_SIZE * n + 3, 7), *again = filled(size, 7);
    buulset_answer r = buulset_write(t->table, size, written, BUULSET_LINE_SIZE * n + 3);
    EXPECT(!r.refused && r.count == BUULSET_LINE_SIZE * n && all(written + r.count, 3, 7));
    EXPECT(memcmp(written, file, length) == 0);
    EXPECT(buulset_read(written, r.count, again, size).count == n && memcmp(again, t->table, size) == 0);
    EXPECT(buulset_read(written, r.count, again, size - 1).refused == BUULSET_SHORT_BUFFER);
    buulset_file_line line = buulset_read_line(written, r.count, 0);
    EXPECT(line.read == 1 && line.at == 13 && memcmp(line.bytes, t->table, 6) == 0);
    r = buulset_fill(again, size);
    EXPECT(!r.refused && r.count == t->leaves);
    r = buulset_alphabeta(again, size, t->marks, n, t->flags, n, t->order, n);
    EXPECT(r.count == t->leaves);
    free(written), free(again);
}

/* The table grafted onto each of its nodes. */
static void grafts(const lent *t) {
    size_t size = t->size;
    for (size_t k = 0; k < t->n; k++) {
        uint8_t *result = filled(2 * size, 7);
        buulset_answer r = buulset_graft(t->table, size, k, t->table, size, result, 2 * size);
        if (!r.refused) {
            EXPECT(r.count == 2 * t->n - 1 && buulset_check(result, 6 * r.count).count == r.count);
            EXPECT(all(result + 6 * r.count, 6, 7));
        } else {
            EXPECT(r.refused == BUULSET_NO_MAX_LEAF || r.refused == BUULSET_TOO_LARGE);
        }
        free(result);
    }
}

/* Every call on an accepted table of n nodes, with the file that it was read from. */
static void accepted(const uint8_t *table, size_t n, const uint8_t *file, size_t length) {
    lent t = {table, n, BUULSET_FRAME_SIZE * n, 0, filled(n, 7), filled(n, 7), malloc(n * sizeof(uint16_t))};
    size_t next = 1; /* the children are all nodes behind the root, in their order */
    for (size_t k = 0; k < n; k++) {
        buulset_children_of children = buulset_children(table, t.size, k);
        EXPECT(children.first == (children.count ? next : 0));
        next += children.count;
        t.leaves += children.count == 0;
    }
    EXPECT(next == n);
    int32_t value = one_search(&t, 0);
    for (int which = 1; which < 5; which++) EXPECT(one_search(&t, which) == value);
    best_line(&t, value);
    EXPECT(!buulset_least_value(table, t.size, n - 1, value).refused); /* the last node is a leaf */
    certificates(&t);
    written_and_filled(&t, file, length);
    grafts(&t);
    free(t.marks), free(t.flags), free(t.order);
}

/* SAMPLES/NAME.tree, of which `name` is everything before the ending, against what is stored beside it. */
static void sample(const char *name) {
    char path[4096];
    uint8_t *file, *want, *table = malloc(BUULSET_MAX_TABLE), *converted = malloc(BUULSET_MAX_FILE);
    snprintf(path, sizeof path, "%s.tree", name);
    size_t n = slurp(path, &file);
    snprintf(path, sizeof path, "%s.expected", name);
    size_t w = slurp(path, &want);
    if (!file || !want) {
        perror(path);
        exit(2);
    }
    buulset_text text = buulset_report(file, n);
    EXPECT(text.length == w && !memcmp(text.bytes, want, w) && all(text.bytes + w, sizeof text.bytes - w, 0));
    buulset_answer r = buulset_read(file, n, table, BUULSET_MAX_TABLE);
    if (r.refused) {
        text = buulset_refused(r.refused, r.place);
        EXPECT(text.length == w && !memcmp(text.bytes, want, w));
        buulset_answer no = buulset_capitals(file, n, converted, BUULSET_MAX_FILE);
        if (r.refused != BUULSET_SMALL_LETTER) { /* its line is laid down, and told from a file */
            EXPECT(no.refused == r.refused && no.place == r.place && no.count == w && !memcmp(converted, want, w));
            EXPECT(buulset_capitals(file, n, converted, w - 1).count == 0);
        }
    } else {
        accepted(table = realloc(table, 6 * r.count), r.count, file, n);
    }
    free(want);
    snprintf(path, sizeof path, "%s.capitals", name);
    w = slurp(path, &want);
    if (w != SIZE_MAX) {
        r = buulset_convert(file, n, converted, BUULSET_MAX_FILE);
        EXPECT(!r.refused && r.count == w && !memcmp(converted, want, w));
        r = buulset_capitals(file, n, converted, BUULSET_MAX_FILE);
        EXPECT(!r.refused && r.count == w && !memcmp(converted, want, w));
    }
    free(file), free(want), free(table), free(converted);
}

/* The ends of the range: no memory, the greatest numbers. */
static void ends_of_the_range(void) {
    static const uint8_t leaf[6] = {0};
    uint8_t scratch[6] = {0};
    EXPECT(buulset_read(NULL, 0, NULL, 0).refused == BUULSET_EMPTY);
    EXPECT(buulset_convert(NULL, 0, NULL, 0).refused == BUULSET_EMPTY);
    EXPECT(buulset_capitals(NULL, 0, NULL, 0).refused == BUULSET_SHORT_BUFFER);
    EXPECT(buulset_capitals(NULL, 0, NULL, 0).count == 0);
    EXPECT(buulset_check(NULL, 0).refused == BUULSET_EMPTY);
    EXPECT(buulset_write(leaf, 6, NULL, 0).refused == BUULSET_SHORT_BUFFER);
    EXPECT(buulset_alphabeta(leaf, 6, NULL, 0, NULL, 0, NULL, 0).refused == BUULSET_SHORT_BUFFER);
    EXPECT(buulset_sss(leaf, 6, NULL, 0, NULL, 0, NULL, 0, SIZE_MAX).refused == BUULSET_SHORT_BUFFER);
    EXPECT(buulset_line(leaf, 6, NULL, 0).refused == BUULSET_SHORT_BUFFER);
    EXPECT(buulset_line(NULL, 0, NULL, 0).refused == BUULSET_EMPTY);
    EXPECT(buulset_verify(leaf, 6, NULL, 0).refused == BUULSET_SHORT_BUFFER);
    EXPECT(buulset_shorter(leaf, 6, NULL, 0, NULL, 0).refused == BUULSET_SHORT_BUFFER);
    EXPECT(buulset_graft(leaf, 6, 0, leaf, 6, NULL, 0).refused == BUULSET_SHORT_BUFFER);
    EXPECT(buulset_graft(leaf, 6, SIZE_MAX, leaf, 6, NULL, 0).place == SIZE_MAX);
    EXPECT(buulset_fill(NULL, 0).refused == BUULSET_EMPTY);
    EXPECT(buulset_fill(scratch, 6).count == 1);
    EXPECT(buulset_report(NULL, 0).length == 12);
    EXPECT(buulset_check((const uint8_t *)"", SIZE_MAX).refused == BUULSET_TOO_LONG); /* before a byte is read */
    EXPECT(buulset_children(leaf, 6, SIZE_MAX).count == 0);
    EXPECT(buulset_version() == BUULSET_VERSION);
    EXPECT(buulset_read_line(leaf, 6, SIZE_MAX).read == 0 && buulset_read_line(leaf, 6, SIZE_MAX).at == SIZE_MAX);
    EXPECT(buulset_digit('F') == 15 && buulset_digit('f') == 15 && buulset_digit('G') == 16);
    EXPECT(buulset_least_value(leaf, 6, 0, -32000).value == -32000);
    EXPECT(buulset_least_value(leaf, 6, 0, INT32_MIN).refused == BUULSET_OUT_OF_RANGE);
    EXPECT(buulset_least_value(leaf, 6, 1, 0).refused == BUULSET_NO_LEAF);
    EXPECT(buulset_least_leaves(2, 3).count == 5 && buulset_least_leaves(40, 18).count == 65535);
    EXPECT(buulset_least_leaves(0, 99).refused == BUULSET_WRONG_WIDTH);
    EXPECT(buulset_least_leaves(SIZE_MAX, 0).refused == BUULSET_WRONG_WIDTH);
    EXPECT(buulset_least_leaves(1, 19).refused == BUULSET_WRONG_DEPTH);
}

int main(int argc, char **argv) {
    if (argc < 2) return 2;
    int files = 0;
    DIR *d = opendir(argv[1]);
    for (struct dirent *e; d && (e = readdir(d));) {
        size_t l = strlen(e->d_name);
        if (l < 5 || strcmp(e->d_name + l - 5, ".tree")) continue;
        char name[2048];
        snprintf(name, sizeof name, "%s/%.*s", argv[1], (int)(l - 5), e->d_name);
        sample(name);
        files++;
    }
    if (d) closedir(d);
    EXPECT(files > 0);
    ends_of_the_range();
    printf("%d files, %d tests, %d failed\n", files, tests, failed);
    return failed != 0;
}
