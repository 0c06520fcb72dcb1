/* The public calls with no needless work, in plain C: the same answers and the same lent buffers as the library's, and
   nothing computed, cleared or looked at that these do not need. One table lookup a digit, no vectors, no assembler.
   Written from the papers; nothing is shared with the crates but the header. Compiled with -O2. */
#include "lean.h"
#include <stdbool.h>
#include <stdio.h>
#include <string.h>

typedef buulset_answer answer;

enum {
    FRAME = BUULSET_FRAME_SIZE, LINE = BUULSET_LINE_SIZE, DIGITS = LINE - 1, NODES = BUULSET_MAX_NODES,
    CHILDREN = BUULSET_MAX_CHILDREN, MAX_DEPTH = BUULSET_MAX_DEPTH, VALUE = BUULSET_MAX_VALUE, WIN = BUULSET_WIN,
    LEAST = -BUULSET_NOTHING_YET, GREATEST = BUULSET_NOTHING_YET
};

/* A position is twice a depth, plus 1 where Min moves; the score is that of a leaf. */
struct node {
    uint16_t first, parent;
    int16_t score;
    uint8_t count, position;
};

static answer no(int number, size_t place) { return (answer){ .refused = number, .place = place }; }

static inline int greater(int a, int b) { return a > b ? a : b; }
static inline int lesser(int a, int b) { return a < b ? a : b; }
static inline size_t smaller(size_t a, size_t b) { return a < b ? a : b; }
static inline bool max_moves(const struct node *node) { return node->position % 2 == 0; }
static inline int depth_of(int position) { return position / 2; }
static inline int child_position(int position, bool same_mover) { return (position + 2) ^ !same_mover; }

/* What a value counts at a depth. */
static inline int score_at(int value, int depth) {
    return value >= WIN ? value - depth : value <= -WIN ? value + depth : value;
}

/* ---- questions 1 to 9 */

/* The first of the questions 4 to 7 that the node k gets a "no" to, or 0. */
static int question(size_t k, size_t first, int count, int byte_3, int value, size_t next) {
    if (byte_3 > (count && k)) return 4;
    if (count > CHILDREN) return 5;
    if (count == 0 ? first != 0 : first != next || first <= k) return 6;
    return (count == 0 ? value < -VALUE || value > VALUE : value != 0) ? 7 : 0;
}

/* Whether the node may get a "no" to one of these: a leaf does, and an inner node may. */
static inline bool doubtful(size_t k, size_t first, int count, int byte_3, int value, size_t next) {
    return count == 0 ? first || byte_3 || value < -VALUE || value > VALUE
                      : first != next || first <= k || byte_3 || count > CHILDREN || value;
}

static answer check_size(size_t table_len) {
    if (table_len == 0) return no(1, 0);
    if (table_len > BUULSET_MAX_TABLE) return no(2, 0);
    if (table_len % FRAME) return no(3, table_len / FRAME);
    return (answer){ .count = table_len / FRAME };
}

static inline int number_at(const uint8_t *frame) { return frame[0] << 8 | frame[1]; }

/* Questions 1 to 9; the depth of the last node. Nodes of one depth are consecutive, and end where the children of the
   first of them begin. */
static answer check_table(const uint8_t *table, size_t table_len, int *deepest) {
    answer sized = check_size(table_len);
    size_t next = 1, end = 1, too_deep = 0;
    int depth = 0;
    if (sized.refused) return sized;
    for (size_t k = 0; k < sized.count; k++) {
        const uint8_t *frame = table + FRAME * k;
        size_t first = number_at(frame);
        int count = frame[2], value = (int16_t)number_at(frame + 4);
        if (doubtful(k, first, count, frame[3], value, next)) {
            int number = question(k, first, count, frame[3], value, next);
            if (number) return no(number, k);
        }
        if (k == end) {
            if (++depth == MAX_DEPTH + 1) too_deep = k;
            end = next;
        }
        next += count;
    }
    if (next != sized.count) return no(8, sized.count);
    if (too_deep) return no(9, too_deep);
    *deepest = depth;
    return sized;
}

answer c_check(const uint8_t *table, size_t table_len) {
    int deepest;
    return check_table(table, table_len, &deepest);
}

/* The parents, found on the way: the children of the node `parent` end before `end`, and stand at the position `below`
   where the other side moves. */
struct way {
    size_t parent, end, next, too_deep;
    int below;
};

/* Before the root: its position is 0. */
static const struct way beginning = { -1, 1, 1, 0, 0 };

/* Goes on to the next node with children. */
static inline void next_parent(const struct node *nodes, struct way *way, size_t k) {
    while (nodes[++way->parent].count == 0) continue;
    way->end += nodes[way->parent].count;
    way->below = child_position(nodes[way->parent].position, false);
    if (way->below > 2 * MAX_DEPTH + 1 && !way->too_deep) way->too_deep = k;
}

/* Puts the node k down, where it has a parent: all that a search needs of it. */
static inline void put_node(struct node *nodes, struct way *way, size_t k, size_t first, int count, int byte_3,
                            int value) {
    if (k == way->end && k < way->next) next_parent(nodes, way, k);
    int position = way->below ^ byte_3;
    nodes[k] = (struct node){ first, way->parent, score_at(value, depth_of(position)), count, position };
    way->next += count;
}

static answer end_of_way(struct way way, size_t n) {
    if (way.next != n) return no(8, n);
    return way.too_deep ? no(9, way.too_deep) : (answer){ .count = n };
}

/* Questions 1 to 9, and the nodes. */
static answer scan(const uint8_t *table, size_t table_len, struct node *nodes) {
    answer sized = check_size(table_len);
    struct way way = beginning;
    if (sized.refused) return sized;
    for (size_t k = 0; k < sized.count; k++) {
        const uint8_t *frame = table + FRAME * k;
        size_t first = number_at(frame);
        int count = frame[2], value = (int16_t)number_at(frame + 4);
        if (doubtful(k, first, count, frame[3], value, way.next)) {
            int number = question(k, first, count, frame[3], value, way.next);
            if (number) return no(number, k);
        }
        put_node(nodes, &way, k, first, count, frame[3], value);
    }
    return end_of_way(way, sized.count);
}

/* The same, and 10; `room` is the least that is lent. */
static answer scan_for(const uint8_t *table, size_t table_len, size_t room, struct node *nodes) {
    answer asked = scan(table, table_len, nodes);
    return asked.refused || room >= asked.count ? asked : no(10, 0);
}

/* ---- files */

enum { SMALL = 16, OTHER = 32 };

#define CAPITALS_AND_NUMERALS                                                                                          \
    ['0'] = 0, ['1'] = 1, ['2'] = 2, ['3'] = 3, ['4'] = 4, ['5'] = 5, ['6'] = 6, ['7'] = 7, ['8'] = 8, ['9'] = 9,        \
    ['A'] = 10, ['B'] = 11, ['C'] = 12, ['D'] = 13, ['E'] = 14, ['F'] = 15, [0 ... '0' - 1] = OTHER,                     \
    ['9' + 1 ... 'A' - 1] = OTHER, ['F' + 1 ... 'a' - 1] = OTHER, ['f' + 1 ... 255] = OTHER

/* The number of a hexadecimal digit, OTHER for any other byte; for a small letter SMALL, or its number too. */
static const uint8_t strict[256] = { CAPITALS_AND_NUMERALS, ['a' ... 'f'] = SMALL };
static const uint8_t lenient[256] = { CAPITALS_AND_NUMERALS, ['a'] = 10, ['b'] = 11, ['c'] = 12, ['d'] = 13, ['e'] = 14,
                                      ['f'] = 15 };

/* The number of four digits, where `kinds` has neither SMALL nor OTHER. */
static inline int four(const uint8_t *digit, const uint8_t *line, int *kinds) {
    int a = digit[line[0]], b = digit[line[1]], c = digit[line[2]], d = digit[line[3]];
    *kinds |= a | b | c | d;
    return a << 12 | b << 8 | c << 4 | d;
}

struct decoded {
    int first, middle, value, kinds;
};

/* The line k; its kinds have OTHER where it is none. */
static inline struct decoded decode_line(const uint8_t *digit, const uint8_t *file, size_t file_len, size_t k) {
    const uint8_t *line = file + LINE * k;
    size_t left = file_len - LINE * k;
    struct decoded d = { .kinds = 0 };
    if (left <= DIGITS ? left != DIGITS : line[DIGITS] != '\n') return (struct decoded){ .kinds = OTHER };
    d.first = four(digit, line, &d.kinds);
    d.middle = four(digit, line + 4, &d.kinds);
    d.value = (int16_t)four(digit, line + 8, &d.kinds);
    return d;
}

/* What is found on the way through a file: the first line with a small letter, and the first "no" to 4 to 7. */
struct reading {
    size_t small;
    answer first;
};

/* Whether the questions 4 to 7 are still asked, with the node's "no" noted. */
static inline bool asked_on(struct reading *r, size_t k, struct decoded d, size_t next) {
    int count = d.middle >> 8, byte_3 = d.middle & 255;
    if (d.kinds & SMALL && r->small == NODES) r->small = k;
    if (r->first.refused || r->small < NODES) return false;
    if (doubtful(k, d.first, count, byte_3, d.value, next)) {
        int number = question(k, d.first, count, byte_3, d.value, next);
        if (number) r->first = no(number, k);
    }
    return true;
}

/* Questions 1 to 3, 16 and 4 to 9 of a file, and its frames. */
static inline answer read_frames(const uint8_t *digit, const uint8_t *file, size_t file_len, uint8_t *frames) {
    struct reading r = { NODES, { 0 } };
    size_t k = 0, next = 1, end = 1, too_deep = 0;
    int depth = 0;
    if (file_len == 0) return no(1, 0);
    if (file_len > BUULSET_MAX_FILE) return no(2, 0);
    for (; LINE * k < file_len; k++) {
        struct decoded d = decode_line(digit, file, file_len, k);
        uint8_t *frame = frames + FRAME * k;
        if (d.kinds & OTHER) return no(3, k);
        if (!asked_on(&r, k, d, next)) continue;
        frame[0] = d.first >> 8, frame[1] = d.first, frame[2] = d.middle >> 8, frame[3] = d.middle;
        frame[4] = d.value >> 8, frame[5] = d.value;
        if (k == end) {
            if (++depth == MAX_DEPTH + 1) too_deep = k;
            end = next;
        }
        next += d.middle >> 8;
    }
    if (r.small < NODES) return no(16, r.small);
    if (r.first.refused) return r.first;
    if (next != k) return no(8, k);
    return too_deep ? no(9, too_deep) : (answer){ .count = k };
}

answer c_read(const uint8_t *file, size_t file_len, uint8_t *table, size_t table_len) {
    uint8_t frames[BUULSET_MAX_TABLE];
    answer read = read_frames(strict, file, file_len, frames);
    if (read.refused) return read;
    if (table_len < FRAME * read.count) return no(10, 0);
    memcpy(table, frames, FRAME * read.count);
    return read;
}

#define PAIRS(a)                                                                                                       \
    { a, '0' }, { a, '1' }, { a, '2' }, { a, '3' }, { a, '4' }, { a, '5' }, { a, '6' }, { a, '7' }, { a, '8' },         \
    { a, '9' }, { a, 'A' }, { a, 'B' }, { a, 'C' }, { a, 'D' }, { a, 'E' }, { a, 'F' }

static const uint8_t digits[256][2] = {
    PAIRS('0'), PAIRS('1'), PAIRS('2'), PAIRS('3'), PAIRS('4'), PAIRS('5'), PAIRS('6'), PAIRS('7'),
    PAIRS('8'), PAIRS('9'), PAIRS('A'), PAIRS('B'), PAIRS('C'), PAIRS('D'), PAIRS('E'), PAIRS('F'),
};

static answer write_lines(const uint8_t *table, size_t n, uint8_t *file, size_t file_len) {
    if (file_len < LINE * n) return no(10, 0);
    for (size_t k = 0; k < n; k++, table += FRAME, file += LINE) {
        for (int i = 0; i < FRAME; i++) memcpy(file + 2 * i, digits[table[i]], 2);
        file[DIGITS] = '\n';
    }
    return (answer){ .count = LINE * n };
}

answer c_write(const uint8_t *table, size_t table_len, uint8_t *file, size_t file_len) {
    answer asked = c_check(table, table_len);
    return asked.refused ? asked : write_lines(table, asked.count, file, file_len);
}

answer c_convert(const uint8_t *file, size_t file_len, uint8_t *converted, size_t converted_len) {
    uint8_t frames[BUULSET_MAX_TABLE];
    answer read = read_frames(lenient, file, file_len, frames);
    return read.refused ? read : write_lines(frames, read.count, converted, converted_len);
}

/* ---- bounds and certificates */

struct bounds {
    int16_t low, high;
};

/* What a search gives; its leaves stand in its list. */
struct found {
    int value;
    size_t move, leaves, steps;
    bool spent;
};

/* The bounds of each node on the way to an evaluated leaf; `visited` tells which these are. Each search evaluates the
   leaves of a node's first children first, so the visited children come first. */
static void fill_bounds(const struct node *nodes, size_t n, const uint16_t *order, size_t leaves, uint8_t *visited,
                        struct bounds *of) {
    memset(visited, 0, n);
    visited[0] = 1;
    for (size_t i = 0; i < leaves; i++)
        for (int k = order[i]; !visited[k]; k = nodes[k].parent) visited[k] = 1;
    for (size_t k = n; k-- > 0;) {
        const struct node *node = nodes + k;
        int low = node->score, high = node->score, c = node->first, end = c + node->count;
        if (!visited[k]) continue;
        if (node->count && max_moves(node)) {
            for (low = high = LEAST; c < end && visited[c]; c++)
                low = greater(low, of[c].low), high = greater(high, of[c].high);
            if (c < end) high = GREATEST;
        } else if (node->count) {
            for (low = high = GREATEST; c < end && visited[c]; c++)
                low = lesser(low, of[c].low), high = lesser(high, of[c].high);
            if (c < end) low = LEAST;
        }
        of[k] = (struct bounds){ low, high };
    }
}

/* The first child whose bound on the side that moves is the node's. */
static int deciding(const struct node *node, const struct bounds *of, struct bounds bounds) {
    int c = node->first;
    if (max_moves(node))
        while (of[c].low != bounds.low) c++;
    else
        while (of[c].high != bounds.high) c++;
    return c;
}

/* Flags: all children of a Max node in the max tree and of a Min node in the min tree, else the deciding one. */
static void write_certificate(const struct node *nodes, size_t n, const uint16_t *order, size_t leaves,
                              uint8_t *certificate) {
    uint8_t visited[NODES];
    struct bounds of[NODES];
    fill_bounds(nodes, n, order, leaves, visited, of);
    memset(certificate, 0, n);
    certificate[0] = BUULSET_IN_BOTH;
    for (size_t k = 0; k < n; k++) {
        const struct node *node = nodes + k;
        if (!certificate[k] || !node->count) continue;
        int all = certificate[k] & (max_moves(node) ? BUULSET_IN_MAX : BUULSET_IN_MIN);
        if (all) memset(certificate + node->first, all, node->count);
        if (certificate[k] != all) certificate[deciding(node, of, of[k])] = certificate[k];
    }
}

static answer answered(const struct node *nodes, size_t n, struct found found, uint8_t *evaluated,
                       uint8_t *certificate, const uint16_t *order) {
    memset(evaluated, 0, n);
    for (size_t i = 0; i < found.leaves; i++) evaluated[order[i]] = 1;
    if (!found.spent) write_certificate(nodes, n, order, found.leaves, certificate);
    return (answer){ .spent = found.spent, .value = found.value, .count = found.leaves, .root_move = found.move,
                     .steps = found.steps };
}

/* ---- alpha-beta */

struct visits {
    const struct node *nodes;
    uint16_t *order;
    size_t leaves;
};

static int alpha_beta(struct visits *v, int k, int alpha, int beta) {
    const struct node *node = v->nodes + k;
    int c = node->first, end = c + node->count;
    if (node->count == 0) {
        v->order[v->leaves++] = k;
        return node->score;
    }
    if (max_moves(node)) {
        for (; c < end && alpha < beta; c++) alpha = greater(alpha, alpha_beta(v, c, alpha, beta));
        return alpha;
    }
    for (; c < end && alpha < beta; c++) beta = lesser(beta, alpha_beta(v, c, alpha, beta));
    return beta;
}

/* The move is the last child that raised the root. */
static struct found run_alpha_beta(const struct node *nodes, uint16_t *order) {
    struct visits v = { nodes, order, 0 };
    struct found found = { .value = nodes->count ? LEAST : alpha_beta(&v, 0, LEAST, GREATEST) };
    for (int c = 1; c <= nodes->count; c++) {
        int value = alpha_beta(&v, c, found.value, GREATEST);
        if (value > found.value) found.value = value, found.move = c;
    }
    found.leaves = v.leaves;
    return found;
}

answer c_alphabeta(const uint8_t *table, size_t table_len, uint8_t *evaluated, size_t evaluated_len,
                   uint8_t *certificate, size_t certificate_len, uint16_t *order, size_t order_len) {
    struct node nodes[NODES];
    answer asked = scan_for(table, table_len, smaller(smaller(evaluated_len, certificate_len), order_len), nodes);
    if (asked.refused) return asked;
    return answered(nodes, asked.count, run_alpha_beta(nodes, order), evaluated, certificate, order);
}

/* ---- the plain engine */

static void fill_values(const struct node *nodes, size_t n, int16_t *values) {
    for (size_t k = n; k-- > 0;) {
        const struct node *node = nodes + k;
        int best = node->score, c = node->first, end = c + node->count;
        if (node->count) best = values[c++];
        if (max_moves(node))
            for (; c < end; c++) best = greater(best, values[c]);
        else
            for (; c < end; c++) best = lesser(best, values[c]);
        values[k] = best;
    }
}

answer c_plain(const uint8_t *table, size_t table_len, uint8_t *evaluated, size_t evaluated_len, uint8_t *certificate,
               size_t certificate_len) {
    struct node nodes[NODES];
    int16_t values[NODES];
    answer asked = scan_for(table, table_len, smaller(evaluated_len, certificate_len), nodes);
    size_t n = asked.count, move = nodes->count != 0;
    if (asked.refused) return asked;
    fill_values(nodes, n, values);
    memset(certificate, 0, n);
    certificate[0] = BUULSET_IN_BOTH;
    for (size_t k = 0; k < n; k++) {
        const struct node *node = nodes + k;
        int c = node->first;
        evaluated[k] = node->count == 0;
        if (!certificate[k] || !node->count) continue;
        int all = certificate[k] & (max_moves(node) ? BUULSET_IN_MAX : BUULSET_IN_MIN);
        if (all) memset(certificate + node->first, all, node->count);
        if (certificate[k] == all) continue;
        while (values[c] != values[k]) c++;
        certificate[c] = certificate[k];
        if (k == 0) move = c;
    }
    return (answer){ .value = values[0], .root_move = move };
}

/* ---- MTD */

/* highs[k] has NOT_BELOW added once a pass found the node k not below; before it is tried it is GREATEST. The first
   skipped[k] children of a Min node are not below. */
enum { NOT_BELOW = 1 << 20, KNOWN = NOT_BELOW + LEAST };

struct passes {
    struct visits v;
    int highs[NODES];
    uint8_t skipped[NODES];
};

static bool below(struct passes *p, int k, int test);

static bool below_min(struct passes *p, int k, int test) {
    const struct node *node = p->v.nodes + k;
    int *highs = p->highs, c = node->first + p->skipped[k], end = node->first + node->count;
    for (; c < end; c++)
        if (highs[c] < test || (highs[c] < KNOWN && below(p, c, test))) {
            p->skipped[k] = c - node->first;
            highs[k] = highs[c];
            return true;
        }
    highs[k] += NOT_BELOW;
    return false;
}

static bool below(struct passes *p, int k, int test) {
    const struct node *node = p->v.nodes + k;
    int *highs = p->highs, c = node->first, end = c + node->count, most = LEAST;
    if (node->count == 0) {
        bool evaluated = highs[k] != GREATEST;
        if (!evaluated) p->v.order[p->v.leaves++] = k, highs[k] = node->score;
        if (!evaluated && node->score < test) return true;
        highs[k] += NOT_BELOW;
        return false;
    }
    if (!max_moves(node)) return below_min(p, k, test);
    for (; c < end; c++) {
        if (highs[c] >= test && (highs[c] >= KNOWN || !below(p, c, test))) {
            highs[k] += NOT_BELOW;
            return false;
        }
        most = greater(most, highs[c]);
    }
    highs[k] = most;
    return true;
}

/* The move is the first child that the last pass does not find below. */
static struct found run_mtd(const struct node *nodes, size_t n, uint16_t *order) {
    struct passes p;
    struct found found = { .value = GREATEST, .steps = 1 };
    p.v = (struct visits){ nodes, order, 0 };
    memset(p.skipped, 0, n);
    for (size_t k = 0; k < n; k++) p.highs[k] = GREATEST;
    for (; below(&p, 0, found.value); found.steps++) found.value = p.highs[0];
    if (nodes->count)
        for (found.move = 1; p.highs[found.move] < found.value;) found.move++;
    found.leaves = p.v.leaves;
    return found;
}

answer c_mtd(const uint8_t *table, size_t table_len, uint8_t *evaluated, size_t evaluated_len, uint8_t *certificate,
             size_t certificate_len, uint16_t *order, size_t order_len) {
    struct node nodes[NODES];
    answer asked = scan_for(table, table_len, smaller(smaller(evaluated_len, certificate_len), order_len), nodes);
    if (asked.refused) return asked;
    return answered(nodes, asked.count, run_mtd(nodes, asked.count, order), evaluated, certificate, order);
}

/* ---- MTD(f) */

/* Every test to come lies between the root's bounds, so the first skipped[k] children are left out: of a Max node those
   whose high is less, of a Min node those whose low is not. The bounds are right but for what lies outside the root's. */
struct tests {
    struct visits v;
    struct bounds of[NODES], root;
    uint8_t skipped[NODES];
};

static bool not_below(struct tests *t, int k, int test);

static bool not_below_max(struct tests *t, int k, int test) {
    const struct node *node = t->v.nodes + k;
    struct bounds *of = t->of;
    int c = node->first + t->skipped[k], end = node->first + node->count, low = LEAST, high = LEAST;
    bool answer = false;
    while (c < end - 1 && of[c].high < t->root.low) c++;
    t->skipped[k] = c - node->first;
    for (; c < end && !answer; c++) {
        answer = of[c].high >= test && (of[c].low >= test || not_below(t, c, test));
        low = greater(low, of[c].low), high = greater(high, of[c].high);
    }
    for (; c < end; c++) low = greater(low, of[c].low), high = greater(high, of[c].high);
    of[k] = (struct bounds){ low, high };
    return answer;
}

static bool not_below_min(struct tests *t, int k, int test) {
    const struct node *node = t->v.nodes + k;
    struct bounds *of = t->of;
    int c = node->first + t->skipped[k], end = node->first + node->count, low = GREATEST, high = GREATEST;
    bool answer = true;
    while (c < end - 1 && of[c].low >= t->root.high) c++;
    t->skipped[k] = c - node->first;
    for (; c < end && answer; c++) {
        answer = of[c].high >= test && (of[c].low >= test || not_below(t, c, test));
        low = lesser(low, of[c].low), high = lesser(high, of[c].high);
    }
    for (; c < end; c++) low = lesser(low, of[c].low), high = lesser(high, of[c].high);
    of[k] = (struct bounds){ low, high };
    return answer;
}

/* Of a node whose bounds do not tell. */
static bool not_below(struct tests *t, int k, int test) {
    const struct node *node = t->v.nodes + k;
    if (node->count) return (max_moves(node) ? not_below_max : not_below_min)(t, k, test);
    t->v.order[t->v.leaves++] = k;
    t->of[k] = (struct bounds){ node->score, node->score };
    return node->score >= test;
}

static inline int between(struct bounds of, int x) { return lesser(of.high, greater(of.low, x)); }

/* The move is the first child that is not below the value. */
static struct found run_mtdf(const struct node *nodes, size_t n, int start, uint16_t *order) {
    struct tests t;
    struct bounds *root = &t.root, *of = t.of;
    struct found found = { 0 };
    t.v = (struct visits){ nodes, order, 0 };
    *root = (struct bounds){ LEAST, GREATEST };
    memset(t.skipped, 0, n);
    for (size_t k = 0; k < n; k++) of[k] = *root;
    for (; root->low != root->high; found.steps++) {
        bool answer = not_below(&t, 0, lesser(root->high, greater(root->low + 1, start)));
        *root = (struct bounds){ between(*root, of->low), between(*root, of->high) };
        start = answer ? root->low + 1 : root->high;
    }
    found.value = root->low;
    if (nodes->count)
        for (int c = found.move = 1; of[c].high < found.value || (of[c].low < found.value && !not_below(&t, c, found.value));)
            found.move = ++c;
    found.leaves = t.v.leaves;
    return found;
}

answer c_mtdf(const uint8_t *table, size_t table_len, int32_t start, uint8_t *evaluated, size_t evaluated_len,
              uint8_t *certificate, size_t certificate_len, uint16_t *order, size_t order_len) {
    struct node nodes[NODES];
    answer asked = scan_for(table, table_len, smaller(smaller(evaluated_len, certificate_len), order_len), nodes);
    if (asked.refused) return asked;
    return answered(nodes, asked.count, run_mtdf(nodes, asked.count, start, order), evaluated, certificate, order);
}

/* ---- SSS* */

/* An entry is MERIT times the greatest merit at or below a node, as a number from 0, plus the child to go down to: at
   Max the leftmost child of the greatest merit, at Min the one with states. The child is 0 where the node has a state
   itself, and SOLVED is added where that is solved. */
enum { SOLVED = NODES, MERIT = 2 * NODES };

static inline uint32_t packed(int merit) { return (uint32_t)(merit - LEAST) * MERIT; }
static inline uint32_t merit_part(uint32_t entry) { return entry & -(uint32_t)MERIT; }
static inline int link_of(uint32_t entry) { return entry % NODES; }

/* Makes the entries above k anew while the greatest merit falls below that of the test; the node where it stays. */
static int refresh_ancestors(const struct node *nodes, uint32_t *front, int k, uint32_t test) {
    while (k != 0 && front[k] < test) {
        int up = nodes[k].parent, best = k;
        uint32_t merit = front[k];
        if (max_moves(nodes + up)) {
            int c = nodes[up].first, end = c + nodes[up].count;
            for (best = c, merit = front[c++] | (MERIT - 1); c < end; c++)
                if (front[c] > merit) best = c, merit = front[c] | (MERIT - 1);
        }
        front[up] = merit_part(merit) + best;
        k = up;
    }
    return k;
}

/* The node above k, whose state is solved, after its turn: it is solved, or its next child has a state. */
static int turn_solved(const struct node *nodes, uint32_t *front, int k, uint32_t test) {
    int up = nodes[k].parent;
    if (max_moves(nodes + up) || k + 1 == nodes[up].first + nodes[up].count) {
        front[up] = test + SOLVED;
    } else {
        front[k + 1] = test;
        front[up] = test + k + 1;
    }
    return up;
}

/* The move is the child that solves the root. */
static struct found run_sss(const struct node *nodes, uint16_t *order, size_t allowance) {
    uint32_t front[NODES], test = packed(GREATEST);
    struct found found = { 0 };
    front[0] = test;
    for (int k = 0;; found.steps++) {
        for (int link = link_of(front[k]); link; link = link_of(front[k])) k = link;
        const struct node *node = nodes + k;
        if (front[k] & SOLVED) {
            if (k == 0) break;
            if (node->parent == 0) found.move = k;
            k = turn_solved(nodes, front, k, test);
        } else if (node->count == 0) {
            uint32_t merit = packed(node->score);
            if (found.leaves == allowance) {
                found.spent = true;
                break;
            }
            order[found.leaves++] = k;
            front[k] = (merit < test ? merit : test) + SOLVED;
            k = refresh_ancestors(nodes, front, k, test);
            test = merit_part(front[0]);
        } else {
            int end = node->first + (max_moves(node) ? node->count : 1);
            for (int c = node->first; c < end; c++) front[c] = test;
            front[k] = test + node->first;
        }
    }
    found.value = (int)(test / MERIT) + LEAST;
    if (found.spent) found.move = 0;
    return found;
}

answer c_sss(const uint8_t *table, size_t table_len, uint8_t *evaluated, size_t evaluated_len, uint8_t *certificate,
             size_t certificate_len, uint16_t *order, size_t order_len, size_t allowance) {
    struct node nodes[NODES];
    answer asked = scan_for(table, table_len, smaller(smaller(evaluated_len, certificate_len), order_len), nodes);
    if (asked.refused) return asked;
    return answered(nodes, asked.count, run_sss(nodes, order, allowance), evaluated, certificate, order);
}

/* SSS*, and from the root down the deciding child. */
answer c_line(const uint8_t *table, size_t table_len, uint16_t *line, size_t line_len) {
    struct node nodes[NODES];
    uint16_t order[NODES];
    uint8_t visited[NODES];
    struct bounds of[NODES];
    answer asked = scan_for(table, table_len, line_len, nodes);
    if (asked.refused) return asked;
    struct found found = run_sss(nodes, order, NODES);
    struct bounds exact = { found.value, found.value };
    fill_bounds(nodes, asked.count, order, found.leaves, visited, of);
    size_t count = 0;
    for (int k = 0; line[count++] = k, nodes[k].count;) k = deciding(nodes + k, of, exact);
    return (answer){ .value = found.value, .root_move = found.move, .count = count };
}

/* ---- certificates */

/* Questions 10 to 14, and the value; how many leaves are flagged. The sums of a node's children have the members of the
   max tree, and SIDE times those of the min tree. */
enum { SIDE = 1 << 16 };

static answer verify_nodes(const struct node *nodes, size_t n, const uint8_t *flags, size_t flags_len,
                           size_t *flagged) {
    static const int members[] = { 0, 1, SIDE, SIDE + 1 };
    int greatest = LEAST, least = GREATEST;
    size_t broken_min = NODES;
    *flagged = 0;
    if (flags_len < n) return no(10, 0);
    for (size_t k = 0; k < n; k++)
        if (flags[k] > 3) return no(11, k);
    if (!(flags[0] & 1)) return no(12, 0);
    for (size_t k = 0; k < n; k++) {
        const struct node *node = nodes + k;
        int own = flags[k], sum = 0;
        if (node->count == 0) {
            if (!own) continue;
            ++*flagged;
            if (own & 1) greatest = greater(greatest, node->score);
            if (own & 2) least = lesser(least, node->score);
            continue;
        }
        for (int c = node->first, end = c + node->count; c < end; c++) sum += members[flags[c]];
        int all = max_moves(node) ? 1 : SIDE, one = SIDE + 1 - all;
        int due = (members[own] & all ? node->count * all : 0) + (members[own] & one);
        if (sum == due) continue;
        if (sum % SIDE != due % SIDE) return no(12, k);
        if (broken_min == NODES) broken_min = k;
    }
    if (!(flags[0] & 2)) return no(13, 0);
    if (broken_min < NODES) return no(13, broken_min);
    return greatest != least ? no(14, 0) : (answer){ .value = greatest };
}

answer c_verify(const uint8_t *table, size_t table_len, const uint8_t *certificate, size_t certificate_len) {
    struct node nodes[NODES];
    size_t flagged;
    answer asked = scan(table, table_len, nodes);
    return asked.refused ? asked : verify_nodes(nodes, asked.count, certificate, certificate_len, &flagged);
}

buulset_choice c_shorter(const uint8_t *table, size_t table_len, const uint8_t *first, size_t first_len,
                         const uint8_t *second, size_t second_len) {
    struct node nodes[NODES];
    size_t of_first, of_second;
    answer asked = scan(table, table_len, nodes), one = asked, other = asked;
    if (!asked.refused) {
        one = verify_nodes(nodes, asked.count, first, first_len, &of_first);
        other = verify_nodes(nodes, asked.count, second, second_len, &of_second);
    }
    if (one.refused && other.refused) return (buulset_choice){ .refused = one.refused, .place = one.place };
    bool second_chosen = one.refused || (!other.refused && of_second < of_first);
    return (buulset_choice){ .chosen = second_chosen ? 2 : 1, .count = asked.count };
}

/* ---- grafts */

/* Frames on their way into a result, their first children counted anew. */
struct copying {
    uint8_t *to;
    size_t next;
};

/* The frames from `from` up to `end`; how many children they have. */
static size_t copy_frames(struct copying *c, const uint8_t *table, size_t from, size_t end) {
    size_t before = c->next;
    for (const uint8_t *frame = table + FRAME * from; frame < table + FRAME * end; frame += FRAME, c->to += FRAME) {
        memcpy(c->to, frame, FRAME);
        if (frame[2] == 0) continue;
        c->to[0] = c->next >> 8, c->to[1] = c->next;
        c->next += frame[2];
    }
    return c->next - before;
}

/* Level by level: of the first tree what lies left of the leaf and of what is below it, then the second tree's level,
   then the rest of the first tree's. */
static void copy_levels(const uint8_t *first, size_t node, const uint8_t *second, uint8_t *result) {
    struct copying c = { result, 1 };
    size_t from = 0, end = 1, split = 0, second_from = 0, second_end = 0;
    bool above = true; /* the leaf stands below this level */
    while (from < end || second_from < second_end) {
        bool here = above && node < end;
        size_t left = here ? node : above ? end : split, right_children = 0;
        size_t left_children = copy_frames(&c, first, from, left);
        if (here) second_end = 1;
        if (here || !above) {
            size_t children = copy_frames(&c, second, second_from, second_end);
            right_children = copy_frames(&c, first, left + here, end);
            second_from = second_end;
            second_end += children;
        }
        if (here) above = false;
        from = end;
        split = end + left_children;
        end = split + right_children;
    }
}

answer c_graft(const uint8_t *first, size_t first_len, size_t node, const uint8_t *second, size_t second_len,
               uint8_t *result, size_t result_len) {
    struct node nodes[NODES];
    int deepest;
    answer a = scan(first, first_len, nodes), b = a.refused ? a : check_table(second, second_len, &deepest);
    if (b.refused) return b;
    size_t n = a.count + b.count - 1;
    if (node >= a.count || nodes[node].count || !max_moves(nodes + node)) return no(17, node);
    if (n > NODES || depth_of(nodes[node].position) + deepest > MAX_DEPTH) return no(18, 0);
    if (result_len < FRAME * n) return no(10, 0);
    copy_levels(first, node, second, result);
    return (answer){ .count = n };
}

/* ---- a leaf's value for a wanted root value */

/* The value of the root where the leaf, a node on the way up from it, counts x: only the nodes above it change. */
static int root_value(const struct node *nodes, const int16_t *values, int leaf, int x) {
    for (int k = leaf; k != 0; k = nodes[k].parent) {
        const struct node *up = nodes + nodes[k].parent;
        int c = up->first, end = c + up->count;
        for (; c < end; c++)
            if (c != k) x = max_moves(up) ? greater(x, values[c]) : lesser(x, values[c]);
    }
    return x;
}

answer c_least_value(const uint8_t *table, size_t table_len, size_t node, int32_t wanted) {
    struct node nodes[NODES];
    int16_t values[NODES];
    answer asked = scan(table, table_len, nodes);
    if (asked.refused) return asked;
    if (node >= asked.count || nodes[node].count) return no(19, node);
    if (wanted < -VALUE || wanted > VALUE) return no(20, 0);
    fill_values(nodes, asked.count, values);
    int depth = depth_of(nodes[node].position), tried[] = { -VALUE, wanted - depth, wanted, wanted + depth };
    int low = root_value(nodes, values, node, LEAST), high = root_value(nodes, values, node, GREATEST);
    for (int i = 0; i < 4; i++)
        if (tried[i] >= -VALUE && tried[i] <= VALUE && lesser(high, greater(low, score_at(tried[i], depth))) == wanted)
            return (answer){ .value = tried[i] };
    return no(21, node);
}

/* ---- the worst-case filling */

/* Ranks from `rank` on for the leaves below node k, the children in the order of the side that moves; the next rank. */
static int put_ranks(uint8_t *table, int k, int position, int rank) {
    uint8_t *frame = table + FRAME * k;
    int first = number_at(frame), count = frame[2];
    if (count == 0) {
        frame[4] = rank >> 8, frame[5] = rank;
        return rank + 1;
    }
    if (position % 2 == 0)
        for (int c = first; c < first + count; c++)
            rank = put_ranks(table, c, child_position(position, table[FRAME * c + 3]), rank);
    else
        for (int c = first + count - 1; c >= first; c--)
            rank = put_ranks(table, c, child_position(position, table[FRAME * c + 3]), rank);
    return rank;
}

answer c_fill(uint8_t *table, size_t table_len) {
    answer asked = c_check(table, table_len);
    return asked.refused ? asked : (answer){ .count = put_ranks(table, 0, 0, 0) };
}

/* ---- the least count of a regular tree */

answer c_least_leaves(size_t width, size_t depth) {
    if (width < 1 || width > CHILDREN) return no(22, 0);
    if (depth > MAX_DEPTH) return no(23, 0);
    uint64_t power = 1; /* of half the depth, rounded down */
    for (size_t i = 0; i < depth / 2; i++) power *= width;
    uint64_t leaves = power + (depth % 2 ? power * width : power) - 1;
    return (answer){ .count = leaves < UINT16_MAX ? leaves : UINT16_MAX };
}

/* ---- the report: one decoding, one check, three searches */

static answer read_nodes(const uint8_t *file, size_t file_len, struct node *nodes) {
    struct reading r = { NODES, { 0 } };
    struct way way = beginning;
    size_t k = 0;
    if (file_len == 0) return no(1, 0);
    if (file_len > BUULSET_MAX_FILE) return no(2, 0);
    for (; LINE * k < file_len; k++) {
        struct decoded d = decode_line(strict, file, file_len, k);
        if (d.kinds & OTHER) return no(3, k);
        if (asked_on(&r, k, d, way.next)) put_node(nodes, &way, k, d.first, d.middle >> 8, d.middle & 255, d.value);
    }
    if (r.small < NODES) return no(16, r.small);
    return r.first.refused ? r.first : end_of_way(way, k);
}

buulset_text c_report(const uint8_t *file, size_t file_len) {
    struct node nodes[NODES];
    uint16_t order[NODES];
    buulset_text text = { { 0 }, 0 };
    char *bytes = (char *)text.bytes;
    answer read = read_nodes(file, file_len, nodes);
    if (read.refused) {
        text.length = snprintf(bytes, sizeof text.bytes, "refused %d %zu\n", read.refused, read.place);
        return text;
    }
    struct found a = run_alpha_beta(nodes, order), m = run_mtd(nodes, read.count, order);
    struct found s = run_sss(nodes, order, NODES);
    text.length = snprintf(bytes, sizeof text.bytes,
                           "method value move leaves\nab %d %zu %zu\nmtd %d %zu %zu\nsss %d %zu %zu\n", a.value, a.move,
                           a.leaves, m.value, m.move, m.leaves, s.value, s.move, s.leaves);
    return text;
}
