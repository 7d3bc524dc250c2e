/* hand.c: the yardstick of the benchmarks, written for speed in plain C.
 *
 * A set of steps is one 64-bit mask. The steps of a node's label are looked up as one mask, and the conditions of all of them are tested together: `got` has
 * bit s when something below the node serves step s, so the steps that lack something are the parents of the steps outside `got`. A parent is reached from
 * its step by a shift. Most steps hang on the step just before, one shift for all of these; the other edges are grouped into a few shifts (edges of one
 * distance) and a few tests (edges of one parent), and are looked at only where a step that has such an edge is in question.
 *
 * One accumulator for each node is enough on the way up: a node hands its parent the steps that fit at it and, of those served below it, the descendant steps.
 * The same holds on the way down. Where most nodes hang on the node just before, the accumulator of that node is kept in a register, since the way through
 * memory would be waited for at each node. */
#include "hand.h"

#include <string.h>

enum { NODES = 2048, STEPS = 64, WITNESS_ROOM = 517, REWRITE_STEPS = 32 };

typedef uint64_t mask;

static inline mask bit(int s) { return (mask)1 << s; }

static inline int lowest(mask m) { return __builtin_ctzll(m); }

static inline unsigned get16(const uint8_t *p) { return (unsigned)p[0] << 8 | p[1]; }

static inline void put16(uint8_t *p, unsigned v)
{
    p[0] = (uint8_t)(v >> 8);
    p[1] = (uint8_t)v;
}

/* ---- patterns ---- */

struct pattern {
    int count, out;
    uint8_t parent[STEPS], axis[STEPS];
    uint16_t label[STEPS];
};

/* A pattern packet; 0 or a refusal. */
static int read_pattern(const uint8_t *bytes, size_t len, struct pattern *p)
{
    if (len < 3) return 2;
    if (bytes[0] != 1) return 1;
    unsigned l = get16(bytes + 1);
    if (l + 3 != len || l < 5 || l > 1 + 4 * STEPS || (l & 3) != 1) return 2;
    int count = (int)(l >> 2);
    p->count = count;
    p->out = bytes[3];
    const uint8_t *b = bytes + 4;
    int bad = b[0] != 255 || p->out >= count;
    for (int s = 0; s < count; s++, b += 4) {
        unsigned label = get16(b + 2);
        bad |= (b[1] > 1) | (label == 0);
        p->parent[s] = b[0];
        p->axis[s] = b[1];
        p->label[s] = (uint16_t)label;
    }
    if (bad) return 3;
    for (int s = 1; s < count; s++) {
        int up = p->parent[s], at = s - 1;
        while (up < at) at = p->parent[at];
        if (up != at) return 3;
    }
    return 0;
}

/* How edges lead from a step to its parent and back. */
struct edges {
    mask descendant; /* the steps of axis descendant, step 0 too */
    mask first;      /* the steps that hang on the step just before */
    mask branching;  /* the steps with another step hanging on them */
    int shifts, tests;
    mask shift_steps[STEPS], test_steps[STEPS];
    uint8_t distance[STEPS], parent[STEPS];
};

static void find_edges(const struct pattern *p, struct edges *e)
{
    mask kids[STEPS], far[STEPS], descendant = p->axis[0], first = 0, rest = 0, parents = 0;
    for (int s = 1; s < p->count; s++) {
        int up = p->parent[s];
        descendant |= (mask)p->axis[s] << s;
        if (up == s - 1) {
            first |= bit(s);
            continue;
        }
        rest |= bit(s);
        kids[up] = (parents >> up & 1 ? kids[up] : 0) | bit(s);
        parents |= bit(up);
    }
    e->descendant = descendant;
    e->first = first;
    e->branching = parents;
    int shifts = 0, tests = 0, few = 0;
    /* parents of three and more are tested one by one */
    mask light = 0, distances = 0;
    for (mask m = parents; m; m &= m - 1) {
        int up = lowest(m);
        mask k = kids[up], k2 = k & (k - 1);
        if (k2 & (k2 - 1)) {
            e->test_steps[tests] = k;
            e->parent[tests++] = (uint8_t)up;
            rest &= ~k;
        } else {
            light |= bit(up);
            few++;
        }
    }
    /* the others are shifted, or tested if that is less */
    for (mask m = rest; m; m &= m - 1) {
        int s = lowest(m), d = s - p->parent[s];
        shifts += !(distances >> d & 1);
        far[d] = (distances >> d & 1 ? far[d] : 0) | bit(s);
        distances |= bit(d);
    }
    if (shifts <= few) {
        shifts = 0;
        for (mask m = distances; m; m &= m - 1) {
            e->distance[shifts] = (uint8_t)lowest(m);
            e->shift_steps[shifts++] = far[lowest(m)];
        }
    } else {
        shifts = 0;
        for (mask m = light; m; m &= m - 1) {
            e->parent[tests] = (uint8_t)lowest(m);
            e->test_steps[tests++] = kids[lowest(m)];
        }
    }
    e->shifts = shifts;
    e->tests = tests;
}

/* The parents of a set of steps that do not hang on the step just before. */
static inline mask far_parents(const struct edges *e, mask steps)
{
    mask up = 0;
    for (int i = 0; i < e->shifts; i++) up |= (steps & e->shift_steps[i]) >> e->distance[i];
    for (int i = 0; i < e->tests; i++) up |= (mask)((steps & e->test_steps[i]) != 0) << e->parent[i];
    return up;
}

/* The steps that hang on a set of steps, but not on the step just before. */
static inline mask far_children(const struct edges *e, mask steps)
{
    mask down = 0;
    for (int i = 0; i < e->shifts; i++) down |= (steps << e->distance[i]) & e->shift_steps[i];
    for (int i = 0; i < e->tests; i++) down |= -(steps >> e->parent[i] & 1) & e->test_steps[i];
    return down;
}

/* Of some steps, those that lack nothing. */
static inline mask fitting(const struct edges *e, mask steps, mask got)
{
    steps &= ~((~got & e->first) >> 1);
    if (steps & e->branching) steps &= ~far_parents(e, ~got);
    return steps;
}

static inline mask children(const struct edges *e, mask steps)
{
    mask down = (steps << 1) & e->first;
    if (steps & e->branching) down |= far_children(e, steps);
    return down;
}

/* The steps of a label, by its low and its high byte. */
struct labels {
    mask low[256], high[256];
};

static void find_labels(const struct pattern *p, struct labels *t)
{
    memset(t, 0, sizeof *t);
    for (int s = 0; s < p->count; s++) {
        t->low[p->label[s] & 255] |= bit(s);
        t->high[p->label[s] >> 8] |= bit(s);
    }
}

static inline mask labelled(const struct labels *t, unsigned label) { return t->low[label & 255] & t->high[label >> 8]; }

/* ---- documents ---- */

/* Which loops serve a document best. */
enum shape { BROKEN, DEEP, FLAT, MIXED };

/* Whether every parent stands before its node and every label is above 0, and whether most nodes hang on the node just before or on that one's parent. */
static enum shape look(const uint16_t *parents, const uint16_t *labels, int n)
{
    uint16_t bad = parents[0] != 65535 || labels[0] == 0, deep = 0, flat = 0;
    for (int i = 1; i < n; i++) {
        uint16_t up = parents[i];
        bad |= (uint16_t)(up >= (uint16_t)i) | (uint16_t)(labels[i] == 0);
        deep = (uint16_t)(deep + (up == (uint16_t)(i - 1)));
        flat = (uint16_t)(flat + (up == parents[i - 1]));
    }
    if (bad) return BROKEN;
    return 4 * deep >= 3 * (n - 1) ? DEEP : 4 * flat >= 3 * (n - 1) ? FLAT : MIXED;
}

/* Document order, by climbing from the node before: fast where the branches are foreseen. */
static int climbs(const uint16_t *parents, int n)
{
    for (int i = 1; i < n; i++) {
        unsigned up = parents[i], at = (unsigned)i - 1;
        while (up < at) at = parents[at];
        if (up != at) return 0;
    }
    return 1;
}

/* The same without a branch: the rows of each node, itself and as many after it as it has descendants, end within its parent's. */
static int nests(const uint16_t *parents, int n)
{
    uint16_t size[NODES];
    unsigned bad = 0;
    for (int i = 0; i < n; i++) size[i] = 1;
    for (int i = n - 1; i > 0; i--) size[parents[i]] += size[i];
    for (int i = 1; i < n; i++) bad |= (unsigned)i + size[i] > parents[i] + (unsigned)size[parents[i]];
    return !bad;
}

/* The shape, BROKEN where the document breaks its rules. */
static enum shape check(const uint16_t *parents, const uint16_t *labels, int n)
{
    enum shape shape = look(parents, labels, n);
    if (shape == BROKEN) return BROKEN;
    return (shape == MIXED ? nests(parents, n) : climbs(parents, n)) ? shape : BROKEN;
}

/* ---- answers ---- */

struct scratch {
    mask open[2 * NODES + 1]; /* the accumulators; the rest takes what is not wanted */
    mask fit[NODES];
    uint16_t answers[NODES + 1];
};

/* Both passes. Steps that fit at node i go to fit[stride * i]; with stride 2 the steps of whole placements go beside them. The count of the answers. */
static inline __attribute__((always_inline)) int passes(const uint16_t *parents, const uint16_t *labels, int n, const struct edges *e, const struct labels *t,
                                                        int out, mask *fit, struct scratch *r, int stride, int deep, int branching)
{
    mask descendant = e->descendant, first = e->first, carry = 0;
    mask *open = r->open;
    memset(open, 0, (size_t)n * sizeof *open);
    for (int i = n - 1; i > 0; i--) {
        unsigned up = parents[i];
        mask got = deep ? open[i] | carry : open[i], m = labelled(t, labels[i]);
        m = branching ? fitting(e, m, got) : m & ~((~got & first) >> 1);
        fit[stride * i] = m;
        m |= got & descendant;
        if (deep) {
            mask near = -(mask)(up == (unsigned)i - 1);
            carry = m & near;
            open[up + ((unsigned)near & NODES)] |= m;
        } else {
            open[up] |= m;
        }
    }
    mask m = fitting(e, labelled(t, labels[0]), open[0] | carry);
    fit[0] = m;
    m &= 1;
    if (stride == 2) fit[1] = m;
    carry = open[0] = children(e, m) | (descendant & 1);
    open[2 * NODES] = 0;
    uint16_t *answers = r->answers;
    answers[0] = 0;
    int count = (int)(m >> out & 1);
    for (int i = 1; i < n; i++) {
        unsigned up = parents[i];
        mask above;
        if (deep) {
            mask near = -(mask)(up == (unsigned)i - 1);
            above = open[(up & ~(unsigned)near) | ((unsigned)near & 2 * NODES)] | (carry & near);
        } else {
            above = open[up];
        }
        m = fit[stride * i] & above;
        if (stride == 2) fit[2 * i + 1] = m;
        carry = (branching ? children(e, m) : (m << 1) & first) | (above & descendant);
        open[i] = carry;
        answers[count] = (uint16_t)i;
        count += (int)(m >> out & 1);
    }
    return count;
}

#define PASSES(name, stride, deep, branching)                                                                                                                 \
    static __attribute__((noinline)) int name(const uint16_t *parents, const uint16_t *labels, int n, const struct edges *e, const struct labels *t, int out, \
                                              mask *fit, struct scratch *r)                                                                                   \
    {                                                                                                                                                         \
        return passes(parents, labels, n, e, t, out, fit, r, stride, deep, branching);                                                                        \
    }
PASSES(answers_chain, 1, 0, 0)
PASSES(answers_tree, 1, 0, 1)
PASSES(answers_chain_deep, 1, 1, 0)
PASSES(answers_tree_deep, 1, 1, 1)
PASSES(working_chain, 2, 0, 0)
PASSES(working_tree, 2, 0, 1)
PASSES(working_chain_deep, 2, 1, 0)
PASSES(working_tree_deep, 2, 1, 1)

int64_t hand_list_answers(const uint16_t *parents, size_t parents_len, const uint16_t *labels, size_t labels_len, const uint8_t *pattern, size_t pattern_len,
                          uint16_t *list, size_t list_len, uint64_t *work, size_t work_len)
{
    struct pattern p;
    int refusal = read_pattern(pattern, pattern_len, &p);
    if (refusal) return -refusal;
    if (parents_len != labels_len || parents_len < 1 || parents_len > NODES) return -4;
    int n = (int)parents_len;
    enum shape shape = check(parents, labels, n);
    if (shape == BROKEN) return -4;
    if (list_len < parents_len || work_len < 2 * parents_len) return -5;
    struct edges e;
    struct labels t;
    struct scratch r;
    find_edges(&p, &e);
    find_labels(&p, &t);
    int count = e.branching ? (shape == DEEP ? working_tree_deep : working_tree)(parents, labels, n, &e, &t, p.out, work, &r)
                            : (shape == DEEP ? working_chain_deep : working_chain)(parents, labels, n, &e, &t, p.out, work, &r);
    memcpy(list, r.answers, (size_t)count * sizeof *list);
    return count;
}

int64_t hand_answers(const uint8_t *document, size_t document_len, const uint8_t *pattern, size_t pattern_len, uint8_t *room, size_t room_len)
{
    if (document_len < 3) return -2;
    if (document[0] != 1) return -1;
    unsigned l = get16(document + 1);
    if (l + 3 != document_len || l < 4 || l > 4 * NODES || (l & 3) != 0) return -2;
    int n = (int)(l >> 2);
    uint16_t parents[NODES], labels[NODES];
    for (int i = 0; i < n; i++) {
        parents[i] = (uint16_t)get16(document + 3 + 4 * i);
        labels[i] = (uint16_t)get16(document + 5 + 4 * i);
    }
    enum shape shape = check(parents, labels, n);
    if (shape == BROKEN) return -4;
    struct pattern p;
    int refusal = read_pattern(pattern, pattern_len, &p);
    if (refusal) return -refusal;
    if (room_len < 2 * (size_t)n) return -5;
    struct edges e;
    struct labels t;
    struct scratch r;
    find_edges(&p, &e);
    find_labels(&p, &t);
    int count = e.branching ? (shape == DEEP ? answers_tree_deep : answers_tree)(parents, labels, n, &e, &t, p.out, r.fit, &r)
                            : (shape == DEEP ? answers_chain_deep : answers_chain)(parents, labels, n, &e, &t, p.out, r.fit, &r);
    for (int i = 0; i < count; i++) put16(room + 2 * i, r.answers[i]);
    return count;
}

/* ---- containment ---- */

/* The steps of one pattern that fit at each step of another, output at `at` and nowhere else. Whether the whole fits. */
static int maps(const struct pattern *from, const struct pattern *into, int at, mask *fit)
{
    struct edges e;
    struct labels t;
    mask got[STEPS] = {0};
    find_edges(from, &e);
    find_labels(from, &t);
    mask not_out = ~bit(from->out), any = 0;
    for (int r = into->count - 1; r >= 0; r--) {
        mask m = labelled(&t, into->label[r]);
        if (r != at) m &= not_out;
        m = fitting(&e, m, got[r]);
        fit[r] = m;
        any |= m;
        if (r == 0) break;
        m |= got[r];
        got[into->parent[r]] |= into->axis[r] ? m & e.descendant : fit[r] | (m & e.descendant);
    }
    if (from->axis[0]) return (int)(any & 1);
    return !into->axis[0] && (fit[0] & 1);
}

/* Rows to columns. */
static void turn(mask m[64])
{
    mask keep = 0x00000000FFFFFFFF;
    for (int j = 32; j; j >>= 1, keep ^= keep << j)
        for (int k = 0; k < 64; k = ((k | j) + 1) & ~j) {
            mask x = ((m[k] >> j) ^ m[k | j]) & keep;
            m[k] ^= x << j;
            m[k | j] ^= x;
        }
}

/* The smallest mapping, given which steps fit where. */
static void least(const struct pattern *from, const struct pattern *into, mask fit[64], uint8_t *to)
{
    mask below[STEPS], beside[STEPS];
    for (int r = 0; r < into->count; r++) below[r] = beside[r] = 0;
    for (int r = into->count; r < 64; r++) fit[r] = 0;
    for (int r = into->count - 1; r > 0; r--) {
        int up = into->parent[r];
        below[up] |= below[r] | bit(r);
        beside[up] |= (mask)!into->axis[r] << r;
    }
    turn(fit);
    to[0] = (uint8_t)lowest(fit[0]);
    for (int s = 1; s < from->count; s++) {
        int up = to[from->parent[s]];
        to[s] = (uint8_t)lowest(fit[s] & (from->axis[s] ? below[up] : beside[up]));
    }
}

/* The smallest label from 1 up in neither pattern. Among 1 to 191 there is always one. */
static unsigned fresh(const struct pattern *a, const struct pattern *b)
{
    mask used[4] = {1, 0, 0, 0};
    for (int s = 0; s < a->count; s++) {
        unsigned l = a->label[s] < 192 ? a->label[s] : 192;
        used[l >> 6] |= bit(l & 63);
    }
    for (int s = 0; s < b->count; s++) {
        unsigned l = b->label[s] < 192 ? b->label[s] : 192;
        used[l >> 6] |= bit(l & 63);
    }
    for (int w = 0;; w++)
        if (~used[w]) return (unsigned)(64 * w + lowest(~used[w]));
}

int64_t hand_contained(const uint8_t *a, size_t a_len, const uint8_t *b, size_t b_len, uint8_t *room, size_t room_len)
{
    struct pattern pa, pb;
    int refusal = read_pattern(a, a_len, &pa);
    if (!refusal) refusal = read_pattern(b, b_len, &pb);
    if (refusal) return -refusal;
    if (room_len < WITNESS_ROOM) return -5;
    mask fit[64];
    if (maps(&pb, &pa, pa.out, fit)) {
        least(&pb, &pa, fit, room);
        memset(room + pb.count, 0, (size_t)(STEPS - pb.count));
        return 1;
    }
    unsigned label = fresh(&pa, &pb), m = 0;
    uint8_t *w = room + 3, node[STEPS];
    for (int s = 0; s < pa.count; s++) {
        unsigned up = s ? node[pa.parent[s]] : 65535;
        if (pa.axis[s]) {
            put16(w, up);
            put16(w + 2, label);
            w += 4;
            up = m++;
        }
        put16(w, up);
        put16(w + 2, pa.label[s]);
        w += 4;
        node[s] = (uint8_t)m++;
    }
    room[0] = 1;
    put16(room + 1, 4 * m);
    put16(w, node[pa.out]);
    return 0;
}

/* ---- rewriting ---- */

/* The steps from step 0 to the output step. */
static int main_path(const struct pattern *p, uint8_t *path)
{
    int count = 0;
    for (int s = p->out;; s = p->parent[s]) {
        path[STEPS - 1 - count++] = (uint8_t)s;
        if (s == 0) break;
    }
    memmove(path, path + STEPS - count, (size_t)count);
    return count;
}

int64_t hand_rewrite(const uint8_t *query, size_t query_len, const uint8_t *view, size_t view_len, uint8_t *room, size_t room_len)
{
    struct pattern q, v, j;
    int refusal = read_pattern(query, query_len, &q);
    if (!refusal) refusal = read_pattern(view, view_len, &v);
    if (!refusal && (q.count > REWRITE_STEPS || v.count > REWRITE_STEPS)) refusal = 8;
    if (refusal) return -refusal;
    uint8_t qs[STEPS], vs[STEPS];
    int k = main_path(&v, vs);
    if (main_path(&q, qs) < k) return 0;
    /* two equal patterns have the same labels and axes along their main paths, and a mapping of one into the other keeps these in place */
    for (int i = 0; i < k; i++)
        if (q.label[qs[i]] != v.label[vs[i]] || q.axis[qs[i]] != v.axis[vs[i]]) return 0;
    int cut = qs[k - 1], end = cut + 1;
    mask fit[64];
    /* the query is contained in the join: the view goes into the query with its output on the cut, the compensation stays where it is */
    if (!maps(&v, &q, cut, fit)) return 0;
    while (end < q.count && q.parent[end] >= cut) end++;
    int more = end - cut - 1;
    for (int s = 0; s <= v.out; s++) {
        j.parent[s] = v.parent[s];
        j.axis[s] = v.axis[s];
        j.label[s] = v.label[s];
    }
    for (int s = 1; s <= more; s++) {
        j.parent[v.out + s] = (uint8_t)(q.parent[cut + s] - cut + v.out);
        j.axis[v.out + s] = q.axis[cut + s];
        j.label[v.out + s] = q.label[cut + s];
    }
    for (int s = v.out + 1; s < v.count; s++) {
        j.parent[more + s] = (uint8_t)(v.parent[s] > v.out ? v.parent[s] + more : v.parent[s]);
        j.axis[more + s] = v.axis[s];
        j.label[more + s] = v.label[s];
    }
    j.count = v.count + more;
    j.out = q.out - cut + v.out;
    if (!maps(&q, &j, j.out, fit)) return 0;
    size_t len = 4 + 4 * (size_t)(more + 1);
    if (room_len < len) return -5;
    room[0] = 1;
    put16(room + 1, (unsigned)len - 3);
    room[3] = (uint8_t)(q.out - cut);
    for (int s = 0; s <= more; s++) {
        uint8_t *b = room + 4 + 4 * s;
        b[0] = s ? (uint8_t)(q.parent[cut + s] - cut) : 255;
        b[1] = s ? q.axis[cut + s] : 0;
        put16(b + 2, q.label[cut + s]);
    }
    return (int64_t)len;
}
