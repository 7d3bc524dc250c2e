/* evaluator.c: the rules of docs/RULES.md once more, in plain C, for the tests to compare with.
 *
 * Compiled with -DBREAK_EVALUATOR=k, k from 1 on, one rule is wrong; tests/run.sh sees to it that the tests then fail.
 */
#include "evaluator.h"

#include <stdio.h>
#include <string.h>

#ifndef BREAK_EVALUATOR
#define BREAK_EVALUATOR 0
#endif
#define BROKEN(k) (BREAK_EVALUATOR == (k))

/*  1  a descendant step may stay on its own node
 *  2  a mapping forgets the output step
 *  3  the candidate keeps its own axis
 *  4  a node is listed once for each placement
 *  5  the query is cut at the first matching label
 *  6  containment maps a into b
 *  7  two sibling steps may not share a node
 *  8  the top bit of a working entry is lost
 *  9  the room is looked at before the starts
 * 10  the fresh label looks at the first pattern only
 * 11  a parent need only have a smaller number
 * 12  the witness has no fresh node above step 0
 * 13  the mapping is the largest
 * 14  a query of 33 steps is no refusal
 * 15  a document that breaks the rules is written in part
 * 16  without start nodes step 0 goes to node 0
 * 17  for step 0 to fit at a node, its axis counts
 * 18  the join keeps the view's output step
 *
 * tests/run.sh reads the last number off this list. */

enum { VERSION = 1, LENGTH, PATTERN, DOCUMENT, ROOM, START, OTHER_LABEL, TOO_LARGE, NO_LABEL };
enum { CHILD = 0, DESCENDANT = 1, TRIALS = 8000 };

/* A broken evaluator is not asked to agree with itself or with the worked example, so that the library alone has to show it wrong. */
int evaluator_broken(void) { return BREAK_EVALUATOR; }

/* ---- tables ---- */

/* Document order: going up from the node before i, node i's parent is met. */
static int node_hangs(const struct document *d, size_t i)
{
    size_t a = i - 1;
    if (BROKEN(11)) return d->parent[i] < i;
    while (a != d->parent[i]) {
        if (a == 0) return 0;
        a = d->parent[a];
    }
    return 1;
}

/* 4 unless the table is a document: its size, the mark of node 0, the order of the others, and labels that are not 0. */
int document_refusal(const struct document *d)
{
    if (d->n < 1 || d->n > NODES || d->parent[0] != 65535) return DOCUMENT;
    for (size_t i = 0; i < d->n; i++) {
        if (i > 0 && !node_hangs(d, i)) return DOCUMENT;
        if (d->label[i] == 0) return DOCUMENT;
    }
    return 0;
}

/* The same order for the steps of a pattern. */
static int step_hangs(const struct pattern *p, size_t s)
{
    size_t a = s - 1;
    if (BROKEN(11)) return p->parent[s] < s;
    while (a != p->parent[s]) {
        if (a == 0) return 0;
        a = p->parent[a];
    }
    return 1;
}

/* 3 unless the table is a pattern: its size, the mark of step 0, the order of the others, the two axes, labels that are not 0, an output step that is there. */
int pattern_refusal(const struct pattern *p)
{
    if (p->n < 1 || p->n > STEPS || p->parent[0] != 255 || p->output >= p->n) return PATTERN;
    for (size_t s = 0; s < p->n; s++) {
        if (s > 0 && !step_hangs(p, s)) return PATTERN;
        if (p->axis[s] > 1 || p->label[s] == 0) return PATTERN;
    }
    return 0;
}

/* ---- packets ---- */

/* Two bytes as a number, the high one first. */
static unsigned half(const uint8_t *bytes) { return bytes[0] * 256u + bytes[1]; }

/* A number as two bytes, the high one first. */
static void put_half(uint8_t *bytes, unsigned number)
{
    bytes[0] = (uint8_t)(number / 256);
    bytes[1] = (uint8_t)(number % 256);
}

/* The checks that both kinds of packet begin with: three bytes, version 1, a length that is first + 4 k for 1 <= k <= most, and just that many bytes. */
static int packet_refusal(const uint8_t *bytes, size_t len, unsigned first, unsigned most)
{
    if (len < 3) return LENGTH;
    if (bytes[0] != 1) return VERSION;
    unsigned following = half(bytes + 1);
    if (following < first + 4 || following > first + 4 * most || (following - first) % 4 != 0) return LENGTH;
    return len == following + 3 ? 0 : LENGTH;
}

/* A document packet: the checks above with L = 4 n, then the document's own. */
int take_document(const uint8_t *bytes, size_t len, struct document *d)
{
    int refusal = packet_refusal(bytes, len, 0, NODES);
    if (refusal) return refusal;
    d->n = half(bytes + 1) / 4;
    for (size_t i = 0; i < d->n; i++) {
        d->parent[i] = (uint16_t)half(bytes + 3 + 4 * i);
        d->label[i] = (uint16_t)half(bytes + 5 + 4 * i);
    }
    return document_refusal(d);
}

/* A pattern packet: the checks above with L = 1 + 4 steps, then the pattern's own. */
int take_pattern(const uint8_t *bytes, size_t len, struct pattern *p)
{
    int refusal = packet_refusal(bytes, len, 1, STEPS);
    if (refusal) return refusal;
    p->n = half(bytes + 1) / 4;
    p->output = bytes[3];
    for (size_t s = 0; s < p->n; s++) {
        p->parent[s] = bytes[4 + 4 * s];
        p->axis[s] = bytes[5 + 4 * s];
        p->label[s] = (uint16_t)half(bytes + 6 + 4 * s);
    }
    return pattern_refusal(p);
}

/* A table of nodes as a packet, whether or not it obeys the rules. */
size_t put_document(const struct document *d, uint8_t *bytes)
{
    bytes[0] = 1;
    put_half(bytes + 1, (unsigned)(4 * d->n));
    for (size_t i = 0; i < d->n; i++) {
        put_half(bytes + 3 + 4 * i, d->parent[i]);
        put_half(bytes + 5 + 4 * i, d->label[i]);
    }
    return 3 + 4 * d->n;
}

/* A table of steps as a packet, whether or not it obeys the rules. */
size_t put_pattern(const struct pattern *p, uint8_t *bytes)
{
    bytes[0] = 1;
    put_half(bytes + 1, (unsigned)(1 + 4 * p->n));
    bytes[3] = (uint8_t)p->output;
    for (size_t s = 0; s < p->n; s++) {
        bytes[4 + 4 * s] = p->parent[s];
        bytes[5 + 4 * s] = p->axis[s];
        put_half(bytes + 6 + 4 * s, p->label[s]);
    }
    return 4 + 4 * p->n;
}

/* ---- steps of a pattern ---- */

/* Is step s below step a of p? */
static int step_below(const struct pattern *p, size_t s, size_t a)
{
    while (s > 0) {
        s = p->parent[s];
        if (s == a) return 1;
    }
    return 0;
}

/* The steps below s stand right behind it; this is the last of them, or s. */
size_t last_below(const struct pattern *p, size_t s)
{
    size_t last = s;
    while (last + 1 < p->n && step_below(p, last + 1, s)) last++;
    return last;
}

/* The main path, found by going up from the output step. */
size_t main_path(const struct pattern *p, size_t *path)
{
    size_t length = 1;
    for (size_t s = p->output; s > 0; s = p->parent[s]) length++;
    size_t s = p->output;
    for (size_t k = length; k-- > 0; s = p->parent[s]) path[k] = s;
    return length;
}

/* ---- answers by trial ---- */

/* Is node i below node a of d? */
static int node_below(const struct document *d, size_t i, size_t a)
{
    if (BROKEN(1) && i == a) return 1;
    while (i > 0) {
        i = d->parent[i];
        if (i == a) return 1;
    }
    return 0;
}

/* A step that is not step 0 stands right towards its parent's node: a child of it, or below it. */
static int step_stands(const struct pattern *p, const struct document *d, size_t s, const size_t *at)
{
    size_t i = at[s], above = at[p->parent[s]];
    if (p->axis[s] == CHILD) return i > 0 && d->parent[i] == above;
    return node_below(d, i, above);
}

/* Steps s to last, which are s and all below it, stand right among themselves; the axis of s does not count. */
static int stands_below(const struct pattern *p, const struct document *d, size_t s, size_t last, const size_t *at)
{
    for (size_t t = s; t <= last; t++) {
        if (d->label[at[t]] != p->label[t]) return 0;
        if (t > s && !step_stands(p, d, t, at)) return 0;
        for (size_t u = s + 1; BROKEN(7) && u < t; u++)
            if (p->parent[u] == p->parent[t] && at[u] == at[t]) return 0;
    }
    return 1;
}

/* The choice that follows in the order of lists, for entries from..to, each below base. 0 when there is none. */
static int next_choice(size_t *at, size_t from, size_t to, size_t base)
{
    for (size_t s = to + 1; s-- > from;) {
        if (++at[s] < base) return 1;
        at[s] = 0;
    }
    return 0;
}

/* Where a pattern that is not started may begin: at the document element, or everywhere if its first axis is descendant. */
void allow_by_axis(const struct pattern *p, const struct document *d, uint8_t *allowed)
{
    for (size_t i = 0; i < d->n; i++) allowed[i] = i == 0 || p->axis[0] == DESCENDANT;
}

/* Entry 2i for step s: is there any choice of nodes for s and the steps below it, with s at i? */
static void fits_by_trial(const struct pattern *p, const struct document *d, size_t s, struct findings *f)
{
    size_t at[STEPS] = {0}, last = last_below(p, s);
    do {
        if (stands_below(p, d, s, last, at)) f->work[2 * at[s]] |= (uint64_t)1 << s;
    } while (next_choice(at, s, last, d->n));
}

/* Nothing found yet. */
static void clear(struct findings *f, size_t n)
{
    f->count = 0;
    memset(f->work, 0, 2 * n * sizeof f->work[0]);
}

/* One answer more; a list longer than the document can only come of a broken rule and is cut. */
static void add_answer(struct findings *f, size_t n, size_t i)
{
    if (f->count < n) f->list[f->count++] = (uint16_t)i;
}

/* Every placement is tried: entry 2i + 1 has the steps that some placement has at i, and the answers are the nodes of the output step, each once. */
void find_by_trial(const struct pattern *p, const struct document *d, const uint8_t *allowed, struct findings *f)
{
    size_t at[STEPS] = {0}, times[NODES] = {0};
    clear(f, d->n);
    for (size_t s = 0; s < p->n; s++) fits_by_trial(p, d, s, f);
    do {
        if (!allowed[at[0]] || !stands_below(p, d, 0, p->n - 1, at)) continue;
        for (size_t s = 0; s < p->n; s++) f->work[2 * at[s] + 1] |= (uint64_t)1 << s;
        times[at[p->output]]++;
    } while (next_choice(at, 0, p->n - 1, d->n));
    for (size_t i = 0; i < d->n; i++)
        for (size_t k = 0; k < times[i] && (k == 0 || BROKEN(4)); k++) add_answer(f, d->n, i);
}

/* ---- answers by recursion ---- */

/* What the recursion knows: the two tables, each node's first child and next sibling, and each question once answered (0 not asked, 1 no, 2 yes). */
static struct {
    const struct pattern *p;
    const struct document *d;
    const uint8_t *allowed;
    size_t first[NODES], next[NODES];
    uint8_t fits[STEPS][NODES], fits_under[STEPS][NODES], placed[STEPS][NODES], placed_above[STEPS][NODES];
} search;

/* Children in order, 0 standing for none, since node 0 is nobody's child. */
static void link_children(const struct document *d)
{
    memset(search.first, 0, d->n * sizeof search.first[0]);
    for (size_t i = d->n; i-- > 1;) {
        search.next[i] = search.first[d->parent[i]];
        search.first[d->parent[i]] = i;
    }
}

static int fits_at(size_t s, size_t i);

/* Step s with all below it can stand at some node below i. */
static int fits_under(size_t s, size_t i)
{
    uint8_t *known = &search.fits_under[s][i];
    if (*known) return *known - 1;
    int found = BROKEN(1) && fits_at(s, i);
    for (size_t j = search.first[i]; j && !found; j = search.next[j]) found = fits_at(s, j) || fits_under(s, j);
    *known = (uint8_t)(1 + found);
    return found;
}

/* Step s with all below it can stand at some child of i. */
static int fits_child(size_t s, size_t i)
{
    for (size_t j = search.first[i]; j; j = search.next[j])
        if (fits_at(s, j)) return 1;
    return 0;
}

/* Step s with all below it can stand at i: the label is right and each child step finds a node, one independently of the other. */
static int fits_at(size_t s, size_t i)
{
    uint8_t *known = &search.fits[s][i];
    if (*known) return *known - 1;
    int found = search.d->label[i] == search.p->label[s];
    for (size_t t = s + 1; t < search.p->n && found; t++)
        if (search.p->parent[t] == s) found = search.p->axis[t] == CHILD ? fits_child(t, i) : fits_under(t, i);
    *known = (uint8_t)(1 + found);
    return found;
}

static int placed_at(size_t s, size_t i);

/* Some placement has step s at an ancestor of i. */
static int placed_above(size_t s, size_t i)
{
    uint8_t *known = &search.placed_above[s][i];
    if (*known) return *known - 1;
    int found = i > 0 && (placed_at(s, search.d->parent[i]) || placed_above(s, search.d->parent[i]));
    if (BROKEN(1)) found = found || placed_at(s, i);
    *known = (uint8_t)(1 + found);
    return found;
}

/* Some placement of the whole pattern has step s at i: s fits there, and its parent step stands right above in some placement. */
static int placed_at(size_t s, size_t i)
{
    uint8_t *known = &search.placed[s][i];
    if (*known) return *known - 1;
    int found = fits_at(s, i);
    if (found && s == 0) found = search.allowed[i];
    else if (found && search.p->axis[s] == CHILD) found = i > 0 && placed_at(search.p->parent[s], search.d->parent[i]);
    else if (found) found = placed_above(search.p->parent[s], i);
    *known = (uint8_t)(1 + found);
    return found;
}

/* Forgets every answer and takes up two tables. */
static void begin_search(const struct pattern *p, const struct document *d, const uint8_t *allowed)
{
    search.p = p;
    search.d = d;
    search.allowed = allowed;
    link_children(d);
    for (size_t s = 0; s < p->n; s++) {
        memset(search.fits[s], 0, d->n);
        memset(search.fits_under[s], 0, d->n);
        memset(search.placed[s], 0, d->n);
        memset(search.placed_above[s], 0, d->n);
    }
}

/* The same as by trial, for tables of any size. */
void find_by_recursion(const struct pattern *p, const struct document *d, const uint8_t *allowed, struct findings *f)
{
    begin_search(p, d, allowed);
    clear(f, d->n);
    for (size_t i = 0; i < d->n; i++) {
        for (size_t s = 0; s < p->n; s++) {
            uint64_t bit = (uint64_t)1 << s;
            if (BROKEN(8) && s == 63) bit = 0;
            if (fits_at(s, i)) f->work[2 * i] |= bit;
            if (placed_at(s, i)) f->work[2 * i + 1] |= bit;
        }
        if (placed_at(p->output, i)) add_answer(f, d->n, i);
    }
}

/* Are there few enough ways to choose, in so many places, to try them all? */
int small_enough(size_t choices, size_t places)
{
    size_t ways = 1;
    for (size_t k = 0; k < places && ways <= TRIALS; k++) ways *= choices;
    return ways <= TRIALS;
}

/* By trial where that is short, else by recursion. */
void find(const struct pattern *p, const struct document *d, const uint8_t *allowed, struct findings *f)
{
    if (small_enough(d->n, p->n)) find_by_trial(p, d, allowed, f);
    else find_by_recursion(p, d, allowed, f);
    for (size_t i = 0; BROKEN(17) && i < d->n; i++)
        if (!allowed[i]) f->work[2 * i] &= ~(uint64_t)1;
}

/* ---- mappings ---- */

/* Step t of b goes right from its parent's image: down one child edge of a, or down over any edges. */
static int goes(const struct pattern *a, const struct pattern *b, size_t t, size_t image, size_t above)
{
    if (b->axis[t] == DESCENDANT) return step_below(a, image, above);
    return image > 0 && a->parent[image] == above && a->axis[image] == CHILD;
}

/* Where step 0 of b may go: anywhere for axis descendant, else to a's step 0 of axis child. */
static int begins(const struct pattern *a, const struct pattern *b, size_t image) { return b->axis[0] == DESCENDANT || (image == 0 && a->axis[0] == CHILD); }

/* Is the list a mapping of b into a? Labels, edges, the beginning, and output to output. */
int is_mapping(const struct pattern *a, const struct pattern *b, const size_t *map)
{
    if (!begins(a, b, map[0])) return 0;
    if (map[b->output] != a->output && !BROKEN(2)) return 0;
    for (size_t t = 0; t < b->n; t++) {
        if (a->label[map[t]] != b->label[t]) return 0;
        if (t > 0 && !goes(a, b, t, map[t], map[b->parent[t]])) return 0;
    }
    return 1;
}

/* Every list is tried, in the order of lists: the first that is a mapping is the smallest. */
int map_by_trial(const struct pattern *a, const struct pattern *b, size_t *map)
{
    size_t at[STEPS] = {0};
    int found = 0;
    do {
        if (!is_mapping(a, b, at)) continue;
        memcpy(map, at, b->n * sizeof at[0]);
        found = 1;
        if (!BROKEN(13)) return 1;
    } while (next_choice(at, 0, b->n - 1, a->n));
    return found;
}

/* For step t of b and step s of a: can t with all below it be mapped with t at s? 0 not asked, 1 no, 2 yes. */
static uint8_t map_memo[STEPS][STEPS];

static int maps_at(const struct pattern *a, const struct pattern *b, size_t t, size_t s);

/* The smallest step of a that step t, with all below it, can take when its parent's image is `above`; a->n if there is none. */
static size_t next_image(const struct pattern *a, const struct pattern *b, size_t t, size_t above)
{
    for (size_t s = above + 1; s < a->n; s++)
        if (goes(a, b, t, s, above) && maps_at(a, b, t, s)) return s;
    return a->n;
}

/* Labels agree, output goes to output, and each child step of t finds an image. */
static int maps_at(const struct pattern *a, const struct pattern *b, size_t t, size_t s)
{
    uint8_t *known = &map_memo[t][s];
    if (*known) return *known - 1;
    int found = a->label[s] == b->label[t] && (t != b->output || s == a->output || BROKEN(2));
    for (size_t u = t + 1; u < b->n && found; u++)
        if (b->parent[u] == t) found = next_image(a, b, u, s) < a->n;
    *known = (uint8_t)(1 + found);
    return found;
}

/* Step by step the smallest image that still leaves a way: since the parts below sibling steps do not depend on each other, that is the smallest list. */
int map_by_recursion(const struct pattern *a, const struct pattern *b, size_t *map)
{
    memset(map_memo, 0, sizeof map_memo);
    for (map[0] = 0; map[0] < a->n; map[0]++)
        if (begins(a, b, map[0]) && maps_at(a, b, 0, map[0])) break;
    if (map[0] == a->n) return 0;
    for (size_t t = 1; t < b->n; t++) map[t] = next_image(a, b, t, map[b->parent[t]]);
    return 1;
}

/* By trial where that is short, else by recursion. */
int smallest_mapping(const struct pattern *a, const struct pattern *b, size_t *map)
{
    if (BROKEN(6)) {
        const struct pattern *swap = a;
        a = b;
        b = swap;
    }
    if (small_enough(a->n, b->n)) return map_by_trial(a, b, map);
    return map_by_recursion(a, b, map);
}

/* ---- containment ---- */

/* Does label l stand in p? */
static int has_label(const struct pattern *p, unsigned l)
{
    for (size_t s = 0; s < p->n; s++)
        if (p->label[s] == l) return 1;
    return 0;
}

/* The least label of neither pattern, 0 if all are taken. */
unsigned fresh_label(const struct pattern *a, const struct pattern *b)
{
    for (unsigned l = 1; l <= 65535; l++)
        if (!has_label(a, l) && (!has_label(b, l) || BROKEN(10))) return l;
    return 0;
}

/* The witness of a: for each step its own node, with a node of the fresh label above it where the axis is descendant. Returns the answer node. */
size_t write_witness(const struct pattern *a, unsigned fresh, struct document *d)
{
    size_t own[STEPS];
    d->n = 0;
    for (size_t s = 0; s < a->n; s++) {
        size_t above = s == 0 ? 65535 : own[a->parent[s]];
        if (a->axis[s] == DESCENDANT && !(BROKEN(12) && s == 0)) {
            d->parent[d->n] = (uint16_t)above;
            d->label[d->n] = (uint16_t)fresh;
            above = d->n++;
        }
        d->parent[d->n] = (uint16_t)above;
        d->label[d->n] = a->label[s];
        own[s] = d->n++;
    }
    return own[a->output];
}

/* ---- join and rewriting ---- */

/* Step s of the view in the join, where `more` steps come in behind its output step. */
static size_t renumbered(const struct pattern *v, size_t s, size_t more) { return s <= v->output ? s : s + more; }

/* One step of the join. */
static void set_step(struct pattern *j, size_t s, size_t parent, unsigned axis, unsigned label)
{
    j->parent[s] = (uint8_t)parent;
    j->axis[s] = (uint8_t)axis;
    j->label[s] = (uint16_t)label;
}

/* The compensation's later steps come in right behind the output step of the view, which stands for its first. 0, or 6, 7 or 8 in this order. */
int join_patterns(const struct pattern *v, const struct pattern *e, struct pattern *j)
{
    size_t more = e->n - 1;
    if (e->axis[0] == DESCENDANT) return START;
    if (e->label[0] != v->label[v->output]) return OTHER_LABEL;
    if (v->n + more > STEPS) return TOO_LARGE;
    j->n = v->n + more;
    j->output = v->output + (BROKEN(18) ? 0 : e->output);
    for (size_t s = 0; s < v->n; s++) {
        size_t parent = s == 0 ? 255 : renumbered(v, v->parent[s], more);
        set_step(j, renumbered(v, s, more), parent, v->axis[s], v->label[s]);
    }
    for (size_t s = 1; s < e->n; s++) set_step(j, v->output + s, v->output + e->parent[s], e->axis[s], e->label[s]);
    return 0;
}

/* The step of the query that the candidate begins with: the k-th of its main path for a view whose main path has k steps. q->n if there is none. */
static size_t cut_step(const struct pattern *q, const struct pattern *v)
{
    size_t path[STEPS], view_path[STEPS];
    size_t length = main_path(q, path), k = main_path(v, view_path);
    for (size_t m = 0; BROKEN(5) && m < length; m++)
        if (q->label[path[m]] == v->label[v->output]) return path[m];
    if (k > length || q->label[path[k - 1]] != v->label[v->output]) return q->n;
    return path[k - 1];
}

/* The part of the query from a step down, as a pattern of its own that starts with axis child. */
static void cut(const struct pattern *q, size_t c, struct pattern *e)
{
    size_t last = last_below(q, c);
    e->n = last - c + 1;
    e->output = q->output - c;
    for (size_t s = c; s <= last; s++) set_step(e, s - c, s == c ? 255 : q->parent[s] - c, q->axis[s], q->label[s]);
    if (!BROKEN(3)) e->axis[0] = CHILD;
}

/* 1 with the compensation, 0 for none, or minus 8. The candidate serves when its join with the view and the query are contained each in the other. */
int rewrite_query(const struct pattern *q, const struct pattern *v, struct pattern *e)
{
    size_t map[STEPS];
    struct pattern j, plain;
    if (q->n > 32 + BROKEN(14) || v->n > 32) return -TOO_LARGE;
    size_t c = cut_step(q, v);
    if (c == q->n) return 0;
    cut(q, c, e);
    plain = *e;
    plain.axis[0] = CHILD;
    if (join_patterns(v, &plain, &j)) return 0;
    return smallest_mapping(q, &j, map) && smallest_mapping(&j, q, map);
}

/* ---- the calls from C ---- */

/* One start node more: a node of the document, past the one before it, which is -1 for the first. Step 0 may then be there. */
static int allow_start(size_t node, long before, size_t n, uint8_t *allowed)
{
    if (node >= n || (long)node <= before) return 0;
    allowed[node] = 1;
    return 1;
}

/* No start nodes yet. */
static void allow_none(size_t count, size_t n, uint8_t *allowed)
{
    memset(allowed, 0, n);
    if (BROKEN(16) && count == 0) allowed[0] = 1;
}

/* 6 unless the step 0 of p has axis child and the list is ascending nodes of a document of n. */
static int starts_refusal(const struct pattern *p, const uint16_t *starts, size_t count, size_t n, uint8_t *allowed)
{
    if (p->axis[0] == DESCENDANT) return START;
    allow_none(count, n, allowed);
    for (size_t k = 0; k < count; k++)
        if (!allow_start(starts[k], k == 0 ? -1 : (long)starts[k - 1], n, allowed)) return START;
    return 0;
}

/* The same for starts of two bytes each; an odd number of bytes is 6 too. */
static int start_bytes_refusal(const struct pattern *p, const uint8_t *starts, size_t len, size_t n, uint8_t *allowed)
{
    if (p->axis[0] == DESCENDANT || len % 2 != 0) return START;
    allow_none(len, n, allowed);
    for (size_t k = 0; k < len; k += 2)
        if (!allow_start(half(starts + k), k == 0 ? -1 : (long)half(starts + k - 2), n, allowed)) return START;
    return 0;
}

/* Answers as bytes, two to a node. */
static void put_list(const struct findings *f, uint8_t *room)
{
    for (size_t k = 0; k < f->count; k++) put_half(room + 2 * k, f->list[k]);
}

/* Document, pattern, room; then the answers. */
int64_t expected_answers(const uint8_t *document, size_t document_len, const uint8_t *pattern, size_t pattern_len, uint8_t *room, size_t room_len)
{
    static struct document d;
    static struct pattern p;
    static struct findings f;
    uint8_t allowed[NODES];
    int refusal = take_document(document, document_len, &d);
    if (!refusal) refusal = take_pattern(pattern, pattern_len, &p);
    if (!refusal && room_len < 2 * d.n) refusal = ROOM;
    if (refusal) return -refusal;
    allow_by_axis(&p, &d, allowed);
    find(&p, &d, allowed, &f);
    put_list(&f, room);
    return (int64_t)f.count;
}

/* Document, pattern, starts, room; then the answers with step 0 at a start node. */
int64_t expected_started(const uint8_t *document, size_t document_len, const uint8_t *pattern, size_t pattern_len, const uint8_t *starts, size_t starts_len,
                         uint8_t *room, size_t room_len)
{
    static struct document d;
    static struct pattern p;
    static struct findings f;
    uint8_t allowed[NODES];
    int refusal = take_document(document, document_len, &d);
    if (!refusal) refusal = take_pattern(pattern, pattern_len, &p);
    if (refusal) return -refusal;
    if (BROKEN(9) && room_len < 2 * d.n) return -ROOM;
    refusal = start_bytes_refusal(&p, starts, starts_len, d.n, allowed);
    if (!refusal && room_len < 2 * d.n) refusal = ROOM;
    if (refusal) return -refusal;
    find(&p, &d, allowed, &f);
    put_list(&f, room);
    return (int64_t)f.count;
}

/* The room of an apart answer: the witness as a packet, then the answer node. */
static void put_witness(const struct pattern *a, unsigned fresh, uint8_t *room)
{
    static struct document d;
    size_t node = write_witness(a, fresh, &d);
    size_t length = put_document(&d, room);
    put_half(room + length, (unsigned)node);
}

/* a, b, a fresh label, 517 bytes of room; then 1 with the smallest mapping of b into a, or 0 with the witness. */
int64_t expected_contained(const uint8_t *a, size_t a_len, const uint8_t *b, size_t b_len, uint8_t *room, size_t room_len)
{
    static struct pattern first, second;
    size_t map[STEPS] = {0};
    int refusal = take_pattern(a, a_len, &first);
    if (!refusal) refusal = take_pattern(b, b_len, &second);
    if (refusal) return -refusal;
    unsigned fresh = fresh_label(&first, &second);
    if (fresh == 0) return -NO_LABEL;
    if (room_len < 517) return -ROOM;
    if (!smallest_mapping(&first, &second, map)) {
        put_witness(&first, fresh, room);
        return 0;
    }
    for (size_t t = 0; t < STEPS; t++) room[t] = t < second.n ? (uint8_t)map[t] : 0;
    return 1;
}

/* The view, the compensation, 6, 7, 8, room for the packet; then the join's packet. */
int64_t expected_join(const uint8_t *view, size_t view_len, const uint8_t *compensation, size_t compensation_len, uint8_t *room, size_t room_len)
{
    static struct pattern v, e, j;
    int refusal = take_pattern(view, view_len, &v);
    if (!refusal) refusal = take_pattern(compensation, compensation_len, &e);
    if (!refusal) refusal = join_patterns(&v, &e, &j);
    if (!refusal && room_len < 4 + 4 * j.n) refusal = ROOM;
    if (refusal) return -refusal;
    return (int64_t)put_pattern(&j, room);
}

/* The query, the view, 8; 0 where there is nothing to hand over; then room for the packet, and the compensation's packet. */
int64_t expected_rewrite(const uint8_t *query, size_t query_len, const uint8_t *view, size_t view_len, uint8_t *room, size_t room_len)
{
    static struct pattern q, v, e;
    int refusal = take_pattern(query, query_len, &q);
    if (!refusal) refusal = take_pattern(view, view_len, &v);
    if (refusal) return -refusal;
    int answer = rewrite_query(&q, &v, &e);
    if (answer <= 0) return answer;
    if (room_len < 4 + 4 * e.n) return -ROOM;
    return (int64_t)put_pattern(&e, room);
}

/* The packet, room in both lists; then the two lists. */
int64_t expected_read_document(const uint8_t *document, size_t document_len, uint16_t *parents, size_t parents_len, uint16_t *labels, size_t labels_len)
{
    static struct document d;
    int refusal = take_document(document, document_len, &d);
    if (BROKEN(15) && refusal == DOCUMENT && parents_len > 0) parents[0] = d.parent[0];
    if (!refusal && (parents_len < d.n || labels_len < d.n)) refusal = ROOM;
    if (refusal) return -refusal;
    memcpy(parents, d.parent, d.n * sizeof parents[0]);
    memcpy(labels, d.label, d.n * sizeof labels[0]);
    return (int64_t)d.n;
}

/* Two lists as a document: 4 for unequal lengths, for too many nodes and for tables that break the rules. */
static int take_lists(const uint16_t *parents, size_t parents_len, const uint16_t *labels, size_t labels_len, struct document *d)
{
    if (parents_len != labels_len || parents_len > NODES || parents_len == 0) return DOCUMENT;
    d->n = parents_len;
    memcpy(d->parent, parents, d->n * sizeof parents[0]);
    memcpy(d->label, labels, d->n * sizeof labels[0]);
    return document_refusal(d);
}

/* Answers and working entries into the lent lists. */
static int64_t put_findings(const struct findings *f, size_t n, uint16_t *list, uint64_t *work)
{
    memcpy(list, f->list, f->count * sizeof list[0]);
    memcpy(work, f->work, 2 * n * sizeof work[0]);
    return (int64_t)f->count;
}

/* The pattern, the document, room in both lists; then answers and working entries. */
int64_t expected_list_answers(const uint16_t *parents, size_t parents_len, const uint16_t *labels, size_t labels_len, const uint8_t *pattern,
                              size_t pattern_len, uint16_t *list, size_t list_len, uint64_t *work, size_t work_len)
{
    static struct document d;
    static struct pattern p;
    static struct findings f;
    uint8_t allowed[NODES];
    int refusal = take_pattern(pattern, pattern_len, &p);
    if (!refusal) refusal = take_lists(parents, parents_len, labels, labels_len, &d);
    if (!refusal && (list_len < d.n || work_len < 2 * d.n)) refusal = ROOM;
    if (refusal) return -refusal;
    allow_by_axis(&p, &d, allowed);
    find(&p, &d, allowed, &f);
    return put_findings(&f, d.n, list, work);
}

/* The pattern, the document, the starts, room in both lists; then answers and working entries for step 0 at a start node. */
int64_t expected_list_started(const uint16_t *parents, size_t parents_len, const uint16_t *labels, size_t labels_len, const uint8_t *pattern,
                              size_t pattern_len, const uint16_t *starts, size_t starts_len, uint16_t *list, size_t list_len, uint64_t *work, size_t work_len)
{
    static struct document d;
    static struct pattern p;
    static struct findings f;
    uint8_t allowed[NODES];
    int refusal = take_pattern(pattern, pattern_len, &p);
    if (!refusal) refusal = take_lists(parents, parents_len, labels, labels_len, &d);
    if (!refusal) refusal = starts_refusal(&p, starts, starts_len, d.n, allowed);
    if (!refusal && (list_len < d.n || work_len < 2 * d.n)) refusal = ROOM;
    if (refusal) return -refusal;
    find(&p, &d, allowed, &f);
    return put_findings(&f, d.n, list, work);
}

/* The packet, room for it; then the same bytes. */
int64_t expected_copy_pattern(const uint8_t *pattern, size_t pattern_len, uint8_t *room, size_t room_len)
{
    static struct pattern p;
    int refusal = take_pattern(pattern, pattern_len, &p);
    if (!refusal && room_len < 4 + 4 * p.n) refusal = ROOM;
    if (refusal) return -refusal;
    return (int64_t)put_pattern(&p, room);
}

/* ---- the program ask ---- */

/* The bytes of the packet that stands first: as many as its length says, or all that are left where that is too many. */
static size_t packet_span(const uint8_t *bytes, size_t left)
{
    if (left < 3) return left;
    size_t span = 3 + (size_t)half(bytes + 1);
    return span <= left ? span : left;
}

/* A line of answers. */
static size_t print_answers(char *text, const char *word, const struct findings *f)
{
    size_t length = (size_t)sprintf(text, "%s %u:", word, (unsigned)f->count);
    for (size_t k = 0; k < f->count; k++) length += (size_t)sprintf(text + length, " %u", (unsigned)f->list[k]);
    text[length++] = '\n';
    return length;
}

/* The last line: what the compensation finds from the view's answers on, or that there is none, or the refusal. */
static size_t print_rewriting(char *text, const struct document *d, const struct pattern *v, const struct pattern *q, const struct findings *view_answers)
{
    static struct pattern e;
    static struct findings f;
    uint8_t allowed[NODES];
    int answer = rewrite_query(q, v, &e);
    if (answer < 0) return (size_t)sprintf(text, "refused %d rewriting\n", -answer);
    if (answer == 0) return (size_t)sprintf(text, "rewriting none\n");
    starts_refusal(&e, view_answers->list, view_answers->count, d->n, allowed);
    find(&e, d, allowed, &f);
    return print_answers(text, "rewriting", &f);
}

/* Document, view and query are looked at in this order, then whether anything is left; then come the three lines. */
size_t expected_ask(const uint8_t *input, size_t input_len, char *text)
{
    static struct document d;
    static struct pattern v, q;
    static struct findings f, view_answers;
    uint8_t allowed[NODES];
    size_t at = 0, length = 0;
    for (int part = 0; part < 3; part++) {
        static const char *const word[] = {"document", "view", "query"};
        size_t span = packet_span(input + at, input_len - at);
        int refusal = part == 0 ? take_document(input, span, &d) : take_pattern(input + at, span, part == 1 ? &v : &q);
        if (refusal) return (size_t)sprintf(text, "refused %d %s\n", refusal, word[part]);
        at += span;
    }
    if (at < input_len) return (size_t)sprintf(text, "refused %d input\n", LENGTH);
    allow_by_axis(&v, &d, allowed);
    find(&v, &d, allowed, &view_answers);
    length += print_answers(text, "view", &view_answers);
    allow_by_axis(&q, &d, allowed);
    find(&q, &d, allowed, &f);
    length += print_answers(text + length, "query", &f);
    return length + print_rewriting(text + length, &d, &v, &q, &view_answers);
}
