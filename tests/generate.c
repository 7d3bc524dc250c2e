/* generate.c: tables at random, from a seed. */
#include "generate.h"

#include <string.h>

/* ---- numbers ---- */

/* A seed becomes a state that is not zero; neighbouring seeds are stirred apart. */
void sow(struct source *r, uint64_t seed)
{
    r->state = (seed + 1) * 0x9E3779B97F4A7C15u;
    if (r->state == 0) r->state = 1;
    for (int k = 0; k < 8; k++) draw(r);
}

/* The next number, by shifts and a multiplication (xorshift64*). */
uint64_t draw(struct source *r)
{
    r->state ^= r->state >> 12;
    r->state ^= r->state << 25;
    r->state ^= r->state >> 27;
    return r->state * 0x2545F4914F6CDD1Du;
}

/* A number from 0 to bound - 1. */
size_t below(struct source *r, size_t bound) { return (size_t)((draw(r) >> 11) % bound); }

/* A number from low to high, both included. */
size_t between(struct source *r, size_t low, size_t high) { return low + below(r, high - low + 1); }

/* True so many times in a hundred. */
bool chance(struct source *r, unsigned percent) { return below(r, 100) < percent; }

/* ---- labels ---- */

/* One to six labels: small ones, the largest ones, or ones that share a high or a low byte. */
void make_palette(struct source *r, struct palette *c)
{
    static const uint16_t mixed[] = {0x0101, 0x0102, 0x0201, 0x0202, 0x00FF, 0x0100, 0xFF00, 0xFFFF, 0x0001, 0x8000, 0x0080, 0x7FFF};
    size_t kind = below(r, 4);
    c->count = between(r, 1, chance(r, 70) ? 3 : 6);
    for (size_t k = 0; k < c->count; k++) {
        if (kind <= 1) c->label[k] = (uint16_t)(k + 1);
        else if (kind == 2) c->label[k] = (uint16_t)(65535 - k);
        else c->label[k] = mixed[below(r, sizeof mixed / sizeof mixed[0])];
    }
}

/* One of the labels. */
uint16_t some_label(struct source *r, const struct palette *c) { return c->label[below(r, c->count)]; }

/* ---- documents ---- */

/* The parent of node i for a form: 0 a chain, 1 wide and flat, 2 a comb, others a random number of levels up from the node before. */
static size_t pick_parent(struct source *r, const struct document *d, size_t i, size_t form)
{
    size_t a = i - 1;
    if (form == 0) return a;
    if (form == 1) return 0;
    if (form == 2) return i % 2 ? a : (a > 0 ? d->parent[a] : 0);
    while (a > 0 && chance(r, form == 3 ? 30 : form == 4 ? 50 : 65)) a = d->parent[a];
    return a;
}

/* A document of one of six forms. */
void make_document(struct source *r, const struct palette *c, size_t nodes, struct document *d)
{
    size_t form = chance(r, 75) ? 3 + below(r, 3) : below(r, 3);
    d->n = nodes;
    for (size_t i = 0; i < nodes; i++) {
        d->parent[i] = (uint16_t)(i == 0 ? 65535 : pick_parent(r, d, i, form));
        d->label[i] = some_label(r, c);
    }
}

/* ---- patterns ---- */

/* A pattern being put together has parents before their steps, but not yet in the order that the rules ask for. This puts step s with all below it at the end
 * of `to`; the children of a step come by rising key. */
static void settle_from(const struct pattern *p, const uint64_t *key, size_t s, size_t parent, struct pattern *to)
{
    size_t here = to->n++;
    uint8_t done[STEP_ROWS] = {0};
    to->parent[here] = (uint8_t)parent;
    to->axis[here] = p->axis[s];
    to->label[here] = p->label[s];
    if (s == p->output) to->output = here;
    for (;;) {
        size_t best = p->n;
        for (size_t t = s + 1; t < p->n; t++)
            if (p->parent[t] == s && !done[t] && (best == p->n || key[t] < key[best])) best = t;
        if (best == p->n) return;
        done[best] = 1;
        settle_from(p, key, best, here, to);
    }
}

/* The same pattern in an order that the rules allow: children as they come, or in random order. */
static void settle(struct source *r, struct pattern *p, int mixed)
{
    struct pattern to;
    uint64_t key[STEP_ROWS];
    to.n = 0;
    to.output = 0;
    for (size_t s = 0; s < p->n; s++) key[s] = mixed ? draw(r) : s;
    settle_from(p, key, 0, 255, &to);
    *p = to;
}

/* Conditions in another order. */
void shuffle(struct source *r, struct pattern *p) { settle(r, p, 1); }

/* One step more at the end. */
static size_t add_step(struct pattern *p, size_t parent, unsigned axis, unsigned label)
{
    p->parent[p->n] = (uint8_t)parent;
    p->axis[p->n] = (uint8_t)axis;
    p->label[p->n] = (uint16_t)label;
    return p->n++;
}

/* An earlier step to hang on: 0 a chain, 1 a star, 2 anywhere, 3 mostly a chain. */
static size_t pick_step(struct source *r, size_t n, size_t form)
{
    if (form == 0) return n - 1;
    if (form == 1) return 0;
    if (form == 2) return below(r, n);
    return chance(r, 70) ? n - 1 : below(r, n);
}

/* A pattern of one of four forms, with few or many descendant steps. */
void make_pattern(struct source *r, const struct palette *c, size_t steps, struct pattern *p)
{
    size_t form = below(r, 4);
    unsigned descendants = (unsigned)below(r, 4) * 33;
    p->n = 0;
    add_step(p, 255, chance(r, 60), some_label(r, c));
    while (p->n < steps) add_step(p, pick_step(r, p->n, form), chance(r, descendants), some_label(r, c));
    p->output = chance(r, 30) ? p->n - 1 : below(r, p->n);
    settle(r, p, 0);
}

/* The last node at or below i. */
static size_t last_node(const struct document *d, size_t i)
{
    size_t last = i;
    while (last + 1 < d->n && d->parent[last + 1] >= i) last++;
    return last;
}

/* A step below the one that stands at node `above`, at some node below that, with an axis that fits. Returns the node, or 0 if there is none. */
static size_t meet(struct source *r, const struct document *d, size_t above, unsigned *axis)
{
    size_t last = last_node(d, above);
    if (last == above) return 0;
    size_t i = between(r, above + 1, last);
    while (chance(r, 60) && d->parent[i] != above) i = d->parent[i];
    *axis = d->parent[i] != above || chance(r, 40);
    return i;
}

/* Steps are added together with the nodes that they stand at, so that there is a placement. */
void make_met(struct source *r, const struct document *d, size_t steps, struct pattern *p)
{
    size_t at[STEP_ROWS], form = below(r, 4);
    at[0] = chance(r, 50) ? 0 : below(r, d->n);
    if (at[0] > 0 && chance(r, 80)) at[0] = d->parent[at[0]];
    p->n = 0;
    add_step(p, 255, at[0] > 0 || chance(r, 50), d->label[at[0]]);
    for (size_t tries = 0; p->n < steps && tries < 20 * steps; tries++) {
        unsigned axis = 0;
        size_t parent = tries < 10 * steps ? pick_step(r, p->n, form) : below(r, p->n);
        size_t i = meet(r, d, at[parent], &axis);
        if (i == 0) continue;
        at[p->n] = i;
        add_step(p, parent, axis, d->label[i]);
    }
    p->output = below(r, p->n);
    settle(r, p, 0);
}

/* ---- changes ---- */

/* Does anything hang on step s? */
static int has_child(const struct pattern *p, size_t s)
{
    for (size_t t = s + 1; t < p->n; t++)
        if (p->parent[t] == s) return 1;
    return 0;
}

/* Takes step s out. What hung on it hangs on its parent, by axis descendant. */
static void take_out(struct pattern *p, size_t s)
{
    size_t above = p->parent[s];
    for (size_t t = s + 1; t < p->n; t++) {
        if (p->parent[t] != s) continue;
        p->parent[t] = (uint8_t)above;
        p->axis[t] = 1;
    }
    for (size_t t = s + 1; t < p->n; t++) {
        p->parent[t - 1] = (uint8_t)(p->parent[t] > s ? p->parent[t] - 1 : p->parent[t]);
        p->axis[t - 1] = p->axis[t];
        p->label[t - 1] = p->label[t];
    }
    if (p->output > s) p->output--;
    p->n--;
}

/* A step taken out or an axis widened, a few times over. */
void loosen(struct source *r, struct pattern *p)
{
    for (size_t k = between(r, 1, 4); k > 0; k--) {
        size_t s = below(r, p->n);
        if (chance(r, 50)) p->axis[s] = 1;
        else if (s > 0 && s != p->output) take_out(p, s);
    }
    settle(r, p, chance(r, 50));
}

/* A copy of step s and of some of what is below it, hung on step `on`. */
static void copy_below(struct source *r, struct pattern *p, size_t old, size_t most, size_t s, size_t on, unsigned axis)
{
    if (p->n >= most) return;
    size_t copy = add_step(p, on, axis, p->label[s]);
    for (size_t t = s + 1; t < old; t++)
        if (p->parent[t] == s && chance(r, 70)) copy_below(r, p, old, most, t, copy, p->axis[t] || chance(r, 30));
}

/* A condition that holds anyway: a copy of some step further down, with part of what is below it, hung on a step above. */
void imply(struct source *r, size_t most, struct pattern *p)
{
    size_t old = p->n;
    if (old < 2 || old >= most) return;
    size_t s = between(r, 1, old - 1), on = p->parent[s];
    unsigned axis = p->axis[s];
    while (on > 0 && chance(r, 30)) {
        on = p->parent[on];
        axis = 1;
    }
    copy_below(r, p, old, most, s, on, axis || chance(r, 30));
    settle(r, p, chance(r, 50));
}

/* One thing changed: a label, an axis, the output step, a step more or a step less. */
void alter(struct source *r, const struct palette *c, struct pattern *p)
{
    size_t s = below(r, p->n), kind = below(r, 6);
    if (kind == 0) p->label[s] = some_label(r, c);
    else if (kind <= 2) p->axis[s] = !p->axis[s];
    else if (kind == 3) p->output = s;
    else if (kind == 4 && p->n < STEPS) add_step(p, s, chance(r, 50), some_label(r, c));
    else if (s > 0 && s != p->output && !has_child(p, s)) take_out(p, s);
    settle(r, p, 0);
}

/* A pattern of axis child that begins with the view's output label. */
void make_compensation(struct source *r, const struct palette *c, const struct pattern *v, size_t steps, struct pattern *e)
{
    make_pattern(r, c, steps, e);
    e->axis[0] = 0;
    e->label[0] = v->label[v->output];
}

/* The query is the join of the view and some compensation, with conditions added that hold anyway, in any order; so is the view. */
void make_served(struct source *r, const struct palette *c, struct pattern *q, struct pattern *v)
{
    struct pattern e;
    size_t most = chance(r, 70) ? between(r, 1, 6) : between(r, 1, 16);
    make_pattern(r, c, between(r, 1, most), v);
    make_compensation(r, c, v, between(r, 1, most), &e);
    join_patterns(v, &e, q);
    for (size_t k = below(r, 4); k > 0; k--) imply(r, 32, q);
    for (size_t k = below(r, 2); k > 0; k--) imply(r, 32, v);
    if (chance(r, 50)) shuffle(r, q);
}

/* ---- damage ---- */

/* A wrong number for a parent of `bits` bits in row i of n: itself, a later row, none, the mark, or any. */
static unsigned wrong_parent(struct source *r, size_t i, size_t n, unsigned mark)
{
    size_t kind = below(r, 6);
    if (kind == 0) return (unsigned)i;
    if (kind == 1) return (unsigned)(i + 1);
    if (kind == 2) return mark;
    if (kind == 3) return (unsigned)n;
    if (kind == 4) return (unsigned)below(r, i + 1);
    return (unsigned)below(r, (size_t)mark + 1);
}

/* A node with a wrong parent or without a label. */
void spoil_document(struct source *r, struct document *d)
{
    size_t i = chance(r, 20) ? 0 : chance(r, 20) ? d->n - 1 : below(r, d->n);
    if (chance(r, 30)) d->label[i] = 0;
    else d->parent[i] = (uint16_t)wrong_parent(r, i, d->n, 65535);
}

/* A step with a wrong parent, axis or label, or an output step that is not there. */
static void spoil_pattern(struct source *r, struct pattern *p)
{
    size_t s = chance(r, 20) ? 0 : chance(r, 20) ? p->n - 1 : below(r, p->n);
    size_t kind = below(r, 6);
    if (kind == 0) p->label[s] = 0;
    else if (kind == 1) p->axis[s] = (uint8_t)(chance(r, 50) ? 2 : between(r, 2, 255));
    else if (kind == 2) p->output = chance(r, 50) ? p->n : between(r, p->n, 255);
    else p->parent[s] = (uint8_t)wrong_parent(r, s, p->n, 255);
}

/* A wrong length entry: near the right one, or any. */
static void spoil_length(struct source *r, uint8_t *bytes)
{
    static const int by[] = {-4, -3, -1, 1, 2, 4, 256, -256};
    unsigned length = bytes[1] * 256u + bytes[2];
    length = chance(r, 70) ? length + (unsigned)by[below(r, 8)] : (unsigned)below(r, 65536);
    bytes[1] = (uint8_t)(length / 256);
    bytes[2] = (uint8_t)length;
}

/* A length entry that says how many bytes there are, whether or not so many are allowed. */
static void agree(uint8_t *bytes, size_t len)
{
    if (len < 3) return;
    bytes[1] = (uint8_t)((len - 3) / 256);
    bytes[2] = (uint8_t)(len - 3);
}

/* Something wrong with the bytes of a packet. */
static size_t spoil_bytes(struct source *r, uint8_t *bytes, size_t len)
{
    size_t kind = below(r, 8);
    if (kind == 0 && len > 0) bytes[below(r, len)] ^= (uint8_t)(1u << below(r, 8));
    else if (kind == 1 && len > 0) bytes[below(r, len)] = (uint8_t)draw(r);
    else if (kind == 2 && len > 0) bytes[0] = (uint8_t)(chance(r, 50) ? 2 * below(r, 2) : draw(r));
    else if (kind == 3 && len > 2) spoil_length(r, bytes);
    else if (kind == 4 || kind == 5) len = chance(r, 40) ? below(r, len < 5 ? len + 1 : 5) : len - (len > 4 ? between(r, 1, 4) : 0);
    else if (kind == 6) {
        for (size_t k = between(r, 1, 8); k > 0; k--) bytes[len++] = (uint8_t)draw(r);
    }
    if (kind >= 5 && chance(r, 50)) agree(bytes, len);
    return len;
}

/* One or two kinds of damage to a document packet. */
size_t damage_document(struct source *r, const struct document *d, uint8_t *bytes)
{
    static struct document wrong;
    wrong = *d;
    size_t kind = below(r, 3);
    if (kind > 0) spoil_document(r, &wrong);
    size_t len = put_document(&wrong, bytes);
    return kind < 2 ? spoil_bytes(r, bytes, len) : len;
}

/* One or two kinds of damage to a pattern packet. */
size_t damage_pattern(struct source *r, const struct pattern *p, uint8_t *bytes)
{
    struct pattern wrong = *p;
    size_t kind = below(r, 3);
    if (kind > 0) spoil_pattern(r, &wrong);
    size_t len = put_pattern(&wrong, bytes);
    return kind < 2 ? spoil_bytes(r, bytes, len) : len;
}
