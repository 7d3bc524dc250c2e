/* compare.c: every function of nishkavel.h against the evaluator, and against the worked example and facts that tie the calls together.
 *
 *     compare [seed [rounds]]
 *
 * or NISHKAVEL_SEED and NISHKAVEL_ROUNDS in the environment. The same seed gives the same run. A mismatch prints the seed, the call and all that it was handed,
 * and ends the run with status 1.
 */
#include "calls.h"

#include <inttypes.h>
#include <stdio.h>
#include <stdlib.h>
#include <string.h>

#include "../include/nishkavel.h"

static struct source *const r = &run_source;

/* ---- start lists ---- */

/* Some ascending nodes of a document of n: none, all, or a part. */
static size_t some_starts(size_t n, uint16_t *starts)
{
    size_t count = 0;
    unsigned percent = (unsigned)below(r, 6) * 20;
    for (size_t i = 0; i < n; i++)
        if (chance(r, percent)) starts[count++] = (uint16_t)i;
    return count;
}

/* A start list made wrong, most times: two entries changed over, one twice, one that is no node. */
static size_t spoil_starts(size_t n, uint16_t *starts, size_t count)
{
    size_t kind = below(r, 4), k = count > 1 ? below(r, count - 1) : 0;
    if (kind == 0 && count > 1) {
        uint16_t swap = starts[k];
        starts[k] = starts[k + 1];
        starts[k + 1] = swap;
    } else if (kind == 1 && count > 0) starts[count] = starts[count - 1], count++;
    else if (kind == 2) starts[count++] = (uint16_t)n;
    else if (count > 0) starts[below(r, count)] = (uint16_t)(chance(r, 50) ? n + below(r, 3) : draw(r));
    return count;
}

/* A start list as bytes. */
static void pack_starts(const uint16_t *starts, size_t count, struct packet *to)
{
    for (size_t k = 0; k < count; k++) {
        to->bytes[2 * k] = (uint8_t)(starts[k] / 256);
        to->bytes[2 * k + 1] = (uint8_t)starts[k];
    }
    to->len = 2 * count;
}

/* Both started forms with one list of starts, at times with a byte too many or too few in the packet form. */
static void check_starts(const struct document *d, const struct packet *document, const struct packet *pattern, const uint16_t *starts, size_t count)
{
    static struct packet bytes;
    pack_starts(starts, count, &bytes);
    if (chance(r, 10)) bytes.bytes[bytes.len++] = (uint8_t)draw(r);
    else if (bytes.len > 0 && chance(r, 5)) bytes.len--;
    check_started(document, pattern, &bytes, some_room(2 * d->n));
    check_list_started(d->parent, d->n, d->label, d->n, pattern, starts, count, some_room(d->n), some_room(2 * d->n));
}

/* ---- facts that tie calls together ---- */

/* The library asked twice: the join at once, and the view first with the compensation from there. */
static void tie_join(const struct packet *document, const struct packet *view, const struct packet *compensation)
{
    static struct packet joined, starts;
    static uint8_t direct[2 * NODES], started[2 * NODES];
    int64_t length = check_join(view, compensation, 260);
    if (length < 0) return;
    pack_bytes(&joined, image(PATTERN_RESULT), (size_t)length);
    int64_t count = nishkavel_answers(document->bytes, document->len, view->bytes, view->len, starts.bytes, sizeof starts.bytes);
    int64_t of_join = nishkavel_answers(document->bytes, document->len, joined.bytes, joined.len, direct, sizeof direct);
    if (count < 0) return;
    starts.len = 2 * (size_t)count;
    int64_t of_started =
        nishkavel_started(document->bytes, document->len, compensation->bytes, compensation->len, starts.bytes, starts.len, started, sizeof started);
    holds(of_join == of_started && of_join >= 0 && memcmp(direct, started, 2 * (size_t)of_join) == 0, "the join answers as the started compensation", document,
          view, compensation);
}

/* Is the node among the answers of p in d, by the evaluator? */
static int answers_node(const struct pattern *p, const struct document *d, size_t node)
{
    static struct findings f;
    uint8_t allowed[NODES];
    allow_by_axis(p, d, allowed);
    find(p, d, allowed, &f);
    for (size_t k = 0; k < f.count; k++)
        if (f.list[k] == node) return 1;
    return 0;
}

/* A witness, read back: a right document on which a answers the node and b does not, by the evaluator. */
static void tie_witness(const struct pattern *a, const struct pattern *b, const uint8_t *room)
{
    static struct document d;
    size_t length = 3 + room[1] * 256u + room[2];
    holds(take_document(room, length, &d) == 0, "the witness is a document", NULL, NULL, NULL);
    size_t node = room[length] * 256u + room[length + 1];
    holds(answers_node(a, &d, node), "the first pattern answers the node of the witness", NULL, NULL, NULL);
    holds(!answers_node(b, &d, node), "the second pattern does not answer the node of the witness", NULL, NULL, NULL);
}

/* Are all of the first answers among the second? */
static int among(const uint8_t *few, int64_t count, const uint8_t *many, int64_t of)
{
    int64_t at = 0;
    for (int64_t k = 0; k < count; k++) {
        while (at < of && memcmp(many + 2 * at, few + 2 * k, 2) != 0) at++;
        if (at == of) return 0;
    }
    return 1;
}

/* What is contained has its answers among the other's on a document at hand; the mapping is one. */
static void tie_mapping(const struct packet *document, const struct packet *first, const struct packet *second, const uint8_t *room)
{
    static struct pattern a, b;
    static uint8_t few[2 * NODES], many[2 * NODES];
    size_t map[STEPS];
    take_pattern(first->bytes, first->len, &a);
    take_pattern(second->bytes, second->len, &b);
    for (size_t t = 0; t < STEPS; t++) map[t] = room[t];
    holds(is_mapping(&a, &b, map), "what comes out for a contained pair is a mapping", first, second, NULL);
    int64_t count = nishkavel_answers(document->bytes, document->len, first->bytes, first->len, few, sizeof few);
    int64_t of = nishkavel_answers(document->bytes, document->len, second->bytes, second->len, many, sizeof many);
    if (count >= 0) holds(among(few, count, many, of), "answers of what is contained are answers of the other", document, first, second);
}

/* One pair of right patterns: containment, and what follows from its answer. */
static void check_pair(const struct packet *document, const struct pattern *a, const struct pattern *b)
{
    static struct packet first, second;
    static uint8_t room[517];
    pack_pattern(a, &first);
    pack_pattern(b, &second);
    int64_t answer = check_contained(&first, &second, some_room(517));
    if (answer < 0) return;
    memcpy(room, image(CONTAINED_ROOM), sizeof room);
    if (answer == 0) tie_witness(a, b, room);
    else tie_mapping(document, &first, &second, room);
}

/* A compensation that was handed over: its join with the view is equal to the query by the evaluator, and on the document at hand it gives the same answers. */
static void tie_rewriting(const struct packet *document, const struct packet *query, const struct packet *view, const struct packet *compensation)
{
    static struct pattern q, v, e, j;
    static struct packet starts;
    static uint8_t direct[2 * NODES], started[2 * NODES];
    size_t map[STEPS];
    take_pattern(query->bytes, query->len, &q);
    take_pattern(view->bytes, view->len, &v);
    holds(take_pattern(compensation->bytes, compensation->len, &e) == 0, "a compensation is a pattern", query, view, compensation);
    holds(join_patterns(&v, &e, &j) == 0 && map_by_recursion(&q, &j, map) && map_by_recursion(&j, &q, map), "the join with the view is equal to the query",
          query, view, compensation);
    int64_t count = nishkavel_answers(document->bytes, document->len, view->bytes, view->len, starts.bytes, sizeof starts.bytes);
    if (count < 0) return;
    int64_t of_query = nishkavel_answers(document->bytes, document->len, query->bytes, query->len, direct, sizeof direct);
    int64_t of_started =
        nishkavel_started(document->bytes, document->len, compensation->bytes, compensation->len, starts.bytes, 2 * (size_t)count, started, sizeof started);
    holds(of_query == of_started && memcmp(direct, started, 2 * (size_t)of_query) == 0, "the compensation gives the answers of the query", query, view,
          compensation);
}

/* One query and one view, right ones; a pair that was made to be served has to be. */
static void check_rewriting(const struct packet *document, const struct pattern *q, const struct pattern *v, int served)
{
    static struct packet query, view, compensation;
    pack_pattern(q, &query);
    pack_pattern(v, &view);
    int64_t length = check_rewrite(&query, &view, served ? some_room(chance(r, 50) ? 260 : 4 * q->n + 4) : chance(r, 70) ? 260 : 0);
    if (length > 0) {
        pack_bytes(&compensation, image(PATTERN_RESULT), (size_t)length);
        tie_rewriting(document, &query, &view, &compensation);
    }
    if (served) holds(length > 0 || length == -5, "a query that was made from the view is served", &query, &view, NULL);
}

/* ---- the evaluator with itself ---- */

/* Trial and recursion give the same on small tables; a mapping exists exactly when the witness does not show the pair apart. */
static void check_evaluator(void)
{
    static struct document d, w;
    static struct pattern a, b;
    static struct findings f, g;
    struct palette c;
    uint8_t allowed[NODES];
    size_t map[STEPS], other[STEPS];
    make_palette(r, &c);
    make_document(r, &c, between(r, 1, 8), &d);
    if (chance(r, 50)) make_pattern(r, &c, between(r, 1, 5), &a);
    else make_met(r, &d, between(r, 1, 5), &a);
    allow_by_axis(&a, &d, allowed);
    for (size_t i = 0; i < d.n && chance(r, 50); i++) allowed[i] = chance(r, 50);
    find_by_trial(&a, &d, allowed, &f);
    find_by_recursion(&a, &d, allowed, &g);
    begin("the evaluator");
    holds(f.count == g.count && memcmp(f.list, g.list, 2 * f.count) == 0 && memcmp(f.work, g.work, 16 * d.n) == 0, "trial and recursion find the same", NULL,
          NULL, NULL);
    if (chance(r, 50)) make_pattern(r, &c, between(r, 1, 5), &b);
    else {
        b = a;
        loosen(r, &b);
        if (chance(r, 40)) alter(r, &c, &b);
    }
    int mapped = map_by_trial(&a, &b, map);
    holds(mapped == map_by_recursion(&a, &b, other) && (!mapped || memcmp(map, other, b.n * sizeof map[0]) == 0), "trial and recursion map the same", NULL,
          NULL, NULL);
    size_t node = write_witness(&a, fresh_label(&a, &b), &w);
    holds(answers_node(&a, &w, node), "a pattern answers its own witness", NULL, NULL, NULL);
    holds(mapped == answers_node(&b, &w, node), "a mapping exists where the witness is answered", NULL, NULL, NULL);
}

/* ---- rounds ---- */

/* Mostly few, now and then many. */
static size_t some_nodes(void)
{
    size_t kind = below(r, 100);
    if (kind < 45) return between(r, 1, 8);
    if (kind < 80) return between(r, 9, 40);
    if (kind < 98) return between(r, 41, 200);
    return between(r, 201, 2048);
}

static size_t some_steps(void)
{
    size_t kind = below(r, 100);
    if (kind < 55) return between(r, 1, 4);
    if (kind < 80) return between(r, 5, 8);
    if (kind < 95) return between(r, 9, 32);
    return between(r, 33, 64);
}

/* A pattern that may have answers in d. */
static void some_pattern(const struct palette *c, const struct document *d, struct pattern *p)
{
    if (chance(r, 50)) make_pattern(r, c, some_steps(), p);
    else make_met(r, d, some_steps(), p);
}

/* Answers in both forms, the reader and the copier. */
static void round_of_answers(const struct document *d, const struct packet *document, const struct pattern *p)
{
    static struct packet pattern;
    pack_pattern(p, &pattern);
    int64_t count = check_answers(document, &pattern, some_room(2 * d->n));
    int64_t listed = check_list_answers(d->parent, d->n, d->label, d->n, &pattern, some_room(d->n), some_room(2 * d->n));
    if (count >= 0 && listed >= 0) holds(count == listed, "packets and lists give the same count", document, &pattern, NULL);
    check_read_document(document, some_room(d->n), some_room(d->n));
    check_copy_pattern(&pattern, some_room(pattern.len));
}

/* Started answers: at the answers of a view, at any nodes, at none, at a list that is wrong. */
static void round_of_starts(const struct palette *c, const struct document *d, const struct packet *document, const struct pattern *v)
{
    static struct packet pattern;
    static struct findings f;
    static struct pattern e;
    static uint16_t starts[NODES + 2];
    uint8_t allowed[NODES];
    make_compensation(r, c, v, some_steps(), &e);
    if (chance(r, 30)) make_met(r, d, some_steps(), &e), e.axis[0] = chance(r, 10);
    pack_pattern(&e, &pattern);
    allow_by_axis(v, d, allowed);
    find(v, d, allowed, &f);
    check_starts(d, document, &pattern, f.list, f.count);
    size_t count = some_starts(d->n, starts);
    check_starts(d, document, &pattern, starts, count);
    check_starts(d, document, &pattern, starts, 0);
    if (chance(r, 50)) check_starts(d, document, &pattern, starts, spoil_starts(d->n, starts, count));
}

/* Two patterns that have something to do with each other, both ways round; and two that may not. */
static void round_of_pairs(const struct palette *c, const struct document *d, const struct packet *document)
{
    static struct pattern a, b;
    some_pattern(c, d, &a);
    b = a;
    if (chance(r, 80)) loosen(r, &b);
    for (size_t k = below(r, 3); k > 0; k--) imply(r, STEPS, chance(r, 50) ? &a : &b);
    if (chance(r, 25)) alter(r, c, &b);
    check_pair(document, &a, &b);
    check_pair(document, &b, &a);
    if (chance(r, 50)) make_pattern(r, c, between(r, 1, 4), &b);
    check_pair(document, &a, &b);
}

/* Joins: most fit together, some have another label, the wrong axis or too many steps. */
static void round_of_joins(const struct palette *c, const struct packet *document, const struct pattern *v)
{
    static struct pattern e;
    static struct packet view, compensation;
    make_compensation(r, c, v, some_steps(), &e);
    pack_pattern(v, &view);
    pack_pattern(&e, &compensation);
    tie_join(document, &view, &compensation);
    check_join(&view, &compensation, some_room(v->n + e.n <= 65 ? view.len + compensation.len - 8 : 260));
    make_compensation(r, c, v, some_steps(), &e);
    if (chance(r, 30)) e.axis[0] = 1;
    if (chance(r, 30)) e.label[0] = some_label(r, c);
    pack_pattern(&e, &compensation);
    check_join(&view, &compensation, chance(r, 30) ? below(r, 12) : some_room(260));
}

/* Rewritings: pairs that are served, the same with something changed, and any two. */
static void round_of_rewritings(const struct palette *c, const struct document *d, const struct packet *document)
{
    static struct pattern q, v;
    for (int k = 0; k < 3; k++) {
        make_served(r, c, &q, &v);
        check_rewriting(document, &q, &v, 1);
    }
    alter(r, c, chance(r, 50) ? &q : &v);
    check_rewriting(document, &q, &v, 0);
    if (chance(r, 30)) {
        some_pattern(c, d, &q);
        make_pattern(r, c, between(r, 1, 3), &v);
        check_rewriting(document, &q, &v, 0);
    }
}

/* A packet, damaged or not. */
static void damaged_document(const struct document *d, int wrong, struct packet *to)
{
    to->len = wrong ? damage_document(r, d, to->bytes) : put_document(d, to->bytes);
}

static void damaged_pattern(const struct pattern *p, int wrong, struct packet *to)
{
    to->len = wrong ? damage_pattern(r, p, to->bytes) : put_pattern(p, to->bytes);
}

/* Calls on packets of which one or both are damaged, with rooms of any length. */
static void round_of_damage(const struct palette *c, const struct document *d, const struct pattern *p)
{
    static struct packet document, pattern, other, starts;
    static struct pattern e;
    static uint16_t list[NODES + 2];
    size_t which = between(r, 1, 3);
    damaged_document(d, which & 1, &document);
    damaged_pattern(p, which & 2, &pattern);
    check_answers(&document, &pattern, some_room(2 * d->n));
    pack_starts(list, spoil_starts(d->n, list, some_starts(d->n, list)), &starts);
    check_started(&document, &pattern, &starts, some_room(2 * d->n));
    damaged_document(d, 1, &document);
    check_read_document(&document, some_room(d->n), some_room(d->n));
    damaged_pattern(p, 1, &pattern);
    check_copy_pattern(&pattern, some_room(pattern.len));
    make_compensation(r, c, p, some_steps(), &e);
    which = between(r, 1, 3);
    damaged_pattern(p, which & 1, &pattern);
    damaged_pattern(&e, which & 2, &other);
    check_contained(&pattern, &other, some_room(517));
    check_join(&pattern, &other, some_room(260));
    if (chance(r, 40)) check_rewrite(&pattern, &other, some_room(260));
}

/* Lists that are wrong: spoiled tables, unequal lengths, no entries, together with a damaged pattern at times. */
static void round_of_lists(const struct document *d, const struct pattern *p)
{
    static struct document wrong;
    static struct packet pattern;
    static uint16_t starts[NODES + 2];
    wrong = *d;
    size_t kind = below(r, 6), parents = d->n, labels = d->n;
    if (kind <= 2) spoil_document(r, &wrong);
    else if (kind == 3) parents -= between(r, 1, d->n);
    else if (kind == 4) labels -= between(r, 1, d->n);
    damaged_pattern(p, kind == 5 || chance(r, 10), &pattern);
    check_list_answers(wrong.parent, parents, wrong.label, labels, &pattern, some_room(d->n), some_room(2 * d->n));
    size_t count = some_starts(d->n, starts);
    if (chance(r, 40)) count = spoil_starts(d->n, starts, count);
    check_list_started(wrong.parent, parents, wrong.label, labels, &pattern, starts, count, some_room(d->n), some_room(2 * d->n));
}

/* One document, and everything about it. */
static void one_round(void)
{
    static struct document d;
    static struct pattern p;
    static struct packet document;
    struct palette c;
    make_palette(r, &c);
    make_document(r, &c, some_nodes(), &d);
    pack_document(&d, &document);
    for (int k = 0; k < 2; k++) {
        some_pattern(&c, &d, &p);
        round_of_answers(&d, &document, &p);
    }
    round_of_starts(&c, &d, &document, &p);
    round_of_pairs(&c, &d, &document);
    round_of_joins(&c, &document, &p);
    round_of_rewritings(&c, &d, &document);
    round_of_damage(&c, &d, &p);
    round_of_lists(&d, &p);
    if (!evaluator_broken()) check_evaluator();
}

/* ---- sizes at the edge ---- */

static const size_t edge_steps[] = {1, 2, 31, 32, 33, 63, 64, 65};
static const size_t edge_nodes[] = {1, 2, 2047, 2048, 2049};

enum { EDGE_STEPS = sizeof edge_steps / sizeof edge_steps[0], EDGE_NODES = sizeof edge_nodes / sizeof edge_nodes[0] };

/* One document and one pattern of such sizes: packets past the limit are 2, lists past it 4; rooms are enough, and one too short. */
static void edge_of_answers(const struct palette *c, size_t nodes, size_t steps)
{
    static struct document d;
    static struct pattern p;
    static struct packet document, pattern, starts;
    static uint16_t list[NODE_ROWS];
    make_document(r, c, nodes, &d);
    if (nodes > 2 && chance(r, 80)) make_met(r, &d, steps, &p);
    else make_pattern(r, c, steps, &p);
    pack_document(&d, &document);
    pack_pattern(&p, &pattern);
    int64_t count = check_answers(&document, &pattern, 2 * nodes);
    if (nodes > 2048) holds(count == -2, "a packet of 2,049 nodes is refused by 2", NULL, NULL, NULL);
    else if (steps > 64 && p.n == steps) holds(count == -2, "a packet of 65 steps is refused by 2", NULL, NULL, NULL);
    else holds(count >= 0, "tables of the largest sizes are accepted", NULL, NULL, NULL);
    int64_t listed = check_list_answers(d.parent, nodes, d.label, nodes, &pattern, nodes, 2 * nodes);
    if (nodes > 2048 && p.n <= 64) holds(listed == -4, "lists of 2,049 nodes are refused by 4", NULL, NULL, NULL);
    check_answers(&document, &pattern, 2 * nodes - 1);
    check_list_answers(d.parent, nodes, d.label, nodes, &pattern, nodes - 1, 2 * nodes);
    check_list_answers(d.parent, nodes, d.label, nodes, &pattern, nodes, 2 * nodes - 1);
    check_read_document(&document, nodes, nodes);
    check_read_document(&document, nodes - 1, nodes);
    check_read_document(&document, nodes, nodes - 1);
    p.axis[0] = 0;
    pack_pattern(&p, &pattern);
    size_t starting = some_starts(nodes, list);
    pack_starts(list, starting, &starts);
    check_started(&document, &pattern, &starts, 2 * nodes);
    check_list_started(d.parent, nodes, d.label, nodes, &pattern, list, starting, nodes, 2 * nodes);
}

/* A view and a compensation whose join has so many steps: 64 are accepted, 65 are not. */
static void edge_of_joins(const struct palette *c, size_t steps)
{
    static struct pattern v, e;
    static struct packet view, compensation;
    size_t first = between(r, steps > 64 ? steps - 63 : 1, steps > 64 ? 64 : steps);
    make_pattern(r, c, first, &v);
    make_compensation(r, c, &v, steps - first + 1, &e);
    pack_pattern(&v, &view);
    pack_pattern(&e, &compensation);
    int64_t length = check_join(&view, &compensation, 260);
    holds(length == (steps > 64 ? -8 : (int64_t)(4 + 4 * steps)), "a join of 64 steps is accepted, one of 65 is not", &view, &compensation, NULL);
    if (steps <= 64) check_join(&view, &compensation, 4 + 4 * steps - 1);
    check_join(&view, &compensation, steps > 64 ? 0 : 4 + 4 * steps);
}

/* Joins with several things wrong at once: the axis, the label, the size, the room, in every combination. */
static void edge_of_wrong_joins(const struct palette *c)
{
    static struct pattern v, e;
    static struct packet view, compensation;
    for (unsigned wrong = 0; wrong < 16; wrong++) {
        make_pattern(r, c, 33, &v);
        make_compensation(r, c, &v, wrong & 4 ? 33 : 32, &e);
        if (wrong & 1) e.axis[0] = 1;
        if (wrong & 2) e.label[0] = (uint16_t)(e.label[0] ^ 256);
        pack_pattern(&v, &view);
        pack_pattern(&e, &compensation);
        int64_t right = wrong & 1 ? -6 : wrong & 2 ? -7 : wrong & 4 ? -8 : wrong & 8 ? -5 : 260;
        holds(check_join(&view, &compensation, wrong & 8 ? 259 : 260) == right, "a join is refused by 6, 7, 8, 5 in this order", &view, &compensation, NULL);
    }
}

/* A served query of so many steps by a view of so many: 8 where either passes 32, whatever else is the case. */
static void edge_of_rewritings(const struct palette *c, const struct packet *document, size_t steps, size_t view_steps)
{
    static struct pattern q, v, e;
    static struct packet query, view;
    int served = steps >= view_steps && steps <= 64;
    make_pattern(r, c, view_steps, &v);
    make_compensation(r, c, &v, served ? steps - view_steps + 1 : 1, &e);
    if (served) join_patterns(&v, &e, &q);
    else make_pattern(r, c, steps, &q);
    if (chance(r, 50)) shuffle(r, &q);
    pack_pattern(&q, &query);
    pack_pattern(&v, &view);
    int64_t length = check_rewrite(&query, &view, 260);
    int refused = steps > 64 || view_steps > 64 ? -2 : -8;
    if (steps > 32 || view_steps > 32) holds(length == refused, "a query or a view of 33 steps is refused by 8", &query, &view, NULL);
    else if (served) check_rewriting(document, &q, &v, 1);
    check_rewrite(&query, &view, 3);
}

/* Patterns of 64 steps, contained and apart, up to the largest witness; labels so that the fresh one is 129. */
static void edge_of_pairs(const struct palette *c, const struct packet *document, size_t steps)
{
    static struct pattern a, b;
    static struct packet first, second;
    make_pattern(r, c, steps, &a);
    b = a;
    shuffle(r, &b);
    if (steps <= 64) check_pair(document, &a, &b), check_pair(document, &b, &a);
    loosen(r, &b);
    pack_pattern(&a, &first);
    pack_pattern(&b, &second);
    check_contained(&first, &second, 517);
    check_contained(&second, &first, 516);
    make_pattern(r, c, steps, &b);
    for (size_t s = 0; s < steps; s++) {
        a.axis[s] = 1;
        a.label[s] = (uint16_t)(2 * s + 1);
        b.label[s] = (uint16_t)(2 * s + 2);
    }
    pack_pattern(&a, &first);
    pack_pattern(&b, &second);
    int64_t answer = check_contained(&first, &second, 517);
    const uint8_t *room = image(CONTAINED_ROOM);
    if (steps == 64)
        holds(answer == 0 && room[1] == 2 && room[2] == 0 && room[6] == 129, "the largest witness has 128 nodes and the fresh label 129", &first, &second,
              NULL);
    check_contained(&first, &second, 516);
    check_contained(&second, &first, 518);
}

/* A star and a chain of 64 steps at documents that they fill, so that every bit of the working list is seen. */
static void edge_of_bits(void)
{
    static struct document d;
    static struct packet pattern, document;
    static struct pattern p;
    struct palette whole = {2, {1, 65535}};
    for (int form = 0; form < 8; form++) {
        make_document(r, &whole, 200, &d);
        make_met(r, &d, 64, &p);
        pack_document(&d, &document);
        pack_pattern(&p, &pattern);
        check_answers(&document, &pattern, 400);
        check_list_answers(d.parent, 200, d.label, 200, &pattern, 200, 400);
    }
    holds(bits_fit == UINT64_MAX && bits_placed == UINT64_MAX, "every bit of the working list was seen, bit 63 too", NULL, NULL, NULL);
}

/* Empty packets, empty lists, NULL for either; and rooms of no bytes. */
static void edge_of_nothing(void)
{
    static const struct document none;
    static struct packet empty;
    PACKET(line, 1, 0, 4, 255, 255, 0, 1);
    PACKET(frame, 1, 0, 5, 0, 255, 1, 255, 255);
    for (int k = 0; k < 8; k++) {
        check_answers(&empty, &empty, 0);
        check_answers(&line, &empty, 2);
        check_answers(&line, &frame, 0);
        check_answers(&line, &frame, 2);
        check_started(&line, &frame, &empty, 2);
        check_contained(&empty, &frame, 0);
        check_contained(&frame, &empty, 517);
        check_join(&frame, &empty, 0);
        check_rewrite(&empty, &empty, 0);
        check_read_document(&empty, 0, 0);
        check_read_document(&line, 0, 1);
        check_copy_pattern(&empty, 0);
        check_copy_pattern(&frame, 0);
        check_list_answers(none.parent, 0, none.label, 0, &frame, 0, 0);
        check_list_started(none.parent, 0, none.label, 0, &frame, none.parent, 0, 0, 0);
    }
}

/* Lengths that are right but for a multiple of 65,536, and rooms of that size. */
static void edge_of_wide_lengths(void)
{
    static struct packet document, pattern, none, starts;
    static struct document d;
    static struct pattern p;
    static uint16_t parents[65600], labels[65600];
    struct palette c = {2, {1, 65535}};
    make_document(r, &c, 8, &d);
    make_met(r, &d, 3, &p);
    p.axis[0] = 0;
    pack_document(&d, &document);
    pack_pattern(&p, &pattern);
    for (size_t i = 0; i < 65600; i++) parents[i] = i == 0 ? 65535 : 0, labels[i] = 1;
    holds(check_answers(&document, &pattern, 65536) >= 0, "a room of 65,536 bytes is enough", &document, &pattern, NULL);
    check_started(&document, &pattern, &none, 65537);
    check_copy_pattern(&pattern, 65536 + 3);
    check_join(&pattern, &pattern, 65536 + 3);
    check_rewrite(&pattern, &pattern, 65536 + 3);
    check_contained(&pattern, &pattern, 65536 + 3);
    check_read_document(&document, 65536, 65537);
    check_list_answers(d.parent, 8, d.label, 8, &pattern, 65536, 65536 / 4);
    check_list_started(d.parent, 8, d.label, 8, &pattern, parents, 0, 65536, 65536 / 4);
    for (size_t more = 0; more < 64; more += 21) {
        check_list_answers(parents, 65536 + more, labels, 65536 + more, &pattern, 65536, 8192);
        check_list_answers(parents, 65536 + more, labels, more, &pattern, 65536, 8192);
    }
    memset(starts.bytes, 0, sizeof starts.bytes);
    starts.len = 65536 + 2;
    holds(check_started(&document, &pattern, &starts, 16) == -6, "65,538 bytes of starts are refused by 6", &document, &pattern, NULL);
    starts.len = 65536;
    holds(check_started(&document, &pattern, &starts, 16) == -6, "65,536 bytes of starts are refused by 6", &document, &pattern, NULL);
    check_list_started(d.parent, 8, d.label, 8, &pattern, labels, 65537, 8, 16);
    document.len += 65536;
    holds(check_answers(&document, &pattern, 16) == -2, "a document slice of 65,536 bytes more is refused by 2", NULL, NULL, NULL);
    check_read_document(&document, 8, 8);
    pattern.len += 65536;
    holds(check_copy_pattern(&pattern, 260) == -2, "a pattern slice of 65,536 bytes more is refused by 2", NULL, NULL, NULL);
    check_join(&pattern, &pattern, 260);
}

/* All sizes at the edge: 31, 32, 33, 63, 64, 65 steps and 2,047, 2,048, 2,049 nodes, with the labels 1 and 65535. */
static void edges(void)
{
    static struct document d;
    static struct packet document;
    struct palette c = {3, {1, 2, 65535}};
    make_document(r, &c, 60, &d);
    pack_document(&d, &document);
    for (size_t n = 0; n < EDGE_NODES; n++)
        for (size_t s = 0; s < EDGE_STEPS; s++) edge_of_answers(&c, edge_nodes[n], edge_steps[s]);
    for (size_t s = 0; s < EDGE_STEPS; s++) {
        for (int k = 0; k < 4; k++) edge_of_joins(&c, edge_steps[s]);
        for (int k = 0; k < 4; k++) edge_of_pairs(&c, &document, edge_steps[s]);
        for (size_t v = 0; v < EDGE_STEPS; v++) edge_of_rewritings(&c, &document, edge_steps[s], edge_steps[v]);
    }
    edge_of_wrong_joins(&c);
    edge_of_wide_lengths();
    edge_of_bits();
    edge_of_nothing();
}

/* Each call has refused by each number that it may refuse by, and by no other. */
static void refusals(void)
{
    static const char *const by[][2] = {{"nishkavel_answers", "12345"},      {"nishkavel_started", "123456"},      {"nishkavel_contained", "1235"},
                                        {"nishkavel_join", "1235678"},       {"nishkavel_rewrite", "12358"},       {"nishkavel_read_document", "1245"},
                                        {"nishkavel_list_answers", "12345"}, {"nishkavel_list_started", "123456"}, {"nishkavel_copy_pattern", "1235"}};
    for (size_t k = 0; k < sizeof by / sizeof by[0]; k++) holds(refused_by(by[k][0], by[k][1]), "each refusal of the call was seen", NULL, NULL, NULL);
}

/* ---- the run ---- */

/* A number from the command line, else from the environment, else the usual one. */
static uint64_t setting(int argc, char **argv, int k, const char *name, uint64_t usual)
{
    const char *text = argc > k ? argv[k] : getenv(name);
    return text && *text ? strtoull(text, NULL, 0) : usual;
}

int main(int argc, char **argv)
{
    run_seed = setting(argc, argv, 1, "NISHKAVEL_SEED", 7);
    uint64_t rounds = setting(argc, argv, 2, "NISHKAVEL_ROUNDS", 1000);
    printf("compare: seed %" PRIu64 ", %" PRIu64 " rounds\n", run_seed, rounds);
    fflush(stdout);
    open_slots();
    sow(r, run_seed);
    if (!evaluator_broken()) flight_line_seven(), candidate_axis();
    for (run_round = 1; run_round <= rounds; run_round++) one_round();
    edges();
    refusals();
    holds(3 * handed_over >= rewritings, "a third of the rewritings are handed over", NULL, NULL, NULL);
    holds(4 * contained_pairs >= containments, "a quarter of the containments are contained", NULL, NULL, NULL);
    printf("compare: %" PRIu64 " comparisons, %" PRIu64 " handed-over of %" PRIu64 " rewritings, seed %" PRIu64 ": all equal\n", comparisons, handed_over,
           rewritings, run_seed);
    return 0;
}
