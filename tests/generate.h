/* generate.h: tables at random, from a seed: documents, patterns, pairs of patterns that have something to do with each other, and damaged packets. */
#ifndef GENERATE_H
#define GENERATE_H

#include "evaluator.h"

#include <stdbool.h>

struct source {
    uint64_t state;
};

/* Numbers. */
void sow(struct source *r, uint64_t seed);
uint64_t draw(struct source *r);
size_t below(struct source *r, size_t bound);
size_t between(struct source *r, size_t low, size_t high);
bool chance(struct source *r, unsigned percent);

/* A few labels to draw from, so that patterns meet nodes. */
struct palette {
    size_t count;
    uint16_t label[16];
};
void make_palette(struct source *r, struct palette *c);
uint16_t some_label(struct source *r, const struct palette *c);

/* Right tables of a given size. make_met makes a pattern that has an answer in d; it may be shorter where d is a single node. */
void make_document(struct source *r, const struct palette *c, size_t nodes, struct document *d);
void make_pattern(struct source *r, const struct palette *c, size_t steps, struct pattern *p);
void make_met(struct source *r, const struct document *d, size_t steps, struct pattern *p);

/* Changes to right patterns, which stay right.
 * loosen: what contains the old one. imply: the same answers, with a condition more, if that fits into `most` steps. alter: anything near.
 * shuffle: the same with conditions in another order. */
void loosen(struct source *r, struct pattern *p);
void imply(struct source *r, size_t most, struct pattern *p);
void alter(struct source *r, const struct palette *c, struct pattern *p);
void shuffle(struct source *r, struct pattern *p);

/* A compensation for the view: a pattern of axis child whose first label is that of the view's output step. */
void make_compensation(struct source *r, const struct palette *c, const struct pattern *v, size_t steps, struct pattern *e);
/* A query and a view that has a compensation for it, both of at most 32 steps. */
void make_served(struct source *r, const struct palette *c, struct pattern *q, struct pattern *v);

/* A packet made wrong, most times: a changed table, byte, version or length, bytes cut off or added. Returns the new length; the room has 16 bytes to spare. */
size_t damage_document(struct source *r, const struct document *d, uint8_t *bytes);
size_t damage_pattern(struct source *r, const struct pattern *p, uint8_t *bytes);
/* A table of nodes made wrong, most times. */
void spoil_document(struct source *r, struct document *d);

#endif
