/* stack.c: how much stack each function of nishkavel.h uses, on the largest tables: each runs on a stack of its own that was painted before. The header says
 * that NISHKAVEL_STACK_BYTES are enough.
 */
#define _DEFAULT_SOURCE
#include "generate.h"

#include <stdio.h>
#include <string.h>
#include <ucontext.h>

#include "../include/nishkavel.h"

enum { STACK = 1 << 18, PAINT = 0xC3 };

static uint8_t stack[STACK];
static ucontext_t here, there;

static struct document d;
static uint8_t document[DOCUMENT_ROOM], pattern[PATTERN_ROOM], other[PATTERN_ROOM], room[2 * NODES], starts[2 * NODES];
static size_t document_len, pattern_len, other_len;
static uint16_t list[NODES], parents[NODES], labels[NODES];
static uint64_t work[2 * NODES];

static void answers(void) { nishkavel_answers(document, document_len, pattern, pattern_len, room, sizeof room); }
static void started(void) { nishkavel_started(document, document_len, pattern, pattern_len, starts, 2 * d.n, room, sizeof room); }
static void contained(void) { nishkavel_contained(pattern, pattern_len, other, other_len, room, sizeof room); }
static void join(void) { nishkavel_join(pattern, pattern_len, other, other_len, room, sizeof room); }
static void rewrite(void) { nishkavel_rewrite(pattern, pattern_len, other, other_len, room, sizeof room); }
static void read_document(void) { nishkavel_read_document(document, document_len, parents, NODES, labels, NODES); }
static void copy_pattern(void) { nishkavel_copy_pattern(pattern, pattern_len, room, sizeof room); }
static void list_answers(void) { nishkavel_list_answers(d.parent, d.n, d.label, d.n, pattern, pattern_len, list, NODES, work, 2 * NODES); }
static void list_started(void) { nishkavel_list_started(d.parent, d.n, d.label, d.n, pattern, pattern_len, parents, 0, list, NODES, work, 2 * NODES); }

/* The bytes of stack that a call touched, counted from the first one that lost its paint. */
static size_t used_by(void (*call)(void))
{
    size_t k = 0;
    memset(stack, PAINT, STACK);
    getcontext(&there);
    there.uc_stack.ss_sp = stack;
    there.uc_stack.ss_size = STACK;
    there.uc_link = &here;
    makecontext(&there, call, 0);
    swapcontext(&here, &there);
    while (k < STACK && stack[k] == PAINT) k++;
    return STACK - k;
}

static const struct {
    const char *name;
    void (*call)(void);
} calls[] = {
    {"answers", answers},           {"started", started},
    {"contained", contained},       {"join", join},
    {"rewrite", rewrite},           {"read_document", read_document},
    {"copy_pattern", copy_pattern}, {"list_answers", list_answers},
    {"list_started", list_started},
};

enum { CALLS = sizeof calls / sizeof calls[0] };

/* The largest tables: 2,048 nodes, and patterns of so many steps that meet them and are contained in each other. */
static void make_tables(struct source *r, size_t steps, size_t other_steps)
{
    static struct pattern p, q;
    struct palette c = {2, {1, 65535}};
    make_document(r, &c, NODES, &d);
    make_met(r, &d, steps, &p);
    p.axis[0] = 0;
    q = p;
    if (other_steps < steps) make_compensation(r, &c, &p, other_steps, &q);
    document_len = put_document(&d, document);
    pattern_len = put_pattern(&p, pattern);
    other_len = put_pattern(&q, other);
    for (size_t i = 0; i < d.n; i++) starts[2 * i] = (uint8_t)(i / 256), starts[2 * i + 1] = (uint8_t)i;
}

int main(void)
{
    static const size_t sizes[][2] = {{64, 64}, {32, 32}, {40, 25}};
    size_t most[CALLS] = {0}, deepest = 0;
    struct source r;
    sow(&r, 7);
    for (int k = 0; k < 30; k++) {
        make_tables(&r, sizes[k % 3][0], sizes[k % 3][1]);
        for (int f = 0; f < CALLS; f++) {
            size_t used = used_by(calls[f].call);
            if (used > most[f]) most[f] = used;
        }
    }
    printf("stack:");
    for (int f = 0; f < CALLS; f++) {
        printf("%s %s %zu", f ? "," : "", calls[f].name, most[f]);
        if (most[f] > deepest) deepest = most[f];
    }
    printf("; %s\n", deepest <= NISHKAVEL_STACK_BYTES ? "no more than the header says" : "MORE than the header says");
    return deepest > NISHKAVEL_STACK_BYTES;
}
