/* lending.c: slices between closed pages and guard bytes, and the report of a mismatch. */
#define _DEFAULT_SOURCE
#include "lending.h"

#include <inttypes.h>
#include <signal.h>
#include <stdio.h>
#include <stdlib.h>
#include <string.h>
#include <sys/mman.h>
#include <unistd.h>

#ifndef MAP_ANONYMOUS
#define MAP_ANONYMOUS MAP_ANON
#endif

static struct slot {
    const char *name;
    size_t entries, unit;
    uint8_t *area, *at, *guard;
    uint64_t image[AREA / 8];
} slots[SLOTS];

static const char *current;
static int used;

/* What to say if the call touches a closed page, written before the call: a handler of signals may format nothing. */
static char if_touched[256];
static size_t if_touched_len;

static const uint8_t guard_byte = 0xA5;

uint64_t run_seed, run_round, comparisons;
struct source run_source;

/* The calls made so far, by name, and the refusals that each gave, as bits. */
static struct {
    const char *call;
    unsigned refusals;
} seen[16];

/* Some bytes in hexadecimal, entries of 2 or 8 bytes as numbers. */
static void dump(const char *name, const void *content, size_t entries, size_t unit)
{
    const uint8_t *bytes = content;
    printf("  %s, %zu x %zu:", name, entries, unit);
    for (size_t k = 0; k < entries; k++) {
        uint16_t two;
        uint64_t eight;
        if (unit == 1) printf(" %02x", bytes[k]);
        else if (unit == 2) memcpy(&two, bytes + 2 * k, 2), printf(" %04x", two);
        else memcpy(&eight, bytes + 8 * k, 8), printf(" %" PRIx64, eight);
    }
    printf("\n");
}

/* Ends the run: where it stood, and every slice of the call as the evaluator has it and as the call left it where the two differ. */
static void give_up(const char *words)
{
    printf("compare: MISMATCH in %s: %s\n  seed %" PRIu64 ", round %" PRIu64 ", comparison %" PRIu64 "\n", current, words, run_seed, run_round, comparisons);
    for (int k = 0; k < used; k++) {
        struct slot *s = &slots[k];
        dump(s->name, s->image, s->entries, s->unit);
        if (s->entries > 0 && memcmp(s->at, s->image, s->entries * s->unit) != 0) {
            printf("  but the library has");
            dump(s->name, s->at, s->entries, s->unit);
        }
    }
    fflush(stdout);
    _exit(1);
}

/* A touch of a closed page. Only calls that a handler of signals may make. */
static void touched(int number)
{
    (void)number;
    _exit(write(STDOUT_FILENO, if_touched, if_touched_len) < 0 ? 2 : 1);
}

/* A closed page, the area, a closed page, for each slot. */
void open_slots(void)
{
    size_t page = (size_t)sysconf(_SC_PAGESIZE), area = AREA < page ? page : AREA;
    for (int k = 0; k < SLOTS; k++) {
        uint8_t *all = mmap(NULL, area + 2 * page, PROT_NONE, MAP_PRIVATE | MAP_ANONYMOUS, -1, 0);
        if (all == MAP_FAILED || mprotect(all + page, area, PROT_READ | PROT_WRITE) != 0) {
            perror("compare: no memory to lend");
            exit(1);
        }
        slots[k].area = all + page;
    }
    struct sigaction action = {.sa_handler = touched};
    sigemptyset(&action.sa_mask);
    if (sigaction(SIGSEGV, &action, NULL) != 0 || sigaction(SIGBUS, &action, NULL) != 0) {
        perror("compare: no handler of signals");
        exit(1);
    }
}

/* A call begins with nothing lent. */
void begin(const char *call)
{
    current = call;
    used = 0;
    if_touched_len = (size_t)sprintf(if_touched, "compare: memory outside the slices was touched, in %s or after it: seed %" PRIu64 ", round %" PRIu64 "\n",
                                     call, run_seed, run_round);
}

/* The slice stands at one end of its area, by chance, with guard bytes on the side that is open. */
static void *stand(struct slot *s, size_t bytes)
{
    size_t page = (size_t)sysconf(_SC_PAGESIZE), area = AREA < page ? page : AREA;
    int at_end = chance(&run_source, 50);
    s->at = at_end ? s->area + area - bytes : s->area;
    s->guard = at_end ? s->at - GUARD : s->at + bytes;
    memset(s->guard, guard_byte, GUARD);
    memcpy(s->at, s->image, bytes);
    return bytes == 0 && chance(&run_source, 50) ? NULL : s->at;
}

/* Makes the next slot ready for so many entries. */
static struct slot *take_slot(int slot, const char *name, size_t entries, size_t unit)
{
    struct slot *s = &slots[slot];
    if (slot != used || slot >= SLOTS || entries * unit > AREA - GUARD) {
        printf("compare: a slice of %zu x %zu can't be lent as number %d\n", entries, unit, slot);
        exit(1);
    }
    used++;
    s->name = name;
    s->entries = entries;
    s->unit = unit;
    return s;
}

/* Lends given contents. */
void *lend(int slot, const char *name, const void *content, size_t entries, size_t unit)
{
    struct slot *s = take_slot(slot, name, entries, unit);
    if (entries > 0) memcpy(s->image, content, entries * unit);
    return stand(s, entries * unit);
}

/* Lends a room that holds anything. */
void *lend_noise(int slot, const char *name, size_t entries, size_t unit)
{
    struct slot *s = take_slot(slot, name, entries, unit);
    for (size_t k = 0; k < (entries * unit + 7) / 8; k++) s->image[k] = draw(&run_source);
    return stand(s, entries * unit);
}

/* The image of a slice. */
void *image(int slot) { return slots[slot].image; }

/* Are the guard bytes of a slice as they were? */
static int guarded(const struct slot *s)
{
    for (size_t k = 0; k < GUARD; k++)
        if (s->guard[k] != guard_byte) return 0;
    return 1;
}

/* Where a call is noted. */
static size_t place_of(const char *call)
{
    size_t k = 0;
    while (seen[k].call && strcmp(seen[k].call, call) != 0) k++;
    seen[k].call = call;
    return k;
}

/* The digits against the bits. */
int refused_by(const char *call, const char *numbers)
{
    unsigned right = 0;
    for (; *numbers; numbers++) right |= 1u << (*numbers - '0');
    begin(call);
    return seen[place_of(call)].refusals == right;
}

/* Results, slices, guards. */
void finish(int64_t got, int64_t want)
{
    static char words[80];
    comparisons++;
    if (got < 0 && got >= -9) seen[place_of(current)].refusals |= 1u << -got;
    if (got != want) {
        sprintf(words, "%" PRId64 " came out, %" PRId64 " is right", got, want);
        give_up(words);
    }
    for (int k = 0; k < used; k++) {
        const struct slot *s = &slots[k];
        if (!guarded(s)) give_up("bytes beside a slice were written");
        if (s->entries > 0 && memcmp(s->at, s->image, s->entries * s->unit) != 0) give_up("the contents differ");
    }
}

/* A fact that ties calls together. */
void holds(int fact, const char *words, const struct packet *a, const struct packet *b, const struct packet *c)
{
    comparisons++;
    if (fact) return;
    printf("compare: a fact does not hold: %s\n", words);
    if (a) dump("first packet", a->bytes, a->len, 1);
    if (b) dump("second packet", b->bytes, b->len, 1);
    if (c) dump("third packet", c->bytes, c->len, 1);
    give_up("the last call before it");
}
