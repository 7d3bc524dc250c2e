/* lending.h: what the tests lend to a call, each slice in memory of its own.
 *
 * A slice ends or begins at a page that may be neither read nor written, and has guard bytes on its other side. Beside it stands an image, plain memory with
 * the same contents, which the evaluator reads and writes. After the call the slice has to hold what the image holds, byte for byte: what is to be written,
 * what is to stay, and, for what is only read, everything.
 */
#ifndef LENDING_H
#define LENDING_H

#include "generate.h"

enum { SLOTS = 7, AREA = 1 << 18, GUARD = 64, PACKET_ROOM = 70000 };

/* Where the run stands, for the report of a mismatch. */
extern uint64_t run_seed, run_round;
extern uint64_t comparisons;
extern struct source run_source;

/* Maps the memory and catches a touch of the closed pages, which ends the run with status 1, the call's name and the seed. */
void open_slots(void);

/* Begins a call by its name; then each slice is lent, `unit` bytes to an entry. NULL is lent for some slices without bytes. */
void begin(const char *call);
void *lend(int slot, const char *name, const void *content, size_t entries, size_t unit);
void *lend_noise(int slot, const char *name, size_t entries, size_t unit);
void *image(int slot);

/* The two results, and all slices against their images. Counts one comparison; a mismatch ends the run with status 1. */
void finish(int64_t got, int64_t want);

/* A fact about results: counts one comparison; if it is false the run ends, after the slices of the last call and the packets named here. */
struct packet {
    size_t len;
    uint8_t bytes[PACKET_ROOM];
};
void holds(int fact, const char *words, const struct packet *a, const struct packet *b, const struct packet *c);

/* Has each refusal been seen from this call, and no other? The numbers as digits, as in "1235". */
int refused_by(const char *call, const char *numbers);

#endif
