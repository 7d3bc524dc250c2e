/* calls.h: each function of nishkavel.h called once, beside the evaluator, and the two compared.
 *
 * Each check returns what the function answered. The room that it wrote is read from the slot that is named here, until the next check.
 */
#ifndef CALLS_H
#define CALLS_H

#include "lending.h"

/* A table as a packet. */
void pack_document(const struct document *d, struct packet *to);
void pack_pattern(const struct pattern *p, struct packet *to);

/* Bytes as a packet, and a packet with a name. */
void pack_bytes(struct packet *to, const uint8_t *bytes, size_t len);
#define PACKET(name, ...)                                \
    static struct packet name;                           \
    static const uint8_t name##_bytes[] = {__VA_ARGS__}; \
    pack_bytes(&name, name##_bytes, sizeof name##_bytes)

/* A length of room where `need` is enough: enough, just enough, one too short, or much too short. */
size_t some_room(size_t need);

/* Rewritings compared so far, and those among them that handed a compensation over; contained pairs likewise. */
extern uint64_t rewritings, handed_over, containments, contained_pairs;
/* Every bit that was seen in entries 2i and 2i + 1 of the working list. */
extern uint64_t bits_fit, bits_placed;

enum { ANSWERS_ROOM = 2, STARTED_ROOM = 3, PATTERN_RESULT = 2, CONTAINED_ROOM = 2 };

int64_t check_answers(const struct packet *document, const struct packet *pattern, size_t room);
int64_t check_started(const struct packet *document, const struct packet *pattern, const struct packet *starts, size_t room);
int64_t check_contained(const struct packet *a, const struct packet *b, size_t room);
int64_t check_join(const struct packet *view, const struct packet *compensation, size_t room);
int64_t check_rewrite(const struct packet *query, const struct packet *view, size_t room);
int64_t check_read_document(const struct packet *document, size_t parents, size_t labels);
int64_t check_copy_pattern(const struct packet *pattern, size_t room);
int64_t check_list_answers(const uint16_t *parents, size_t parents_len, const uint16_t *labels, size_t labels_len, const struct packet *pattern, size_t list,
                           size_t work);
int64_t check_list_started(const uint16_t *parents, size_t parents_len, const uint16_t *labels, size_t labels_len, const struct packet *pattern,
                           const uint16_t *starts, size_t count, size_t list, size_t work);

/* seven.c: the worked example by the numbers of its cases, and what a candidate's axis is. */
void flight_line_seven(void);
void candidate_axis(void);

#endif
