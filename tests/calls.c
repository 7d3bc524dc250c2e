/* calls.c: each function of nishkavel.h called once, beside the evaluator, and the two compared. */
#include "calls.h"

#include <string.h>

#include "../include/nishkavel.h"

uint64_t rewritings, handed_over, containments, contained_pairs, bits_fit, bits_placed;

/* A document's packet. */
void pack_document(const struct document *d, struct packet *to) { to->len = put_document(d, to->bytes); }

/* A pattern's packet. */
void pack_pattern(const struct pattern *p, struct packet *to) { to->len = put_pattern(p, to->bytes); }

/* Bytes as a packet. */
void pack_bytes(struct packet *to, const uint8_t *bytes, size_t len)
{
    memcpy(to->bytes, bytes, len);
    to->len = len;
}

/* Most rooms are enough; one in five is not. */
size_t some_room(size_t need)
{
    size_t kind = below(&run_source, 20);
    if (kind < 10) return need + below(&run_source, 20);
    if (kind < 16 || need == 0) return need;
    return kind < 19 ? need - 1 : below(&run_source, need);
}

/* nishkavel_answers. */
int64_t check_answers(const struct packet *document, const struct packet *pattern, size_t room)
{
    begin("nishkavel_answers");
    const uint8_t *d = lend(0, "document", document->bytes, document->len, 1);
    const uint8_t *p = lend(1, "pattern", pattern->bytes, pattern->len, 1);
    uint8_t *to = lend_noise(ANSWERS_ROOM, "room", room, 1);
    int64_t got = nishkavel_answers(d, document->len, p, pattern->len, to, room);
    finish(got, expected_answers(image(0), document->len, image(1), pattern->len, image(2), room));
    return got;
}

/* nishkavel_started. */
int64_t check_started(const struct packet *document, const struct packet *pattern, const struct packet *starts, size_t room)
{
    begin("nishkavel_started");
    const uint8_t *d = lend(0, "document", document->bytes, document->len, 1);
    const uint8_t *p = lend(1, "pattern", pattern->bytes, pattern->len, 1);
    const uint8_t *s = lend(2, "starts", starts->bytes, starts->len, 1);
    uint8_t *to = lend_noise(STARTED_ROOM, "room", room, 1);
    int64_t got = nishkavel_started(d, document->len, p, pattern->len, s, starts->len, to, room);
    finish(got, expected_started(image(0), document->len, image(1), pattern->len, image(2), starts->len, image(3), room));
    return got;
}

/* nishkavel_contained. */
int64_t check_contained(const struct packet *a, const struct packet *b, size_t room)
{
    begin("nishkavel_contained");
    const uint8_t *first = lend(0, "a", a->bytes, a->len, 1);
    const uint8_t *second = lend(1, "b", b->bytes, b->len, 1);
    uint8_t *to = lend_noise(CONTAINED_ROOM, "room", room, 1);
    int64_t got = nishkavel_contained(first, a->len, second, b->len, to, room);
    finish(got, expected_contained(image(0), a->len, image(1), b->len, image(2), room));
    containments++;
    contained_pairs += got == 1;
    return got;
}

/* nishkavel_join. */
int64_t check_join(const struct packet *view, const struct packet *compensation, size_t room)
{
    begin("nishkavel_join");
    const uint8_t *v = lend(0, "view", view->bytes, view->len, 1);
    const uint8_t *e = lend(1, "compensation", compensation->bytes, compensation->len, 1);
    uint8_t *to = lend_noise(PATTERN_RESULT, "room", room, 1);
    int64_t got = nishkavel_join(v, view->len, e, compensation->len, to, room);
    finish(got, expected_join(image(0), view->len, image(1), compensation->len, image(2), room));
    return got;
}

/* nishkavel_rewrite. */
int64_t check_rewrite(const struct packet *query, const struct packet *view, size_t room)
{
    begin("nishkavel_rewrite");
    const uint8_t *q = lend(0, "query", query->bytes, query->len, 1);
    const uint8_t *v = lend(1, "view", view->bytes, view->len, 1);
    uint8_t *to = lend_noise(PATTERN_RESULT, "room", room, 1);
    int64_t got = nishkavel_rewrite(q, query->len, v, view->len, to, room);
    finish(got, expected_rewrite(image(0), query->len, image(1), view->len, image(2), room));
    rewritings++;
    handed_over += got > 0;
    return got;
}

/* nishkavel_read_document. */
int64_t check_read_document(const struct packet *document, size_t parents, size_t labels)
{
    begin("nishkavel_read_document");
    const uint8_t *d = lend(0, "document", document->bytes, document->len, 1);
    uint16_t *p = lend_noise(1, "parents", parents, 2);
    uint16_t *l = lend_noise(2, "labels", labels, 2);
    int64_t got = nishkavel_read_document(d, document->len, p, parents, l, labels);
    finish(got, expected_read_document(image(0), document->len, image(1), parents, image(2), labels));
    return got;
}

/* nishkavel_copy_pattern. */
int64_t check_copy_pattern(const struct packet *pattern, size_t room)
{
    begin("nishkavel_copy_pattern");
    const uint8_t *p = lend(0, "pattern", pattern->bytes, pattern->len, 1);
    uint8_t *to = lend_noise(1, "room", room, 1);
    int64_t got = nishkavel_copy_pattern(p, pattern->len, to, room);
    finish(got, expected_copy_pattern(image(0), pattern->len, image(1), room));
    return got;
}

/* The bits of a working list that was filled for n nodes. */
static void note_bits(const uint64_t *work, size_t n)
{
    for (size_t i = 0; i < n; i++) {
        bits_fit |= work[2 * i];
        bits_placed |= work[2 * i + 1];
    }
}

/* nishkavel_list_answers. */
int64_t check_list_answers(const uint16_t *parents, size_t parents_len, const uint16_t *labels, size_t labels_len, const struct packet *pattern, size_t list,
                           size_t work)
{
    begin("nishkavel_list_answers");
    const uint16_t *above = lend(0, "parents", parents, parents_len, 2);
    const uint16_t *names = lend(1, "labels", labels, labels_len, 2);
    const uint8_t *p = lend(2, "pattern", pattern->bytes, pattern->len, 1);
    uint16_t *answers = lend_noise(3, "list", list, 2);
    uint64_t *entries = lend_noise(4, "work", work, 8);
    int64_t got = nishkavel_list_answers(above, parents_len, names, labels_len, p, pattern->len, answers, list, entries, work);
    finish(got, expected_list_answers(image(0), parents_len, image(1), labels_len, image(2), pattern->len, image(3), list, image(4), work));
    if (got >= 0) note_bits(entries, parents_len);
    return got;
}

/* nishkavel_list_started. */
int64_t check_list_started(const uint16_t *parents, size_t parents_len, const uint16_t *labels, size_t labels_len, const struct packet *pattern,
                           const uint16_t *starts, size_t count, size_t list, size_t work)
{
    begin("nishkavel_list_started");
    const uint16_t *above = lend(0, "parents", parents, parents_len, 2);
    const uint16_t *names = lend(1, "labels", labels, labels_len, 2);
    const uint8_t *p = lend(2, "pattern", pattern->bytes, pattern->len, 1);
    const uint16_t *from = lend(3, "starts", starts, count, 2);
    uint16_t *answers = lend_noise(4, "list", list, 2);
    uint64_t *entries = lend_noise(5, "work", work, 8);
    int64_t got = nishkavel_list_started(above, parents_len, names, labels_len, p, pattern->len, from, count, answers, list, entries, work);
    finish(got, expected_list_started(image(0), parents_len, image(1), labels_len, image(2), pattern->len, image(3), count, image(4), list, image(5), work));
    return got;
}
