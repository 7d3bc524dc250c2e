/* nishkavel.h: the frame catalogue for C.
 *
 * A call gets packets or lists and returns an int64_t. 0 or more is the answer. A negative result is minus a refusal (enum nishkavel_refusal), and then nothing
 * that you lent has changed; nishkavel_refusal_text turns it into a sentence.
 *
 * Buffers. You supply every buffer; no call allocates, keeps state, or touches a byte outside what it is given. A buffer that a call writes to must not overlap
 * any other argument of that call, neither what it reads nor another buffer that it writes to. A pointer may be NULL where its length is 0. Lengths are in
 * bytes for uint8_t, in entries for uint16_t and uint64_t.
 *
 * Byte order. Numbers inside packets, start bytes and answer bytes have the high byte first. Lists of uint16_t and uint64_t are plain C arrays.
 *
 * Threads. Any call may run in any number of threads at once, as long as each writes to buffers of its own. A call needs at most NISHKAVEL_STACK_BYTES of
 * stack.
 *
 * A document packet, 1 to 2,048 nodes in document order:
 *     1; two bytes: 4n; then for each node two bytes for its parent and two for its label.
 *     Node 0 has parent 65535. Every later node hangs on the node just before it or on an ancestor of that one.
 * A pattern packet, 1 to 64 steps:
 *     1; two bytes: 1 + 4 * steps; one byte: the output step; then for each step one byte for its parent, one for its axis (0 child, 1 descendant) and two
 *     for its label. Step 0 has parent 255. Later steps hang on earlier ones as nodes do.
 * Labels are 1 to 65535; which name each stands for is up to you.
 *
 * The frames of strips in the document packet `line`, with strip as label 2 and frame as label 3:
 *
 *     static const uint8_t frames[] = {1, 0, 9, 1, 255, 1, 0, 2, 0, 1, 0, 3};    // //strip//frame
 *     uint8_t room[NISHKAVEL_ANSWER_BYTES(NISHKAVEL_MAX_NODES)];
 *     int64_t count = nishkavel_answers(line, line_bytes, frames, sizeof frames, room, sizeof room);
 *     if (count < 0)
 *         fprintf(stderr, "%s\n", nishkavel_refusal_text(count));
 *     for (int64_t k = 0; k < count; k++)
 *         printf("%d\n", NISHKAVEL_NUMBER(room + 2 * k));
 *
 * Link with libstation.a. The samples are whole programs.
 */
#ifndef NISHKAVEL_H
#define NISHKAVEL_H

#include <stddef.h>
#include <stdint.h>

#ifdef __cplusplus
extern "C" {
#endif

#define NISHKAVEL_VERSION_MAJOR 0
#define NISHKAVEL_VERSION_MINOR 1
#define NISHKAVEL_VERSION_PATCH 0
#define NISHKAVEL_VERSION "0.1.0"

/* Why a call refuses. Each call names its checks in order, and the first that fails gives the number. */
enum nishkavel_refusal {
    NISHKAVEL_REFUSED_VERSION = 1,
    NISHKAVEL_REFUSED_LENGTH = 2,
    NISHKAVEL_REFUSED_PATTERN = 3,
    NISHKAVEL_REFUSED_DOCUMENT = 4,
    NISHKAVEL_REFUSED_ROOM = 5,
    NISHKAVEL_REFUSED_START = 6,
    NISHKAVEL_REFUSED_OTHER_LABEL = 7,
    NISHKAVEL_REFUSED_TOO_LARGE = 8,
    NISHKAVEL_REFUSED_NO_LABEL = 9
};

/* A sentence for the result of a call. */
static inline const char *nishkavel_refusal_text(int64_t result)
{
    switch (result < 0 && result > -100 ? (int)-result : 0) {
    case NISHKAVEL_REFUSED_VERSION:
        return "a packet does not begin with version 1";
    case NISHKAVEL_REFUSED_LENGTH:
        return "a packet has fewer than 3 bytes, or its length field is not allowed or does not match the bytes that are there";
    case NISHKAVEL_REFUSED_PATTERN:
        return "a pattern breaks the rules for patterns";
    case NISHKAVEL_REFUSED_DOCUMENT:
        return "a document breaks the rules for documents";
    case NISHKAVEL_REFUSED_ROOM:
        return "a room or a list is too short";
    case NISHKAVEL_REFUSED_START:
        return "what is started or joined begins with axis descendant, or the start nodes are not ascending nodes of the document";
    case NISHKAVEL_REFUSED_OTHER_LABEL:
        return "the compensation does not begin with the label of the view's output step";
    case NISHKAVEL_REFUSED_TOO_LARGE:
        return "more than 64 steps in a join, or more than 32 in what is to be rewritten";
    case NISHKAVEL_REFUSED_NO_LABEL:
        return "no label is free for a witness";
    default:
        return result < 0 ? "not a result of this library" : "no refusal";
    }
}

/* The largest tables, and rooms that are always long enough. */
enum {
    NISHKAVEL_MAX_NODES = 2048,          /* nodes of a document */
    NISHKAVEL_MAX_STEPS = 64,            /* steps of a pattern */
    NISHKAVEL_MAX_REWRITE_STEPS = 32,    /* steps of a query or a view for nishkavel_rewrite */
    NISHKAVEL_MAX_DOCUMENT_BYTES = 8195, /* a document packet */
    NISHKAVEL_MAX_PATTERN_BYTES = 260,   /* a pattern packet */
    NISHKAVEL_MAX_REWRITE_BYTES = 132,   /* the packet that nishkavel_rewrite writes */
    NISHKAVEL_CONTAINED_BYTES = 517,     /* the room of nishkavel_contained, which asks for all of it */
    NISHKAVEL_MAPPING_BYTES = 64,        /* the mapping that nishkavel_contained writes */
    NISHKAVEL_STACK_BYTES = 98304        /* the stack that any call needs at most */
};

/* The bytes of a document packet of n nodes, of a pattern packet of n steps, and of n answers or start nodes; the entries of a working list for n nodes. */
#define NISHKAVEL_DOCUMENT_BYTES(n) (3 + 4 * (n))
#define NISHKAVEL_PATTERN_BYTES(n) (4 + 4 * (n))
#define NISHKAVEL_ANSWER_BYTES(n) (2 * (n))
#define NISHKAVEL_WORK_ENTRIES(n) (2 * (n))

/* The number in the two bytes at p, high byte first; and the length in bytes of the packet that begins at p. */
#define NISHKAVEL_NUMBER(p) ((p)[0] * 256 + (p)[1])
#define NISHKAVEL_PACKET_BYTES(p) (3 + NISHKAVEL_NUMBER((p) + 1))

/* The answers of a pattern in a document.
 *   Returns  the count c.
 *   Writes   the answers to the first 2c bytes of the room, ascending, two bytes each. Later bytes stay.
 *   Room     NISHKAVEL_ANSWER_BYTES(nodes of the document), whatever the count.
 *   Refuses  2, 1, 2, 4 for the document packet; 2, 1, 2, 3 for the pattern packet; 5. */
int64_t nishkavel_answers(const uint8_t *document, size_t document_bytes, const uint8_t *pattern, size_t pattern_bytes, uint8_t *room, size_t room_bytes);

/* The same, but step 0 of the pattern stands at one of the start nodes: what a compensation finds from a view's answers.
 *   Starts   two bytes each, strictly ascending, as nishkavel_answers writes them. There may be none.
 *   Refuses  2, 1, 2, 4 for the document packet; 2, 1, 2, 3 for the pattern packet; 6 where step 0 has axis descendant, the start bytes are odd in number, or
 *            the starts are not strictly ascending nodes of the document; 5. */
int64_t nishkavel_started(const uint8_t *document, size_t document_bytes, const uint8_t *pattern, size_t pattern_bytes, const uint8_t *starts,
                          size_t starts_bytes, uint8_t *room, size_t room_bytes);

/* Is every answer of a, on every document, an answer of b?
 *   Returns  1 if it is, 0 if it is not.
 *   Writes   after 1: the smallest mapping to the first 64 bytes of the room; byte t is the step of a that step t of b goes to, and bytes past b's steps are 0.
 *            After 0: a document packet on which the two differ, NISHKAVEL_PACKET_BYTES(room) bytes long, and right behind it, in two bytes, a node of it that
 *            a answers and b does not. Later bytes stay.
 *   Room     NISHKAVEL_CONTAINED_BYTES, whichever way the answer falls.
 *   Refuses  2, 1, 2, 3 for the packet of a; 2, 1, 2, 3 for that of b; 9; 5. */
int64_t nishkavel_contained(const uint8_t *a, size_t a_bytes, const uint8_t *b, size_t b_bytes, uint8_t *room, size_t room_bytes);

/* Joins a compensation to a view: the pattern whose answers are those of the compensation, started at the view's answers.
 *   Returns  the length of its packet.
 *   Writes   the packet to the front of the room. Later bytes stay.
 *   Room     the packet's length; NISHKAVEL_MAX_PATTERN_BYTES is always enough.
 *   Refuses  2, 1, 2, 3 for the view's packet; 2, 1, 2, 3 for the compensation's; 6 where the compensation begins with axis descendant; 7; 8; 5. */
int64_t nishkavel_join(const uint8_t *view, size_t view_bytes, const uint8_t *compensation, size_t compensation_bytes, uint8_t *room, size_t room_bytes);

/* Finds the compensation that, joined to the view, has the query's answers on every document.
 *   Returns  the length of its packet, or 0 where there is none.
 *   Writes   the packet to the front of the room. Later bytes stay, and after 0 all of it.
 *   Room     the packet's length; NISHKAVEL_MAX_REWRITE_BYTES is always enough. With that much, a positive result says that there is a compensation and 0 that
 *            there is none. Do not take every negative result for "none": -5 says that there is one and that your room is too short for it.
 *   Refuses  2, 1, 2, 3 for the query's packet; 2, 1, 2, 3 for the view's; 8; 5 where there is a compensation. */
int64_t nishkavel_rewrite(const uint8_t *query, size_t query_bytes, const uint8_t *view, size_t view_bytes, uint8_t *room, size_t room_bytes);

/* Reads a document packet into two lists, for the two calls below.
 *   Returns  the node count n.
 *   Writes   the parents and the labels to the first n entries of the two lists. Later entries stay.
 *   Room     n entries in each list.
 *   Refuses  2, 1, 2, 4 for the packet; 5. */
int64_t nishkavel_read_document(const uint8_t *document, size_t document_bytes, uint16_t *parents, size_t parents_entries, uint16_t *labels,
                                size_t labels_entries);

/* The answers of a pattern in a document that stands in two lists, so that a document is decoded once for many patterns.
 *   Lists    parents_entries and labels_entries are the node count n, not the size of your arrays.
 *   Returns  the count c.
 *   Writes   the answers, ascending, to the first c entries of `list`, and to the first 2n entries of `work`: bit s of entry 2i says that step s
 *            fits at node i with all that hangs on it, bit s of entry 2i + 1 that it stands there in a placement of the whole pattern. Later entries stay.
 *   Room     n entries in `list`, NISHKAVEL_WORK_ENTRIES(n) in `work`.
 *   Refuses  2, 1, 2, 3 for the pattern packet; 4; 5. */
int64_t nishkavel_list_answers(const uint16_t *parents, size_t parents_entries, const uint16_t *labels, size_t labels_entries, const uint8_t *pattern,
                               size_t pattern_bytes, uint16_t *list, size_t list_entries, uint64_t *work, size_t work_entries);

/* The same, but step 0 of the pattern stands at one of the nodes of `starts`, which ascend strictly.
 *   Refuses  2, 1, 2, 3 for the pattern packet; 4; 6 where step 0 has axis descendant or the starts are not strictly ascending nodes of the document; 5. */
int64_t nishkavel_list_started(const uint16_t *parents, size_t parents_entries, const uint16_t *labels, size_t labels_entries, const uint8_t *pattern,
                               size_t pattern_bytes, const uint16_t *starts, size_t starts_entries, uint16_t *list, size_t list_entries, uint64_t *work,
                               size_t work_entries);

/* Reads a pattern packet and writes it back, the same bytes: a way to have a packet checked.
 *   Returns  the length of the packet.
 *   Writes   the packet to the front of the room. Later bytes stay.
 *   Room     pattern_bytes.
 *   Refuses  2, 1, 2, 3 for the packet; 5. */
int64_t nishkavel_copy_pattern(const uint8_t *pattern, size_t pattern_bytes, uint8_t *room, size_t room_bytes);

#ifdef __cplusplus
}
#endif

#endif
