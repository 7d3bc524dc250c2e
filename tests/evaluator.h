/* evaluator.h: the rules of docs/RULES.md once more, in plain C, for the tests to compare with.
 *
 * It is slow and short on purpose. Small tables are decided by trial: every choice of nodes for steps, or of steps for steps, is written down and tested
 * against the definition. Large tables are decided by a plain recursion. The tests compare the two with each other as well.
 */
#ifndef EVALUATOR_H
#define EVALUATOR_H

#include <stddef.h>
#include <stdint.h>

enum {
    NODES = 2048,     /* the most nodes of a document */
    STEPS = 64,       /* the most steps of a pattern */
    NODE_ROWS = 2200, /* what a table can hold here: more than is allowed, so that too large ones can be made */
    STEP_ROWS = 200,
    DOCUMENT_ROOM = 3 + 4 * NODE_ROWS,
    PATTERN_ROOM = 4 + 4 * STEP_ROWS,
    ASK_ROOM = 40000 /* more than the longest output of ask */
};

struct document {
    size_t n;
    uint16_t parent[NODE_ROWS];
    uint16_t label[NODE_ROWS];
};

struct pattern {
    size_t n;
    size_t output;
    uint8_t parent[STEP_ROWS];
    uint8_t axis[STEP_ROWS];
    uint16_t label[STEP_ROWS];
};

/* What Answers gives: the answers in order, and the two working entries of each node. */
struct findings {
    size_t count;
    uint16_t list[NODES];
    uint64_t work[2 * NODES];
};

/* Tables and packets. A reader gives 0 or the refusal; a writer takes any table, right or wrong, and gives the length. */
int document_refusal(const struct document *d);
int pattern_refusal(const struct pattern *p);
int take_document(const uint8_t *bytes, size_t len, struct document *d);
int take_pattern(const uint8_t *bytes, size_t len, struct pattern *p);
size_t put_document(const struct document *d, uint8_t *bytes);
size_t put_pattern(const struct pattern *p, uint8_t *bytes);

/* Steps of a pattern: the last one at or below s, and the main path, whose length is returned. */
size_t last_below(const struct pattern *p, size_t s);
size_t main_path(const struct pattern *p, size_t *path);

/* Answers of a right pattern in a right document. allowed[i] says whether step 0 may be at node i. */
void allow_by_axis(const struct pattern *p, const struct document *d, uint8_t *allowed);
int small_enough(size_t choices, size_t places);
void find_by_trial(const struct pattern *p, const struct document *d, const uint8_t *allowed, struct findings *f);
void find_by_recursion(const struct pattern *p, const struct document *d, const uint8_t *allowed, struct findings *f);
void find(const struct pattern *p, const struct document *d, const uint8_t *allowed, struct findings *f);

/* The smallest mapping of b into a: 1 if there is one. */
int is_mapping(const struct pattern *a, const struct pattern *b, const size_t *map);
int map_by_trial(const struct pattern *a, const struct pattern *b, size_t *map);
int map_by_recursion(const struct pattern *a, const struct pattern *b, size_t *map);
int smallest_mapping(const struct pattern *a, const struct pattern *b, size_t *map);

/* Containment, join and rewriting of right patterns. */
unsigned fresh_label(const struct pattern *a, const struct pattern *b);
size_t write_witness(const struct pattern *a, unsigned fresh, struct document *d);
int join_patterns(const struct pattern *v, const struct pattern *e, struct pattern *j);
int rewrite_query(const struct pattern *q, const struct pattern *v, struct pattern *e);

/* What each function of nishkavel.h has to answer, with the same arguments. */
int64_t expected_answers(const uint8_t *document, size_t document_len, const uint8_t *pattern, size_t pattern_len, uint8_t *room, size_t room_len);
int64_t expected_started(const uint8_t *document, size_t document_len, const uint8_t *pattern, size_t pattern_len, const uint8_t *starts, size_t starts_len,
                         uint8_t *room, size_t room_len);
int64_t expected_contained(const uint8_t *a, size_t a_len, const uint8_t *b, size_t b_len, uint8_t *room, size_t room_len);
int64_t expected_join(const uint8_t *view, size_t view_len, const uint8_t *compensation, size_t compensation_len, uint8_t *room, size_t room_len);
int64_t expected_rewrite(const uint8_t *query, size_t query_len, const uint8_t *view, size_t view_len, uint8_t *room, size_t room_len);
int64_t expected_read_document(const uint8_t *document, size_t document_len, uint16_t *parents, size_t parents_len, uint16_t *labels, size_t labels_len);
int64_t expected_list_answers(const uint16_t *parents, size_t parents_len, const uint16_t *labels, size_t labels_len, const uint8_t *pattern,
                              size_t pattern_len, uint16_t *list, size_t list_len, uint64_t *work, size_t work_len);
int64_t expected_list_started(const uint16_t *parents, size_t parents_len, const uint16_t *labels, size_t labels_len, const uint8_t *pattern,
                              size_t pattern_len, const uint16_t *starts, size_t starts_len, uint16_t *list, size_t list_len, uint64_t *work, size_t work_len);
int64_t expected_copy_pattern(const uint8_t *pattern, size_t pattern_len, uint8_t *room, size_t room_len);

/* What the program ask has to print for an input; the length of the text. */
size_t expected_ask(const uint8_t *input, size_t input_len, char *text);

/* Which rule was broken on purpose, 0 for none. */
int evaluator_broken(void);

#endif
