/* hand.h: the yardstick. The jobs of nishkavel.h written by hand in C, with the same arguments, the same results and the same refusals. */
#ifndef HAND_H
#define HAND_H

#include <stddef.h>
#include <stdint.h>

int64_t hand_answers(const uint8_t *document, size_t document_len, const uint8_t *pattern, size_t pattern_len, uint8_t *room, size_t room_len);

int64_t hand_list_answers(const uint16_t *parents, size_t parents_len, const uint16_t *labels, size_t labels_len, const uint8_t *pattern, size_t pattern_len,
                          uint16_t *list, size_t list_len, uint64_t *work, size_t work_len);

int64_t hand_contained(const uint8_t *a, size_t a_len, const uint8_t *b, size_t b_len, uint8_t *room, size_t room_len);

int64_t hand_rewrite(const uint8_t *query, size_t query_len, const uint8_t *view, size_t view_len, uint8_t *room, size_t room_len);

#endif
