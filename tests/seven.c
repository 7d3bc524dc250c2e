/* seven.c: the worked example, flight line seven, every case 1 to 12 by its number, and what a candidate's axis is. The numbers stand here as they stand in
 * docs/RULES.md. */
#include "calls.h"

#include <stdio.h>
#include <string.h>

/* What a call answered and wrote, against what the worked example says. */
static void says(int which, int64_t got, int64_t right, const void *written, const void *bytes, size_t len)
{
    char words[40];
    sprintf(words, "flight line seven, case %d", which);
    holds(got == right && (len == 0 || memcmp(written, bytes, len) == 0), words, NULL, NULL, NULL);
}

/* Cases 1 to 11. */
static void cases_1_to_11(void)
{
    PACKET(line, 1, 0, 28, 255, 255, 0, 1, 0, 0, 0, 2, 0, 1, 0, 5, 0, 1, 0, 3, 0, 3, 0, 4, 0, 0, 0, 2, 0, 5, 0, 3);
    PACKET(view, 0x01, 0x00, 0x09, 0x01, 0xFF, 0x01, 0x00, 0x02, 0x00, 0x01, 0x00, 0x03);
    PACKET(posed, 1, 0, 13, 1, 255, 1, 0, 2, 0, 1, 0, 3, 1, 0, 0, 4);
    PACKET(controlled, 1, 0, 13, 2, 255, 1, 0, 2, 0, 0, 0, 5, 0, 1, 0, 3);
    PACKET(strip, 1, 0, 5, 0, 255, 0, 0, 2);
    PACKET(strips, 1, 0, 9, 1, 255, 1, 0, 2, 0, 1, 0, 2);
    PACKET(line_poses, 1, 0, 21, 4, 255, 0, 0, 1, 0, 1, 0, 4, 0, 0, 0, 2, 2, 0, 0, 3, 3, 0, 0, 4);
    PACKET(line_strips, 1, 0, 9, 1, 255, 0, 0, 1, 0, 0, 0, 2);
    PACKET(two_frames, 1, 0, 13, 0, 255, 0, 0, 2, 0, 0, 0, 3, 0, 0, 0, 3);
    PACKET(one_frame, 1, 0, 9, 0, 255, 0, 0, 2, 0, 0, 0, 3);
    PACKET(both, 0, 3, 0, 6);
    static const struct document table = {7, {65535, 0, 1, 1, 3, 0, 5}, {1, 2, 5, 3, 4, 2, 3}};
    static const uint64_t working[14] = {0, 0, 1, 1, 0, 0, 2, 2, 0, 0, 1, 1, 2, 2};
    static const uint16_t nodes[2] = {3, 6};
    static const uint8_t mapping[64] = {0, 2};
    static const uint8_t witness[] = {1, 0, 16, 255, 255, 0, 1, 0, 0, 0, 2, 0, 1, 0, 1, 0, 2, 0, 3, 0, 3};
    static const uint8_t frame_pose[] = {1, 0, 9, 0, 255, 0, 0, 3, 0, 0, 0, 4};
    static const uint8_t strip_frame_pose[] = {1, 0, 13, 2, 255, 0, 0, 2, 0, 0, 0, 3, 1, 0, 0, 4};
    static const uint8_t only_strip[] = {1, 0, 5, 0, 255, 0, 0, 2};
    static struct packet found;

    says(1, check_answers(&line, &view, 14), 2, image(ANSWERS_ROOM), both.bytes, 4);
    says(1, check_copy_pattern(&view, 12), 12, image(1), view.bytes, 12);
    says(1, check_read_document(&line, 7, 7), 7, image(1), table.parent, 14);
    says(2, check_list_answers(table.parent, 7, table.label, 7, &view, 7, 14), 2, image(4), working, sizeof working);
    says(2, check_list_answers(table.parent, 7, table.label, 7, &view, 7, 14), 2, image(3), nodes, sizeof nodes);
    says(3, check_answers(&line, &posed, 14), 1, image(ANSWERS_ROOM), both.bytes, 2);
    says(4, check_answers(&line, &controlled, 14), 1, image(ANSWERS_ROOM), both.bytes, 2);
    says(5, check_answers(&line, &strip, 14), 0, NULL, NULL, 0);
    says(5, check_answers(&line, &strips, 14), 0, NULL, NULL, 0);
    says(6, check_contained(&controlled, &view, 517), 1, image(CONTAINED_ROOM), mapping, sizeof mapping);
    says(7, check_contained(&view, &controlled, 517), 0, image(CONTAINED_ROOM), witness, sizeof witness);
    says(8, check_rewrite(&posed, &view, 12), sizeof frame_pose, image(PATTERN_RESULT), frame_pose, sizeof frame_pose);
    pack_bytes(&found, frame_pose, sizeof frame_pose);
    says(8, check_started(&line, &found, &both, 14), 1, image(STARTED_ROOM), both.bytes, 2);
    says(8, check_list_started(table.parent, 7, table.label, 7, &found, nodes, 2, 7, 14), 1, image(4), nodes, 2);
    says(9, check_rewrite(&controlled, &view, 260), 0, NULL, NULL, 0);
    says(10, check_rewrite(&line_poses, &line_strips, 16), sizeof strip_frame_pose, image(PATTERN_RESULT), strip_frame_pose, sizeof strip_frame_pose);
    says(11, check_contained(&two_frames, &one_frame, 517), 1, NULL, NULL, 0);
    says(11, check_contained(&one_frame, &two_frames, 517), 1, NULL, NULL, 0);
    /* The cut is at the second strip, not at the first. */
    says(0, check_rewrite(&strips, &strips, 8), sizeof only_strip, image(PATTERN_RESULT), only_strip, sizeof only_strip);
}

/* The packet of a pattern of n child steps of label 1, each on the one before it, with the last as its output. */
static void pack_path(struct packet *to, size_t n)
{
    static struct pattern path;
    path.n = n;
    path.output = n - 1;
    for (size_t s = 0; s < n; s++) {
        path.parent[s] = (uint8_t)(s - 1);
        path.axis[s] = 0;
        path.label[s] = 1;
    }
    pack_pattern(&path, to);
}

/* A document of n nodes of label 1, each on the one before it, as a table and as a packet. */
static void make_chain(struct document *d, struct packet *to, size_t n)
{
    d->n = n;
    for (size_t i = 0; i < n; i++) {
        d->parent[i] = (uint16_t)(i - 1);
        d->label[i] = 1;
    }
    pack_document(d, to);
}

/* Case 12: the sizes at which the calls begin to refuse. */
static void case_12(void)
{
    static struct packet path_32, path_33, path_34, packet;
    static struct document chain;
    PACKET(every, 1, 0, 5, 0, 255, 1, 0, 1);
    pack_path(&path_32, 32);
    pack_path(&path_33, 33);
    pack_path(&path_34, 34);
    says(12, check_join(&path_33, &path_32, 260), 260, NULL, NULL, 0);
    says(12, check_join(&path_34, &path_32, 260), -8, NULL, NULL, 0);
    says(12, check_rewrite(&path_32, &path_32, 260), 8, NULL, NULL, 0);
    says(12, check_rewrite(&path_33, &path_32, 260), -8, NULL, NULL, 0);
    make_chain(&chain, &packet, 2048);
    says(12, check_list_answers(chain.parent, 2048, chain.label, 2048, &every, 2048, 4096), 2048, NULL, NULL, 0);
    says(12, check_answers(&packet, &every, 4096), 2048, NULL, NULL, 0);
    make_chain(&chain, &packet, 2049);
    says(12, check_list_answers(chain.parent, 2049, chain.label, 2049, &every, 2049, 4098), -4, NULL, NULL, 0);
    says(12, check_answers(&packet, &every, 4098), -2, NULL, NULL, 0);
}

/* Every case. */
void flight_line_seven(void)
{
    cases_1_to_11();
    case_12();
}

/* The candidate gets axis child whatever the query has there, and keeps nothing of what that axis meant: `/a//b` is not served by `/a/b`. */
void candidate_axis(void)
{
    PACKET(wide, 1, 0, 9, 1, 255, 0, 0, 1, 0, 1, 0, 2);
    PACKET(narrow, 1, 0, 9, 1, 255, 0, 0, 1, 0, 0, 0, 2);
    PACKET(wide_more, 1, 0, 13, 2, 255, 0, 0, 1, 0, 1, 0, 2, 1, 1, 0, 2);
    static const uint8_t b[] = {1, 0, 5, 0, 255, 0, 0, 2};
    static const uint8_t b_below_b[] = {1, 0, 9, 1, 255, 0, 0, 2, 0, 1, 0, 2};
    holds(check_rewrite(&wide, &narrow, 260) == 0, "/a//b by /a/b: none", NULL, NULL, NULL);
    holds(check_rewrite(&narrow, &wide, 260) == 0, "/a/b by /a//b: none", NULL, NULL, NULL);
    holds(check_rewrite(&wide, &wide, 8) == 8 && memcmp(image(PATTERN_RESULT), b, 8) == 0, "/a//b by itself: b", NULL, NULL, NULL);
    holds(check_rewrite(&wide_more, &wide, 12) == 12 && memcmp(image(PATTERN_RESULT), b_below_b, 12) == 0, "/a//b//b by /a//b: b//b", NULL, NULL, NULL);
    holds(check_rewrite(&wide_more, &narrow, 260) == 0, "/a//b//b by /a/b: none", NULL, NULL, NULL);
    holds(check_rewrite(&wide, &wide_more, 260) == 0, "a query with a shorter main path: none", NULL, NULL, NULL);
}
