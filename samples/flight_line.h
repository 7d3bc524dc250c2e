/* flight_line.h: what the samples share: flight line seven, some patterns, and printing. */
#ifndef FLIGHT_LINE_H
#define FLIGHT_LINE_H

#include "nishkavel.h"

#include <stdio.h>

/* Labels: 1 line, 2 strip, 3 frame, 4 pose, 5 control. */

/* Flight line seven: a line with two strips. The first has a control mark and a frame with a pose, the second a frame. */
static const uint8_t line[] = {1,   0,   28,     /* version 1, 28 bytes follow, 4 for each node */
                               255, 255, 0,  1,  /* node 0: the line */
                               0,   0,   0,  2,  /* node 1: a strip of the line */
                               0,   1,   0,  5,  /* node 2: a control mark of strip 1 */
                               0,   1,   0,  3,  /* node 3: a frame of strip 1 */
                               0,   3,   0,  4,  /* node 4: the pose of frame 3 */
                               0,   0,   0,  2,  /* node 5: another strip of the line */
                               0,   5,   0,  3}; /* node 6: a frame of strip 5 */

/* //strip//frame */
static const uint8_t frames[] = {1,   0, 9, 1,  /* version 1, 9 bytes follow, step 1 is the output step */
                                 255, 1, 0, 2,  /* step 0: descendant, strip */
                                 0,   1, 0, 3}; /* step 1: below step 0, descendant, frame */

/* //strip//frame[pose] */
static const uint8_t frames_with_pose[] = {1, 0, 13, 1, 255, 1, 0, 2, 0, 1, 0, 3, /* as above */
                                           1, 0, 0,  4};                          /* step 2: below step 1, child, pose */

/* Prints a word and the answers in a room, two bytes each. */
static inline void print_answers(const char *word, const uint8_t *room, int64_t count)
{
    printf("%s:", word);
    for (int64_t k = 0; k < count; k++) printf(" %d", NISHKAVEL_NUMBER(room + 2 * k));
    printf("\n");
}

/* Prints a word and some bytes in hexadecimal. */
static inline void print_bytes(const char *word, const uint8_t *bytes, int64_t count)
{
    printf("%s:", word);
    for (int64_t k = 0; k < count; k++) printf(" %02X", bytes[k]);
    printf("\n");
}

/* Says why a call refused, and gives the status to end with. */
static inline int refused(const char *call, int64_t result)
{
    fprintf(stderr, "%s: %s\n", call, nishkavel_refusal_text(result));
    return 1;
}

#endif
