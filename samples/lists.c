/* lists.c: a document decoded once and asked twice, with the working list of the second answer. */
#include "flight_line.h"

int main(void)
{
    uint16_t parents[NISHKAVEL_MAX_NODES], labels[NISHKAVEL_MAX_NODES], list[NISHKAVEL_MAX_NODES];
    static uint64_t work[NISHKAVEL_WORK_ENTRIES(NISHKAVEL_MAX_NODES)];

    int64_t nodes = nishkavel_read_document(line, sizeof line, parents, NISHKAVEL_MAX_NODES, labels, NISHKAVEL_MAX_NODES);
    if (nodes < 0) return refused("nishkavel_read_document", nodes);
    size_t n = (size_t)nodes;
    printf("nodes: %zu\n", n);

    /* The lists are as long as the document, whatever the arrays hold past it. */
    int64_t count = nishkavel_list_answers(parents, n, labels, n, frames, sizeof frames, list, NISHKAVEL_MAX_NODES, work, NISHKAVEL_WORK_ENTRIES(n));
    if (count < 0) return refused("nishkavel_list_answers", count);
    printf("frames of strips: %d\n", (int)count);

    count =
        nishkavel_list_answers(parents, n, labels, n, frames_with_pose, sizeof frames_with_pose, list, NISHKAVEL_MAX_NODES, work, NISHKAVEL_WORK_ENTRIES(n));
    if (count < 0) return refused("nishkavel_list_answers", count);
    for (int64_t k = 0; k < count; k++) printf("frame with a pose: node %d, label %d, in strip %d\n", list[k], labels[list[k]], parents[list[k]]);

    /* Step 0 is strip, step 1 frame, step 2 pose: bit s stands for step s. */
    printf("node  fits  placed\n");
    for (size_t i = 0; i < n; i++) printf("%4zu  %4X  %6X\n", i, (unsigned)work[2 * i], (unsigned)work[2 * i + 1]);

    /* The same with frame[pose] started at nodes 3 and 6. */
    static const uint8_t frame_with_pose[] = {1, 0, 9, 0, 255, 0, 0, 3, 0, 0, 0, 4};
    static const uint16_t starts[] = {3, 6};
    count = nishkavel_list_started(parents, n, labels, n, frame_with_pose, sizeof frame_with_pose, starts, 2, list, NISHKAVEL_MAX_NODES, work,
                                   NISHKAVEL_WORK_ENTRIES(n));
    if (count < 0) return refused("nishkavel_list_started", count);
    for (int64_t k = 0; k < count; k++) printf("started: node %d\n", list[k]);
    return 0;
}
