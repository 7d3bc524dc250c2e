/* rewriting.c: a query answered from the stored answers of a view.
 *
 * The catalogue has stored the answers of //strip//frame. Someone asks for //strip//frame[pose]. Rewriting says what is left to ask of each stored frame,
 * frame[pose], and the started form asks it there, without going through the strips again. Joined to the view it is the query.
 */
#include "flight_line.h"

int main(void)
{
    uint8_t stored[NISHKAVEL_ANSWER_BYTES(NISHKAVEL_MAX_NODES)], found[NISHKAVEL_ANSWER_BYTES(NISHKAVEL_MAX_NODES)];
    uint8_t left[NISHKAVEL_MAX_REWRITE_BYTES], joined[NISHKAVEL_MAX_PATTERN_BYTES];

    /* The view's answers, which the catalogue keeps. */
    int64_t count = nishkavel_answers(line, sizeof line, frames, sizeof frames, stored, sizeof stored);
    if (count < 0) return refused("nishkavel_answers", count);
    print_answers("stored frames", stored, count);

    /* What is left to ask. The room is long enough for every compensation, so 0 would mean that the view is of no use for this query. */
    int64_t length = nishkavel_rewrite(frames_with_pose, sizeof frames_with_pose, frames, sizeof frames, left, sizeof left);
    if (length < 0) return refused("nishkavel_rewrite", length);
    if (length == 0) {
        printf("the stored frames cannot answer it\n");
        return 1;
    }
    print_bytes("left to ask of each", left, length);

    /* Asked of the stored frames. */
    count = nishkavel_started(line, sizeof line, left, (size_t)length, stored, (size_t)NISHKAVEL_ANSWER_BYTES(count), found, sizeof found);
    if (count < 0) return refused("nishkavel_started", count);
    print_answers("frames with a pose", found, count);

    /* Joined to the view. */
    length = nishkavel_join(frames, sizeof frames, left, (size_t)length, joined, sizeof joined);
    if (length < 0) return refused("nishkavel_join", length);
    print_bytes("view and compensation joined", joined, length);
    return 0;
}
