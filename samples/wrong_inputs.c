/* wrong_inputs.c: what comes back for inputs that are wrong, and that nothing lent has changed then. */
#include "flight_line.h"

#include <string.h>

static uint8_t room[NISHKAVEL_ANSWER_BYTES(NISHKAVEL_MAX_NODES)];

/* Prints a result, and whether the room is as it was. */
static void tell(const char *what, int64_t result)
{
    int kept = 1;
    for (size_t k = 0; k < sizeof room; k++) kept &= room[k] == 0xAA;
    printf("%s: %d, and the room %s\n  %s\n", what, (int)result, kept ? "is as it was" : "was written to", nishkavel_refusal_text(result));
    memset(room, 0xAA, sizeof room);
}

int main(void)
{
    uint8_t wrong[sizeof line];
    memset(room, 0xAA, sizeof room);

    memcpy(wrong, line, sizeof line);
    wrong[0] = 2;
    tell("another version", nishkavel_answers(wrong, sizeof wrong, frames, sizeof frames, room, sizeof room));

    tell("a byte short", nishkavel_answers(line, sizeof line - 1, frames, sizeof frames, room, sizeof room));

    memcpy(wrong, line, sizeof line);
    wrong[3 + 4 * 6 + 1] = 2; /* node 6 would hang on node 2, which is not above node 5 */
    tell("a node out of order", nishkavel_answers(wrong, sizeof wrong, frames, sizeof frames, room, sizeof room));

    static const uint8_t no_label[] = {1, 0, 5, 0, 255, 1, 0, 0};
    tell("a step with label 0", nishkavel_answers(line, sizeof line, no_label, sizeof no_label, room, sizeof room));

    tell("no room", nishkavel_answers(line, sizeof line, frames, sizeof frames, NULL, 0));

    static const uint8_t starts[] = {0, 6, 0, 3};
    static const uint8_t frame_with_pose[] = {1, 0, 9, 0, 255, 0, 0, 3, 0, 0, 0, 4};
    tell("starts that do not ascend", nishkavel_started(line, sizeof line, frame_with_pose, sizeof frame_with_pose, starts, sizeof starts, room, sizeof room));

    static const uint8_t strip_with_pose[] = {1, 0, 9, 0, 255, 0, 0, 2, 0, 0, 0, 4};
    tell("a compensation for strips", nishkavel_join(frames, sizeof frames, strip_with_pose, sizeof strip_with_pose, room, sizeof room));

    tell("nothing wrong", nishkavel_answers(line, sizeof line, frames, sizeof frames, room, sizeof room));
    return 0;
}
