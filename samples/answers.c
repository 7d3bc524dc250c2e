/* answers.c: which frames of strips does flight line seven have? */
#include "flight_line.h"

int main(void)
{
    uint8_t room[NISHKAVEL_ANSWER_BYTES(NISHKAVEL_MAX_NODES)];

    int64_t count = nishkavel_answers(line, sizeof line, frames, sizeof frames, room, sizeof room);
    if (count < 0) return refused("nishkavel_answers", count);
    print_answers("frames of strips", room, count);

    count = nishkavel_answers(line, sizeof line, frames_with_pose, sizeof frames_with_pose, room, sizeof room);
    if (count < 0) return refused("nishkavel_answers", count);
    print_answers("those with a pose", room, count);
    return 0;
}
