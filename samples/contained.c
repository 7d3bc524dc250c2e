/* contained.c: is every frame with a pose a frame? Is every frame one with a pose? */
#include "flight_line.h"

/* Asks whether each answer of a is one of b, and prints what shows it. */
static int ask(const char *question, const uint8_t *a, size_t a_bytes, const uint8_t *b, size_t b_bytes)
{
    uint8_t room[NISHKAVEL_CONTAINED_BYTES];
    int64_t answer = nishkavel_contained(a, a_bytes, b, b_bytes, room, sizeof room);
    if (answer < 0) return refused("nishkavel_contained", answer);
    printf("%s %s\n", question, answer ? "Yes." : "No.");
    if (answer) {
        /* A pattern packet of s steps has 4 + 4s bytes, so b has this many steps, each with a step of a in its byte. */
        print_bytes("the steps of the second go to", room, (int64_t)(b_bytes - 4) / 4);
        return 0;
    }
    int witness_bytes = NISHKAVEL_PACKET_BYTES(room);
    print_bytes("a document that shows it", room, witness_bytes);
    printf("the first answers its node %d, the second does not\n", NISHKAVEL_NUMBER(room + witness_bytes));

    /* The witness is a document packet like any other. */
    uint8_t answers[NISHKAVEL_ANSWER_BYTES(NISHKAVEL_MAX_NODES)];
    int64_t count = nishkavel_answers(room, (size_t)witness_bytes, a, a_bytes, answers, sizeof answers);
    if (count < 0) return refused("nishkavel_answers", count);
    print_answers("the first there", answers, count);
    count = nishkavel_answers(room, (size_t)witness_bytes, b, b_bytes, answers, sizeof answers);
    if (count < 0) return refused("nishkavel_answers", count);
    print_answers("the second there", answers, count);
    return 0;
}

int main(void)
{
    if (ask("Is every frame with a pose a frame?", frames_with_pose, sizeof frames_with_pose, frames, sizeof frames)) return 1;
    return ask("Has every frame a pose?", frames, sizeof frames, frames_with_pose, sizeof frames_with_pose);
}
