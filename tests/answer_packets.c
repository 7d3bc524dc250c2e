/* answer_packets.c: reads document and pattern packets by turns from standard input and writes for each pair what nishkavel_answers gives: the count in two
 * bytes and the answers. tests/xpath.c compares that with libxml2; the two are programs of their own since the archive is for x86-64 and libxml2 for the
 * machine at hand.
 */
#include "../include/nishkavel.h"

#include <stdio.h>

/* The next packet: its head, and as many bytes as that says. 0 at the end of the input. */
static size_t next_packet(uint8_t *bytes, size_t room)
{
    if (fread(bytes, 1, 3, stdin) != 3) return 0;
    size_t length = bytes[1] * 256u + bytes[2];
    if (length + 3 > room || fread(bytes + 3, 1, length, stdin) != length) return 0;
    return length + 3;
}

int main(void)
{
    static uint8_t document[NISHKAVEL_MAX_DOCUMENT_BYTES], pattern[NISHKAVEL_MAX_PATTERN_BYTES], room[2 * NISHKAVEL_MAX_NODES];
    size_t document_len, pattern_len;
    while ((document_len = next_packet(document, sizeof document)) > 0 && (pattern_len = next_packet(pattern, sizeof pattern)) > 0) {
        int64_t count = nishkavel_answers(document, document_len, pattern, pattern_len, room, sizeof room);
        if (count < 0) return fprintf(stderr, "answer_packets: refused by %d\n", (int)-count), 1;
        putchar((int)(count / 256));
        putchar((int)(count % 256));
        fwrite(room, 2, (size_t)count, stdout);
    }
    return fflush(stdout) != 0;
}
