/* Answers for the proved mending of padded plans, over pipes. In: a count and that many bytes, the room of the buffer and what fills it first. Out:
   the answer in eight bytes, and the buffer. All numbers that come in have four bytes. It ends where its input does. */
#include "pipes.h"

enum { BYTES = 1 << 20 };
static u8 bytes[BYTES];
static u8 out[BYTES];

int main(void)
{
    u32 count, room[2];
    u64 answer;
    while (take(&count, 4)) {
        if (count > BYTES || !take(bytes, count) || !take(room, 8) || room[0] > BYTES)
            return 1;
        for (u32 i = 0; i < room[0]; i++)
            out[i] = (u8)room[1];
        answer = moonhalyard_mend(bytes, count, out, room[0]);
        if (!give(&answer, 8) || !give(out, room[0]))
            return 1;
    }
    return 0;
}
