/* Answers for the proved writer, over pipes. In: 0 for write or 1 for rows, a count and that many numbers or bytes, the room of the buffer and what
   fills it first. Out: the answer in eight bytes, and the buffer. All numbers that come in have four bytes. It ends where its input does. */
#include "pipes.h"

enum { NUMBERS = 1 << 18 };
static u32 numbers[NUMBERS];
static u8 bytes[NUMBERS];

int main(void)
{
    u32 head[2], room[2];
    u64 answer;
    while (take(head, 8)) {
        if (head[0] > 1 || head[1] > NUMBERS)
            return 1;
        if (!(head[0] ? take(bytes, head[1]) : take(numbers, 4 * (u64)head[1])) || !take(room, 8) || room[0] > NUMBERS)
            return 1;
        for (u32 i = 0; i < room[0]; i++)
            if (head[0])
                numbers[i] = room[1];
            else
                bytes[i] = (u8)room[1];
        answer = head[0] ? moonhalyard_rows(bytes, head[1], numbers, room[0]) : moonhalyard_write(numbers, head[1], bytes, room[0]);
        if (!give(&answer, 8) || !(head[0] ? give(numbers, 4 * (u64)room[0]) : give(bytes, room[0])))
            return 1;
    }
    return 0;
}
