/* Answers for the proved reader of texts, over pipes. In: a length and that many characters, the room of the buffer and what fills it first, in four bytes
   each. Out: the answer in eight bytes, and the buffer. It ends where its input does. Each plan that it reads is drawn as text and that is read back: it ends
   with 2 where this is another plan, or where a byte of the buffers changes that should not. */
#include "pipes.h"

enum { BYTES = 1 << 20, ROOM = 1 << 13 };
static u8 text[BYTES], plan[ROOM], drawn[BYTES], back[4096];

/* Whether a plan that is drawn is read back as itself. */
static int comes_back(u64 length)
{
    u64 wanted = moonhalyard_draw(plan, length, drawn, 0) - ((u64)18 << 32);
    if (wanted == 0 || wanted >= BYTES - 1)
        return 0;
    drawn[0] = drawn[wanted] = 1;
    if (moonhalyard_draw(plan, length, drawn, wanted - 1) != ((u64)18 << 32) + wanted || drawn[0] != 1)
        return 0;
    if (moonhalyard_draw(plan, length, drawn, wanted) != wanted || drawn[wanted] != 1 || moonhalyard_draw(plan, length, drawn, BYTES) != wanted || drawn[wanted] != 1)
        return 0;
    if (moonhalyard_text(drawn, wanted, back, sizeof back) != length)
        return 0;
    for (u64 i = 0; i < length; i++)
        if (back[i] != plan[i])
            return 0;
    return 1;
}

int main(void)
{
    u32 length, room[2];
    u64 answer;
    while (take(&length, 4)) {
        if (length > BYTES || !take(text, length) || !take(room, 8) || room[0] > ROOM)
            return 1;
        __builtin_memset(plan, (u8)room[1], room[0]);
        answer = moonhalyard_text(text, length, plan, room[0]);
        if (answer >> 32 == 0 && !comes_back(answer))
            return 2;
        if (!give(&answer, 8) || !give(plan, room[0]))
            return 1;
    }
    return 0;
}
