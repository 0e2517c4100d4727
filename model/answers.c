/* Answers for the proved library, over pipes: a length, that many bytes, a count and that many activity numbers come in, all numbers in four bytes;
   what accepting gives and what showing each activity gives go out, in eight bytes each. It ends where its input does. */
#include "pipes.h"

enum { BYTES = 1 << 20, ACTIVITIES = 1024 };
static u8 bytes[BYTES];
static u32 wanted[ACTIVITIES];
static u64 answers[1 + ACTIVITIES];

int main(void)
{
    u32 length, count;
    while (take(&length, 4)) {
        if (length > BYTES || !take(bytes, length) || !take(&count, 4) || count > ACTIVITIES || !take(wanted, 4 * (u64)count))
            return 1;
        answers[0] = moonhalyard_accept(bytes, length);
        for (u32 i = 0; i < count; i++)
            answers[1 + i] = moonhalyard_show(bytes, length, wanted[i]);
        if (!give(answers, 8 * (1 + (u64)count)))
            return 1;
    }
    return 0;
}
