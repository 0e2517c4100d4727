/* Numbers of fixed width, and whole messages over standard input and output, for the programs that answer for the proved library. */
#include <moonhalyard.h>
#include <unistd.h>

typedef uint8_t u8;
typedef uint32_t u32;
typedef uint64_t u64;

/* All of so many bytes; 0 where the input ends before. */
static int take(void *to, u64 length)
{
    u8 *place = to;
    while (length > 0) {
        long got = read(0, place, length);
        if (got <= 0)
            return 0;
        place += got;
        length -= (u64)got;
    }
    return 1;
}

static int give(const void *from, u64 length)
{
    const u8 *place = from;
    while (length > 0) {
        long put = write(1, place, length);
        if (put <= 0)
            return 0;
        place += put;
        length -= (u64)put;
    }
    return 1;
}
