/* Times the proved reader beside the model, both for x86-64, on plans that come in with their lengths: the least of many rounds. */
typedef unsigned char u8;
typedef unsigned int u32;
typedef unsigned long u64;

extern u64 moonhalyard_accept(const u8 *bytes, u64 length);
extern u64 model_accept(const u8 *bytes, u64 length);
extern long read(int file, void *to, u64 length);
extern int printf(const char *format, ...);
extern int clock_gettime(int clock, long *time);

enum { ROUNDS = 60, INNER = 20 };
static u8 bytes[1 << 16];

static double seconds(void)
{
    long t[2];
    clock_gettime(1, t);
    return (double)t[0] + (double)t[1] * 1e-9;
}

static double timed(u64 (*accept)(const u8 *, u64), u32 length)
{
    double began = seconds();
    for (int i = 0; i < INNER; i++)
        accept(bytes, length);
    return (seconds() - began) / INNER;
}

int main(void)
{
    u32 length;
    while (read(0, &length, 4) == 4) {
        if (length > sizeof bytes)
            return 1;
        for (u64 got = 0; got < length;) {
            long more = read(0, bytes + got, length - got);
            if (more <= 0)
                return 1;
            got += (u64)more;
        }
        if (moonhalyard_accept(bytes, length) != model_accept(bytes, length))
            return 1;
        double proved = 1e9, model = 1e9;
        for (int r = 0; r < ROUNDS; r++) {
            double p = timed(moonhalyard_accept, length), m = timed(model_accept, length);
            proved = p < proved ? p : proved;
            model = m < model ? m : model;
        }
        printf("%u bytes, %lu activities: proved %.1f us, model %.1f us, proved/model %.2f\n", length, moonhalyard_accept(bytes, length), proved * 1e6, model * 1e6,
               proved / model);
    }
    return 0;
}
