/* Answers for the proved engine, over pipes: calls come in by batches, each call with the length of the state that it is told of; the answer and a
   digest of all that the call could write go out for each, in eight bytes each. calls.rs is the other side. It ends where its input does. */
#include "pipes.h"

enum { BATCH = 1 << 20, STATE = 12768, MESSAGE = 48, CHOICES = 4096 };
enum { PUT, LOAD, POST, COLLECT, OFFER, OFFERS, STEP, RUN, GET, SHOW };
static u8 batch[BATCH], *at;
static struct { u8 state[STATE], message[MESSAGE]; u64 budget; } desk;
static u64 choices[CHOICES];
static u8 answers[BATCH];

static u64 number(int bytes)
{
    u64 n = 0;
    for (int i = 0; i < bytes; i++)
        n |= (u64)at[i] << (8 * i);
    at += bytes;
    return n;
}

static u64 digest(void)
{
    u64 d = 0x9E3779B97F4A7C15, word;
    for (u64 i = 0; i < sizeof desk; i += 8) {
        __builtin_memcpy(&word, (u8 *)&desk + i, 8);
        d = (d ^ word) * 0xD6E8FEB86659FD93;
        d ^= d >> 32;
    }
    return d;
}

static u64 called(void)
{
    int call = (int)number(1);
    u64 size = number(4), n;
    u32 m[8];
    u8 *from;
    if (call == PUT || call == LOAD) {
        __builtin_memset(desk.message, 0, MESSAGE);
        desk.budget = 0;
    }
    switch (call) {
    case PUT:
        __builtin_memcpy(desk.state, at, size);
        at += size;
        return 0;
    case LOAD:
        n = number(4);
        from = at;
        at += n;
        return moonhalyard_load(from, n, desk.state, size);
    case POST:
        for (int i = 0; i < 8; i++)
            m[i] = (u32)number(4);
        return moonhalyard_post(desk.state, size, m[0], m[1], m[2], m[3], m[4], m[5], m[6], m[7]);
    case COLLECT:
        return moonhalyard_collect(desk.state, size, desk.message, number(4));
    case OFFER:
        return moonhalyard_offer(desk.state, size, number(8));
    case OFFERS:
        return moonhalyard_offers(desk.state, size);
    case STEP:
        return moonhalyard_step(desk.state, size, number(8));
    case SHOW:
        n = number(4);
        from = at;
        at += n;
        return moonhalyard_show(from, n, number(4));
    default:
        desk.budget = number(8);
        n = number(4);
        for (u64 i = 0; i < n; i++)
            choices[i] = number(8);
        return moonhalyard_run(desk.state, size, choices, n, &desk.budget);
    }
}

int main(void)
{
    u32 length;
    while (take(&length, 4)) {
        if (length > BATCH || !take(batch, length))
            return 1;
        u64 told = 0;
        for (at = batch; at < batch + length;) {
            if (*at == GET) {
                at += 5;
                __builtin_memcpy(answers + told, &desk, sizeof desk);
                told += sizeof desk;
                continue;
            }
            u64 both[2];
            both[0] = called();
            both[1] = digest();
            __builtin_memcpy(answers + told, both, 16);
            told += 16;
        }
        if (!give(answers, told))
            return 1;
    }
    return 0;
}
